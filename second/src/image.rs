//! Grammar images: a head record, then up to 128 production records. Reading
//! finds the grammar or the first bad record; writing is its inverse.

use crate::grammar::{
    Grammar, Production, MAX_BODY, MAX_NONTERMINALS, MAX_PRODUCTIONS, MAX_TERMINALS,
};

/// The mark of the head record.
pub const HEAD_MARK: [u8; 2] = [0x47, 0x48];
/// The mark of a production record.
pub const PRODUCTION_MARK: [u8; 2] = [0x47, 0x50];

/// A head is its mark, t, n and the start symbol.
pub const HEAD_BYTES: usize = 5;
/// A production record before its body: mark, left side, body length.
pub const BEFORE_BODY_BYTES: usize = 4;

/// The grammar of an image, or the byte offset of its first bad record. An
/// empty image, too, is bad at 0.
pub fn read(image: &[u8]) -> Result<Grammar, usize> {
    let mut grammar = read_head(image).ok_or(0usize)?;
    let mut offset = HEAD_BYTES;
    while offset < image.len() {
        let production = read_production(&image[offset..], &grammar)
            .filter(|_| grammar.productions.len() < MAX_PRODUCTIONS)
            .ok_or(offset)?;
        offset += BEFORE_BODY_BYTES + production.1.len();
        grammar.productions.push(production);
    }
    Ok(grammar)
}

/// The grammar without productions that the head describes, if it is good.
fn read_head(image: &[u8]) -> Option<Grammar> {
    let &[mark_0, mark_1, t, n, start] = image.first_chunk::<HEAD_BYTES>()?;
    let grammar = Grammar {
        t,
        n,
        start,
        productions: Vec::new(),
    };
    let good = [mark_0, mark_1] == HEAD_MARK
        && (1..=MAX_TERMINALS).contains(&t)
        && (1..=MAX_NONTERMINALS).contains(&n)
        && grammar.nonterminals().contains(&start);
    good.then_some(grammar)
}

/// The production with which the rest of the image begins, if it is good.
fn read_production(rest: &[u8], grammar: &Grammar) -> Option<Production> {
    let (&[mark_0, mark_1, left, length], after) = rest.split_first_chunk::<BEFORE_BODY_BYTES>()?;
    let body = after.get(..usize::from(length))?;
    let good = [mark_0, mark_1] == PRODUCTION_MARK
        && grammar.nonterminals().contains(&left)
        && body.len() <= MAX_BODY
        && body.iter().all(|symbol| grammar.symbols().contains(symbol));
    good.then(|| (left, body.to_vec()))
}

/// The records of a grammar's image: the head, then the productions.
pub fn records(grammar: &Grammar) -> Vec<Vec<u8>> {
    let head = [&HEAD_MARK[..], &[grammar.t, grammar.n, grammar.start]].concat();
    let productions = grammar.productions.iter().map(production_record);
    std::iter::once(head).chain(productions).collect()
}

/// The record of one production.
pub fn production_record((left, body): &Production) -> Vec<u8> {
    [&PRODUCTION_MARK[..], &[*left, body.len() as u8], body].concat()
}

#[cfg(test)]
mod tests;
