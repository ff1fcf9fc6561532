//! The call parse: it writes the tree of a sentence, or gives the first of
//! replies 1 to 7, 9 and 10 that applies.

use crate::descent;
use crate::grammar::Grammar;
use crate::prepare;
use crate::reply::Reply;
use crate::sets::Sets;
use crate::tables::{self, TABLE_BYTES};
use crate::tokens::{self, Token};
use crate::tree;

/// The work area is at least this many times as long as the tree area.
pub const WORK_AREAS: usize = 3;

/// Writes the tree of a sentence into an area, its nodes in slots 1, 2, .. in
/// preorder. A refusal leaves the area as it was; the work area becomes zero.
pub fn parse(
    image: &[u8],
    tables: &[u8],
    token_bytes: &[u8],
    area: &mut [u8],
    work: &mut [u8],
) -> Reply {
    work.fill(0);
    let total = check_and_write(image, tables, token_bytes, area, work.len());
    total.map_or_else(|refusal| refusal, Reply::parsed)
}

/// The number of nodes written, or the refusal.
fn check_and_write(
    image: &[u8],
    tables: &[u8],
    token_bytes: &[u8],
    area: &mut [u8],
    work_length: usize,
) -> Result<usize, Reply> {
    let (grammar, sets) = prepare::ll1_grammar(image)?;
    if !are_prepared(&grammar, &sets, tables) {
        return Err(Reply::WRONG_TABLES);
    }
    if tree::slots(area.len()).is_none() {
        return Err(Reply::WRONG_AREA);
    }
    check_work(area.len(), work_length)?;
    let tokens = tokens::read(token_bytes, grammar.t).map_err(Reply::bad_token)?;
    write_tree(&grammar, tables, &tokens, area)
}

/// Reply 6 if the work area is too short.
pub fn check_work(area_length: usize, work_length: usize) -> Result<(), Reply> {
    let needed = WORK_AREAS * area_length;
    if work_length < needed {
        Err(Reply::short_work(needed))
    } else {
        Ok(())
    }
}

/// Whether the tables are what prepare writes for the grammar.
pub fn are_prepared(grammar: &Grammar, sets: &Sets, lent: &[u8]) -> bool {
    let mut right = [0; TABLE_BYTES];
    lent.len() == TABLE_BYTES && {
        tables::write(grammar, sets, &mut right);
        lent == right
    }
}

/// Parses alone, when all that is lent has been checked: the number of nodes
/// written, or reply 9 or 10.
pub fn write_tree(
    grammar: &Grammar,
    tables: &[u8],
    tokens: &[Token],
    area: &mut [u8],
) -> Result<usize, Reply> {
    let slots = tree::slots(area.len()).expect("the length of the area is right");
    let derivation = descent::parse(grammar, tables, tokens, slots)?;
    tree::write(&derivation, &derivation.in_slots(1..), area);
    Ok(derivation.nodes.len())
}

#[cfg(test)]
mod tests;
