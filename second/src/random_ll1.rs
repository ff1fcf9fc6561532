//! Random grammars that prepare accepts: from one production for each
//! nonterminal, which alone cannot conflict, a grammar grows by productions
//! that leave it LL(1).

use crate::grammar::{
    Grammar, Production, MAX_BODY, MAX_NONTERMINALS, MAX_PRODUCTIONS, MAX_TERMINALS,
};
use crate::random::Random;
use crate::random_grammar;
use crate::sets::Sets;
use crate::tables;

/// How many productions are tried for each nonterminal, at most.
const TRIES: usize = 12;

/// An LL(1) grammar without useless symbols, its productions in any order.
pub fn grammar(random: &mut Random) -> Grammar {
    let (t, n) = random.one_of(&[few, few, any_number, most])(random);
    let mut order: Vec<u8> = (t + 1..=t + n).collect();
    random.shuffle(&mut order);
    let mut grammar = Grammar {
        t,
        n,
        start: order[0],
        productions: skeleton(random, t, &order),
    };
    grow(random, &mut grammar);
    random.shuffle(&mut grammar.productions);
    grammar
}

/// A few terminals and nonterminals.
fn few(random: &mut Random) -> (u8, u8) {
    (random.between(1, 5), random.between(1, 5))
}

/// Any number of terminals and nonterminals.
fn any_number(random: &mut Random) -> (u8, u8) {
    let t = random.between(1, MAX_TERMINALS);
    (t, random.between(1, MAX_NONTERMINALS))
}

/// As many terminals and nonterminals as there can be.
fn most(_: &mut Random) -> (u8, u8) {
    (MAX_TERMINALS, MAX_NONTERMINALS)
}

/// One production for each nonterminal. Each but the first stands in the body
/// of one before it, so that none is useless; in every third skeleton that is
/// always the one right before it, which makes long stems.
fn skeleton(random: &mut Random, t: u8, order: &[u8]) -> Vec<Production> {
    let is_chain = random.once_in(3);
    let mut productions: Vec<Production> = Vec::new();
    for &symbol in order {
        if let Some(last) = productions.len().checked_sub(1) {
            let holder = if is_chain {
                last
            } else {
                random.below(last + 1)
            };
            let is_full = productions[holder].1.len() == MAX_BODY;
            let holder = if is_full { last } else { holder };
            productions[holder].1.push(symbol);
        }
        productions.push((symbol, Vec::new()));
    }
    for (_, body) in &mut productions {
        add_terminals(random, t, body);
    }
    productions
}

/// Puts up to two terminals into a body, as far as there is room. Bodies
/// without nonterminals seldom stay empty, others mostly stay as they are.
fn add_terminals(random: &mut Random, t: u8, body: &mut Vec<u8>) {
    let wanted = if body.is_empty() {
        random.one_of(&[0, 1, 1, 2])
    } else {
        random.one_of(&[0, 0, 0, 1, 2])
    };
    for _ in 0..wanted.min(MAX_BODY - body.len()) {
        body.insert(random.below(body.len() + 1), random.between(1, t));
    }
}

/// Adds productions that leave the grammar LL(1).
fn grow(random: &mut Random, grammar: &mut Grammar) {
    for _ in 0..random.below(TRIES * usize::from(grammar.n)) {
        if grammar.productions.len() == MAX_PRODUCTIONS {
            return;
        }
        let production = production(random, grammar);
        grammar.productions.push(production);
        if tables::lowest_conflict(grammar, &Sets::of(grammar)).is_some() {
            grammar.productions.pop();
        }
    }
}

/// A production with an empty body, one that makes a list, one that begins
/// with a terminal, or any.
fn production(random: &mut Random, grammar: &Grammar) -> Production {
    let Grammar { t, n, .. } = *grammar;
    let (left, mut body) = random_grammar::production(random, t, n, 0..=MAX_BODY);
    let terminal = random.between(1, t);
    match random.below(4) {
        0 => body.clear(),
        1 => body = vec![terminal, random.between(1, t + n), left],
        2 => body.iter_mut().take(1).for_each(|first| *first = terminal),
        _ => (),
    }
    (left, body)
}

#[cfg(test)]
mod tests {
    use super::*;
    use crate::image;
    use crate::prepare::prepare;
    use crate::reply::Reply;
    use crate::tables::TABLE_BYTES;

    fn grammars() -> impl Iterator<Item = Grammar> {
        (0..600).map(|case| grammar(&mut Random::of_case(4, case)))
    }

    #[test]
    fn every_one_is_accepted() {
        let mut tables = [0; TABLE_BYTES];
        for grammar in grammars() {
            let image = image::records(&grammar).concat();
            assert_eq!(prepare(&image, &mut tables), Reply::ACCEPTED);
        }
    }

    #[test]
    fn some_are_at_every_limit_at_once() {
        let is_at_limits = |grammar: Grammar| {
            (grammar.t, grammar.n) == (MAX_TERMINALS, MAX_NONTERMINALS)
                && grammar.productions.len() == MAX_PRODUCTIONS
                && grammar
                    .productions
                    .iter()
                    .any(|(_, body)| body.len() == MAX_BODY)
        };
        assert!(grammars().any(is_at_limits));
    }

    /// How many nonterminals stand on the longest stem from the start: N is on
    /// it where break point [start, N, a] is N.
    fn longest_stem(grammar: &Grammar) -> usize {
        let mut tables = [0; TABLE_BYTES];
        tables::write(grammar, &Sets::of(grammar), &mut tables);
        let break_point = |n: u8, a: u8| {
            let row = grammar.row(grammar.start) * 32 + grammar.row(n);
            tables[1_024 + row * 32 + usize::from(a)]
        };
        let on_stem = |a: u8| {
            grammar
                .nonterminals()
                .filter(move |&n| break_point(n, a) == n)
        };
        let lengths = grammar.terminals().map(|a| on_stem(a).count());
        lengths.max().expect("t is not 0")
    }

    #[test]
    fn some_have_a_stem_through_most_nonterminals() {
        assert!(grammars().any(|grammar| longest_stem(&grammar) > 20));
    }

    #[test]
    fn many_have_nonterminals_that_may_derive_nothing() {
        let may = |grammar: &Grammar| !Sets::of(grammar).nullable.is_empty();
        assert!(grammars().filter(may).count() > 300);
    }
}
