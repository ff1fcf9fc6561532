//! Grammars at the limits.

use crate::grammar::Grammar;

/// An LL(1) grammar of 31 terminals, 32 nonterminals and 128 productions. Each
/// nonterminal has one production that leads to the next, the last one back to
/// the first, and three that hold a terminal alone.
pub fn largest() -> Grammar {
    let (t, n) = (31, 32);
    let next = |row: u8| t + 1 + (row + 1) % n;
    let productions = (0..n)
        .flat_map(|row| {
            let left = t + 1 + row;
            let ends = (1..=3).map(move |a| (left, vec![a]));
            std::iter::once((left, vec![t, next(row)])).chain(ends)
        })
        .collect();
    Grammar {
        t,
        n,
        start: t + 1,
        productions,
    }
}

/// The longest stem: each of 32 nonterminals has the next as its only body,
/// and the last has terminal 31.
pub fn chain() -> Grammar {
    let productions = (32..63)
        .map(|left| (left, vec![left + 1]))
        .chain([(63, vec![31])])
        .collect();
    Grammar {
        t: 31,
        n: 32,
        start: 32,
        productions,
    }
}
