//! A grammar: terminals 1..t, nonterminals t+1..t+n, a start symbol, and
//! productions numbered from 1.

use crate::per_symbol::PerSymbol;
use std::ops::RangeInclusive;

/// t is 1..31.
pub const MAX_TERMINALS: u8 = 31;
/// n is 1..32.
pub const MAX_NONTERMINALS: u8 = 32;
/// A 129th production is a bad record.
pub const MAX_PRODUCTIONS: usize = 128;
/// A body has 0..8 symbols.
pub const MAX_BODY: usize = 8;
/// As a lookahead, 0 is the end of the sentence.
pub const END_MARK: u8 = 0;

/// The left side and the body of a production.
pub type Production = (u8, Vec<u8>);

/// A grammar as an image holds it.
#[derive(Clone, Debug, PartialEq)]
pub struct Grammar {
    pub t: u8,
    pub n: u8,
    pub start: u8,
    pub productions: Vec<Production>,
}

impl Grammar {
    pub fn terminals(&self) -> RangeInclusive<u8> {
        1..=self.t
    }

    pub fn nonterminals(&self) -> RangeInclusive<u8> {
        self.t + 1..=self.last_symbol()
    }

    pub fn symbols(&self) -> RangeInclusive<u8> {
        1..=self.last_symbol()
    }

    /// The number of a nonterminal's row, counted from 0.
    pub fn row(&self, nonterminal: u8) -> usize {
        usize::from(nonterminal - self.t - 1)
    }

    /// The productions, each with its number.
    pub fn numbered(&self) -> impl Iterator<Item = (u8, &Production)> {
        (1..).zip(&self.productions)
    }

    /// The same value for each symbol and the end mark.
    pub fn for_each_symbol<T: Clone>(&self, value: T) -> PerSymbol<T> {
        PerSymbol::all(self.last_symbol(), value)
    }

    fn last_symbol(&self) -> u8 {
        self.t + self.n
    }
}

#[cfg(test)]
mod tests {
    use crate::samples;

    #[test]
    fn nonterminals_come_right_after_the_terminals() {
        let grammar = samples::grammar(5, 3, 6, &[]);
        assert_eq!(grammar.terminals(), 1..=5);
        assert_eq!(grammar.nonterminals(), 6..=8);
        assert_eq!(grammar.symbols(), 1..=8);
        assert_eq!(grammar.row(6), 0);
        assert_eq!(grammar.row(8), 2);
    }

    #[test]
    fn productions_are_numbered_from_1() {
        let grammar = samples::grammar(1, 1, 2, &[(2, &[1]), (2, &[])]);
        let numbers: Vec<u8> = grammar.numbered().map(|(number, _)| number).collect();
        assert_eq!(numbers, [1, 2]);
    }
}
