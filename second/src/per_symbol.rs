//! A value for each symbol, such as a row of a relation between symbols.

use crate::symbol_set::SymbolSet;
use std::ops::{Index, IndexMut};

/// A value for each symbol of a grammar, and one for the end mark.
#[derive(Clone, Debug, PartialEq)]
pub struct PerSymbol<T>(Vec<T>);

/// A relation between symbols: for each one, those that it leads to.
pub type Relation = PerSymbol<SymbolSet>;

impl<T: Clone> PerSymbol<T> {
    /// The same value for 0 up to the last symbol.
    pub fn all(last_symbol: u8, value: T) -> PerSymbol<T> {
        PerSymbol(vec![value; usize::from(last_symbol) + 1])
    }
}

impl<T> PerSymbol<T> {
    pub fn map(&self, change: impl Fn(&T) -> T) -> PerSymbol<T> {
        PerSymbol(self.0.iter().map(change).collect())
    }
}

impl Relation {
    /// The relation that leads on over zero or more steps.
    pub fn closure(mut self) -> Relation {
        for middle in 0..self.0.len() as u8 {
            self[middle].add(middle);
            let beyond = self[middle];
            for symbols in self.0.iter_mut().filter(|symbols| symbols.contains(middle)) {
                symbols.add_all(beyond);
            }
        }
        self
    }
}

impl<T> Index<u8> for PerSymbol<T> {
    type Output = T;

    fn index(&self, symbol: u8) -> &T {
        &self.0[usize::from(symbol)]
    }
}

impl<T> IndexMut<u8> for PerSymbol<T> {
    fn index_mut(&mut self, symbol: u8) -> &mut T {
        &mut self.0[usize::from(symbol)]
    }
}

#[cfg(test)]
mod tests {
    use super::*;
    use crate::random::Random;

    /// The symbols that one leads to, by taking one step after another.
    fn walk(relation: &Relation, from: u8) -> SymbolSet {
        let mut seen = SymbolSet::EMPTY;
        let mut open = vec![from];
        while let Some(symbol) = open.pop() {
            if !seen.contains(symbol) {
                seen.add(symbol);
                open.extend(relation[symbol].symbols());
            }
        }
        seen
    }

    #[test]
    fn the_closure_leads_wherever_a_walk_does() {
        let last = 63;
        for case in 0..200 {
            let mut random = Random::of_case(8, case);
            let mut relation = PerSymbol::all(last, SymbolSet::EMPTY);
            for _ in 0..random.below(120) {
                relation[random.between(0, last)].add(random.between(0, last));
            }
            let closure = relation.clone().closure();
            assert!((0..=last).all(|symbol| closure[symbol] == walk(&relation, symbol)));
        }
    }
}
