//! Sets of symbols as bit masks: bit s stands for symbol s, bit 0 for the end
//! mark.

/// A set of symbols.
#[derive(Clone, Copy, Debug, PartialEq)]
pub struct SymbolSet(u64);

impl SymbolSet {
    pub const EMPTY: SymbolSet = SymbolSet(0);

    pub fn contains(self, symbol: u8) -> bool {
        self.0 >> symbol & 1 == 1
    }

    pub fn is_empty(self) -> bool {
        self == SymbolSet::EMPTY
    }

    pub fn add(&mut self, symbol: u8) {
        self.0 |= 1 << symbol;
    }

    pub fn add_all(&mut self, other: SymbolSet) {
        *self = self.or(other);
    }

    pub fn remove(&mut self, symbol: u8) {
        self.0 &= !(1 << symbol);
    }

    /// The symbols of either set.
    pub fn or(self, other: SymbolSet) -> SymbolSet {
        SymbolSet(self.0 | other.0)
    }

    /// The symbols of both sets.
    pub fn and(self, other: SymbolSet) -> SymbolSet {
        SymbolSet(self.0 & other.0)
    }

    /// The symbols of this set that are not in the other.
    pub fn without(self, other: SymbolSet) -> SymbolSet {
        SymbolSet(self.0 & !other.0)
    }

    /// The symbols in rising order.
    pub fn symbols(self) -> impl Iterator<Item = u8> {
        let mut left = self.0;
        std::iter::from_fn(move || {
            let symbol = (left != 0).then(|| left.trailing_zeros() as u8)?;
            left &= left - 1;
            Some(symbol)
        })
    }

    pub fn lowest(self) -> Option<u8> {
        self.symbols().next()
    }
}

impl FromIterator<u8> for SymbolSet {
    fn from_iter<I: IntoIterator<Item = u8>>(symbols: I) -> SymbolSet {
        let mut set = SymbolSet::EMPTY;
        symbols.into_iter().for_each(|symbol| set.add(symbol));
        set
    }
}

#[cfg(test)]
mod tests {
    use super::*;

    fn set(symbols: &[u8]) -> SymbolSet {
        symbols.iter().copied().collect()
    }

    #[test]
    fn symbols_come_in_rising_order_from_0_to_63() {
        let symbols: Vec<u8> = set(&[63, 0, 5, 31, 5]).symbols().collect();
        assert_eq!(symbols, [0, 5, 31, 63]);
    }

    #[test]
    fn the_lowest_symbol_of_an_empty_set_is_none() {
        assert_eq!(SymbolSet::EMPTY.lowest(), None);
        assert_eq!(set(&[9, 7]).lowest(), Some(7));
    }

    #[test]
    fn sets_are_joined_cut_and_lessened() {
        let mut joined = set(&[1, 2]);
        joined.add_all(set(&[2, 3]));
        assert_eq!(joined, set(&[1, 2, 3]));
        assert_eq!(joined.and(set(&[3, 4])), set(&[3]));
        assert_eq!(joined.without(set(&[3, 4])), set(&[1, 2]));
        joined.remove(1);
        assert!(!joined.contains(1) && joined.contains(2));
    }
}
