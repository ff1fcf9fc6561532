//! The tables that prepare writes: predictions, then break points, which rest
//! on the stems from each nonterminal to the terminals of its FIRST.

use crate::grammar::{Grammar, MAX_NONTERMINALS, MAX_TERMINALS};
use crate::per_symbol::PerSymbol;
use crate::sets::Sets;
use crate::symbol_set::SymbolSet;

/// The length of the tables.
pub const TABLE_BYTES: usize = 33_792;
/// The byte at which the break points start.
const BREAK_POINTS_START: usize = 1_024;
/// A row for each nonterminal.
const ROWS: usize = MAX_NONTERMINALS as usize;
/// A column for each lookahead, 0 included.
const COLUMNS: usize = MAX_TERMINALS as usize + 1;
/// The break point where a tree cannot be put on.
const NO_BREAK_POINT: u8 = 255;

const _: () = assert!(BREAK_POINTS_START == ROWS * COLUMNS);
const _: () = assert!(TABLE_BYTES == BREAK_POINTS_START + ROWS * ROWS * COLUMNS);

/// The lowest nonterminal with two productions that share a predictor.
pub fn lowest_conflict(grammar: &Grammar, sets: &Sets) -> Option<u8> {
    let mut taken = grammar.for_each_symbol(SymbolSet::EMPTY);
    let mut in_conflict = SymbolSet::EMPTY;
    for production in &grammar.productions {
        let left = production.0;
        let predictors = sets.predictors(production);
        let taken = &mut taken[left];
        if !taken.and(predictors).is_empty() {
            in_conflict.add(left);
        }
        taken.add_all(predictors);
    }
    in_conflict.lowest()
}

/// The tables of an LL(1) grammar without useless symbols.
pub fn of(grammar: &Grammar) -> Vec<u8> {
    let mut tables = [0; TABLE_BYTES];
    write(grammar, &Sets::of(grammar), &mut tables);
    tables.to_vec()
}

/// Writes the tables of an LL(1) grammar without useless symbols.
pub fn write(grammar: &Grammar, sets: &Sets, tables: &mut [u8; TABLE_BYTES]) {
    tables.fill(0);
    write_predictions(grammar, sets, tables);
    write_break_points(grammar, sets, tables);
}

fn write_predictions(grammar: &Grammar, sets: &Sets, tables: &mut [u8]) {
    for (number, production) in grammar.numbered() {
        for a in sets.predictors(production).symbols() {
            tables[prediction_entry(grammar.row(production.0), a)] = number;
        }
    }
}

fn write_break_points(grammar: &Grammar, sets: &Sets, tables: &mut [u8]) {
    let stems = Stems::of(grammar, sets);
    for m in grammar.nonterminals() {
        for n in grammar.nonterminals() {
            for a in grammar.terminals() {
                let entry = break_point_entry(grammar.row(m), grammar.row(n), a);
                tables[entry] = break_point(sets, &stems, m, n, a);
            }
        }
    }
}

/// The predictions of row M, one for each lookahead.
pub fn predictions(tables: &[u8], m: usize) -> &[u8] {
    &tables[m * COLUMNS..][..COLUMNS]
}

/// The byte of the prediction for row M and lookahead a.
fn prediction_entry(m: usize, a: u8) -> usize {
    m * COLUMNS + usize::from(a)
}

/// The byte of the break point for rows M and N and terminal a.
fn break_point_entry(m: usize, n: usize, a: u8) -> usize {
    BREAK_POINTS_START + (m * ROWS + n) * COLUMNS + usize::from(a)
}

/// Break point [M, N, a], case by case as it is defined.
fn break_point(sets: &Sets, stems: &Stems, m: u8, n: u8, a: u8) -> u8 {
    let in_first = |symbol: u8| sets.first[symbol].contains(a);
    if !in_first(n) {
        0
    } else if in_first(m) {
        stems.highest_on_both(m, n, a)
    } else if sets.nullable.contains(m) && sets.follow[m].contains(a) {
        n
    } else {
        NO_BREAK_POINT
    }
}

/// The stems of an LL(1) grammar.
struct Stems {
    /// For each symbol and each terminal a of its FIRST, the symbol below it
    /// on the stem to a.
    below: PerSymbol<[u8; COLUMNS]>,
}

impl Stems {
    /// Below a nonterminal stands the symbol of one of its bodies that has a
    /// in its FIRST and nothing but nullable symbols before it. The grammar
    /// being LL(1), there is only one.
    fn of(grammar: &Grammar, sets: &Sets) -> Stems {
        let mut below = grammar.for_each_symbol([0; COLUMNS]);
        for (left, body) in &grammar.productions {
            for &symbol in body {
                for a in sets.first[symbol].symbols() {
                    below[*left][usize::from(a)] = symbol;
                }
                if !sets.nullable.contains(symbol) {
                    break;
                }
            }
        }
        Stems { below }
    }

    /// The stem from a symbol down to a, which must be in its FIRST.
    fn stem(&self, from: u8, a: u8) -> impl Iterator<Item = u8> + '_ {
        std::iter::successors(Some(from), move |&symbol| {
            (symbol != a).then(|| self.below[symbol][usize::from(a)])
        })
    }

    /// The highest symbol on the stems from M and from N to a.
    fn highest_on_both(&self, m: u8, n: u8, a: u8) -> u8 {
        let from_n: SymbolSet = self.stem(n, a).collect();
        self.stem(m, a)
            .find(|&symbol| from_n.contains(symbol))
            .expect("both stems end with a")
    }
}

#[cfg(test)]
mod tests;
