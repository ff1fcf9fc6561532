//! What the symbols of a grammar derive: which may derive nothing, which derive
//! a terminal string, which the start reaches, FIRST and FOLLOW. The first two
//! come from ticking off body symbols, the others from closures of relations
//! between symbols.

use crate::grammar::{Grammar, Production, END_MARK};
use crate::per_symbol::Relation;
use crate::symbol_set::SymbolSet;

/// The sets of a grammar.
///
/// FOLLOW is the textbook's, which takes every production into account; it
/// speaks of the strings derived from the start when no symbol is useless.
#[derive(Debug, PartialEq)]
pub struct Sets {
    /// The nonterminals that may derive nothing.
    pub nullable: SymbolSet,
    /// The nonterminals that derive a terminal string.
    pub productive: SymbolSet,
    /// The nonterminals that some string derived from the start holds.
    pub reachable: SymbolSet,
    /// The terminals with which strings derived from a symbol begin.
    pub first: Relation,
    /// The terminals that may follow a symbol, and the end mark.
    pub follow: Relation,
}

impl Sets {
    pub fn of(grammar: &Grammar) -> Sets {
        let nullable = rewritable(grammar, SymbolSet::EMPTY);
        let first = first(grammar, nullable);
        Sets {
            nullable,
            productive: rewritable(grammar, grammar.terminals().collect()),
            reachable: reachable(grammar),
            follow: follow(grammar, nullable, &first),
            first,
        }
    }

    /// The lowest nonterminal that derives no terminal string or that no
    /// string derived from the start holds.
    pub fn lowest_useless(&self, grammar: &Grammar) -> Option<u8> {
        let useful = self.productive.and(self.reachable);
        let nonterminals: SymbolSet = grammar.nonterminals().collect();
        nonterminals.without(useful).lowest()
    }

    /// The lookaheads that predict a production: FIRST of its body, and FOLLOW
    /// of its left side if the body may derive nothing.
    pub fn predictors(&self, (left, body): &Production) -> SymbolSet {
        let mut predictors = SymbolSet::EMPTY;
        for &symbol in body {
            predictors.add_all(self.first[symbol]);
            if !self.nullable.contains(symbol) {
                return predictors;
            }
        }
        predictors.add_all(self.follow[*left]);
        predictors
    }
}

/// The nonterminals from which a string of `given` symbols alone is derived.
/// A production is done when none of its body symbols is missing any more.
fn rewritable(grammar: &Grammar, given: SymbolSet) -> SymbolSet {
    let missing = |body: &[u8]| body.iter().copied().collect::<SymbolSet>().without(given);
    let mut waiting: Vec<(u8, SymbolSet)> = grammar
        .productions
        .iter()
        .map(|(left, body)| (*left, missing(body)))
        .collect();
    let done = waiting.iter().filter(|(_, missing)| missing.is_empty());
    let mut fresh: Vec<u8> = done.map(|(left, _)| *left).collect();
    let mut found = SymbolSet::EMPTY;
    while let Some(symbol) = fresh.pop() {
        found.add(symbol);
        for (left, missing) in waiting
            .iter_mut()
            .filter(|(_, missing)| missing.contains(symbol))
        {
            missing.remove(symbol);
            if missing.is_empty() {
                fresh.push(*left);
            }
        }
    }
    found
}

/// The nonterminals that the start leads to by steps from a left side to a
/// body symbol.
fn reachable(grammar: &Grammar) -> SymbolSet {
    let mut holds = grammar.for_each_symbol(SymbolSet::EMPTY);
    for (left, body) in &grammar.productions {
        holds[*left].add_all(body.iter().copied().collect());
    }
    holds.closure()[grammar.start].and(grammar.nonterminals().collect())
}

/// FIRST of each symbol: the terminals that it leads to by steps from a left
/// side to a body symbol with nothing but nullable symbols before it.
fn first(grammar: &Grammar, nullable: SymbolSet) -> Relation {
    let mut begins_with = grammar.for_each_symbol(SymbolSet::EMPTY);
    for (left, body) in &grammar.productions {
        for &symbol in body {
            begins_with[*left].add(symbol);
            if !nullable.contains(symbol) {
                break;
            }
        }
    }
    let terminals = grammar.terminals().collect();
    begins_with.closure().map(|symbols| symbols.and(terminals))
}

/// FOLLOW of each symbol: what stands beside it, that is right after it in a
/// body, and what stands beside the left sides whose body it may end.
fn follow(grammar: &Grammar, nullable: SymbolSet, first: &Relation) -> Relation {
    let mut beside = grammar.for_each_symbol(SymbolSet::EMPTY);
    let mut may_end = grammar.for_each_symbol(SymbolSet::EMPTY);
    beside[grammar.start].add(END_MARK);
    for (left, body) in &grammar.productions {
        let mut first_of_rest = SymbolSet::EMPTY;
        let mut rest_nullable = true;
        for &symbol in body.iter().rev() {
            beside[symbol].add_all(first_of_rest);
            if rest_nullable {
                may_end[symbol].add(*left);
            }
            if !nullable.contains(symbol) {
                first_of_rest = SymbolSet::EMPTY;
                rest_nullable = false;
            }
            first_of_rest.add_all(first[symbol]);
        }
    }
    may_end.closure().map(|ended| {
        let beside_each = ended.symbols().map(|symbol| beside[symbol]);
        beside_each.fold(SymbolSet::EMPTY, SymbolSet::or)
    })
}

#[cfg(test)]
mod tests {
    use super::*;
    use crate::samples;

    fn set(symbols: &[u8]) -> SymbolSet {
        symbols.iter().copied().collect()
    }

    fn assert_sets(grammar: &Grammar, sets: &Relation, expected: &[&[u8]]) {
        let found: Vec<SymbolSet> = grammar.nonterminals().map(|symbol| sets[symbol]).collect();
        let expected: Vec<SymbolSet> = expected.iter().map(|symbols| set(symbols)).collect();
        assert_eq!(found, expected);
    }

    #[test]
    fn sets_of_the_reference_grammar() {
        let grammar = samples::reference();
        let sets = Sets::of(&grammar);
        assert_eq!(sets.nullable, set(&[6, 9, 10]));
        assert_eq!(sets.productive, set(&[6, 7, 8, 9, 10]));
        assert_eq!(sets.reachable, set(&[6, 7, 8, 9, 10]));
        assert_sets(&grammar, &sets.first, &[&[1], &[1], &[2], &[3], &[4]]);
        assert_sets(
            &grammar,
            &sets.follow,
            &[&[0], &[0, 1], &[4, 5], &[4, 5], &[5]],
        );
    }

    #[test]
    fn first_of_a_terminal_is_the_terminal() {
        let sets = Sets::of(&samples::reference());
        for terminal in 1..=5 {
            assert_eq!(sets.first[terminal], set(&[terminal]));
        }
    }

    #[test]
    fn sets_of_the_expressions_of_source_document_000() {
        let grammar = samples::expressions();
        let sets = Sets::of(&grammar);
        assert_sets(&grammar, &sets.first, &[&[3], &[1], &[3], &[2], &[3]]);
        assert_sets(
            &grammar,
            &sets.follow,
            &[&[0], &[0], &[0, 1], &[0, 1], &[0, 1, 2]],
        );
    }

    #[test]
    fn the_end_mark_passes_through_nullable_ends() {
        let grammar = samples::grammar(2, 3, 3, &[(3, &[4, 5]), (4, &[1]), (5, &[2]), (5, &[])]);
        assert_sets(&grammar, &Sets::of(&grammar).follow, &[&[0], &[0, 2], &[0]]);
    }

    #[test]
    fn a_grammar_without_useless_symbols_has_no_lowest_one() {
        let grammar = samples::reference();
        assert_eq!(Sets::of(&grammar).lowest_useless(&grammar), None);
    }

    #[test]
    fn a_symbol_beside_an_unproductive_one_is_still_reached() {
        let grammar = samples::grammar(1, 3, 2, &[(2, &[3, 4]), (2, &[1]), (3, &[1]), (4, &[4])]);
        let sets = Sets::of(&grammar);
        assert_eq!(sets.reachable, set(&[2, 3, 4]));
        assert_eq!(sets.productive, set(&[2, 3]));
        assert_eq!(sets.lowest_useless(&grammar), Some(4));
    }

    #[test]
    fn the_lowest_symbol_with_either_fault_is_useless() {
        let unreached_first = samples::grammar(1, 3, 4, &[(2, &[1]), (3, &[3]), (4, &[1, 3])]);
        assert_eq!(
            Sets::of(&unreached_first).lowest_useless(&unreached_first),
            Some(2)
        );
        let unproductive_first = samples::grammar(1, 3, 2, &[(2, &[3]), (3, &[2]), (4, &[1])]);
        assert_eq!(
            Sets::of(&unproductive_first).lowest_useless(&unproductive_first),
            Some(2)
        );
    }

    #[test]
    fn unused_terminals_are_no_fault() {
        let grammar = samples::grammar(31, 1, 32, &[(32, &[])]);
        assert_eq!(Sets::of(&grammar).lowest_useless(&grammar), None);
    }

    #[test]
    fn predictors_take_in_follow_when_the_body_may_derive_nothing() {
        let grammar = samples::reference();
        let sets = Sets::of(&grammar);
        let predictors: Vec<SymbolSet> = grammar
            .productions
            .iter()
            .map(|production| sets.predictors(production))
            .collect();
        let expected = [&[1][..], &[0], &[1], &[2], &[3], &[4, 5], &[4], &[5]].map(set);
        assert_eq!(predictors, expected);
    }
}
