//! A second way to the sets, for the tests: every string of symbols that a
//! symbol derives, found by rewriting breadth first, within bounds.

use crate::grammar::{Grammar, END_MARK};
use crate::per_symbol::Relation;
use crate::random::Random;
use crate::random_grammar;
use crate::samples;
use crate::sets::Sets;
use crate::symbol_set::SymbolSet;
use std::collections::{HashSet, VecDeque};

/// How long the strings may become, and how many are looked at.
#[derive(Clone, Copy)]
struct Bounds {
    longest: usize,
    most: usize,
}

const SMALL_BOUNDS: Bounds = Bounds {
    longest: 6,
    most: 400,
};
const LARGE_BOUNDS: Bounds = Bounds {
    longest: 10,
    most: 20_000,
};

/// The strings derived from a symbol in zero or more steps, within bounds.
fn derived(grammar: &Grammar, from: u8, bounds: Bounds) -> HashSet<Vec<u8>> {
    let mut found = HashSet::from([vec![from]]);
    let mut open = VecDeque::from([vec![from]]);
    while let Some(string) = open.pop_front() {
        for next in one_step(grammar, &string) {
            if found.len() < bounds.most && next.len() <= bounds.longest && !found.contains(&next) {
                found.insert(next.clone());
                open.push_back(next);
            }
        }
    }
    found
}

/// Which short terminal strings a grammar without useless symbols has.
pub struct TerminalStrings {
    pub sentences: HashSet<Vec<u8>>,
    /// The beginnings of sentences: from every string that the start derives,
    /// one goes on to a sentence.
    pub beginnings: HashSet<Vec<u8>>,
}

/// The sentences and their beginnings, as far as the strings within bounds
/// show them.
pub fn terminal_beginnings(grammar: &Grammar) -> TerminalStrings {
    let mut strings = TerminalStrings {
        sentences: HashSet::new(),
        beginnings: HashSet::new(),
    };
    for string in derived(grammar, grammar.start, LARGE_BOUNDS) {
        let is_terminal = |symbol: &&u8| grammar.terminals().contains(symbol);
        let length = string.iter().take_while(is_terminal).count();
        let beginnings = (0..=length).map(|length| string[..length].to_vec());
        strings.beginnings.extend(beginnings);
        if length == string.len() {
            strings.sentences.insert(string);
        }
    }
    strings
}

/// The strings that one production at one place makes of a string.
fn one_step(grammar: &Grammar, string: &[u8]) -> Vec<Vec<u8>> {
    let mut next = Vec::new();
    for (place, symbol) in string.iter().enumerate() {
        for (_, body) in grammar
            .productions
            .iter()
            .filter(|(left, _)| left == symbol)
        {
            next.push([&string[..place], body, &string[place + 1..]].concat());
        }
    }
    next
}

/// The sets as far as the strings within bounds show them.
fn enumerated_sets(grammar: &Grammar, bounds: Bounds) -> Sets {
    let is_terminal = |symbol: &u8| grammar.terminals().contains(symbol);
    let from_start = derived(grammar, grammar.start, bounds);
    let nonterminals: SymbolSet = grammar.nonterminals().collect();
    let held: SymbolSet = from_start.iter().flatten().copied().collect();
    let mut sets = Sets {
        nullable: SymbolSet::EMPTY,
        productive: SymbolSet::EMPTY,
        reachable: held.and(nonterminals),
        first: grammar.for_each_symbol(SymbolSet::EMPTY),
        follow: follow_in(grammar, &from_start),
    };
    for symbol in grammar.symbols() {
        let strings = derived(grammar, symbol, bounds);
        let beginnings = strings.iter().filter_map(|string| string.first().copied());
        sets.first[symbol] = beginnings.filter(is_terminal).collect();
        if strings.contains(&[][..]) {
            sets.nullable.add(symbol);
        }
        if nonterminals.contains(symbol) && strings.iter().any(|s| s.iter().all(is_terminal)) {
            sets.productive.add(symbol);
        }
    }
    sets
}

/// What follows each symbol in the strings derived from the start.
fn follow_in(grammar: &Grammar, strings: &HashSet<Vec<u8>>) -> Relation {
    let mut follow = grammar.for_each_symbol(SymbolSet::EMPTY);
    for string in strings {
        let followers = string.iter().skip(1).chain([&END_MARK]);
        for (symbol, &follower) in string.iter().zip(followers) {
            if !grammar.nonterminals().contains(&follower) {
                follow[*symbol].add(follower);
            }
        }
    }
    follow
}

/// Whether each of the five sets of a grammar lies within the other's.
fn is_within(grammar: &Grammar, small: &Sets, large: &Sets) -> bool {
    let within = |small: SymbolSet, large: SymbolSet| small.without(large).is_empty();
    within(small.nullable, large.nullable)
        && within(small.productive, large.productive)
        && within(small.reachable, large.reachable)
        && grammar
            .symbols()
            .all(|symbol| within(small.first[symbol], large.first[symbol]))
        && grammar
            .symbols()
            .all(|symbol| within(small.follow[symbol], large.follow[symbol]))
}

/// All that shows within bounds is in the sets, and here all of it shows.
fn assert_equal_to_enumeration(grammar: &Grammar) {
    assert_eq!(
        enumerated_sets(grammar, LARGE_BOUNDS),
        Sets::of(grammar),
        "{grammar:?}"
    );
}

#[test]
fn all_that_enumeration_finds_in_random_grammars_is_in_the_sets() {
    for case in 0..2_000 {
        let random = &mut Random::of_case(5, case);
        for grammar in [
            random_grammar::small(random),
            random_grammar::layered(random),
        ] {
            let found = enumerated_sets(&grammar, SMALL_BOUNDS);
            let sets = Sets::of(&grammar);
            assert!(is_within(&grammar, &found, &sets), "{grammar:?}");
        }
    }
}

#[test]
fn enumeration_agrees_on_small_random_grammars_without_useless_symbols() {
    let mut compared = 0;
    for case in 0..10_000 {
        let grammar = random_grammar::small(&mut Random::of_case(6, case));
        let sets = Sets::of(&grammar);
        if sets.lowest_useless(&grammar).is_none() {
            compared += 1;
            if enumerated_sets(&grammar, SMALL_BOUNDS) != sets {
                assert_equal_to_enumeration(&grammar);
            }
        }
    }
    assert!(compared > 3_000, "{compared} compared");
}

#[test]
fn enumeration_agrees_on_the_reference_grammar() {
    assert_equal_to_enumeration(&samples::reference());
}

#[test]
fn enumeration_agrees_on_the_expressions_of_source_document_000() {
    assert_equal_to_enumeration(&samples::expressions());
}

#[test]
fn enumeration_agrees_on_nullable_symbols_in_a_row() {
    let productions: [(u8, &[u8]); 7] = [
        (4, &[5, 6, 7, 3]),
        (5, &[1]),
        (5, &[]),
        (6, &[2]),
        (6, &[]),
        (7, &[5, 6]),
        (4, &[7]),
    ];
    assert_equal_to_enumeration(&samples::grammar(3, 4, 4, &productions));
}

#[test]
fn enumeration_agrees_on_left_recursion() {
    assert_equal_to_enumeration(&samples::grammar(2, 1, 3, &[(3, &[3, 1]), (3, &[2])]));
    let hidden = [(3, &[4, 3, 1][..]), (3, &[2]), (4, &[]), (4, &[2])];
    assert_equal_to_enumeration(&samples::grammar(2, 2, 3, &hidden));
}

#[test]
fn enumeration_agrees_on_ambiguous_pairs() {
    assert_equal_to_enumeration(&samples::grammar(
        1,
        1,
        2,
        &[(2, &[2, 2]), (2, &[1]), (2, &[])],
    ));
}

#[test]
fn enumeration_agrees_on_a_symbol_that_derives_no_terminal_string() {
    let grammar = samples::grammar(2, 2, 3, &[(3, &[1, 4]), (3, &[2]), (4, &[2, 4])]);
    assert_equal_to_enumeration(&grammar);
}

#[test]
fn enumeration_agrees_on_a_symbol_that_is_not_reached() {
    assert_equal_to_enumeration(&samples::grammar(2, 2, 3, &[(3, &[1]), (4, &[2])]));
}

#[test]
fn enumeration_agrees_on_a_start_that_is_not_the_lowest_nonterminal() {
    let grammar = samples::grammar(2, 2, 4, &[(4, &[3, 2]), (4, &[]), (3, &[1, 4])]);
    assert_equal_to_enumeration(&grammar);
}

#[test]
fn enumeration_agrees_on_a_grammar_without_productions() {
    assert_equal_to_enumeration(&samples::grammar(1, 1, 2, &[]));
}
