//! Earley's method for the tests: which sentences any grammar has and which
//! beginnings lead to one, without lookahead, predictions or FOLLOW.

use crate::grammar::Grammar;
use crate::sets::Sets;
use std::collections::HashSet;

/// A production, how many of its body symbols are read, and the number of
/// tokens before the first of them.
type Item = (usize, usize, usize);

/// What Earley's method finds about a sentence.
#[derive(Debug, PartialEq)]
pub struct Verdict {
    pub is_accepted: bool,
    /// The number of tokens in its longest beginning that also begins some
    /// sentence of the language, if no symbol of the grammar is useless.
    pub viable: usize,
}

/// Reads a sentence of these kinds.
pub fn verdict(grammar: &Grammar, sets: &Sets, kinds: &[u8]) -> Verdict {
    let start = (0..grammar.productions.len())
        .filter(|&index| grammar.productions[index].0 == grammar.start)
        .map(|index| (index, 0, 0));
    let mut items: Vec<HashSet<Item>> = Vec::new();
    let mut fresh: Vec<Item> = start.collect();
    for place in 0..=kinds.len() {
        items.push(HashSet::new());
        close(grammar, sets, &mut items, fresh);
        fresh = match kinds.get(place) {
            Some(&kind) => scan(grammar, &items[place], kind),
            None => Vec::new(),
        };
        if fresh.is_empty() {
            break;
        }
    }
    let viable = items.len() - 1;
    let is_whole = |&(index, read, origin): &Item| {
        let (left, body) = &grammar.productions[index];
        *left == grammar.start && read == body.len() && origin == 0
    };
    Verdict {
        is_accepted: viable == kinds.len() && items[viable].iter().any(is_whole),
        viable,
    }
}

/// Adds items to the last set, and all that follows from them there.
fn close(grammar: &Grammar, sets: &Sets, items: &mut [HashSet<Item>], mut fresh: Vec<Item>) {
    let place = items.len() - 1;
    while let Some(item) = fresh.pop() {
        if !items[place].insert(item) {
            continue;
        }
        let (index, read, origin) = item;
        let (left, body) = &grammar.productions[index];
        let Some(&next) = body.get(read) else {
            let waiting = items[origin].iter().copied();
            fresh.extend(waiting.filter_map(|item| past(grammar, item, *left)));
            continue;
        };
        let productions = grammar.productions.iter().enumerate();
        fresh.extend(
            productions
                .filter(|(_, (left, _))| *left == next)
                .map(|(index, _)| (index, 0, place)),
        );
        // What derives nothing may have been completed here before.
        if sets.nullable.contains(next) {
            fresh.push((index, read + 1, origin));
        }
    }
}

/// The items behind a token.
fn scan(grammar: &Grammar, items: &HashSet<Item>, kind: u8) -> Vec<Item> {
    let items = items.iter().copied();
    items.filter_map(|item| past(grammar, item, kind)).collect()
}

/// The item behind a symbol, if that is the next one.
fn past(grammar: &Grammar, (index, read, origin): Item, symbol: u8) -> Option<Item> {
    let next = grammar.productions[index].1.get(read);
    (next == Some(&symbol)).then_some((index, read + 1, origin))
}

#[test]
fn sentences_of_the_reference_grammar() {
    let grammar = crate::samples::reference();
    let sets = Sets::of(&grammar);
    let cases: [(&[u8], bool, usize); 6] = [
        (&[], true, 0),
        (&[1, 2, 5], true, 3),
        (&[1, 2, 3, 2, 4, 2, 5, 1, 2, 5], true, 10),
        (&[1, 2], false, 2),
        (&[1, 2, 4, 2, 4], false, 4),
        (&[5, 1], false, 0),
    ];
    for (kinds, is_accepted, viable) in cases {
        let expected = Verdict {
            is_accepted,
            viable,
        };
        assert_eq!(verdict(&grammar, &sets, kinds), expected, "{kinds:?}");
    }
}

#[test]
fn an_ambiguous_grammar_with_nullable_symbols() {
    let grammar = crate::samples::grammar(2, 1, 3, &[(3, &[3, 3, 1]), (3, &[])]);
    let sets = Sets::of(&grammar);
    assert!((0..9).all(|count| verdict(&grammar, &sets, &vec![1; count]).is_accepted));
    assert_eq!(verdict(&grammar, &sets, &[1, 2]).viable, 1);
}
