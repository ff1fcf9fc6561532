//! The tables of examples A and B, of source document 000's figure 4, of the
//! largest grammars, and of small random ones.

use super::*;
use crate::limits;
use crate::random::Random;
use crate::random_grammar;
use crate::samples;

const BOOK: u8 = 6;
const RULE: u8 = 7;
const LIST: u8 = 8;
const REST: u8 = 9;
const BAR: u8 = 10;

/// The tables of a grammar, with its symbols as indices.
struct Prepared {
    grammar: Grammar,
    bytes: [u8; TABLE_BYTES],
}

impl Prepared {
    fn of(grammar: Grammar) -> Prepared {
        let sets = Sets::of(&grammar);
        assert_eq!(sets.lowest_useless(&grammar), None);
        assert_eq!(lowest_conflict(&grammar, &sets), None);
        let mut bytes = [0; TABLE_BYTES];
        write(&grammar, &sets, &mut bytes);
        Prepared { grammar, bytes }
    }

    fn prediction(&self, m: u8, a: u8) -> u8 {
        self.bytes[prediction_entry(self.grammar.row(m), a)]
    }

    fn break_point(&self, m: u8, n: u8, a: u8) -> u8 {
        self.bytes[break_point_entry(self.grammar.row(m), self.grammar.row(n), a)]
    }
}

fn count(bytes: &[u8], wanted: impl Fn(u8) -> bool) -> usize {
    bytes.iter().filter(|&&byte| wanted(byte)).count()
}

#[test]
fn example_a_has_nine_predictions() {
    let bytes = Prepared::of(samples::reference()).bytes;
    assert_eq!(count(&bytes[..BREAK_POINTS_START], |byte| byte != 0), 9);
}

#[test]
fn example_a_has_25_break_points_of_which_17_are_255() {
    let bytes = Prepared::of(samples::reference()).bytes;
    assert_eq!(count(&bytes[BREAK_POINTS_START..], |byte| byte != 0), 25);
    assert_eq!(count(&bytes[BREAK_POINTS_START..], |byte| byte == 255), 17);
}

#[test]
fn the_nine_predictions_of_the_reference_grammar() {
    let prepared = Prepared::of(samples::reference());
    let predictions = [
        (BOOK, 1, 1),
        (BOOK, 0, 2),
        (RULE, 1, 3),
        (LIST, 2, 4),
        (REST, 3, 5),
        (REST, 4, 6),
        (REST, 5, 6),
        (BAR, 4, 7),
        (BAR, 5, 8),
    ];
    for (m, a, number) in predictions {
        assert_eq!(prepared.prediction(m, a), number, "row {m}, lookahead {a}");
    }
}

#[test]
fn example_b_has_four_break_points() {
    let prepared = Prepared::of(samples::reference());
    assert_eq!(prepared.break_point(REST, BAR, 4), 10);
    assert_eq!(prepared.break_point(RULE, BOOK, 1), 7);
    assert_eq!(prepared.break_point(LIST, REST, 3), 255);
    assert_eq!(prepared.break_point(LIST, BAR, 2), 0);
}

#[test]
fn the_entries_stand_at_their_bytes() {
    let bytes = Prepared::of(samples::reference()).bytes;
    assert_eq!(bytes.len(), 33_792);
    assert_eq!(bytes[..3], [2, 1, 0]);
    assert_eq!(bytes[32..35], [0, 3, 0]);
    assert_eq!(bytes[1_024..1_027], [0, BOOK, 0]);
    let (rest, bar) = (3, 4);
    assert_eq!(bytes[1_024 + (rest * 32 + bar) * 32 + 4], BAR);
    assert_eq!(bytes[1_024 + (bar * 32 + rest) * 32 + 4], 0);
}

#[test]
fn the_break_points_of_figure_4() {
    let prepared = Prepared::of(samples::expressions());
    let [plus, times, id] = [1, 2, 3];
    let [e, x, t, y, f] = [4, 5, 6, 7, 8];
    let under_id = [
        (e, [e, t, f]),
        (x, [255; 3]),
        (t, [t, t, f]),
        (y, [255; 3]),
        (f, [f; 3]),
    ];
    for (m, expected) in under_id {
        assert_eq!(
            [e, t, f].map(|n| prepared.break_point(m, n, id)),
            expected,
            "row {m}"
        );
    }
    let all = [e, x, t, y, f];
    assert_eq!(
        all.map(|m| prepared.break_point(m, x, plus)),
        [255, x, 255, x, 255]
    );
    assert_eq!(
        all.map(|m| prepared.break_point(m, y, times)),
        [255, 255, 255, y, 255]
    );
    let entries = &prepared.bytes[BREAK_POINTS_START..];
    assert_eq!(count(entries, |byte| byte != 0 && byte != 255), 12);
}

#[test]
fn the_last_entries_of_the_largest_grammar_fill_the_last_bytes() {
    let prepared = Prepared::of(limits::largest());
    assert_eq!(prepared.grammar.productions.len(), 128);
    assert_eq!(prepared.bytes[1_023], 125);
    assert_eq!(prepared.bytes[33_791], 63);
    assert_eq!(prepared.prediction(63, 3), 128);
}

#[test]
fn stems_of_the_largest_grammar_meet_in_the_terminal() {
    let prepared = Prepared::of(limits::largest());
    assert_eq!(prepared.break_point(32, 63, 31), 31);
    assert_eq!(prepared.break_point(63, 32, 2), 2);
    assert_eq!(prepared.break_point(40, 40, 31), 40);
    assert_eq!(prepared.break_point(40, 41, 30), 0);
}

#[test]
fn stems_of_a_chain_meet_in_the_lower_of_two_nonterminals() {
    let prepared = Prepared::of(limits::chain());
    for m in 32..=63 {
        for n in 32..=63 {
            assert_eq!(prepared.break_point(m, n, 31), m.max(n));
        }
    }
}

#[test]
fn the_longest_stem_ends_with_the_terminal() {
    let grammar = limits::chain();
    let stems = Stems::of(&grammar, &Sets::of(&grammar));
    let stem: Vec<u8> = stems.stem(32, 31).collect();
    assert_eq!(stem, (32..=63).chain([31]).collect::<Vec<u8>>());
}

#[test]
fn a_stem_passes_over_symbols_that_derive_nothing() {
    let grammar = samples::grammar(2, 3, 3, &[(3, &[4, 5, 1]), (4, &[2]), (4, &[]), (5, &[])]);
    let stems = Stems::of(&grammar, &Sets::of(&grammar));
    assert_eq!(stems.stem(3, 1).collect::<Vec<u8>>(), [3, 1]);
    assert_eq!(stems.stem(3, 2).collect::<Vec<u8>>(), [3, 4, 2]);
}

/// Every path from a symbol down to a leftmost a, by trying every production.
fn paths(grammar: &Grammar, sets: &Sets, from: u8, a: u8) -> Vec<Vec<u8>> {
    if from == a {
        return vec![vec![a]];
    }
    let mut found = Vec::new();
    for (_, body) in grammar.productions.iter().filter(|(left, _)| *left == from) {
        let nullable = body
            .iter()
            .take_while(|&&symbol| sets.nullable.contains(symbol))
            .count();
        for &symbol in body.iter().take(nullable + 1) {
            let below = paths(grammar, sets, symbol, a);
            found.extend(below.into_iter().map(|path| [&[from][..], &path].concat()));
        }
    }
    found
}

/// Break point [M, N, a] by trying each symbol of M's path from the top.
fn slow_break_point(grammar: &Grammar, sets: &Sets, m: u8, n: u8, a: u8) -> u8 {
    let of_m = paths(grammar, sets, m, a).concat();
    let of_n = paths(grammar, sets, n, a).concat();
    let shared = of_m.iter().copied().find(|symbol| of_n.contains(symbol));
    let followed = sets.nullable.contains(m) && sets.follow[m].contains(a);
    match (of_n.is_empty(), of_m.is_empty()) {
        (true, _) => 0,
        (false, false) => shared.expect("both paths end with a"),
        (false, true) if followed => n,
        (false, true) => NO_BREAK_POINT,
    }
}

/// The small random grammars of one seed that prepare accepts.
fn accepted_grammars() -> Vec<(Grammar, Sets)> {
    let accepted = |case| {
        let grammar = random_grammar::layered(&mut Random::of_case(4, case));
        let sets = Sets::of(&grammar);
        let useless = sets.lowest_useless(&grammar);
        let fault = useless.or_else(|| lowest_conflict(&grammar, &sets));
        fault.is_none().then_some((grammar, sets))
    };
    (0..20_000).filter_map(accepted).collect()
}

#[test]
fn many_random_grammars_are_accepted() {
    assert!(accepted_grammars().len() > 1_000);
}

#[test]
fn a_stem_is_the_only_path_to_its_terminal() {
    for (grammar, sets) in accepted_grammars() {
        let stems = Stems::of(&grammar, &sets);
        for m in grammar.nonterminals() {
            for a in grammar.terminals() {
                let stem = || stems.stem(m, a).collect::<Vec<u8>>();
                let expected = sets.first[m].contains(a).then(stem);
                let found = paths(&grammar, &sets, m, a);
                assert_eq!(found, Vec::from_iter(expected), "{grammar:?}, {m} to {a}");
            }
        }
    }
}

#[test]
fn break_points_of_random_grammars_follow_from_the_paths() {
    for (grammar, sets) in accepted_grammars() {
        let prepared = Prepared::of(grammar);
        let grammar = &prepared.grammar;
        for m in grammar.nonterminals() {
            for n in grammar.nonterminals() {
                for a in grammar.terminals() {
                    let expected = slow_break_point(grammar, &sets, m, n, a);
                    assert_eq!(
                        prepared.break_point(m, n, a),
                        expected,
                        "{grammar:?} {m} {n} {a}"
                    );
                }
            }
        }
    }
}

#[test]
fn a_prediction_is_the_one_production_with_that_predictor() {
    for (grammar, sets) in accepted_grammars() {
        let prepared = Prepared::of(grammar);
        for m in prepared.grammar.nonterminals() {
            for a in 0..COLUMNS as u8 {
                let predicted = |(_, production): &(u8, &(u8, Vec<u8>))| {
                    production.0 == m && sets.predictors(production).contains(a)
                };
                let numbers = prepared
                    .grammar
                    .numbered()
                    .filter(predicted)
                    .map(|(number, _)| number);
                assert_eq!(prepared.prediction(m, a), numbers.sum());
            }
        }
    }
}

#[test]
fn bytes_of_rows_and_columns_without_a_symbol_are_0() {
    let prepared = Prepared::of(samples::reference());
    let used = count(&prepared.bytes, |byte| byte != 0);
    assert_eq!(used, 9 + 25);
    let grammar = &prepared.grammar;
    let mut inside = 0;
    for m in grammar.nonterminals() {
        inside += (0..=grammar.t)
            .filter(|&a| prepared.prediction(m, a) != 0)
            .count();
        for n in grammar.nonterminals() {
            inside += grammar
                .terminals()
                .filter(|&a| prepared.break_point(m, n, a) != 0)
                .count();
        }
    }
    assert_eq!(inside, used);
}
