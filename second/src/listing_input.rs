//! Inputs of the program `listing` for comparing: books, changed books, bytes
//! that are no tokens, and inputs at and above the greatest length.

use crate::compare::Input;
use crate::listing::MAX_INPUT;
use crate::random::Random;
use crate::random_sentence;
use crate::reference;
use crate::token_damage;
use crate::tokens::{self, Token};
use crate::tree::MAX_SLOTS;

/// An input of a seed. The first are the empty one and the one of the rules.
pub fn input(seed: u64, number: usize) -> Input {
    let example = [1, 0, 0, 0, 0, 2, 7, 0, 0, 0, 5, 0, 0, 0, 0];
    let fixed = [
        ("empty sentence", Vec::new()),
        ("example", example.to_vec()),
    ];
    let random = &mut Random::of_case(seed, number as u64);
    let (kind, bytes) = match fixed.into_iter().nth(number) {
        Some((kind, bytes)) => (kind.to_string(), bytes),
        None => some_input(random, number),
    };
    Input { kind, bytes }
}

fn some_input(random: &mut Random, number: usize) -> (String, Vec<u8>) {
    let grammar = reference::grammar();
    let nodes = random.one_of(&[10, 50, 300, MAX_SLOTS, MAX_SLOTS + 300]);
    let mut tokens = random_sentence::tokens(random, &grammar, nodes);
    match number % 5 {
        0 => ("book".to_string(), tokens::bytes(&tokens)),
        1 | 2 => {
            let changes = 1 + random.below(2);
            let kinds: Vec<&str> = (0..changes)
                .map(|_| token_damage::changed(random, grammar.t, &mut tokens))
                .collect();
            (kinds.join(", "), tokens::bytes(&tokens))
        }
        3 => {
            let mut bytes = tokens::bytes(&tokens);
            let kind = token_damage::spoiled(random, grammar.t, &mut bytes);
            (kind.to_string(), bytes)
        }
        _ => {
            let length = some_great_length(random);
            ("great length".to_string(), lengthened(tokens, length))
        }
    }
}

/// The greatest length of an input, one next to it, or more.
fn some_great_length(random: &mut Random) -> usize {
    let more = MAX_INPUT + random.below(2 * MAX_INPUT);
    let next = MAX_INPUT - 5 + random.below(11);
    random.one_of(&[MAX_INPUT, MAX_INPUT - 1, MAX_INPUT + 1, next, more])
}

/// Tokens over and over, up to a length.
fn lengthened(tokens: Vec<Token>, length: usize) -> Vec<u8> {
    let one_rule = [1, 2, 5].map(|kind| Token { kind, tag: 0 });
    let book = [&tokens[..], &one_rule].concat();
    tokens::bytes(&book)
        .into_iter()
        .cycle()
        .take(length)
        .collect()
}

#[cfg(test)]
mod tests {
    use super::*;
    use crate::listing::listing;

    #[test]
    fn inputs_reach_every_outcome_and_length() {
        let inputs: Vec<Vec<u8>> = (0..500).map(|number| input(1, number).bytes).collect();
        for length in [0, 15, 4_999, 5_000, 5_001] {
            assert!(inputs.iter().any(|input| input.len() == length), "{length}");
        }
        assert!(inputs.iter().any(|input| input.len() > 10_000));
        let texts: Vec<String> = inputs.iter().map(|input| listing(input)).collect();
        let outcomes = [
            "accepted ",
            "refused 7 1000 0",
            "refused 7 ",
            "refused 9 ",
            "refused 10 ",
        ];
        for outcome in outcomes {
            let count = texts
                .iter()
                .filter(|text| text.starts_with(outcome))
                .count();
            assert!(count > 30, "{outcome}: {count}");
        }
        assert!(texts.iter().any(|text| text.lines().count() > 900));
    }

    #[test]
    fn seed_and_number_settle_an_input() {
        for number in 0..50 {
            assert_eq!(input(5, number).bytes, input(5, number).bytes);
        }
        assert!((2..50).any(|number| input(5, number).bytes != input(6, number).bytes));
    }
}
