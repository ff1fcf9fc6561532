//! Changes of a sentence, after which it may still be in the language, and
//! faults of its bytes, after which it is no list of tokens.

use crate::random::Random;
use crate::tokens::{Token, TOKEN_BYTES};

/// A change of a sentence over terminals 1..t.
type Change = fn(&mut Random, u8, &mut Vec<Token>);

const CHANGES: [(&str, Change); 9] = [
    ("token changed", change),
    ("token removed", remove),
    ("token inserted", insert),
    ("tokens cut off", cut),
    ("token at the end", append),
    ("tokens exchanged", exchange),
    ("tokens repeated", repeat),
    ("other tags", other_tags),
    ("any tokens", replace_all),
];

/// A fault of the bytes of tokens over terminals 1..t.
type Fault = fn(&mut Random, u8, &mut Vec<u8>);

const FAULTS: [(&str, Fault); 5] = [
    ("kind 0", |random, _, bytes| set_kind(random, bytes, 0)),
    ("kind above t", kind_above_t),
    ("bytes cut inside a record", cut_record),
    ("stray bytes at the end", stray_bytes),
    ("two faults", two_faults),
];

/// Changes a sentence in any way.
pub fn changed(random: &mut Random, t: u8, tokens: &mut Vec<Token>) -> &'static str {
    let (kind, change) = random.one_of(&CHANGES);
    change(random, t, tokens);
    kind
}

/// Spoils the bytes of tokens in any way.
pub fn spoiled(random: &mut Random, t: u8, bytes: &mut Vec<u8>) -> &'static str {
    let (kind, spoil) = random.one_of(&FAULTS);
    spoil(random, t, bytes);
    kind
}

/// A token of any good kind.
pub fn any(random: &mut Random, t: u8) -> Token {
    let kind = random.between(1, t);
    let tag = tag(random);
    Token { kind, tag }
}

/// Any tag, often 0, a small one or the greatest.
pub fn tag(random: &mut Random) -> u32 {
    let any = random.number() as u32;
    random.one_of(&[0, any % 100, u32::MAX, any])
}

fn change(random: &mut Random, t: u8, tokens: &mut Vec<Token>) {
    if tokens.is_empty() {
        return append(random, t, tokens);
    }
    let place = random.below(tokens.len());
    tokens[place] = any(random, t);
}

fn remove(random: &mut Random, _: u8, tokens: &mut Vec<Token>) {
    if !tokens.is_empty() {
        tokens.remove(random.below(tokens.len()));
    }
}

fn insert(random: &mut Random, t: u8, tokens: &mut Vec<Token>) {
    let place = random.below(tokens.len() + 1);
    tokens.insert(place, any(random, t));
}

fn cut(random: &mut Random, _: u8, tokens: &mut Vec<Token>) {
    tokens.truncate(random.below(tokens.len() + 1));
}

fn append(random: &mut Random, t: u8, tokens: &mut Vec<Token>) {
    tokens.push(any(random, t));
}

fn exchange(random: &mut Random, _: u8, tokens: &mut Vec<Token>) {
    if !tokens.is_empty() {
        let (one, other) = (random.below(tokens.len()), random.below(tokens.len()));
        tokens.swap(one, other);
    }
}

/// Puts some tokens in once more, right behind themselves.
fn repeat(random: &mut Random, _: u8, tokens: &mut Vec<Token>) {
    let last = random.below(tokens.len() + 1);
    let first = random.below(last + 1);
    let again = tokens[first..last].to_vec();
    tokens.splice(last..last, again);
}

fn other_tags(random: &mut Random, _: u8, tokens: &mut Vec<Token>) {
    tokens.iter_mut().for_each(|token| token.tag = tag(random));
}

fn replace_all(random: &mut Random, t: u8, tokens: &mut Vec<Token>) {
    let count = random.below(20);
    *tokens = (0..count).map(|_| any(random, t)).collect();
}

fn set_kind(random: &mut Random, bytes: &mut Vec<u8>, kind: u8) {
    if bytes.is_empty() {
        bytes.resize(TOKEN_BYTES, 0);
    }
    let record = random.below(bytes.len().div_ceil(TOKEN_BYTES));
    bytes[record * TOKEN_BYTES] = kind;
}

fn kind_above_t(random: &mut Random, t: u8, bytes: &mut Vec<u8>) {
    let above = random.between(t + 1, u8::MAX);
    let kind = random.one_of(&[t + 1, above, u8::MAX]);
    set_kind(random, bytes, kind);
}

fn cut_record(random: &mut Random, t: u8, bytes: &mut Vec<u8>) {
    if bytes.is_empty() {
        return stray_bytes(random, t, bytes);
    }
    let record = random.below(bytes.len().div_ceil(TOKEN_BYTES));
    bytes.truncate(record * TOKEN_BYTES + 1 + random.below(TOKEN_BYTES - 1));
}

fn stray_bytes(random: &mut Random, t: u8, bytes: &mut Vec<u8>) {
    let count = random.below(TOKEN_BYTES - 1);
    bytes.push(random.between(1, t));
    bytes.extend(random.bytes(count));
}

fn two_faults(random: &mut Random, t: u8, bytes: &mut Vec<u8>) {
    kind_above_t(random, t, bytes);
    let (_, spoil) = random.one_of(&FAULTS[..4]);
    spoil(random, t, bytes);
}

#[cfg(test)]
mod tests {
    use super::*;
    use crate::samples;
    use crate::tokens;

    #[test]
    fn changes_leave_good_kinds_and_faults_do_not() {
        for case in 0..3_000 {
            let random = &mut Random::of_case(41, case);
            let length = random.below(8);
            let mut sentence = samples::tokens(&[1, 2, 5, 1, 2, 4, 2, 5][..length]);
            changed(random, 5, &mut sentence);
            let mut bytes = tokens::bytes(&sentence);
            assert_eq!(tokens::read(&bytes, 5), Ok(sentence));
            let kind = spoiled(random, 5, &mut bytes);
            assert!(tokens::read(&bytes, 5).is_err(), "{kind}: {bytes:?}");
        }
    }

    #[test]
    fn each_change_changes_something() {
        for (kind, change) in CHANGES {
            let sentence = samples::tokens(&[1, 2, 5]);
            let is_changed = |case| {
                let mut tokens = sentence.clone();
                change(&mut Random::of_case(42, case), 5, &mut tokens);
                tokens != sentence
            };
            assert!((0..20).any(is_changed), "{kind}");
        }
    }

    #[test]
    fn faults_reach_every_record() {
        let mut places = [false; 4];
        for case in 0..500 {
            let mut bytes = samples::token_bytes(&[1, 2, 5]);
            spoiled(&mut Random::of_case(43, case), 5, &mut bytes);
            let place = tokens::read(&bytes, 5).expect_err("a fault");
            places[place] = true;
        }
        assert_eq!(places, [true; 4]);
    }
}
