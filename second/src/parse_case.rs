//! Cases of parse for comparing: what is lent, and the answer that is right.

use crate::calls::{self, Answer};
use crate::choices;
use crate::grammar::Grammar;
use crate::lent::{self, Lent, Tables};
use crate::parse::{self, WORK_AREAS};
use crate::random::Random;
use crate::random_sentence;
use crate::reference::IMAGE;
use crate::reply::{Reply, REPLY_BYTES};
use crate::tables;
use crate::token_damage;
use crate::tokens::{self, Token};
use crate::tree::{area_bytes, MAX_SLOTS};

/// The byte with which a case of parse begins.
const PARSE: u8 = b'S';

/// Tree areas of a wrong length are shorter than this.
const AREA_BOUND: usize = 20_000;

/// A case of parse.
#[derive(Debug, PartialEq)]
pub struct Case {
    pub kind: String,
    pub lent: Lent,
}

/// The cases of a seed.
pub fn cases(seed: u64) -> impl Iterator<Item = Case> {
    (0..).map(move |number| case(seed, number))
}

/// A case of a seed. The first cases are examples C to F; of the others, every
/// third has many faults at once.
fn case(seed: u64, number: usize) -> Case {
    if let Some(case) = example(number) {
        return case;
    }
    let random = &mut Random::of_case(seed, number as u64);
    let seldom = if number % 3 == 0 { 3 } else { 20 };
    let (kind, grammar) = choices::ll1_grammar(random);
    let mut kinds = vec![kind];
    let sentence = some_sentence(random, &grammar, &mut kinds);
    let tables = tables::of(&grammar);
    let (kind, slots) = choices::slots(random, &grammar, &tables, &sentence);
    kinds.push(kind);
    let area = earlier_contents(random, &grammar, slots);
    let mut lent = Lent::right(random, &grammar, &sentence, area);
    kinds.extend(lent.spoil(random, &grammar, seldom, wrong_area_length));
    Case {
        kind: kinds.join(", "),
        lent,
    }
}

/// The case of one of examples C to F.
fn example(number: usize) -> Option<Case> {
    let examples: [(&str, &[u8], usize); 6] = [
        ("example C", &[], MAX_SLOTS),
        ("example D, 9 slots", &[1, 2, 5], 9),
        ("example D, 8 slots", &[1, 2, 5], 8),
        ("example E, 9 slots", &[1, 2], 9),
        ("example E, 8 slots", &[1, 2], 8),
        ("example F", &[1, 2, 4, 2, 4], MAX_SLOTS),
    ];
    let (kind, kinds, slots) = *examples.get(number)?;
    let tokens = tokens::numbered(kinds.iter().copied());
    Some(Case {
        kind: kind.to_string(),
        lent: Lent {
            image: IMAGE.to_vec(),
            tables: Tables::RIGHT,
            tokens: tokens::bytes(&tokens),
            area: vec![0xaa; area_bytes(slots)],
            work_length: WORK_AREAS * area_bytes(slots),
            reply_length: REPLY_BYTES,
            fill: 0xaa,
        },
    })
}

/// A sentence of the grammar, every second one with up to three changes.
fn some_sentence(
    random: &mut Random,
    grammar: &Grammar,
    kinds: &mut Vec<&'static str>,
) -> Vec<Token> {
    let nodes = random.one_of(&[10, 50, 300, MAX_SLOTS, MAX_SLOTS, MAX_SLOTS + 300]);
    let mut tokens = random_sentence::tokens(random, grammar, nodes);
    if random.once_in(2) {
        for _ in 0..=random.below(3) {
            kinds.push(token_damage::changed(random, grammar.t, &mut tokens));
        }
    }
    tokens
}

/// Cuts or lengthens an area.
fn wrong_area_length(random: &mut Random, area: &mut Vec<u8>) -> &'static str {
    let near = area.len() - 15 + random.below(31);
    let any = random.below(AREA_BOUND);
    let too_long = area_bytes(MAX_SLOTS + 1);
    let lengths = [0, 1, 15, 16, 17, near, near, any, too_long, too_long - 1];
    area.resize(random.one_of(&lengths), choices::fill(random));
    "wrong area"
}

/// An area of fill bytes, any bytes, zeros, or a tree of the grammar.
fn earlier_contents(random: &mut Random, grammar: &Grammar, slots: usize) -> Vec<u8> {
    let length = area_bytes(slots);
    match random.below(6) {
        0 => random.bytes(length),
        1 => vec![0; length],
        2 => earlier_tree(random, grammar, slots),
        _ => vec![choices::fill(random); length],
    }
}

/// A tree of the grammar in an area, if some sentence fits; else zeros.
fn earlier_tree(random: &mut Random, grammar: &Grammar, slots: usize) -> Vec<u8> {
    let tokens = random_sentence::tokens(random, grammar, slots);
    let mut area = vec![0; area_bytes(slots)];
    // A refusal leaves the zeros.
    parse::write_tree(grammar, &tables::of(grammar), &tokens, &mut area).ok();
    area
}

impl calls::Case for Case {
    const REPLIES: &'static [usize] = &[0, 1, 2, 3, 4, 5, 6, 7, 9, 10];
    const WRITTEN: &'static str = lent::WRITTEN;
    const SIGNS: &'static [&'static str] = lent::SIGNS;

    /// The letter of the call, then what is lent.
    fn bytes(&self) -> Vec<u8> {
        [&[PARSE][..], &self.lent.bytes()].concat()
    }

    fn before(&self) -> Answer {
        self.lent.before()
    }

    fn expected(&self) -> (Reply, Answer) {
        let Lent { image, tokens, .. } = &self.lent;
        self.lent
            .expected(|tables, area, work| parse::parse(image, tables, tokens, area, work))
    }

    fn text(&self) -> String {
        format!("{}\n{}", self.kind, self.lent.text())
    }
}

#[cfg(test)]
mod tests;
