//! What the cases of several calls choose alike: grammars, bad images, slots,
//! and the lengths and the fill byte of lent buffers.

use crate::damage;
use crate::derivation::Derivation;
use crate::descent;
use crate::grammar::{Grammar, MAX_BODY, MAX_NONTERMINALS, MAX_PRODUCTIONS};
use crate::image;
use crate::random::Random;
use crate::random_grammar;
use crate::random_ll1;
use crate::reference;
use crate::reply::{Reply, REPLY_BYTES};
use crate::tables::TABLE_BYTES;
use crate::tokens::Token;
use crate::tree::{self, area_bytes, MAX_SLOTS};

/// Tables and replies of a case are shorter than these.
const TABLES_BOUND: usize = 70_000;
const REPLY_BOUND: usize = 41;

/// The reference grammar or, mostly, any LL(1) grammar.
pub fn ll1_grammar(random: &mut Random) -> (&'static str, Grammar) {
    if random.once_in(6) {
        ("reference grammar", reference::grammar())
    } else {
        ("LL(1)", random_ll1::grammar(random))
    }
}

/// The image of another LL(1) grammar: any, or one with the same productions in
/// another order.
pub fn other_ll1_image(random: &mut Random, grammar: &Grammar) -> (&'static str, Vec<u8>) {
    let (kind, other) = if random.once_in(2) {
        ("foreign grammar", ll1_grammar(random).1)
    } else {
        let mut other = grammar.clone();
        random.shuffle(&mut other.productions);
        ("productions in another order", other)
    };
    (kind, image::records(&other).concat())
}

/// An image that most calls refuse: a damaged one, one that is nearly LL(1),
/// or any.
pub fn bad_image(random: &mut Random, grammar: &Grammar) -> (&'static str, Vec<u8>) {
    let whole = |grammar: &Grammar| image::records(grammar).concat();
    match random.below(3) {
        0 => damaged_image(random, grammar),
        1 => ("nearly LL(1)", whole(&nearly_ll1(random, grammar))),
        _ => ("any grammar", whole(&random_grammar::any(random))),
    }
}

/// The image of a grammar with any fault or change.
pub fn damaged_image(random: &mut Random, grammar: &Grammar) -> (&'static str, Vec<u8>) {
    let kind = random.below(damage::KINDS);
    let damage::Case { kind, image, .. } = damage::of_kind(kind, grammar, random);
    (kind, image)
}

/// A grammar one change away from one that is LL(1): a production more or
/// fewer, a nonterminal more, or another start symbol.
pub fn nearly_ll1(random: &mut Random, grammar: &Grammar) -> Grammar {
    let mut grammar = grammar.clone();
    let Grammar { t, n, .. } = grammar;
    let productions = &mut grammar.productions;
    match random.below(4) {
        0 if productions.len() < MAX_PRODUCTIONS => {
            productions.push(random_grammar::production(random, t, n, 0..=MAX_BODY));
        }
        1 if n < MAX_NONTERMINALS => grammar.n += 1,
        2 => grammar.start = random.between(t + 1, t + n),
        _ => drop(productions.remove(random.below(productions.len()))),
    }
    grammar
}

/// Often as many slots as are needed to accept a sentence or to refuse it by
/// reply 9, or some more, or one too few; else any number.
pub fn slots(
    random: &mut Random,
    grammar: &Grammar,
    tables: &[u8],
    tokens: &[Token],
) -> (&'static str, usize) {
    let needed = least_slots(grammar, tables, tokens);
    let (kind, slots) = match random.below(6) {
        0 => ("just enough slots", needed),
        1 => ("one slot too few", needed - 1),
        2 => ("some slots more", needed + random.below(20)),
        3 | 4 => ("most slots", MAX_SLOTS),
        _ => ("any slots", 1 + random.below(MAX_SLOTS)),
    };
    (kind, slots.clamp(1, MAX_SLOTS))
}

/// The least number of slots with which the reply is not 10, or one more than
/// there can be.
fn least_slots(grammar: &Grammar, tables: &[u8], tokens: &[Token]) -> usize {
    let is_full = |slots| descent::parse(grammar, tables, tokens, slots) == Err(Reply::NO_ROOM);
    let (mut too_few, mut enough) = (0, MAX_SLOTS + 1);
    while too_few + 1 < enough {
        let middle = (too_few + enough) / 2;
        if is_full(middle) {
            too_few = middle;
        } else {
            enough = middle;
        }
    }
    enough
}

/// A tree in an area of this many slots, which are enough: in the first slots
/// or in any, in preorder or in any order.
pub fn in_any_slots(random: &mut Random, derivation: &Derivation, slots: usize) -> Vec<u8> {
    let mut order: Vec<u16> = (1..=slots as u16).collect();
    if !random.once_in(4) {
        random.shuffle(&mut order);
    }
    if random.once_in(4) {
        order.truncate(derivation.nodes.len());
        order.sort();
    }
    let mut area = vec![0; area_bytes(slots)];
    tree::write(derivation, &derivation.in_slots(order), &mut area);
    area
}

/// A length of tables that is mostly wrong: none, next to the right one, or any.
pub fn tables_length(random: &mut Random) -> usize {
    let any = random.below(TABLES_BOUND);
    random.one_of(&[0, 1, TABLE_BYTES - 1, TABLE_BYTES + 1, any])
}

/// The length of a whole reply, or any.
pub fn reply_length(random: &mut Random) -> usize {
    let any = random.below(REPLY_BOUND);
    random.one_of(&[REPLY_BYTES, any])
}

pub fn fill(random: &mut Random) -> u8 {
    let any = random.between(0, u8::MAX);
    random.one_of(&[0x00, 0xaa, 0xff, any])
}
