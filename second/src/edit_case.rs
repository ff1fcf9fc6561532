//! Cases of edit for comparing: runs of edits on one tree, in which each finds
//! the tree as the accepted ones before it left it.

use crate::area_damage;
use crate::calls::{self, Answer, Case as _};
use crate::choices;
use crate::descent;
use crate::edit::{edit, Change};
use crate::edit_check;
use crate::grammar::Grammar;
use crate::kept_slots::Run;
use crate::lent::{self, Lent, Tables};
use crate::limits;
use crate::other_sentence::{self, Old};
use crate::parse::{self, WORK_AREAS};
use crate::random::Random;
use crate::random_lists;
use crate::random_sentence;
use crate::reference::{self, IMAGE};
use crate::reply::{Reply, REPLY_BYTES};
use crate::splice::{self, Splice};
use crate::tables;
use crate::tokens::{self, TOKEN_BYTES};
use crate::tree::{self, area_bytes, MAX_SLOTS};

/// The byte with which a case of edit begins.
const EDIT: u8 = b'E';

/// How many edits are made on one tree.
const EDITS: usize = 50;
/// Of a case that is made wrong, each thing becomes so once in so many times.
const SELDOM: usize = 3;

/// A case of edit.
#[derive(Debug, PartialEq)]
pub struct Case {
    pub kind: String,
    pub place: u32,
    pub removed: u32,
    pub lent: Lent,
}

/// The cases of a seed. The first are examples G to K.
pub fn cases(seed: u64) -> impl Iterator<Item = Case> {
    let trees = (0..).map(move |number| EditedTree::new(seed, number));
    examples()
        .into_iter()
        .chain(trees.flat_map(|tree| tree.take(EDITS)))
}

/// The cases of examples G to K.
fn examples() -> [Case; 6] {
    let (u, v) = (&[1, 2, 5][..], &[1, 2, 5, 1, 2, 5][..]);
    let examples: [(&str, &[u8], u32, u32, &[u8]); 6] = [
        ("example G", u, 2, 0, &[4, 2]),
        ("example H", v, 0, 3, &[]),
        ("example I", v, 2, 2, &[3]),
        ("example J", v, 2, 2, &[]),
        ("example K, in range", u, 3, 0, &[]),
        ("example K, out of range", u, 3, 1, &[]),
    ];
    let grammar = reference::grammar();
    let tables = tables::of(&grammar);
    examples.map(|(kind, old, place, removed, new)| {
        let mut area = vec![0; area_bytes(MAX_SLOTS)];
        let old = tokens::numbered(old.iter().copied());
        parse::write_tree(&grammar, &tables, &old, &mut area).expect("U and V are sentences");
        Case {
            kind: kind.to_string(),
            place,
            removed,
            lent: Lent {
                image: IMAGE.to_vec(),
                tables: Tables::RIGHT,
                tokens: tokens::bytes(&tokens::numbered(new.iter().copied())),
                work_length: WORK_AREAS * area.len(),
                area,
                reply_length: REPLY_BYTES,
                fill: 0xaa,
            },
        }
    })
}

/// A tree on which edits are made, one after another.
struct EditedTree {
    random: Random,
    kind: &'static str,
    grammar: Grammar,
    tables: Vec<u8>,
    area: Vec<u8>,
}

impl EditedTree {
    /// A tree of a sentence of any size.
    fn new(seed: u64, number: u64) -> EditedTree {
        let mut random = Random::of_case(seed, number);
        loop {
            let (kind, grammar) = some_grammar(&mut random);
            let tables = tables::of(&grammar);
            let nodes = random.one_of(&[10, 40, 200, MAX_SLOTS]);
            let tokens = random_sentence::tokens(&mut random, &grammar, nodes);
            // The least tree of a grammar may be too large.
            let Ok(tree) = descent::parse(&grammar, &tables, &tokens, MAX_SLOTS) else {
                continue;
            };
            let room = nodes.max(tree.nodes.len());
            let slots = random.one_of(&[room, room + 10, 2 * room, MAX_SLOTS]);
            let area = choices::in_any_slots(&mut random, &tree, slots.min(MAX_SLOTS));
            return EditedTree {
                random,
                kind,
                grammar,
                tables,
                area,
            };
        }
    }
}

/// A grammar of lists, the reference grammar, any LL(1) grammar, or one at the
/// limits.
fn some_grammar(random: &mut Random) -> (&'static str, Grammar) {
    match random.below(16) {
        0..9 => ("lists", random_lists::grammar(random)),
        9 if random.once_in(4) => ("longest chain", limits::chain()),
        9 => ("largest grammar", limits::largest()),
        10..13 => ("reference grammar", reference::grammar()),
        _ => choices::ll1_grammar(random),
    }
}

impl Iterator for EditedTree {
    type Item = Case;

    /// Edits the tree. Once in some times the tree moves to another area
    /// before, and once in some times there is something wrong; the tree then
    /// stays as it is.
    fn next(&mut self) -> Option<Case> {
        let random = &mut self.random;
        let (tree, _) = tree::derivation(&self.area);
        let tokens = tree.tokens();
        let old = Old {
            grammar: &self.grammar,
            tree: &tree,
            tokens: &tokens,
            runs: &tree.runs(),
        };
        let (kind, sentence) = other_sentence::other(random, &old);
        let mut kinds = vec![self.kind, kind];
        if random.once_in(6) {
            let (kind, slots) = choices::slots(random, &self.grammar, &self.tables, &sentence);
            kinds.push(kind);
            self.area = choices::in_any_slots(random, &tree, slots.max(tree.nodes.len()));
        }
        let splice = splice::between(random, &tokens, &sentence);
        let mut case = Case::new(random, &self.grammar, splice, self.area.clone());
        if random.once_in(6) {
            kinds.extend(case.spoil(random, &self.grammar, tokens.len()));
        } else {
            let (reply, answer) = case.expected();
            if reply.is_accepted() {
                self.area = answer.written;
            }
        }
        case.kind = kinds.join(", ");
        Some(case)
    }
}

impl Case {
    /// Nothing wrong, and of no kind yet.
    fn new(random: &mut Random, grammar: &Grammar, splice: Splice, area: Vec<u8>) -> Case {
        Case {
            kind: String::new(),
            place: splice.place as u32,
            removed: splice.removed as u32,
            lent: Lent::right(random, grammar, &splice.inserted, area),
        }
    }

    /// Makes some of it wrong; so many tokens are there.
    fn spoil(
        &mut self,
        random: &mut Random,
        grammar: &Grammar,
        tokens: usize,
    ) -> Vec<&'static str> {
        let change_area =
            |random: &mut Random, area: &mut Vec<u8>| area_damage::changed(random, grammar, area);
        let mut kinds = self.lent.spoil(random, grammar, SELDOM, change_area);
        if random.once_in(3 * SELDOM) {
            let (kind, other) = choices::other_ll1_image(random, grammar);
            self.lent.image = other;
            kinds.push(kind);
        }
        if random.once_in(SELDOM) {
            (self.place, self.removed) = out_of_range(random, tokens as u32);
            kinds.push("out of range");
        }
        kinds
    }

    fn change(&self) -> Change<'_> {
        Change {
            place: self.place,
            removed: self.removed,
            token_bytes: &self.lent.tokens,
        }
    }

    /// The replaced run, if the edit is accepted.
    pub fn run(&self) -> Run {
        Run {
            place: self.place as u16,
            removed: self.removed as u16,
            inserted: (self.lent.tokens.len() / TOKEN_BYTES) as u16,
        }
    }
}

/// A place and a number removed that reach beyond so many tokens, often so far
/// that a sum of 32 bits does not show it.
fn out_of_range(random: &mut Random, tokens: u32) -> (u32, u32) {
    let within = random.below(tokens as usize + 1) as u32;
    let any = random.number() as u32;
    let high = u32::MAX - any % 8;
    random.one_of(&[
        (within, tokens - within + 1),
        (tokens + 1, 0),
        (high, 0),
        (within, high),
        (high, within.wrapping_sub(high)),
        (within.wrapping_sub(high), high),
        (any, within.wrapping_sub(any)),
        (1 << 31, 1 << 31),
        (high, high),
    ])
}

impl calls::Case for Case {
    const REPLIES: &'static [usize] = &[0, 1, 2, 3, 4, 5, 6, 7, 8, 9, 10];
    const WRITTEN: &'static str = lent::WRITTEN;
    const SIGNS: &'static [&'static str] = lent::SIGNS;

    /// The letter of the call, place and number removed, then what is lent.
    fn bytes(&self) -> Vec<u8> {
        let numbers = calls::numbers([self.place as usize, self.removed as usize]);
        [&[EDIT][..], &numbers, &self.lent.bytes()].concat()
    }

    fn before(&self) -> Answer {
        self.lent.before()
    }

    fn expected(&self) -> (Reply, Answer) {
        let (image, change) = (&self.lent.image, self.change());
        self.lent
            .expected(|tables, area, work| edit(image, tables, area, change, work))
    }

    fn broken_rule(&self, reply: Reply, answer: &Answer) -> Option<&'static str> {
        if !reply.is_accepted() {
            return None;
        }
        edit_check::broken_rule(&self.lent.area, &answer.written, self.run(), reply)
    }

    fn text(&self) -> String {
        let Case {
            kind,
            place,
            removed,
            lent,
        } = self;
        format!("{kind}\nplace {place}, removed {removed}\n{}", lent.text())
    }
}

#[cfg(test)]
mod tests;
