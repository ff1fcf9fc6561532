//! Cases of read back for comparing: what is lent, and the answer that is
//! right.

use crate::area_damage;
use crate::calls::{self, Answer};
use crate::choices;
use crate::derivation::Derivation;
use crate::descent;
use crate::grammar::Grammar;
use crate::image;
use crate::random::Random;
use crate::random_sentence;
use crate::read_back::read_back;
use crate::reference::{self, IMAGE};
use crate::reply::{Reply, REPLY_BYTES};
use crate::show;
use crate::tables;
use crate::tokens::{self, Token, TOKEN_BYTES};
use crate::tree::{self, area_bytes, MAX_SLOTS};

/// The byte with which a case of read back begins.
const READ_BACK: u8 = b'R';

/// Outputs are longer than needed by less than this.
const SURPLUS_BOUND: usize = 100;

/// A case of read back.
#[derive(Debug, PartialEq)]
pub struct Case {
    pub kind: String,
    pub image: Vec<u8>,
    pub area: Vec<u8>,
    pub output_length: usize,
    pub reply_length: usize,
    pub fill: u8,
}

/// The cases of a seed.
pub fn cases(seed: u64) -> impl Iterator<Item = Case> {
    (0..).map(move |number| case(seed, number))
}

/// A case of a seed. The first cases are the trees of the empty sentence, of U
/// and of V; of the others, every third has a tree as it was written.
fn case(seed: u64, number: usize) -> Case {
    if let Some(case) = example(number) {
        return case;
    }
    let random = &mut Random::of_case(seed, number as u64);
    let (kind, grammar, derivation) = some_tree(random);
    let mut kinds = vec![kind];
    let slots = some_slots(random, derivation.nodes.len());
    let mut area = choices::in_any_slots(random, &derivation, slots);
    let output_length = some_output_length(random, derivation.leaves());
    let mut image = image::records(&grammar).concat();
    if number % 3 != 0 {
        kinds.push(area_damage::changed(random, &grammar, &mut area));
    }
    if random.once_in(4) {
        let (kind, other) = match random.below(5) {
            0 | 1 => choices::other_ll1_image(random, &grammar),
            _ => choices::bad_image(random, &grammar),
        };
        image = other;
        kinds.push(kind);
    }
    Case {
        kind: kinds.join(", "),
        image,
        area,
        output_length,
        reply_length: choices::reply_length(random),
        fill: choices::fill(random),
    }
}

/// The case of the empty sentence, of U or of V.
fn example(number: usize) -> Option<Case> {
    let examples: [(&str, &[u8]); 3] = [
        ("the empty sentence", &[]),
        ("U", &[1, 2, 5]),
        ("V", &[1, 2, 5, 1, 2, 5]),
    ];
    let (kind, kinds) = *examples.get(number)?;
    let grammar = reference::grammar();
    let tokens = tokens::numbered(kinds.iter().copied());
    let derivation = derivation(&grammar, &tokens)?;
    let mut area = vec![0; area_bytes(MAX_SLOTS)];
    tree::write(&derivation, &derivation.in_slots(1..), &mut area);
    Some(Case {
        kind: kind.to_string(),
        image: IMAGE.to_vec(),
        area,
        output_length: TOKEN_BYTES * tokens.len(),
        reply_length: REPLY_BYTES,
        fill: 0xaa,
    })
}

/// A grammar and the tree of one of its sentences.
fn some_tree(random: &mut Random) -> (&'static str, Grammar, Derivation) {
    loop {
        let (kind, grammar) = choices::ll1_grammar(random);
        let nodes = random.one_of(&[10, 40, 40, 300, MAX_SLOTS]);
        let tokens = random_sentence::tokens(random, &grammar, nodes);
        // The least tree of a grammar may be too large.
        if let Some(derivation) = derivation(&grammar, &tokens) {
            return (kind, grammar, derivation);
        }
    }
}

/// The tree of a sentence, if it fits.
fn derivation(grammar: &Grammar, tokens: &[Token]) -> Option<Derivation> {
    descent::parse(grammar, &tables::of(grammar), tokens, MAX_SLOTS).ok()
}

/// As many slots as a tree has nodes, or more.
fn some_slots(random: &mut Random, nodes: usize) -> usize {
    let few = nodes + random.below(10);
    let any = nodes + random.below(MAX_SLOTS - nodes + 1);
    let slots = random.one_of(&[nodes, few, few, any, MAX_SLOTS]);
    slots.min(MAX_SLOTS)
}

/// Mostly enough for this many tokens, often just so.
fn some_output_length(random: &mut Random, tokens: usize) -> usize {
    let needed = TOKEN_BYTES * tokens;
    let less = random.below(needed + 1);
    let more = needed + random.below(SURPLUS_BOUND);
    if random.once_in(4) {
        random.one_of(&[0, needed.saturating_sub(1), less])
    } else {
        random.one_of(&[needed, needed, needed + 1, more])
    }
}

impl calls::Case for Case {
    const REPLIES: &'static [usize] = &[0, 1, 2, 3, 5, 11];
    const WRITTEN: &'static str = "output";
    const SIGNS: &'static [&'static str] = &["image and tree unchanged"];

    /// The letter of the call, the lengths of image, tree, output and reply,
    /// the fill byte, the image, the tree area.
    fn bytes(&self) -> Vec<u8> {
        let lengths = calls::numbers([
            self.image.len(),
            self.area.len(),
            self.output_length,
            self.reply_length,
        ]);
        let parts = [
            &[READ_BACK][..],
            &lengths,
            &[self.fill],
            &self.image,
            &self.area,
        ];
        parts.concat()
    }

    fn before(&self) -> Answer {
        Answer {
            reply: vec![self.fill; self.reply_length],
            written: vec![self.fill; self.output_length],
            signs: vec![1],
        }
    }

    fn expected(&self) -> (Reply, Answer) {
        let mut answer = self.before();
        let reply = read_back(&self.image, &self.area, &mut answer.written);
        reply.write(&mut answer.reply);
        (reply, answer)
    }

    fn text(&self) -> String {
        let Case {
            kind,
            image,
            area,
            output_length,
            reply_length,
            fill,
        } = self;
        let image = show::bytes("image", image);
        let area = show::bytes("tree", area);
        let lengths = format!("output of {output_length} bytes, reply of {reply_length} bytes");
        format!("{kind}\n{image}\n{area}\n{lengths}, filled with {fill:02x}\n")
    }
}

#[cfg(test)]
mod tests;
