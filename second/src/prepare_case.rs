//! Cases of prepare for comparing: an image, the lengths of the lent buffers,
//! the byte that fills them before the call, and the answer that is right.

use crate::calls::{self, Answer};
use crate::choices;
use crate::grammar::Grammar;
use crate::image;
use crate::prepare::prepare;
use crate::random::Random;
use crate::random_grammar;
use crate::random_ll1;
use crate::reference::IMAGE;
use crate::reply::{Reply, REPLY_BYTES};
use crate::show;
use crate::tables::TABLE_BYTES;

/// The byte with which a case of prepare begins.
const PREPARE: u8 = b'P';

/// A case of prepare.
#[derive(Debug, PartialEq)]
pub struct Case {
    pub kind: &'static str,
    pub image: Vec<u8>,
    pub tables_length: usize,
    pub reply_length: usize,
    pub fill: u8,
}

/// The cases of a seed.
pub fn cases(seed: u64) -> impl Iterator<Item = Case> {
    (0..).map(move |number| case(seed, number))
}

/// A case of a seed. The first cases are the reference image and example L;
/// of the others, every second has an LL(1) grammar without useless symbols.
fn case(seed: u64, number: usize) -> Case {
    if let Some((kind, image)) = fixed_images().into_iter().nth(number) {
        return Case {
            kind,
            image,
            tables_length: TABLE_BYTES,
            reply_length: REPLY_BYTES,
            fill: 0xaa,
        };
    }
    let mut random = Random::of_case(seed, number as u64);
    let (kind, image) = some_image(number, &mut random);
    Case {
        kind,
        image,
        tables_length: tables_length(&mut random),
        reply_length: choices::reply_length(&mut random),
        fill: choices::fill(&mut random),
    }
}

/// The reference image and the three images of example L.
fn fixed_images() -> [(&'static str, Vec<u8>); 4] {
    let mut with_n_of_6 = IMAGE.to_vec();
    with_n_of_6[3] = 6;
    let added = [0x47, 0x50, 0x0a, 0x01, 0x05];
    [
        ("reference", IMAGE.to_vec()),
        ("example L, the first 48 bytes", IMAGE[..48].to_vec()),
        ("example L, with n of 6", with_n_of_6),
        (
            "example L, with a production added",
            [&IMAGE[..], &added].concat(),
        ),
    ]
}

/// The image of a case by its number, and how it came about.
fn some_image(number: usize, random: &mut Random) -> (&'static str, Vec<u8>) {
    let whole = |grammar: &Grammar| image::records(grammar).concat();
    let grammar = match number % 8 {
        0 | 2 => random_grammar::any(random),
        _ => random_ll1::grammar(random),
    };
    match number % 8 {
        0 => ("any grammar", whole(&grammar)),
        1 => {
            let nearly = choices::nearly_ll1(random, &grammar);
            ("nearly LL(1)", whole(&nearly))
        }
        2 | 3 => choices::damaged_image(random, &grammar),
        _ => ("LL(1)", whole(&grammar)),
    }
}

/// Mostly the right length.
fn tables_length(random: &mut Random) -> usize {
    if random.once_in(6) {
        choices::tables_length(random)
    } else {
        TABLE_BYTES
    }
}

impl calls::Case for Case {
    const REPLIES: &'static [usize] = &[0, 1, 2, 3, 4];
    const WRITTEN: &'static str = "tables";
    const SIGNS: &'static [&'static str] = &[];

    /// The letter of the call, the lengths of image, tables and reply, the
    /// fill byte, the image.
    fn bytes(&self) -> Vec<u8> {
        let lengths = calls::numbers([self.image.len(), self.tables_length, self.reply_length]);
        [&[PREPARE][..], &lengths, &[self.fill], &self.image].concat()
    }

    fn before(&self) -> Answer {
        Answer {
            reply: vec![self.fill; self.reply_length],
            written: vec![self.fill; self.tables_length],
            signs: Vec::new(),
        }
    }

    fn expected(&self) -> (Reply, Answer) {
        let mut answer = self.before();
        let reply = prepare(&self.image, &mut answer.written);
        reply.write(&mut answer.reply);
        (reply, answer)
    }

    fn text(&self) -> String {
        let Case {
            kind,
            image,
            tables_length,
            reply_length,
            fill,
        } = self;
        let image = show::bytes("image", image);
        let lengths = format!("tables of {tables_length} bytes, reply of {reply_length} bytes");
        format!("{kind}\n{image}\n{lengths}, filled with {fill:02x}\n")
    }
}

#[cfg(test)]
mod tests;
