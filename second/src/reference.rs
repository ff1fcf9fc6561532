//! The reference grammar and its image. Terminals: 1 allow, 2 host, 3 comma,
//! 4 except, 5 semicolon; nonterminals 6 Book, 7 Rule, 8 List, 9 Rest, 10 Bar;
//! start 6.

use crate::grammar::Grammar;
use crate::image;

/// How many bytes the reference image has.
pub const IMAGE_BYTES: usize = 49;

/// The head, then the eight productions.
#[rustfmt::skip]
pub const IMAGE: [u8; IMAGE_BYTES] = [
    0x47, 0x48, 5, 5, 6,
    0x47, 0x50, 6, 2, 7, 6,
    0x47, 0x50, 6, 0,
    0x47, 0x50, 7, 4, 1, 8, 10, 5,
    0x47, 0x50, 8, 2, 2, 9,
    0x47, 0x50, 9, 2, 3, 8,
    0x47, 0x50, 9, 0,
    0x47, 0x50, 10, 2, 4, 8,
    0x47, 0x50, 10, 0,
];

/// The reference grammar.
pub fn grammar() -> Grammar {
    image::read(&IMAGE).expect("the reference image is good")
}
