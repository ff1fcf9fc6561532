//! Grammars for the tests.

use crate::grammar::Grammar;
use crate::image;
use crate::tokens::{self, Token};

pub use crate::reference::grammar as reference;

/// A grammar from its parts.
pub fn grammar(t: u8, n: u8, start: u8, productions: &[(u8, &[u8])]) -> Grammar {
    let productions = productions
        .iter()
        .map(|(left, body)| (*left, body.to_vec()))
        .collect();
    Grammar {
        t,
        n,
        start,
        productions,
    }
}

/// The image of a grammar from its parts.
pub fn image(t: u8, n: u8, start: u8, productions: &[(u8, &[u8])]) -> Vec<u8> {
    image::records(&grammar(t, n, start, productions)).concat()
}

/// Tokens of these kinds, no two with the same tag.
pub fn tokens(kinds: &[u8]) -> Vec<Token> {
    let tagged = kinds.iter().zip(0x0a00_0000..);
    tagged.map(|(&kind, tag)| Token { kind, tag }).collect()
}

/// The bytes of such tokens.
pub fn token_bytes(kinds: &[u8]) -> Vec<u8> {
    tokens::bytes(&tokens(kinds))
}

/// Figure 4 of source document 000. Terminals: 1 plus, 2 times, 3 id;
/// nonterminals 4 E, 5 X, 6 T, 7 Y, 8 F.
pub fn expressions() -> Grammar {
    let productions: [(u8, &[u8]); 7] = [
        (4, &[6, 5]),
        (5, &[]),
        (5, &[1, 4]),
        (6, &[8, 7]),
        (7, &[]),
        (7, &[2, 6]),
        (8, &[3]),
    ];
    grammar(3, 5, 4, &productions)
}
