//! The call read back: it writes the tokens of a tree, or gives the first of
//! replies 1, 2, 3, 5 and 11 that applies.

use crate::prepare;
use crate::reply::Reply;
use crate::tokens::{self, TOKEN_BYTES};
use crate::tree;

/// Writes the tokens of a tree to the beginning of the output. A refusal
/// leaves the output as it was.
pub fn read_back(image: &[u8], area: &[u8], output: &mut [u8]) -> Reply {
    let total = check_and_write(image, area, output);
    total.map_or_else(|refusal| refusal, Reply::read_back)
}

/// The number of nodes of the tree, or the refusal.
fn check_and_write(image: &[u8], area: &[u8], output: &mut [u8]) -> Result<usize, Reply> {
    let (grammar, _) = prepare::ll1_grammar(image)?;
    let contents = tree::read(&grammar, area).ok_or(Reply::WRONG_AREA)?;
    let needed = TOKEN_BYTES * contents.tokens.len();
    let output = output
        .get_mut(..needed)
        .ok_or(Reply::short_output(needed))?;
    tokens::write(&contents.tokens, output);
    Ok(contents.total)
}

#[cfg(test)]
mod tests;
