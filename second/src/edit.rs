//! The call edit: it puts other tokens in the place of a run of a tree's
//! tokens, or gives the first of replies 1 to 10 that applies.

use crate::descent;
use crate::grammar::Grammar;
use crate::kept_slots::{self, NewSlots, Run};
use crate::parse;
use crate::prepare;
use crate::reply::Reply;
use crate::starts::Starts;
use crate::tokens::{self, Token};
use crate::tree;
use std::ops::Range;

/// What an edit is asked: at a place so many tokens are removed, and those of
/// the bytes are put there.
#[derive(Clone, Copy, Debug)]
pub struct Change<'a> {
    pub place: u32,
    pub removed: u32,
    pub token_bytes: &'a [u8],
}

/// Changes the tokens of a tree. A refusal leaves the area as it was; the work
/// area becomes zero.
pub fn edit(
    image: &[u8],
    tables: &[u8],
    area: &mut [u8],
    change: Change,
    work: &mut [u8],
) -> Reply {
    work.fill(0);
    let reply = check_and_alter(image, tables, area, change, work.len());
    reply.unwrap_or_else(|refusal| refusal)
}

/// The reply with its counts, or the refusal.
fn check_and_alter(
    image: &[u8],
    tables: &[u8],
    area: &mut [u8],
    change: Change,
    work_length: usize,
) -> Result<Reply, Reply> {
    let (grammar, sets) = prepare::ll1_grammar(image)?;
    if !parse::are_prepared(&grammar, &sets, tables) {
        return Err(Reply::WRONG_TABLES);
    }
    let old = tree::read(&grammar, area).ok_or(Reply::WRONG_AREA)?.tokens;
    parse::check_work(area.len(), work_length)?;
    let inserted = tokens::read(change.token_bytes, grammar.t).map_err(Reply::bad_token)?;
    let run = removed_run(change, old.len()).ok_or(Reply::out_of_range(old.len()))?;
    alter(&grammar, tables, area, &old, run, &inserted)
}

/// The removed run, if it lies within so many tokens.
fn removed_run(change: Change, tokens: usize) -> Option<Range<usize>> {
    let end = u64::from(change.place) + u64::from(change.removed);
    (end <= tokens as u64).then_some(change.place as usize..end as usize)
}

/// Edits alone, when all that is lent has been checked: the reply with its
/// counts, or reply 9 or 10.
fn alter(
    grammar: &Grammar,
    tables: &[u8],
    area: &mut [u8],
    old_tokens: &[Token],
    run: Range<usize>,
    inserted: &[Token],
) -> Result<Reply, Reply> {
    let slots = tree::slots(area.len()).expect("the length of the area is right");
    let sentence = [&old_tokens[..run.start], inserted, &old_tokens[run.end..]].concat();
    let new_tree = descent::parse(grammar, tables, &sentence, slots)?;
    let (old_tree, old_slot_of) = tree::derivation(area);
    let run = Run {
        place: run.start as u16,
        removed: run.len() as u16,
        inserted: inserted.len() as u16,
    };
    let (old, new) = (Starts::of(&old_tree), Starts::of(&new_tree));
    let NewSlots {
        slot_of,
        kept,
        made,
        given_up,
    } = kept_slots::new_slots(&old, &old_slot_of, &new, run, slots);
    tree::write(&new_tree, &slot_of, area);
    Ok(Reply::edited(new_tree.nodes.len(), kept, made, given_up))
}

#[cfg(test)]
mod tests;
