//! Which slots an edit keeps, and which ones new nodes take.

use crate::starts::{Starts, ROOT};

/// The run of tokens that an edit replaces: where it begins, and how many
/// tokens are removed and inserted there.
#[derive(Clone, Copy)]
pub struct Run {
    pub place: u16,
    pub removed: u16,
    pub inserted: u16,
}

impl Run {
    /// The numbers of each kept token, of which there were so many with the
    /// removed ones, before and after the edit.
    fn kept_tokens(self, tokens: u16) -> impl Iterator<Item = (u16, u16)> {
        let Run {
            place,
            removed,
            inserted,
        } = self;
        let before = (0..place).zip(0..);
        let after = (place + removed..tokens).zip(place + inserted..);
        before.chain(after)
    }
}

/// The slots of the nodes of a new tree.
pub struct NewSlots {
    pub slot_of: Vec<u16>,
    pub kept: usize,
    pub made: usize,
    pub given_up: usize,
}

/// The slots of the new tree's nodes in an area with this many slots, which
/// are enough.
pub fn new_slots(old: &Starts, slot_of: &[u16], new: &Starts, run: Run, slots: usize) -> NewSlots {
    let kept_nodes = kept_nodes(old, new, run);
    let kept_slot = |node: u16| kept_nodes[usize::from(node)].map(|old| slot_of[usize::from(old)]);
    let mut is_held = vec![false; slots + 1];
    for slot in new.tree.preorder.iter().filter_map(|&node| kept_slot(node)) {
        is_held[usize::from(slot)] = true;
    }
    let is_held = |slot: u16| is_held[usize::from(slot)];
    let mut free = (1..).filter(|&slot| !is_held(slot));
    let mut made = 0;
    let slots = new.tree.preorder.iter().map(|&node| {
        kept_slot(node).unwrap_or_else(|| {
            made += 1;
            free.next().expect("numbers do not end")
        })
    });
    NewSlots {
        slot_of: new.tree.in_slots(slots),
        kept: kept_nodes.iter().flatten().count(),
        made,
        given_up: slot_of.iter().filter(|&&slot| !is_held(slot)).count(),
    }
}

/// For each node of the new tree, the node of the old one whose slot it keeps.
fn kept_nodes(old: &Starts, new: &Starts, run: Run) -> Vec<Option<u16>> {
    let mut kept = vec![None; new.tree.nodes.len()];
    for (before, after) in run.kept_tokens(old.tokens()) {
        for node in new.starting_with(after) {
            let symbol = new.symbol(node);
            let mut nodes = old.starting_with(before);
            kept[usize::from(node)] = nodes.find(|&node| old.symbol(node) == symbol);
        }
    }
    if !old.has_tokens(ROOT) && !new.has_tokens(ROOT) {
        kept[usize::from(ROOT)] = Some(ROOT);
    }
    // Parents have lower numbers than their children, and a kept one has the
    // same production in both trees.
    for node in (ROOT + 1..).take(kept.len() - 1) {
        let parent = new.tree.nodes[usize::from(node)].parent;
        if let (false, Some(old_parent)) = (new.has_tokens(node), kept[usize::from(parent)]) {
            let old_node = old.child(old_parent, new.child_number(node));
            kept[usize::from(node)] = (!old.has_tokens(old_node)).then_some(old_node);
        }
    }
    kept
}

#[cfg(test)]
mod tests;
