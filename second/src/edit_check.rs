//! What the rules say of every accepted edit, checked on the areas before and
//! after it alone.

use crate::kept_slots::Run;
use crate::reply::Reply;
use crate::tree::{self, Header, Slot, SLOT_BYTES};

/// The rule that an accepted edit breaks, if there is one. Both areas are
/// valid trees.
pub fn broken_rule(before: &[u8], after: &[u8], run: Run, reply: Reply) -> Option<&'static str> {
    let (old, new) = (Nodes::of(before), Nodes::of(after));
    let rules = [
        ("kept and made are the new tree", counts_new(&new, reply)),
        (
            "kept and given up are the old tree",
            counts_old(&old, reply),
        ),
        (
            "what starts before the place is kept",
            keeps_before(&old, &new, run),
        ),
        (
            "what starts behind the run is carried along",
            carries_along(&old, &new, run),
        ),
    ];
    rules
        .iter()
        .find(|(_, holds)| !holds)
        .map(|(rule, _)| *rule)
}

/// The nodes of a valid tree.
struct Nodes<'a> {
    area: &'a [u8],
    used: usize,
    /// The slots in preorder.
    order: Vec<u16>,
    /// For each slot the number of its first token and that of its tokens.
    tokens: Vec<(usize, usize)>,
}

impl<'a> Nodes<'a> {
    fn of(area: &'a [u8]) -> Nodes<'a> {
        let slots = tree::slots(area.len()).expect("the length of a tree is right");
        let header = Header::read(area).expect("a tree has a header");
        let mut nodes = Nodes {
            area,
            used: header.used.into(),
            order: Vec::new(),
            tokens: vec![(0, 0); slots + 1],
        };
        nodes.visit(header.root, 0);
        nodes
    }

    /// Notes a slot and those below it; returns how many tokens come before
    /// the next one.
    fn visit(&mut self, number: u16, first: usize) -> usize {
        let slot = self.slot(number);
        self.order.push(number);
        let mut next = first + usize::from(slot.production == 0);
        let mut child = slot.first_child;
        while child != 0 {
            next = self.visit(child, next);
            child = self.slot(child).next_sibling;
        }
        self.tokens[usize::from(number)] = (first, next - first);
        next
    }

    fn slot(&self, number: u16) -> Slot {
        Slot::read(self.area, number).expect("a tree links used slots")
    }

    fn bytes(&self, number: u16) -> &[u8] {
        &self.area[usize::from(number) * SLOT_BYTES..][..SLOT_BYTES]
    }

    /// The first token of a slot that has tokens.
    fn first_token(&self, number: u16) -> Option<usize> {
        let (first, count) = self.tokens[usize::from(number)];
        (count > 0).then_some(first)
    }

    /// Whether a slot holds a node of a symbol that starts with a token.
    fn starts(&self, number: u16, symbol: u8, token: usize) -> bool {
        self.first_token(number) == Some(token) && self.slot(number).symbol == symbol
    }
}

fn counts_new(new: &Nodes, reply: Reply) -> bool {
    let total = reply.total as usize;
    (reply.kept + reply.made) as usize == total && new.used == total && new.order.len() == total
}

fn counts_old(old: &Nodes, reply: Reply) -> bool {
    (reply.kept + reply.given_up) as usize == old.used
}

/// Every node with tokens that starts before the place is kept.
fn keeps_before(old: &Nodes, new: &Nodes, run: Run) -> bool {
    old.order
        .iter()
        .all(|&number| match old.first_token(number) {
            Some(token) if token < run.place.into() => {
                new.starts(number, old.slot(number).symbol, token)
            }
            _ => true,
        })
}

/// Kept nodes that start after the removed run carry their whole subtree
/// along, and below such a subtree's top no byte changes.
fn carries_along(old: &Nodes, new: &Nodes, run: Run) -> bool {
    let [place, removed, inserted] = [run.place, run.removed, run.inserted].map(usize::from);
    let is_kept = |number: u16| match old.first_token(number) {
        Some(token) if token >= place + removed => {
            new.starts(number, old.slot(number).symbol, token - removed + inserted)
        }
        _ => false,
    };
    let mut is_carried = vec![false; old.tokens.len()];
    old.order.iter().all(|&number| {
        let Slot {
            parent,
            first_child,
            ..
        } = old.slot(number);
        let is_below = is_carried[usize::from(parent)];
        let is_top = !is_below && is_kept(number);
        is_carried[usize::from(number)] = is_below || is_top;
        (!is_below || old.bytes(number) == new.bytes(number))
            && (!is_top || new.slot(number).first_child == first_child)
    })
}

#[cfg(test)]
mod tests;
