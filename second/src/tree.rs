//! Tree areas: a header of 16 bytes, then S slots of 16 bytes, the first of
//! which is slot 1. A tree is written into any slots, and a valid area gives
//! its tree and slots again; reading finds the sentence of a valid tree, and
//! nothing in any other area.

use crate::derivation::{Derivation, Node};
use crate::grammar::Grammar;
use crate::tokens::Token;

/// The most slots that an area has.
pub const MAX_SLOTS: usize = 1_000;
/// The length of the header and of each slot, so that slot s begins at byte
/// s times this.
pub const SLOT_BYTES: usize = 16;

/// The mark of the header.
pub const TREE_MARK: [u8; 2] = [0x54, 0x52];
/// The mark of a used slot.
pub const NODE_MARK: [u8; 2] = [0x4e, 0x44];
/// A free slot.
const FREE: [u8; SLOT_BYTES] = [0; SLOT_BYTES];

/// The length of an area with this many slots.
pub const fn area_bytes(slots: usize) -> usize {
    SLOT_BYTES + SLOT_BYTES * slots
}

/// How many slots an area of this length has, if the length is right.
pub fn slots(length: usize) -> Option<usize> {
    let slots = (length / SLOT_BYTES).checked_sub(1)?;
    let is_right = (1..=MAX_SLOTS).contains(&slots) && area_bytes(slots) == length;
    is_right.then_some(slots)
}

/// The header of an area.
#[derive(Clone, Copy, Debug, PartialEq)]
pub struct Header {
    pub root: u16,
    pub used: u16,
    pub tokens: u16,
}

impl Header {
    fn bytes(self) -> [u8; SLOT_BYTES] {
        let Header { root, used, tokens } = self;
        let numbers = [root, used, tokens].map(u16::to_le_bytes);
        let mut bytes = [0; SLOT_BYTES];
        bytes[..2].copy_from_slice(&TREE_MARK);
        bytes[2..8].copy_from_slice(numbers.as_flattened());
        bytes
    }

    pub fn write(self, area: &mut [u8]) {
        area[..SLOT_BYTES].copy_from_slice(&self.bytes());
    }

    /// The header if it has its mark and its zeros.
    pub fn read(area: &[u8]) -> Option<Header> {
        let bytes = area.first_chunk::<SLOT_BYTES>()?;
        let header = Header {
            root: number(bytes, 2),
            used: number(bytes, 4),
            tokens: number(bytes, 6),
        };
        (header.bytes() == *bytes).then_some(header)
    }
}

/// A used slot; 0 stands for no parent, child or sibling.
#[derive(Clone, Copy, Debug, PartialEq)]
pub struct Slot {
    pub symbol: u8,
    pub production: u8,
    pub parent: u16,
    pub first_child: u16,
    pub next_sibling: u16,
    pub tag: u32,
}

impl Slot {
    fn bytes(self) -> [u8; SLOT_BYTES] {
        let [mark_0, mark_1] = NODE_MARK;
        let [parent_0, parent_1] = self.parent.to_le_bytes();
        let [child_0, child_1] = self.first_child.to_le_bytes();
        let [next_0, next_1] = self.next_sibling.to_le_bytes();
        let [tag_0, tag_1, tag_2, tag_3] = self.tag.to_le_bytes();
        #[rustfmt::skip]
        let bytes = [
            mark_0, mark_1, self.symbol, self.production, parent_0, parent_1,
            child_0, child_1, next_0, next_1, tag_0, tag_1, tag_2, tag_3, 0, 0,
        ];
        bytes
    }

    pub fn write(self, area: &mut [u8], slot: u16) {
        let start = usize::from(slot) * SLOT_BYTES;
        area[start..start + SLOT_BYTES].copy_from_slice(&self.bytes());
    }

    /// The slot of this number in an area, if the area has it and it has its
    /// mark and its zeros.
    pub fn read(area: &[u8], slot: u16) -> Option<Slot> {
        let start = usize::from(slot) * SLOT_BYTES;
        let bytes = area.get(start..)?.first_chunk::<SLOT_BYTES>()?;
        let slot = Slot {
            symbol: bytes[2],
            production: bytes[3],
            parent: number(bytes, 4),
            first_child: number(bytes, 6),
            next_sibling: number(bytes, 8),
            tag: u32::from(number(bytes, 10)) | u32::from(number(bytes, 12)) << 16,
        };
        let is_used = bytes[..2] == NODE_MARK && bytes[14..] == [0; 2];
        is_used.then_some(slot)
    }
}

/// The little-endian number in two bytes.
fn number(bytes: &[u8], at: usize) -> u16 {
    u16::from_le_bytes([bytes[at], bytes[at + 1]])
}

/// Writes a tree into an area, each node into the slot given for it; all other
/// slots become free.
pub fn write(derivation: &Derivation, slot_of: &[u16], area: &mut [u8]) {
    let header = Header {
        root: slot_of[0],
        used: derivation.nodes.len() as u16,
        tokens: derivation.leaves() as u16,
    };
    area.fill(0);
    header.write(area);
    for ((number, node), &slot) in (0..).zip(&derivation.nodes).zip(slot_of) {
        let link = |is_there: bool, number: u16| {
            if is_there {
                slot_of[usize::from(number)]
            } else {
                0
            }
        };
        let content = Slot {
            symbol: node.symbol,
            production: node.production,
            parent: link(number != 0, node.parent),
            first_child: link(node.first_child != 0, node.first_child),
            next_sibling: link(!node.is_last, number + 1),
            tag: node.tag,
        };
        content.write(area, slot);
    }
}

/// The tree of a valid area and the slot of each node: the inverse of writing.
pub fn derivation(area: &[u8]) -> (Derivation, Vec<u16>) {
    let content = |slot: u16| Slot::read(area, slot).expect("a valid tree links used slots");
    let header = Header::read(area).expect("a valid tree has a header");
    let used = usize::from(header.used);
    let mut nodes = Vec::with_capacity(used);
    let mut slot_of = Vec::with_capacity(used);
    let mut preorder = Vec::with_capacity(used);
    nodes.push(Node::root(content(header.root).symbol));
    slot_of.push(header.root);
    let mut open = vec![0];
    while let Some(number) = open.pop() {
        preorder.push(number);
        let slot = content(slot_of[usize::from(number)]);
        let first = nodes.len() as u16;
        let mut child = slot.first_child;
        while child != 0 {
            let Slot {
                symbol,
                next_sibling,
                ..
            } = content(child);
            nodes.push(Node {
                is_last: next_sibling == 0,
                ..Node::of(symbol, number)
            });
            slot_of.push(child);
            child = next_sibling;
        }
        open.extend((first..nodes.len() as u16).rev());
        let node = &mut nodes[usize::from(number)];
        node.production = slot.production;
        node.tag = slot.tag;
        node.first_child = if slot.first_child == 0 { 0 } else { first };
    }
    (Derivation { nodes, preorder }, slot_of)
}

/// What a valid tree holds.
#[derive(Clone, Debug, PartialEq)]
pub struct Contents {
    /// How many nodes the tree has.
    pub total: usize,
    /// Its sentence.
    pub tokens: Vec<Token>,
}

/// What an area holds, if it has a right length and is a valid tree of the
/// grammar.
pub fn read(grammar: &Grammar, area: &[u8]) -> Option<Contents> {
    let slots = slots(area.len())?;
    let header = Header::read(area)?;
    let mut walk = Walk {
        grammar,
        area,
        is_reached: vec![false; slots + 1],
        total: 0,
        tokens: Vec::new(),
    };
    let beside_root = walk.subtree(header.root, 0, grammar.start)?;
    let is_valid = beside_root == 0
        && walk.total == usize::from(header.used)
        && walk.tokens.len() == usize::from(header.tokens)
        && walk.others_are_free();
    is_valid.then_some(Contents {
        total: walk.total,
        tokens: walk.tokens,
    })
}

/// A walk along the links of an area.
struct Walk<'a> {
    grammar: &'a Grammar,
    area: &'a [u8],
    is_reached: Vec<bool>,
    total: usize,
    tokens: Vec<Token>,
}

impl Walk<'_> {
    /// The next sibling of a slot, if the slot is reached for the first time
    /// and is the top of a derivation tree from the symbol, with this parent.
    fn subtree(&mut self, number: u16, parent: u16, symbol: u8) -> Option<u16> {
        self.reach(number)?;
        let slot = Slot::read(self.area, number)?;
        if slot.symbol != symbol || slot.parent != parent {
            return None;
        }
        if self.grammar.terminals().contains(&symbol) {
            self.leaf(slot)?;
        } else {
            self.children(number, slot)?;
        }
        Some(slot.next_sibling)
    }

    /// Notes that a slot is reached, if there is such a slot and it was not
    /// reached before.
    fn reach(&mut self, number: u16) -> Option<()> {
        let is_reached = self.is_reached.get_mut(usize::from(number))?;
        if number == 0 || *is_reached {
            return None;
        }
        *is_reached = true;
        self.total += 1;
        Some(())
    }

    /// A leaf has neither production nor child.
    fn leaf(&mut self, slot: Slot) -> Option<()> {
        self.tokens.push(Token {
            kind: slot.symbol,
            tag: slot.tag,
        });
        (slot.production == 0 && slot.first_child == 0).then_some(())
    }

    /// Any other node has tag 0, a production of its symbol, and a child for
    /// each symbol of the body, and no more.
    fn children(&mut self, number: u16, slot: Slot) -> Option<()> {
        let grammar = self.grammar;
        let index = usize::from(slot.production).checked_sub(1)?;
        let (left, body) = grammar.productions.get(index)?;
        if slot.tag != 0 || *left != slot.symbol {
            return None;
        }
        let mut child = slot.first_child;
        for &symbol in body {
            child = self.subtree(child, number, symbol)?;
        }
        (child == 0).then_some(())
    }

    /// Whether every slot that was not reached is free.
    fn others_are_free(&self) -> bool {
        let slots = self.area.chunks_exact(SLOT_BYTES);
        let mut reached = slots.zip(&self.is_reached).skip(1);
        reached.all(|(slot, &is_reached)| is_reached || *slot == FREE)
    }
}

#[cfg(test)]
mod tests;
