//! Derivation trees as this program holds them: a list of nodes with the root
//! first and the children of each node side by side.

use crate::tokens::Token;
use std::ops::Range;

/// A node. A leaf has production 0 and the tag of its token; any other node
/// has tag 0.
#[derive(Clone, Debug, PartialEq)]
pub struct Node {
    pub symbol: u8,
    pub production: u8,
    /// Whether no sibling stands behind the node.
    pub is_last: bool,
    pub tag: u32,
    /// The number of the parent; 0, too, for the root.
    pub parent: u16,
    /// The number of the first child, or 0 for none.
    pub first_child: u16,
}

impl Node {
    /// A node below which nothing is known yet.
    pub fn of(symbol: u8, parent: u16) -> Node {
        Node {
            symbol,
            production: 0,
            is_last: false,
            tag: 0,
            parent,
            first_child: 0,
        }
    }

    /// A root below which nothing is known yet.
    pub fn root(symbol: u8) -> Node {
        Node {
            is_last: true,
            ..Node::of(symbol, 0)
        }
    }
}

/// A derivation tree. No tree has more nodes than an area has slots.
#[derive(Clone, Debug, PartialEq)]
pub struct Derivation {
    pub nodes: Vec<Node>,
    /// The numbers of the nodes in preorder.
    pub preorder: Vec<u16>,
}

impl Derivation {
    /// How many leaves the tree has.
    pub fn leaves(&self) -> usize {
        let is_leaf = |node: &&Node| node.production == 0;
        self.nodes.iter().filter(is_leaf).count()
    }

    /// The sentence of the tree.
    pub fn tokens(&self) -> Vec<Token> {
        let nodes = self
            .preorder
            .iter()
            .map(|&node| &self.nodes[usize::from(node)]);
        let leaves = nodes.filter(|node| node.production == 0);
        leaves
            .map(|leaf| Token {
                kind: leaf.symbol,
                tag: leaf.tag,
            })
            .collect()
    }

    /// The tokens below each node, as a run of the sentence.
    pub fn runs(&self) -> Vec<Range<usize>> {
        let mut lengths = vec![0; self.nodes.len()];
        // Children have higher numbers than their parents.
        for (number, node) in self.nodes.iter().enumerate().rev() {
            lengths[number] += usize::from(node.production == 0);
            if number != 0 {
                lengths[usize::from(node.parent)] += lengths[number];
            }
        }
        let mut runs = vec![0..0; self.nodes.len()];
        let mut start = 0;
        for &number in &self.preorder {
            let number = usize::from(number);
            runs[number] = start..start + lengths[number];
            start += usize::from(self.nodes[number].production == 0);
        }
        runs
    }

    /// The slot of each node when the nodes are put, in preorder, into the
    /// slots of a list at least as long as the tree.
    pub fn in_slots(&self, slots: impl IntoIterator<Item = u16>) -> Vec<u16> {
        let mut slot_of = vec![0; self.nodes.len()];
        for (&number, slot) in self.preorder.iter().zip(slots) {
            slot_of[usize::from(number)] = slot;
        }
        slot_of
    }
}

#[cfg(test)]
mod tests {
    use super::*;

    /// A root with two children, the first of which has two children.
    fn sample() -> Derivation {
        let mut nodes = vec![Node::root(1)];
        nodes.extend(
            [(2, 0), (3, 0), (4, 1), (5, 1)].map(|(symbol, parent)| Node::of(symbol, parent)),
        );
        nodes[0].first_child = 1;
        nodes[1].first_child = 3;
        nodes[2].is_last = true;
        nodes[4].is_last = true;
        nodes[0].production = 1;
        nodes[1].production = 2;
        Derivation {
            nodes,
            preorder: vec![0, 1, 3, 4, 2],
        }
    }

    #[test]
    fn each_node_gets_the_slot_at_its_place_in_preorder() {
        assert_eq!(sample().in_slots([9, 8, 7, 6, 5]), [9, 8, 5, 7, 6]);
        assert_eq!(sample().in_slots(1..), [1, 2, 5, 3, 4]);
    }

    #[test]
    fn nodes_without_production_are_leaves() {
        assert_eq!(sample().leaves(), 3);
        let kinds: Vec<u8> = sample().tokens().iter().map(|token| token.kind).collect();
        assert_eq!(kinds, [4, 5, 3]);
    }

    #[test]
    fn the_run_of_a_node_is_that_of_its_leaves() {
        assert_eq!(sample().runs(), [0..3, 0..2, 2..3, 0..1, 1..2]);
        let mut tree = sample();
        // A node without children that is no leaf.
        tree.nodes[3].production = 1;
        assert_eq!(tree.runs(), [0..2, 0..1, 1..2, 0..0, 0..1]);
    }
}
