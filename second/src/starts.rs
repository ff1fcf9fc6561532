//! Which token each node of a tree starts with.

use crate::derivation::Derivation;

/// The number of the root.
pub const ROOT: u16 = 0;

/// A tree and the tokens that its nodes start with, numbered from 0.
pub struct Starts<'a> {
    pub tree: &'a Derivation,
    /// The leaf of each token.
    leaf: Vec<u16>,
    /// The first token of each node that has tokens.
    first_token: Vec<Option<u16>>,
}

impl<'a> Starts<'a> {
    pub fn of(tree: &'a Derivation) -> Starts<'a> {
        let is_leaf = |&number: &u16| tree.nodes[usize::from(number)].production == 0;
        let leaf: Vec<u16> = tree.preorder.iter().copied().filter(is_leaf).collect();
        let mut first_token = vec![None; tree.nodes.len()];
        for (token, &leaf) in (0..).zip(&leaf) {
            // Where an earlier token has been before, the way up is known.
            let mut number = usize::from(leaf);
            while first_token[number].is_none() {
                first_token[number] = Some(token);
                number = usize::from(tree.nodes[number].parent);
            }
        }
        Starts {
            tree,
            leaf,
            first_token,
        }
    }

    /// How many tokens the tree has.
    pub fn tokens(&self) -> u16 {
        self.leaf.len() as u16
    }

    pub fn first_token(&self, node: u16) -> Option<u16> {
        self.first_token[usize::from(node)]
    }

    pub fn has_tokens(&self, node: u16) -> bool {
        self.first_token(node).is_some()
    }

    pub fn symbol(&self, node: u16) -> u8 {
        self.tree.nodes[usize::from(node)].symbol
    }

    /// The nodes that start with a token, from its leaf up.
    pub fn starting_with(&self, token: u16) -> impl Iterator<Item = u16> + '_ {
        let leaf = self.leaf[usize::from(token)];
        std::iter::successors(Some(leaf), move |&number| {
            let parent = self.tree.nodes[usize::from(number)].parent;
            (number != ROOT && self.first_token(parent) == Some(token)).then_some(parent)
        })
    }

    /// The child of this number, from 0, of a node that has so many.
    pub fn child(&self, parent: u16, number: u16) -> u16 {
        self.tree.nodes[usize::from(parent)].first_child + number
    }

    /// The number of a node among its siblings, from 0.
    pub fn child_number(&self, node: u16) -> u16 {
        let parent = self.tree.nodes[usize::from(node)].parent;
        node - self.tree.nodes[usize::from(parent)].first_child
    }
}

#[cfg(test)]
mod tests {
    use super::*;
    use crate::descent;
    use crate::samples;
    use crate::tables;

    #[test]
    fn nodes_of_a_book_start_where_their_first_leaf_is() {
        let grammar = samples::reference();
        let tokens = samples::tokens(&[1, 2, 5, 1, 2, 5]);
        let tree = descent::parse(&grammar, &tables::of(&grammar), &tokens, 17).expect("V");
        let starts = Starts::of(&tree);
        let first: Vec<Option<u16>> = tree
            .preorder
            .iter()
            .map(|&node| starts.first_token(node))
            .collect();
        #[rustfmt::skip]
        let expected = [
            Some(0), Some(0), Some(0), Some(1), Some(1), None, None, Some(2),
            Some(3), Some(3), Some(3), Some(4), Some(4), None, None, Some(5), None,
        ];
        assert_eq!(first, expected);
        assert_eq!(starts.tokens(), 6);
        let symbols = |token| -> Vec<u8> {
            let nodes = starts.starting_with(token);
            nodes.map(|node| starts.symbol(node)).collect()
        };
        assert_eq!(symbols(0), [1, 7, 6]);
        assert_eq!(symbols(1), [2, 8]);
        assert_eq!(symbols(3), [1, 7, 6]);
        assert_eq!(symbols(5), [5]);
    }

    #[test]
    fn nodes_start_behind_empty_ones() {
        let productions: [(u8, &[u8]); 4] = [(2, &[3, 4, 1]), (3, &[4, 4]), (4, &[]), (2, &[])];
        let grammar = samples::grammar(1, 3, 2, &productions);
        let tables = tables::of(&grammar);
        let tree = descent::parse(&grammar, &tables, &samples::tokens(&[1]), 9).expect("a tree");
        let starts = Starts::of(&tree);
        let nodes: Vec<u16> = starts.starting_with(0).collect();
        assert_eq!(nodes, [3, ROOT]);
        assert_eq!((starts.child(ROOT, 2), starts.child_number(3)), (3, 2));
        assert!([1, 2, 4, 5].iter().all(|&node| !starts.has_tokens(node)));
        let tree = descent::parse(&grammar, &tables, &[], 9).expect("a tree");
        assert!(!Starts::of(&tree).has_tokens(ROOT));
    }
}
