//! Sentences that a sentence is edited into. Most are in the language, since
//! what stands below a node gives way to what its symbol derives.

use crate::derivation::Derivation;
use crate::grammar::Grammar;
use crate::random::Random;
use crate::random_sentence;
use crate::token_damage;
use crate::tokens::Token;
use crate::tree::MAX_SLOTS;
use std::ops::Range;

/// More tokens than fit into two bytes.
const VERY_MANY: usize = 1 << 16;

/// A sentence and its tree.
pub struct Old<'a> {
    pub grammar: &'a Grammar,
    pub tree: &'a Derivation,
    pub tokens: &'a [Token],
    /// The tokens below each node.
    pub runs: &'a [Range<usize>],
}

/// Another sentence.
type Change = fn(&mut Random, &Old) -> Vec<Token>;

const CHANGES: [(&str, Change); 9] = [
    ("subtree derived anew", derived_anew),
    ("subtree derived anew", derived_anew),
    ("subtree like another", like_another),
    ("subtree like another", like_another),
    ("subtree repeated", repeated),
    ("subtree repeated", repeated),
    ("tokens changed", changed),
    ("other tags", other_tags),
    ("another sentence", another_sentence),
];

/// How often a change is tried until it changes something.
const TRIES: usize = 5;

/// The sentence after some change, or seldom without one.
pub fn other(random: &mut Random, old: &Old) -> (&'static str, Vec<Token>) {
    match random.below(60) {
        0 => ("no tokens", Vec::new()),
        1 => ("too many tokens", too_many(random, old)),
        2..6 => ("the same sentence", old.tokens.to_vec()),
        _ => {
            let (kind, change) = random.one_of(&CHANGES);
            for _ in 0..TRIES {
                let sentence = change(random, old);
                if sentence != old.tokens {
                    return (kind, sentence);
                }
            }
            ("subtree derived anew", derived_anew(random, old))
        }
    }
}

impl Old<'_> {
    /// The sentence with other tokens in place of a run.
    fn with(&self, run: &Range<usize>, tokens: &[Token]) -> Vec<Token> {
        let (before, after) = (&self.tokens[..run.start], &self.tokens[run.end..]);
        [before, tokens, after].concat()
    }

    fn some_node(&self, random: &mut Random) -> usize {
        random.below(self.tree.nodes.len())
    }

    fn symbol(&self, node: usize) -> u8 {
        self.tree.nodes[node].symbol
    }

    fn parent(&self, node: usize) -> Option<usize> {
        (node != 0).then(|| self.tree.nodes[node].parent.into())
    }

    /// Two nodes of the same symbol, one below the other, if there are any.
    fn nested(&self, random: &mut Random) -> Option<(usize, usize)> {
        let inner = self.some_node(random);
        let above = std::iter::successors(self.parent(inner), |&node| self.parent(node));
        let is_alike = |&node: &usize| self.symbol(node) == self.symbol(inner);
        let alike: Vec<usize> = above.filter(is_alike).collect();
        (!alike.is_empty()).then(|| (random.one_of(&alike), inner))
    }

    /// What stands between an outer node and an inner one, so many times.
    fn repeated(&self, (outer, inner): (usize, usize), times: usize) -> Vec<Token> {
        let (outer, inner) = (&self.runs[outer], &self.runs[inner]);
        let before = self.tokens[outer.start..inner.start].repeat(times);
        let after = self.tokens[inner.end..outer.end].repeat(times);
        let middle = &self.tokens[inner.clone()];
        self.with(outer, &[&before, middle, &after].concat())
    }
}

/// What stands below a node becomes something else that its symbol derives.
fn derived_anew(random: &mut Random, old: &Old) -> Vec<Token> {
    let node = old.some_node(random);
    let is_leaf = old.tree.nodes[node].production == 0;
    let node = old.parent(node).filter(|_| is_leaf).unwrap_or(node);
    let nodes = random.one_of(&[1, 6, 30, 200, MAX_SLOTS]);
    let tokens = random_sentence::tokens_from(random, old.grammar, old.symbol(node), nodes);
    old.with(&old.runs[node], &tokens)
}

/// What stands below a node becomes a copy of what stands below another one of
/// the same symbol.
fn like_another(random: &mut Random, old: &Old) -> Vec<Token> {
    let node = old.some_node(random);
    let nodes = 0..old.tree.nodes.len();
    let is_alike = |&other: &usize| old.symbol(other) == old.symbol(node);
    let alike: Vec<usize> = nodes.filter(is_alike).collect();
    let other = random.one_of(&alike);
    old.with(&old.runs[node], &old.tokens[old.runs[other].clone()])
}

/// What stands between two nodes of the same symbol, one below the other, goes
/// or comes again.
fn repeated(random: &mut Random, old: &Old) -> Vec<Token> {
    match old.nested(random) {
        Some(nodes) => old.repeated(nodes, random.one_of(&[0, 0, 2, 3, 10])),
        None => like_another(random, old),
    }
}

/// Up to three changes of single tokens or of runs.
fn changed(random: &mut Random, old: &Old) -> Vec<Token> {
    let mut tokens = old.tokens.to_vec();
    for _ in 0..=random.below(3) {
        token_damage::changed(random, old.grammar.t, &mut tokens);
    }
    tokens
}

/// What stands below a node gets other tags.
fn other_tags(random: &mut Random, old: &Old) -> Vec<Token> {
    let mut tokens = old.tokens.to_vec();
    let run = old.runs[old.some_node(random)].clone();
    let tagged = tokens[run].iter_mut();
    tagged.for_each(|token| token.tag = token_damage::tag(random));
    tokens
}

/// Any sentence, of any size.
fn another_sentence(random: &mut Random, old: &Old) -> Vec<Token> {
    let nodes = 1 + random.below(MAX_SLOTS);
    random_sentence::tokens(random, old.grammar, nodes)
}

/// A sentence with more tokens than there can be slots, of the language if the
/// tree allows, seldom with more than fit into two bytes.
fn too_many(random: &mut Random, old: &Old) -> Vec<Token> {
    let wanted = random.one_of(&[MAX_SLOTS, MAX_SLOTS, 3 * MAX_SLOTS, VERY_MANY]);
    let wanted = wanted + random.below(10);
    let nodes = old.nested(random);
    let length = nodes.map_or(0, |(outer, inner)| {
        old.runs[outer].len() - old.runs[inner].len()
    });
    match nodes {
        Some(nodes) if length > 0 => old.repeated(nodes, wanted / length + 1),
        _ => vec![token_damage::any(random, old.grammar.t); wanted + 1],
    }
}

#[cfg(test)]
mod tests {
    use super::*;
    use crate::descent;
    use crate::random_lists;
    use crate::tables;
    use std::collections::HashMap;

    #[test]
    fn most_changes_stay_in_the_language() {
        let mut made: HashMap<&str, [usize; 2]> = HashMap::new();
        let mut longest = 0;
        for case in 0..3_000 {
            let random = &mut Random::of_case(61, case);
            let grammar = random_lists::grammar(random);
            let tables = tables::of(&grammar);
            let tokens = random_sentence::tokens(random, &grammar, 200);
            let parse = |tokens: &[Token]| descent::parse(&grammar, &tables, tokens, MAX_SLOTS);
            let tree = parse(&tokens).expect("a sentence");
            let old = Old {
                grammar: &grammar,
                tree: &tree,
                tokens: &tokens,
                runs: &tree.runs(),
            };
            let (kind, tokens) = other(random, &old);
            longest = longest.max(tokens.len());
            let is_refused = parse(&tokens).is_err_and(|refusal| refusal.number == 9);
            made.entry(kind).or_default()[usize::from(is_refused)] += 1;
        }
        assert_eq!(made.len(), 9, "{made:?}");
        assert!(longest > VERY_MANY);
        for (kind, [accepted, refused]) in made {
            assert!(accepted > 5, "{kind}");
            let may_leave = ["tokens changed", "no tokens", "too many tokens"].contains(&kind);
            assert!(may_leave || refused == 0, "{kind}: {refused} refused");
        }
    }
}
