//! Random sentences of a grammar without useless symbols, and what its symbols
//! derive, made by leftmost derivations of about a wanted size.

use crate::grammar::Grammar;
use crate::per_symbol::PerSymbol;
use crate::random::Random;
use crate::token_damage;
use crate::tokens::Token;

/// A sentence of a great tree is cut after this many tokens or steps.
const MAX_TOKENS: usize = 1_200;
const MAX_STEPS: usize = 5_000;
/// Trees are not told apart above this size.
const GREAT: usize = 1 << 20;

/// A sentence of such kinds, with any tags.
pub fn tokens(random: &mut Random, grammar: &Grammar, nodes: usize) -> Vec<Token> {
    let kinds = kinds(random, grammar, nodes);
    with_tags(random, kinds)
}

/// The same from any nonterminal.
pub fn tokens_from(random: &mut Random, grammar: &Grammar, symbol: u8, nodes: usize) -> Vec<Token> {
    let kinds = kinds_from(random, grammar, symbol, nodes);
    with_tags(random, kinds)
}

/// Tokens of these kinds, with any tags.
fn with_tags(random: &mut Random, kinds: Vec<u8>) -> Vec<Token> {
    let with_tag = |kind| Token {
        kind,
        tag: token_damage::tag(random),
    };
    kinds.into_iter().map(with_tag).collect()
}

/// The kinds of a sentence whose tree has at most this many nodes, if there is
/// one; else of a small sentence, which may be cut.
pub fn kinds(random: &mut Random, grammar: &Grammar, nodes: usize) -> Vec<u8> {
    kinds_from(random, grammar, grammar.start, nodes)
}

/// The same from any nonterminal.
fn kinds_from(random: &mut Random, grammar: &Grammar, symbol: u8, nodes: usize) -> Vec<u8> {
    let least = least_nodes(grammar);
    let mut growth = Growth {
        grammar,
        nodes,
        needed: least[symbol],
        least,
        seldom: random.one_of(&[1, 4, 100]),
    };
    let mut kinds = Vec::new();
    let mut open = vec![symbol];
    for _ in 0..MAX_STEPS {
        let Some(symbol) = open.pop() else {
            break;
        };
        if !grammar.terminals().contains(&symbol) {
            open.extend(growth.body(random, symbol).iter().rev());
            continue;
        }
        kinds.push(symbol);
        if kinds.len() == MAX_TOKENS {
            break;
        }
    }
    kinds
}

/// A tree that grows.
struct Growth<'a> {
    grammar: &'a Grammar,
    /// How many nodes it may have.
    nodes: usize,
    /// How many nodes it has when each open symbol gets its least tree.
    needed: usize,
    least: PerSymbol<usize>,
    /// Once in so many times any body is taken that leaves the tree within
    /// its size, else the one of them that needs the most nodes.
    seldom: usize,
}

impl<'a> Growth<'a> {
    /// A body for a nonterminal. If none leaves the tree within its size, it
    /// is one that needs the fewest nodes.
    fn body(&mut self, random: &mut Random, symbol: u8) -> &'a [u8] {
        let productions = self.grammar.productions.iter();
        let of_symbol = productions.filter(|(left, _)| *left == symbol);
        let more = |body: &[u8]| tree_nodes(&self.least, body) - self.least[symbol];
        let mut bodies: Vec<(usize, &[u8])> =
            of_symbol.map(|(_, body)| (more(body), &body[..])).collect();
        bodies.sort();
        let within = bodies.partition_point(|(more, _)| self.needed + more <= self.nodes);
        let within = &bodies[..within.max(1)];
        let (more, body) = if random.once_in(self.seldom) {
            random.one_of(within)
        } else {
            within[within.len() - 1]
        };
        self.needed += more;
        body
    }
}

/// The least number of nodes of a tree from each symbol.
fn least_nodes(grammar: &Grammar) -> PerSymbol<usize> {
    let mut least = grammar.for_each_symbol(GREAT);
    grammar.terminals().for_each(|a| least[a] = 1);
    // A least tree has no nonterminal twice on a path.
    for _ in grammar.nonterminals() {
        for (left, body) in &grammar.productions {
            least[*left] = least[*left].min(tree_nodes(&least, body));
        }
    }
    least
}

/// The least number of nodes of a tree with this body below its top.
fn tree_nodes(least: &PerSymbol<usize>, body: &[u8]) -> usize {
    1 + body.iter().map(|&symbol| least[symbol]).sum::<usize>()
}

#[cfg(test)]
mod tests {
    use super::*;
    use crate::descent;
    use crate::random_ll1;
    use crate::samples;
    use crate::tables;

    #[test]
    fn the_least_trees_of_the_reference_grammar() {
        let grammar = samples::reference();
        let least = least_nodes(&grammar);
        let nodes: Vec<usize> = grammar.nonterminals().map(|symbol| least[symbol]).collect();
        assert_eq!(nodes, [1, 7, 3, 1, 1]);
    }

    #[test]
    fn sentences_are_accepted_within_their_size() {
        let mut accepted = 0;
        for case in 0..400 {
            let random = &mut Random::of_case(11, case);
            let grammar = random_ll1::grammar(random);
            let nodes = 20 + random.below(900);
            if least_nodes(&grammar)[grammar.start] > nodes {
                continue;
            }
            let tokens = samples::tokens(&kinds(random, &grammar, nodes));
            let tables = tables::of(&grammar);
            let tree = descent::parse(&grammar, &tables, &tokens, nodes);
            assert!(tree.is_ok(), "{grammar:?}: {tokens:?}");
            accepted += 1;
        }
        assert!(accepted > 300, "{accepted} accepted");
    }

    #[test]
    fn books_of_many_sizes_are_made() {
        let grammar = samples::reference();
        let lengths: Vec<usize> = (0..300)
            .map(|case| kinds(&mut Random::of_case(12, case), &grammar, 1_000).len())
            .collect();
        assert!(lengths.iter().any(|&length| length == 0));
        assert!(lengths.iter().any(|&length| (10..100).contains(&length)));
        assert!(lengths.iter().filter(|&&length| length > 300).count() > 50);
    }

    #[test]
    fn a_sentence_without_end_is_cut() {
        let productions: [(u8, &[u8]); 3] = [(2, &[3; 8]), (3, &[4; 8]), (4, &[1; 8])];
        let grammar = samples::grammar(1, 3, 2, &productions);
        let kinds = kinds(&mut Random::of_case(13, 0), &grammar, 10);
        assert_eq!(kinds, [1; 512]);
        let productions: [(u8, &[u8]); 4] =
            [(2, &[3; 8]), (3, &[4; 8]), (4, &[5; 8]), (5, &[1; 8])];
        let grammar = samples::grammar(1, 4, 2, &productions);
        let kinds = super::kinds(&mut Random::of_case(13, 0), &grammar, 10);
        assert_eq!(kinds, [1; MAX_TOKENS]);
    }
}
