//! Random LL(1) grammars of lists in lists, with long chains of single symbols
//! and with nonterminals that often or always derive nothing.

use crate::grammar::{Grammar, Production, MAX_NONTERMINALS, MAX_TERMINALS};
use crate::random::Random;

/// A level adds at most this many nonterminals and terminals.
const LEVEL_NONTERMINALS: u8 = 3;
const LEVEL_TERMINALS: u8 = 2;
/// The last level adds this many terminals.
const LAST_TERMINALS: u8 = 3;
/// While a grammar is made, nonterminals are numbered from here on.
const FIRST_NONTERMINAL: u8 = 100;

/// A level gives a symbol its productions, with another symbol below it.
type Level = fn(&mut Growing, u8, u8);

const LEVELS: [Level; 8] = [
    |growing, left, next| growing.add(left, &[next]),
    |growing, left, next| {
        let a = growing.terminal();
        growing.add(left, &[next]);
        growing.add(left, &[a]);
    },
    |growing, left, next| growing.separated(left, next, left),
    |growing, left, next| growing.separated(left, next, next),
    Growing::bracketed,
    |growing, left, next| {
        let optional = growing.optional();
        growing.add(left, &[optional, next]);
    },
    |growing, left, next| {
        let optional = growing.optional();
        growing.add(left, &[next, optional]);
    },
    Growing::amid_nothing,
];

/// A grammar of any number of levels, which may be of one, of two or of all
/// sorts; its symbols and productions are numbered in any order.
pub fn grammar(random: &mut Random) -> Grammar {
    let mut growing = Growing::default();
    let top = growing.nonterminal();
    let mut start = top;
    if !random.once_in(4) {
        start = growing.nonterminal();
        growing.add(start, &[top, start]);
        growing.add(start, &[]);
    }
    let mut lowest = top;
    let first = random.below(LEVELS.len());
    let sorts = random.one_of(&[1, 2, LEVELS.len()]);
    for _ in 0..random.one_of(&[1, 2, 4, 8, 32]) {
        let sort = (first + random.below(sorts)) % LEVELS.len();
        if growing.has_room_for_a_level() {
            let next = growing.nonterminal();
            LEVELS[sort](&mut growing, lowest, next);
            lowest = next;
        }
    }
    growing.last_level(lowest, top);
    growing.numbered(random, start)
}

/// A grammar that grows by levels. No symbol of a level derives nothing, and
/// no terminal stands in two levels, so that no two bodies share a predictor.
#[derive(Default)]
struct Growing {
    t: u8,
    n: u8,
    productions: Vec<Production>,
}

impl Growing {
    fn terminal(&mut self) -> u8 {
        self.t += 1;
        self.t
    }

    fn nonterminal(&mut self) -> u8 {
        self.n += 1;
        FIRST_NONTERMINAL + self.n - 1
    }

    fn add(&mut self, left: u8, body: &[u8]) {
        self.productions.push((left, body.to_vec()));
    }

    /// A nonterminal that derives a new terminal or nothing.
    fn optional(&mut self) -> u8 {
        let (optional, a) = (self.nonterminal(), self.terminal());
        self.add(optional, &[a]);
        self.add(optional, &[]);
        optional
    }

    fn has_room_for_a_level(&self) -> bool {
        self.n + LEVEL_NONTERMINALS <= MAX_NONTERMINALS
            && self.t + LEVEL_TERMINALS + LAST_TERMINALS <= MAX_TERMINALS
    }

    /// Elements with separators between them: behind a separator comes the
    /// whole list again, or an element and the rest.
    fn separated(&mut self, list: u8, element: u8, behind: u8) {
        let (rest, separator) = (self.nonterminal(), self.terminal());
        self.add(list, &[element, rest]);
        if behind == list {
            self.add(rest, &[separator, list]);
        } else {
            self.add(rest, &[separator, element, rest]);
        }
        self.add(rest, &[]);
    }

    /// Any number of elements in brackets.
    fn bracketed(&mut self, list: u8, element: u8) {
        let (open, close) = (self.terminal(), self.terminal());
        let elements = self.nonterminal();
        self.add(list, &[open, elements, close]);
        self.add(elements, &[element, elements]);
        self.add(elements, &[]);
    }

    /// A symbol amid others that always derive nothing.
    fn amid_nothing(&mut self, left: u8, next: u8) {
        let (outer, inner) = (self.nonterminal(), self.nonterminal());
        self.add(left, &[outer, inner, next, outer]);
        self.add(outer, &[inner, inner]);
        self.add(inner, &[]);
    }

    /// A word, or the whole in brackets.
    fn last_level(&mut self, lowest: u8, top: u8) {
        let (word, open, close) = (self.terminal(), self.terminal(), self.terminal());
        self.add(lowest, &[word]);
        self.add(lowest, &[open, top, close]);
    }

    /// The grammar with its symbols and productions in any order.
    fn numbered(mut self, random: &mut Random, start: u8) -> Grammar {
        let Growing { t, n, .. } = self;
        let mut terminals: Vec<u8> = (1..=t).collect();
        let mut nonterminals: Vec<u8> = (t + 1..=t + n).collect();
        random.shuffle(&mut terminals);
        random.shuffle(&mut nonterminals);
        random.shuffle(&mut self.productions);
        let number = |symbol: u8| match symbol.checked_sub(FIRST_NONTERMINAL) {
            Some(row) => nonterminals[usize::from(row)],
            None => terminals[usize::from(symbol) - 1],
        };
        let production = |(left, body): Production| {
            let body = body.into_iter().map(number).collect();
            (number(left), body)
        };
        Grammar {
            t,
            n,
            start: number(start),
            productions: self.productions.into_iter().map(production).collect(),
        }
    }
}

#[cfg(test)]
mod tests {
    use super::*;
    use crate::descent;
    use crate::image;
    use crate::prepare;
    use crate::random_sentence;
    use crate::sets::Sets;
    use crate::tables;

    fn grammars() -> impl Iterator<Item = Grammar> {
        (0..600).map(|case| grammar(&mut Random::of_case(14, case)))
    }

    #[test]
    fn every_one_is_accepted() {
        for grammar in grammars() {
            let image = image::records(&grammar).concat();
            assert!(prepare::ll1_grammar(&image).is_ok(), "{grammar:?}");
        }
    }

    #[test]
    fn some_are_as_large_as_can_be() {
        assert!(grammars().any(|grammar| grammar.n == MAX_NONTERMINALS));
        assert!(grammars().any(|grammar| grammar.t >= MAX_TERMINALS - LEVEL_TERMINALS));
    }

    #[test]
    fn most_have_nonterminals_that_may_derive_nothing() {
        let may = |grammar: &Grammar| !Sets::of(grammar).nullable.is_empty();
        assert!(grammars().filter(may).count() > 500);
    }

    #[test]
    fn trees_are_deep_and_have_many_tokens() {
        let mut deepest = 0;
        let mut longest = 0;
        for (case, grammar) in grammars().enumerate() {
            let random = &mut Random::of_case(15, case as u64);
            let tokens = random_sentence::tokens(random, &grammar, 1_000);
            let tables = tables::of(&grammar);
            let tree = descent::parse(&grammar, &tables, &tokens, 1_000).expect("a sentence");
            let mut depth = vec![0; tree.nodes.len()];
            for number in 1..tree.nodes.len() {
                depth[number] = depth[usize::from(tree.nodes[number].parent)] + 1;
            }
            deepest = deepest.max(depth.into_iter().max().expect("a root"));
            longest = longest.max(tokens.len());
        }
        assert!(deepest > 300 && longest > 400, "{deepest}, {longest}");
    }
}
