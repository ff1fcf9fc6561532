//! Random grammars whose images are good: small ones, middling ones, ones at
//! the limits, and ones that prepare often accepts.

use crate::grammar::{
    Grammar, Production, MAX_BODY, MAX_NONTERMINALS, MAX_PRODUCTIONS, MAX_TERMINALS,
};
use crate::random::Random;
use std::ops::RangeInclusive;

/// A random grammar of any size.
pub fn any(random: &mut Random) -> Grammar {
    random.one_of(&[small, middling, at_limits, layered])(random)
}

/// A grammar of a few symbols and productions.
pub fn small(random: &mut Random) -> Grammar {
    let (t, n) = (random.between(1, 3), random.between(1, 3));
    let productions = random.below(8);
    of_size(random, t, n, productions, 0..=3)
}

/// A grammar of any number of symbols, with room for more productions.
fn middling(random: &mut Random) -> Grammar {
    let (t, n) = (
        random.between(1, MAX_TERMINALS),
        random.between(1, MAX_NONTERMINALS),
    );
    let productions = random.below(MAX_PRODUCTIONS / 4);
    of_size(random, t, n, productions, 0..=MAX_BODY)
}

/// A grammar whose every size is one of the least or the greatest.
fn at_limits(random: &mut Random) -> Grammar {
    let t = random.one_of(&[1, MAX_TERMINALS]);
    let n = random.one_of(&[1, MAX_NONTERMINALS]);
    let productions = random.one_of(&[0, 1, MAX_PRODUCTIONS - 1, MAX_PRODUCTIONS]);
    let shortest = random.one_of(&[0, MAX_BODY]);
    of_size(random, t, n, productions, shortest..=MAX_BODY)
}

/// A grammar that prepare often accepts: each nonterminal leads to the next
/// one, and no body begins with its left side or a nonterminal before that.
pub fn layered(random: &mut Random) -> Grammar {
    let (t, n) = (random.between(3, 8), random.between(2, 6));
    let mut productions = Vec::new();
    for left in t + 1..=t + n {
        let mut bodies: Vec<Vec<u8>> = (0..=random.below(3))
            .map(|_| layered_body(random, t, n, left))
            .collect();
        if left < t + n {
            bodies[0].push(left + 1);
        }
        productions.extend(bodies.into_iter().map(|body| (left, body)));
    }
    Grammar {
        t,
        n,
        start: t + 1,
        productions,
    }
}

/// No symbols, or a terminal or later nonterminal and up to two of any kind.
fn layered_body(random: &mut Random, t: u8, n: u8, left: u8) -> Vec<u8> {
    if random.once_in(4) {
        return Vec::new();
    }
    let terminal = random.between(1, t);
    let later = random.between(left, t + n);
    let first = if later == left || random.once_in(2) {
        terminal
    } else {
        later
    };
    let rest = (0..random.below(3)).map(|_| random.between(1, t + n));
    std::iter::once(first).chain(rest).collect()
}

fn of_size(
    random: &mut Random,
    t: u8,
    n: u8,
    productions: usize,
    lengths: RangeInclusive<usize>,
) -> Grammar {
    let start = random.between(t + 1, t + n);
    let productions = (0..productions)
        .map(|_| production(random, t, n, lengths.clone()))
        .collect();
    Grammar {
        t,
        n,
        start,
        productions,
    }
}

/// A good production under t and n.
pub fn production(random: &mut Random, t: u8, n: u8, lengths: RangeInclusive<usize>) -> Production {
    let left = random.between(t + 1, t + n);
    let (shortest, longest) = lengths.into_inner();
    let length = shortest + random.below(longest - shortest + 1);
    let body = (0..length).map(|_| random.between(1, t + n)).collect();
    (left, body)
}

#[cfg(test)]
mod tests {
    use super::*;
    use crate::image;

    #[test]
    fn images_of_random_grammars_are_read_back() {
        for case in 0..3_000 {
            let grammar = any(&mut Random::of_case(1, case));
            assert_eq!(image::read(&image::records(&grammar).concat()), Ok(grammar));
        }
    }

    #[test]
    fn random_grammars_reach_every_limit() {
        let grammars: Vec<Grammar> = (0..500)
            .map(|case| any(&mut Random::of_case(2, case)))
            .collect();
        let reached = |limit: &dyn Fn(&Grammar) -> bool| grammars.iter().any(limit);
        assert!(reached(&|grammar| grammar.t == 1));
        assert!(reached(&|grammar| grammar.t == MAX_TERMINALS));
        assert!(reached(&|grammar| grammar.n == 1));
        assert!(reached(&|grammar| grammar.n == MAX_NONTERMINALS));
        assert!(reached(&|grammar| grammar.productions.is_empty()));
        assert!(reached(
            &|grammar| grammar.productions.len() == MAX_PRODUCTIONS
        ));
        assert!(reached(
            &|grammar| image::records(grammar).concat().len() == 1541
        ));
    }
}
