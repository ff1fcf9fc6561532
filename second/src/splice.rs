//! Edits that make one sentence of another: from the least one to one that
//! replaces the whole sentence, removing tokens and putting equal ones there.

use crate::random::Random;
use crate::tokens::Token;

/// At a place so many tokens are removed, and others are put there.
#[derive(Debug, PartialEq)]
pub struct Splice {
    pub place: usize,
    pub removed: usize,
    pub inserted: Vec<Token>,
}

/// An edit that makes the new sentence of the old one.
pub fn between(random: &mut Random, old: &[Token], new: &[Token]) -> Splice {
    let equal = equal_pairs(old.iter().zip(new));
    let before = mostly_all(random, equal);
    let (old_rest, new_rest) = (&old[before..], &new[before..]);
    let equal = equal_pairs(old_rest.iter().rev().zip(new_rest.iter().rev()));
    let after = mostly_all(random, equal);
    Splice {
        place: before,
        removed: old_rest.len() - after,
        inserted: new_rest[..new_rest.len() - after].to_vec(),
    }
}

/// How many pairs are of equal tokens before one is not.
fn equal_pairs<'a>(pairs: impl Iterator<Item = (&'a Token, &'a Token)>) -> usize {
    pairs.take_while(|(one, other)| one == other).count()
}

/// Often so many, else some fewer, any number or none.
fn mostly_all(random: &mut Random, count: usize) -> usize {
    let fewer = count.saturating_sub(random.below(4));
    let any = random.below(count + 1);
    random.one_of(&[count, count, fewer, any, 0])
}

#[cfg(test)]
mod tests {
    use super::*;
    use crate::samples;

    #[test]
    fn every_edit_makes_the_new_sentence_of_the_old_one() {
        let old = samples::tokens(&[1, 2, 5, 1, 2, 5]);
        let mut new = old.clone();
        new.splice(2..4, samples::tokens(&[3, 3]));
        let sentences = [&old[..], &new, &old[3..], &old[..3], &[]];
        let mut edits = Vec::new();
        for case in 0..500 {
            let random = &mut Random::of_case(62, case);
            let (old, new) = (random.one_of(&sentences), random.one_of(&sentences));
            let splice = between(random, old, new);
            let mut edited = old.to_vec();
            let run = splice.place..splice.place + splice.removed;
            edited.splice(run, splice.inserted.iter().copied());
            assert_eq!(edited, new);
            edits.push((splice.place, splice.removed, splice.inserted.len()));
        }
        // Nothing at every place, all at once, and the least edit.
        assert!((0..=6).all(|place| edits.contains(&(place, 0, 0))));
        for edit in [
            (0, 6, 6),
            (2, 2, 2),
            (0, 3, 0),
            (3, 3, 0),
            (3, 0, 3),
            (0, 0, 6),
        ] {
            assert!(edits.contains(&edit), "{edit:?}");
        }
    }
}
