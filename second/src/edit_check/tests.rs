//! Each rule is broken by some change of a right result.

use super::*;
use crate::calls::Case as _;
use crate::edit_case;

/// An accepted edit.
struct Edited {
    before: Vec<u8>,
    after: Vec<u8>,
    run: Run,
    reply: Reply,
}

fn accepted(count: usize) -> impl Iterator<Item = Edited> {
    edit_case::cases(72).take(count).filter_map(|case| {
        let (reply, answer) = case.expected();
        reply.is_accepted().then_some(Edited {
            run: case.run(),
            before: case.lent.area,
            after: answer.written,
            reply,
        })
    })
}

impl Edited {
    fn broken_rule(&self) -> Option<&'static str> {
        broken_rule(&self.before, &self.after, self.run, self.reply)
    }

    /// Exchanges two slots of the area after the edit.
    fn exchange(&mut self, one: u16, other: u16) {
        let (tree, mut slot_of) = tree::derivation(&self.after);
        for slot in &mut slot_of {
            if *slot == one {
                *slot = other;
            } else if *slot == other {
                *slot = one;
            }
        }
        tree::write(&tree, &slot_of, &mut self.after);
    }
}

#[test]
fn no_rule_is_broken() {
    for edited in accepted(3_000) {
        assert_eq!(edited.broken_rule(), None);
    }
}

#[test]
fn counts_that_are_not_right_break_a_rule() {
    for mut edited in accepted(200) {
        let right = edited.reply;
        edited.reply.made += 1;
        assert_eq!(edited.broken_rule(), Some("kept and made are the new tree"));
        edited.reply = right;
        edited.reply.given_up += 1;
        let rule = "kept and given up are the old tree";
        assert_eq!(edited.broken_rule(), Some(rule));
        edited.reply = right;
        edited.reply.total += 1;
        edited.reply.made += 1;
        assert_eq!(edited.broken_rule(), Some("kept and made are the new tree"));
    }
}

#[test]
fn a_node_before_the_place_in_another_slot_breaks_a_rule() {
    let mut met = 0;
    for mut edited in accepted(1_000).filter(|edited| edited.run.place > 0) {
        let old = Nodes::of(&edited.before);
        let root = old.order[0];
        let other = (1..).find(|&slot| slot != root).expect("another slot");
        if usize::from(other) < old.tokens.len() {
            edited.exchange(root, other);
            let rule = "what starts before the place is kept";
            assert_eq!(edited.broken_rule(), Some(rule));
            met += 1;
        }
    }
    assert!(met > 100, "{met} met");
}

/// A node below one that is kept and starts after the removed run.
fn carried(edited: &Edited) -> Option<u16> {
    let (old, new) = (Nodes::of(&edited.before), Nodes::of(&edited.after));
    let [place, removed, inserted] =
        [edited.run.place, edited.run.removed, edited.run.inserted].map(usize::from);
    let is_kept = |number: u16| match new.first_token(number) {
        Some(token) if token >= place + inserted => {
            old.starts(number, new.slot(number).symbol, token - inserted + removed)
        }
        _ => false,
    };
    let parent = |number: u16| new.slot(number).parent;
    let is_carried = |&&number: &&u16| parent(number) != 0 && is_kept(parent(number));
    new.order.iter().rev().find(is_carried).copied()
}

#[test]
fn a_change_below_a_node_that_is_carried_along_breaks_a_rule() {
    let mut met = [0; 2];
    for mut edited in accepted(3_000) {
        let new = Nodes::of(&edited.after);
        let free = (1..new.tokens.len() as u16).find(|slot| !new.order.contains(slot));
        if let (Some(number), Some(free)) = (carried(&edited), free) {
            let has_tokens = new.first_token(number).is_some();
            edited.exchange(number, free);
            let rule = "what starts behind the run is carried along";
            assert_eq!(edited.broken_rule(), Some(rule));
            met[usize::from(has_tokens)] += 1;
        }
    }
    assert!(met.iter().all(|&met| met > 50), "{met:?} met");
}
