//! How cases are written and answers read, and what the generated cases reach.

use super::*;
use crate::calls::checks;
use crate::tree::Header;
use std::collections::HashSet;

fn first_case() -> Case {
    cases(1).next().expect("there are cases")
}

#[test]
fn a_case_is_letter_place_removed_and_what_is_lent() {
    let case = Case {
        place: 0x0102_0304,
        removed: 0xffff_fffe,
        ..first_case()
    };
    let numbers = [4, 3, 2, 1, 0xfe, 0xff, 0xff, 0xff];
    let expected = [&b"E"[..], &numbers, &case.lent.bytes()].concat();
    assert_eq!(case.bytes(), expected);
    let text = format!(
        "example G\nplace 16909060, removed 4294967294\n{}",
        case.lent.text()
    );
    assert_eq!(case.text(), text);
}

#[test]
fn the_first_cases_are_examples_g_to_k() {
    let replies: Vec<Reply> = cases(1).take(6).map(|case| case.expected().0).collect();
    let expected = [
        Reply::edited(13, 8, 5, 1),
        Reply::edited(9, 9, 0, 8),
        Reply::edited(13, 10, 3, 7),
        Reply::syntax(2, 56),
        Reply::edited(9, 9, 0, 0),
        Reply::out_of_range(3),
    ];
    assert_eq!(replies, expected);
}

#[test]
fn answers_are_read() {
    checks::assert_right_answers_are_read(cases(3).take(300));
    checks::assert_wrong_answers_are_told(&first_case());
}

#[test]
fn cases_get_every_reply_and_more_than_half_of_them_are_accepted() {
    checks::assert_replies(cases(1).take(8_000), 4_500, 40);
}

#[test]
fn a_seed_settles_the_cases() {
    checks::assert_seed_settles(cases, 6);
}

#[test]
fn each_edit_finds_the_tree_as_the_accepted_ones_before_left_it() {
    let tree = EditedTree::new(1, 3).take(EDITS);
    let mut found = Vec::new();
    let mut left: Vec<Vec<u8>> = Vec::new();
    for case in tree {
        found.push(case.lent.area.clone());
        left.push(case.expected().1.written);
    }
    let carried = left.iter().zip(&found[1..]);
    let carried = carried.filter(|(left, found)| left == found).count();
    assert!(carried > EDITS / 2, "{carried} carried");
    assert!(found.iter().collect::<HashSet<_>>().len() > EDITS / 4);
}

#[test]
fn accepted_cases_reach_every_sort_of_edit() {
    let mut met = [0; 10];
    for case in cases(2).take(6_000) {
        let (reply, answer) = case.expected();
        if !reply.is_accepted() {
            continue;
        }
        let header = |area: &[u8]| Header::read(area).expect("a valid tree");
        let (old, new) = (header(&case.lent.area), header(&answer.written));
        let inserted = case.lent.tokens.len() / TOKEN_BYTES;
        let is_nothing = case.removed == 0 && inserted == 0;
        let is_end = case.place + case.removed == u32::from(old.tokens);
        let sorts = [
            ("nothing", is_nothing),
            ("at the start", !is_nothing && case.place == 0),
            ("at the end", !is_nothing && is_end),
            (
                "the whole",
                case.removed > 3 && case.removed == u32::from(old.tokens),
            ),
            ("emptied", old.tokens > 0 && new.tokens == 0),
            ("no longer empty", old.tokens == 0 && new.tokens > 0),
            ("another root", reply.kept > 0 && old.root != new.root),
            (
                "full",
                reply.made > 0 && area_bytes(new.used.into()) == case.lent.area.len(),
            ),
            ("large", new.used > 500 && reply.made > 0),
            ("nothing made", reply.made == 0 && reply.given_up > 0),
        ];
        for (count, (_, is_so)) in met.iter_mut().zip(sorts) {
            *count += usize::from(is_so);
        }
    }
    let least = [150, 300, 300, 100, 20, 20, 20, 100, 100, 20];
    assert!(
        met.iter().zip(least).all(|(&met, least)| met > least),
        "{met:?}"
    );
}

#[test]
fn refused_cases_reach_the_edges() {
    let mut met = [0; 6];
    for case in cases(2).take(20_000) {
        let (reply, _) = case.expected();
        let tokens = Header::read(&case.lent.area).map_or(0, |header| u32::from(header.tokens));
        let inserted = case.lent.tokens.len() / TOKEN_BYTES;
        let slots = tree::slots(case.lent.area.len()).unwrap_or(0);
        let sum = case.place.wrapping_add(case.removed);
        let sorts = [
            reply.number == 8 && sum <= tokens,
            reply.number == 8
                && u64::from(case.place) + u64::from(case.removed) == u64::from(tokens) + 1,
            [9, 10].contains(&reply.number) && inserted > slots,
            [9, 10].contains(&reply.number) && inserted > 1 << 16,
            reply.number == 10 && case.kind.contains("one slot too few"),
            reply.number == 9 && case.kind.contains("just enough slots"),
        ];
        for (count, is_so) in met.iter_mut().zip(sorts) {
            *count += usize::from(is_so);
        }
    }
    assert!(met.iter().all(|&count| count > 10), "{met:?}");
}

#[test]
fn removed_tokens_often_come_again() {
    let mut again = 0;
    for case in cases(2).take(2_000) {
        let (reply, _) = case.expected();
        if !reply.is_accepted() {
            continue;
        }
        let (tree, _) = tree::derivation(&case.lent.area);
        let old = tokens::bytes(&tree.tokens());
        let run = case.place as usize * TOKEN_BYTES..;
        let removed = old[run].chunks(TOKEN_BYTES).take(case.removed as usize);
        let inserted = case.lent.tokens.chunks(TOKEN_BYTES);
        again += usize::from(removed.zip(inserted).any(|(one, other)| one == other));
    }
    assert!(again > 500, "{again}");
}
