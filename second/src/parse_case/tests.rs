//! How cases are written and answers read, and what the generated cases reach.

use super::*;
use crate::calls::{checks, Case as _};

#[test]
fn a_case_is_its_letter_and_what_is_lent() {
    let case = case(1, 0);
    let lent = case.lent.bytes();
    assert_eq!(case.bytes(), [&b"S"[..], &lent].concat());
    assert_eq!(case.text(), format!("example C\n{}", case.lent.text()));
}

#[test]
fn the_first_cases_are_examples_c_to_f() {
    let replies: Vec<Reply> = cases(1).take(6).map(|case| case.expected().0).collect();
    let expected = [
        Reply::parsed(1),
        Reply::parsed(9),
        Reply::NO_ROOM,
        Reply::syntax(2, 56),
        Reply::NO_ROOM,
        Reply::syntax(4, 32),
    ];
    assert_eq!(replies, expected);
}

#[test]
fn answers_are_read() {
    checks::assert_right_answers_are_read(cases(3).take(300));
    checks::assert_wrong_answers_are_told(&case(1, 0));
}

#[test]
fn cases_get_every_reply_and_a_fifth_of_them_is_accepted() {
    checks::assert_replies(cases(1).take(2_000), 2_000 / 5, 50);
}

#[test]
fn cases_reach_every_length() {
    let cases: Vec<Case> = cases(2).take(1_500).collect();
    let some = |wanted: &dyn Fn(&Case) -> bool| cases.iter().any(wanted);
    assert!((0..=40).all(|length| some(&|case| case.lent.reply_length == length)));
    assert!([0, 1, 33_791, 33_792, 33_793]
        .iter()
        .all(|&length| some(&|case| case.lent.tables.length() == length)));
    assert!([0, 15, 16, 17, 32, 16_016, 16_031, 16_032]
        .iter()
        .all(|&length| some(&|case| case.lent.area.len() == length)));
    let needed = |case: &Case| 3 * case.lent.area.len();
    assert!(some(&|case| case.lent.work_length == 0));
    assert!(some(&|case| case.lent.work_length + 1 == needed(case)));
    assert!(some(&|case| case.lent.work_length == needed(case)));
    assert!(some(&|case| case.lent.work_length > needed(case)));
}

#[test]
fn some_accepted_trees_are_large_and_some_fill_their_area() {
    let mut large = 0;
    let mut full = 0;
    for case in cases(2).take(1_000) {
        let (reply, _) = case.expected();
        large += usize::from(reply.total > 900);
        full += usize::from(
            reply.total > 1 && area_bytes(reply.total as usize) == case.lent.area.len(),
        );
    }
    assert!(large > 10 && full > 25, "{large} large, {full} full");
}

#[test]
fn seed_and_number_settle_a_case() {
    checks::assert_seed_settles(cases, 6);
}
