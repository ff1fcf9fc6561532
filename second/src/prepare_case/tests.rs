//! How cases are written and answers read, the right answers to fixed cases,
//! and what the generated cases reach.

use super::*;
use crate::calls::{checks, Case as _};

fn reference_case(tables_length: usize, reply_length: usize, fill: u8) -> Case {
    Case {
        kind: "reference",
        image: IMAGE.to_vec(),
        tables_length,
        reply_length,
        fill,
    }
}

/// A whole reply with this number and place.
fn reply(number: u8, place: u8) -> Vec<u8> {
    let mut bytes = vec![0; 32];
    bytes[0] = number;
    bytes[4] = place;
    bytes
}

fn assert_refused(number: u8, place: u8, case: &Case) {
    let (_, answer) = case.expected();
    assert_eq!(answer.reply, reply(number, place));
    assert_eq!(answer.written, vec![case.fill; case.tables_length]);
}

#[test]
fn a_case_is_letter_lengths_fill_and_image() {
    let case = Case {
        kind: "",
        image: vec![0x47, 0x48, 7],
        tables_length: 33_792,
        reply_length: 32,
        fill: 0xaa,
    };
    let expected = [
        b'P', 3, 0, 0, 0, 0x00, 0x84, 0, 0, 32, 0, 0, 0, 0xaa, 0x47, 0x48, 7,
    ];
    assert_eq!(case.bytes(), expected);
}

#[test]
fn a_case_without_image_and_buffers_is_14_bytes() {
    let case = Case {
        kind: "",
        image: Vec::new(),
        tables_length: 0,
        reply_length: 0,
        fill: 0,
    };
    assert_eq!(case.bytes(), [b'P', 0, 0, 0, 0, 0, 0, 0, 0, 0, 0, 0, 0, 0]);
}

#[test]
fn the_first_case_is_the_reference_image_accepted() {
    let (_, answer) = case(1, 0).expected();
    assert_eq!(answer.reply, [0; 32]);
    let used = answer.written.iter().filter(|&&byte| byte != 0);
    assert_eq!(used.count(), 9 + 25);
    assert_eq!(answer.written.len(), 33_792);
    assert_eq!(answer.written[..2], [2, 1]);
}

#[test]
fn the_next_three_cases_are_those_of_example_l() {
    assert_refused(1, 45, &case(1, 1));
    assert_refused(2, 11, &case(1, 2));
    assert_refused(3, 10, &case(1, 3));
}

#[test]
fn tables_of_another_length_stay_as_they_were() {
    for length in [0, 1, 33_791, 33_793, 67_584] {
        assert_refused(4, 0, &reference_case(length, 32, 0x55));
    }
}

#[test]
fn a_short_reply_is_cut_also_inside_a_field() {
    for length in 0..32 {
        let case = Case {
            reply_length: length,
            ..case(1, 1)
        };
        assert_eq!(case.expected().1.reply, reply(1, 45)[..length]);
    }
}

#[test]
fn bytes_beyond_the_reply_keep_the_fill_byte() {
    let (_, answer) = reference_case(33_792, 35, 0xff).expected();
    assert_eq!(answer.reply[..32], [0; 32]);
    assert_eq!(answer.reply[32..], [0xff; 3]);
}

#[test]
fn a_short_reply_leaves_the_tables_whole() {
    let tables = |case: Case| case.expected().1.written;
    let whole = tables(reference_case(33_792, 32, 0));
    assert_eq!(tables(reference_case(33_792, 0, 0xff)), whole);
}

#[test]
fn answers_are_read() {
    checks::assert_right_answers_are_read(cases(3).take(300));
    checks::assert_wrong_answers_are_told(&reference_case(33_792, 1, 0x55));
}

#[test]
fn cases_get_every_reply_and_a_third_of_them_is_accepted() {
    checks::assert_replies(cases(1).take(2_000), 2_000 / 3, 100);
}

#[test]
fn cases_reach_every_length_and_fill() {
    let cases: Vec<Case> = cases(2).take(3_000).collect();
    let some = |wanted: &dyn Fn(&Case) -> bool| cases.iter().any(wanted);
    assert!((0..=40).all(|length| some(&|case| case.reply_length == length)));
    assert!([0, 1, 33_791, 33_792, 33_793]
        .iter()
        .all(|&length| some(&|case| case.tables_length == length)));
    assert!(some(&|case| case.tables_length > 60_000));
    assert!([0x00, 0xaa, 0xff]
        .iter()
        .all(|&fill| some(&|case| case.fill == fill)));
}

#[test]
fn seed_and_number_settle_a_case() {
    checks::assert_seed_settles(cases, 4);
}
