//! What read back replies and leaves in the output, case by case.

use super::*;
use crate::descent;
use crate::reference::IMAGE;
use crate::samples;
use crate::tables;
use crate::tree::area_bytes;

/// The tree of these kinds, in the highest of twenty slots and backwards.
fn area(kinds: &[u8]) -> Vec<u8> {
    let grammar = samples::reference();
    let tables = tables::of(&grammar);
    let tree = descent::parse(&grammar, &tables, &samples::tokens(kinds), 20).expect("a tree");
    let mut area = vec![0; area_bytes(20)];
    tree::write(&tree, &tree.in_slots((1..=20).rev()), &mut area);
    area
}

fn assert_refused(image: &[u8], area: &[u8], length: usize, number: u32, place: u64) {
    let mut output = vec![0xaa; length];
    let reply = read_back(image, area, &mut output);
    let expected = Reply {
        number,
        place,
        ..Reply::ACCEPTED
    };
    assert_eq!(reply, expected);
    assert!(output.iter().all(|&byte| byte == 0xaa));
}

#[test]
fn the_tokens_are_written_and_nothing_beyond() {
    for length in [15, 16, 40] {
        let mut output = vec![0xaa; length];
        let reply = read_back(&IMAGE, &area(&[1, 2, 5]), &mut output);
        assert_eq!(reply, Reply::read_back(9));
        assert_eq!(output[..15], samples::token_bytes(&[1, 2, 5]));
        assert!(output[15..].iter().all(|&byte| byte == 0xaa));
    }
}

#[test]
fn no_tokens_need_no_output() {
    for length in [0, 3] {
        let mut output = vec![0xaa; length];
        let reply = read_back(&IMAGE, &area(&[]), &mut output);
        assert_eq!(reply, Reply::read_back(1));
        assert!(output.iter().all(|&byte| byte == 0xaa));
    }
}

#[test]
fn an_output_that_is_too_short_is_reply_11_with_the_bytes_needed() {
    for length in [0, 1, 14] {
        assert_refused(&IMAGE, &area(&[1, 2, 5]), length, 11, 15);
    }
}

#[test]
fn a_wrong_area_is_reply_5_before_a_short_output() {
    let right = area(&[1, 2, 5]);
    let mut wrong = right.clone();
    wrong[15] = 1;
    assert_refused(&IMAGE, &wrong, 0, 5, 0);
    assert_refused(&IMAGE, &[0; 336], 0, 5, 0);
    assert_refused(&IMAGE, &right[..335], 15, 5, 0);
    assert_refused(&IMAGE, &right[..16], 15, 5, 0);
    assert_refused(&IMAGE, &[], 0, 5, 0);
}

#[test]
fn bad_grammars_are_replies_1_2_and_3_before_all_others() {
    assert_refused(&[], &[], 0, 1, 0);
    assert_refused(&IMAGE[..48], &area(&[]), 0, 1, 45);
    assert_refused(&IMAGE[..5], &[], 0, 2, 6);
    let added = [&IMAGE[..], &[0x47, 0x50, 10, 1, 5]].concat();
    assert_refused(&added, &area(&[]), 0, 3, 10);
}

#[test]
fn a_tree_of_another_grammar_is_reply_5() {
    let mut other = IMAGE;
    // Productions 1 and 2 change places.
    other[5..15].copy_from_slice(&[0x47, 0x50, 6, 0, 0x47, 0x50, 6, 2, 7, 6]);
    assert_refused(&other, &area(&[1, 2, 5]), 15, 5, 0);
    assert_refused(&other, &area(&[]), 15, 5, 0);
}
