//! How cases are written and answers read, what the generated cases reach, and
//! the validity of their areas by a second method.

use super::*;
use crate::calls::{checks, Case as _};
use crate::prepare;
use crate::samples;
use crate::tree::Slot;
use std::collections::HashMap;

#[test]
fn a_case_is_letter_lengths_fill_image_and_tree() {
    let case = Case {
        kind: "small".to_string(),
        image: vec![0x47, 0x48, 7],
        area: vec![3, 4],
        output_length: 5,
        reply_length: 0x0102,
        fill: 0xaa,
    };
    #[rustfmt::skip]
    let expected = [
        b'R',
        3, 0, 0, 0, 2, 0, 0, 0, 5, 0, 0, 0, 2, 1, 0, 0,
        0xaa,
        0x47, 0x48, 7,
        3, 4,
    ];
    assert_eq!(case.bytes(), expected);
    let text = "small\n\
                image of 3 bytes: 47 48 07\n\
                tree of 2 bytes: 03 04\n\
                output of 5 bytes, reply of 258 bytes, filled with aa\n";
    assert_eq!(case.text(), text);
}

#[test]
fn the_first_cases_are_read_back() {
    let replies: Vec<Reply> = cases(1).take(3).map(|case| case.expected().0).collect();
    assert_eq!(replies, [1, 9, 17].map(Reply::read_back));
    let (_, answer) = case(1, 1).expected();
    let tokens = [1, 1, 0, 0, 0, 2, 2, 0, 0, 0, 5, 3, 0, 0, 0];
    assert_eq!(answer.written, tokens);
}

#[test]
fn answers_are_read() {
    checks::assert_right_answers_are_read(cases(3).take(300));
    checks::assert_wrong_answers_are_told(&case(1, 1));
}

#[test]
fn cases_get_every_reply_and_a_quarter_of_them_is_accepted() {
    checks::assert_replies(cases(1).take(2_000), 2_000 / 4, 40);
}

#[test]
fn every_change_of_an_area_is_made_and_all_but_a_few_break_some() {
    let mut replies: HashMap<String, Vec<u32>> = HashMap::new();
    for case in cases(2).take(3_000) {
        let (reply, _) = case.expected();
        let kinds: Vec<&str> = case.kind.split(", ").collect();
        if let [_, change] = kinds[..] {
            let change = change.to_string();
            replies.entry(change).or_default().push(reply.number);
        }
    }
    let never_broken: Vec<&String> = replies
        .iter()
        .filter(|(_, replies)| !replies.contains(&5))
        .map(|(change, _)| change)
        .collect();
    assert_eq!(
        never_broken
            .iter()
            .filter(|kind| **kind == "another tag")
            .count(),
        1
    );
    assert!(replies.len() > 29, "{:?}", replies.keys());
}

#[test]
fn trees_stand_in_any_slots_and_areas_have_any_size() {
    let cases: Vec<Case> = cases(2).take(800).collect();
    let some = |wanted: &dyn Fn(&Case) -> bool| cases.iter().any(wanted);
    assert!(some(&|case| case.area.len() == area_bytes(1)));
    assert!(some(&|case| case.area.len() == area_bytes(1_000)));
    assert!(some(
        &|case| case.area.len() > 5_000 && case.area[2..4] != [1, 0]
    ));
    let totals: Vec<u32> = cases.iter().map(|case| case.expected().0.total).collect();
    assert!(totals.iter().any(|&total| total > 900));
    assert!(totals.iter().any(|&total| total == 1));
}

/// Whether an area is a valid tree, by writing anew the tree of its leaves.
fn is_what_would_be_written(grammar: &Grammar, area: &[u8]) -> bool {
    let Some(slots) = tree::slots(area.len()) else {
        return false;
    };
    let Some((order, tokens)) = walk(grammar, area, slots) else {
        return false;
    };
    let Some(derivation) = derivation(grammar, &tokens) else {
        return false;
    };
    let mut written = vec![0; area.len()];
    let is_as_large = derivation.nodes.len() == order.len();
    is_as_large && {
        tree::write(&derivation, &derivation.in_slots(order), &mut written);
        written == area
    }
}

/// The slots in preorder along the links, and the tokens of those with a
/// terminal, if the walk leads to no slot twice and to none that is not there.
fn walk(grammar: &Grammar, area: &[u8], slots: usize) -> Option<(Vec<u16>, Vec<Token>)> {
    let mut open = vec![u16::from_le_bytes([area[2], area[3]])];
    let mut order = Vec::new();
    let mut tokens = Vec::new();
    while let Some(number) = open.pop() {
        if usize::from(number) > slots || order.contains(&number) {
            return None;
        }
        let slot = Slot::read(area, number)?;
        order.push(number);
        if grammar.terminals().contains(&slot.symbol) {
            let Slot { symbol, tag, .. } = slot;
            tokens.push(Token { kind: symbol, tag });
        }
        let links = [slot.next_sibling, slot.first_child];
        open.extend(links.iter().filter(|&&link| link != 0));
    }
    Some((order, tokens))
}

#[test]
fn a_valid_tree_is_what_would_be_written_for_its_sentence() {
    let mut counts = [0; 2];
    for (number, case) in cases(4).take(3_000).enumerate() {
        if let Ok((grammar, _)) = prepare::ll1_grammar(&case.image) {
            let is_valid = tree::read(&grammar, &case.area).is_some();
            let is_written = is_what_would_be_written(&grammar, &case.area);
            assert_eq!(is_valid, is_written, "case {number}: {}", case.kind);
            counts[usize::from(is_valid)] += 1;
        }
    }
    assert!(counts.iter().all(|&count| count > 500), "{counts:?}");
}

#[test]
fn trees_of_v_agree_in_all_bits_by_both_methods() {
    let grammar = samples::reference();
    let area = case(1, 1).area[..area_bytes(11)].to_vec();
    for place in 0..area.len() {
        for bit in 0..8 {
            let mut changed = area.clone();
            changed[place] ^= 1 << bit;
            let is_valid = tree::read(&grammar, &changed).is_some();
            assert_eq!(is_valid, is_what_would_be_written(&grammar, &changed));
        }
    }
}

#[test]
fn seed_and_number_settle_a_case() {
    checks::assert_seed_settles(cases, 3);
}
