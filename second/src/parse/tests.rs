//! What parse replies and leaves in the lent buffers, case by case.

use super::*;
use crate::image;
use crate::random::Random;
use crate::random_ll1;
use crate::random_sentence;
use crate::reference::IMAGE;
use crate::samples;
use crate::tree::{area_bytes, Slot};

/// What is lent to parse, with right lengths and bytes at first.
struct Lent {
    image: Vec<u8>,
    tables: Vec<u8>,
    tokens: Vec<u8>,
    area: Vec<u8>,
    work: Vec<u8>,
}

impl Lent {
    fn new(kinds: &[u8], slots: usize) -> Lent {
        Lent {
            image: IMAGE.to_vec(),
            tables: tables::of(&samples::reference()),
            tokens: samples::token_bytes(kinds),
            area: vec![0xaa; area_bytes(slots)],
            work: vec![0xbb; 3 * area_bytes(slots)],
        }
    }

    fn parse(&mut self) -> Reply {
        parse(
            &self.image,
            &self.tables,
            &self.tokens,
            &mut self.area,
            &mut self.work,
        )
    }
}

/// Whatever the reply, the work area is zero; a refusal leaves the tree area.
fn assert_refused(mut lent: Lent, number: u32, place: u64) {
    let reply = lent.parse();
    assert_eq!((reply.number, reply.place), (number, place));
    assert_eq!((reply.total, reply.made), (0, 0));
    assert!(lent.area.iter().all(|&byte| byte == 0xaa));
    assert!(lent.work.iter().all(|&byte| byte == 0));
}

#[test]
fn example_c_is_written_into_slot_1() {
    let mut lent = Lent::new(&[], 2);
    assert_eq!(lent.parse(), Reply::parsed(1));
    let mut expected = vec![0; 48];
    expected[..8].copy_from_slice(&[0x54, 0x52, 1, 0, 1, 0, 0, 0]);
    expected[16..20].copy_from_slice(&[0x4e, 0x44, 6, 2]);
    assert_eq!(lent.area, expected);
    assert_eq!(lent.work, [0; 144]);
}

#[test]
fn example_d_is_written_in_preorder() {
    let mut lent = Lent::new(&[1, 2, 5], 9);
    assert_eq!(lent.parse(), Reply::parsed(9));
    assert_eq!(lent.area[..8], [0x54, 0x52, 1, 0, 9, 0, 3, 0]);
    let expected = [
        (6, 1, 0, 2, 0),
        (7, 3, 1, 3, 9),
        (1, 0, 2, 0, 4),
        (8, 4, 2, 5, 7),
        (2, 0, 4, 0, 6),
        (9, 6, 4, 0, 0),
        (10, 8, 2, 0, 8),
        (5, 0, 2, 0, 0),
        (6, 2, 1, 0, 0),
    ];
    for (number, (symbol, production, parent, first_child, next_sibling)) in (1..).zip(expected) {
        let slot = Slot::read(&lent.area, number).expect("a used slot");
        let tag = match symbol {
            1 => 0x0a00_0000,
            2 => 0x0a00_0001,
            5 => 0x0a00_0002,
            _ => 0,
        };
        let expected = Slot {
            symbol,
            production,
            parent,
            first_child,
            next_sibling,
            tag,
        };
        assert_eq!(slot, expected, "slot {number}");
    }
}

#[test]
fn examples_d_e_and_f_are_refused() {
    assert_refused(Lent::new(&[1, 2, 5], 8), 10, 0);
    assert_refused(Lent::new(&[1, 2], 9), 9, 2);
    assert_refused(Lent::new(&[1, 2], 8), 10, 0);
    assert_refused(Lent::new(&[1, 2, 4, 2, 4], 1_000), 9, 4);
    assert_eq!(Lent::new(&[1, 2], 9).parse().expected, 56);
    assert_eq!(Lent::new(&[1, 2, 4, 2, 4], 900).parse().expected, 32);
}

#[test]
fn earlier_contents_of_the_area_do_not_matter() {
    let mut lent = Lent::new(&[1, 2, 5], 20);
    lent.parse();
    let first = lent.area.clone();
    let mut longer = Lent::new(&[1, 2, 5].repeat(2), 20);
    longer.parse();
    lent.area = longer.area;
    assert_eq!(lent.parse(), Reply::parsed(9));
    assert_eq!(lent.area, first);
}

#[test]
fn a_longer_work_area_becomes_zero_to_its_end() {
    let mut lent = Lent::new(&[1, 2, 5], 9);
    lent.work = vec![0xbb; 5_000];
    assert_eq!(lent.parse(), Reply::parsed(9));
    assert_eq!(lent.work, [0; 5_000]);
}

#[test]
fn bad_grammars_are_replies_1_2_and_3() {
    let with_image = |image: &[u8]| Lent {
        image: image.to_vec(),
        ..Lent::new(&[], 1)
    };
    assert_refused(with_image(&[]), 1, 0);
    assert_refused(with_image(&IMAGE[..48]), 1, 45);
    assert_refused(with_image(&IMAGE[..5]), 2, 6);
    let added = [&IMAGE[..], &[0x47, 0x50, 10, 1, 5]].concat();
    assert_refused(with_image(&added), 3, 10);
}

#[test]
fn tables_of_another_length_are_reply_4() {
    for length in [0, 1_024, TABLE_BYTES - 1, TABLE_BYTES + 1] {
        let mut lent = Lent::new(&[], 1);
        lent.tables.resize(length, 0);
        assert_refused(lent, 4, 0);
    }
}

#[test]
fn one_bit_of_the_tables_changed_is_reply_4() {
    for place in [0, 31, 32, 1_023, 1_024, 20_000, TABLE_BYTES - 1] {
        let mut lent = Lent::new(&[], 1);
        lent.tables[place] ^= 0x10;
        assert_refused(lent, 4, 0);
    }
}

#[test]
fn areas_of_a_wrong_length_are_reply_5() {
    for length in [0, 1, 15, 16, 17, 31, 33, 47, 16_015, 16_017, 16_032, 16_048] {
        let mut lent = Lent::new(&[], 1);
        lent.area = vec![0xaa; length];
        lent.work = vec![0xbb; 3 * length];
        assert_refused(lent, 5, 0);
    }
    for slots in [1, 2, 999, 1_000] {
        assert_eq!(Lent::new(&[], slots).parse(), Reply::parsed(1));
    }
}

#[test]
fn a_work_area_that_is_too_short_is_reply_6_with_the_length_needed() {
    for length in [0, 1, 95] {
        let mut lent = Lent::new(&[], 1);
        lent.work.truncate(length);
        assert_refused(lent, 6, 96);
    }
    let mut lent = Lent::new(&[], 1_000);
    lent.work.truncate(48_047);
    assert_refused(lent, 6, 48_048);
}

#[test]
fn bad_tokens_are_reply_7_before_syntax() {
    assert_refused(Lent::new(&[5, 5, 6, 0], 1), 7, 2);
    let mut lent = Lent::new(&[5, 5], 1);
    lent.tokens.truncate(9);
    assert_refused(lent, 7, 1);
}

#[test]
fn earlier_numbers_come_first() {
    let mut lent = Lent::new(&[6], 1);
    lent.work.clear();
    lent.area = vec![0xaa; 16];
    lent.tables.clear();
    lent.image.pop();
    assert_refused(lent, 1, 45);
    let mut lent = Lent::new(&[6], 1);
    lent.work.clear();
    lent.area = vec![0xaa; 16];
    lent.tables.clear();
    assert_refused(lent, 4, 0);
    let mut lent = Lent::new(&[6], 1);
    lent.work.clear();
    lent.area = vec![0xaa; 16];
    assert_refused(lent, 5, 0);
    let mut lent = Lent::new(&[6], 1);
    lent.work.clear();
    assert_refused(lent, 6, 96);
}

#[test]
fn accepted_trees_are_valid_and_hold_the_sentence_in_preorder_slots() {
    let mut accepted = 0;
    for case in 0..300 {
        let random = &mut Random::of_case(31, case);
        let grammar = random_ll1::grammar(random);
        let kinds = random_sentence::kinds(random, &grammar, 1_000);
        let slots = 1 + random.below(1_000);
        let mut lent = Lent {
            image: image::records(&grammar).concat(),
            tables: tables::of(&grammar),
            ..Lent::new(&kinds, slots)
        };
        let reply = lent.parse();
        assert!(lent.work.iter().all(|&byte| byte == 0));
        if reply.number != 0 {
            continue;
        }
        accepted += 1;
        let contents = tree::read(&grammar, &lent.area).expect("a valid tree");
        assert_eq!(contents.tokens, samples::tokens(&kinds));
        assert_eq!(reply, Reply::parsed(contents.total));
        assert_eq!(
            preorder_slots(&lent.area),
            (1..=reply.total as u16).collect::<Vec<_>>()
        );
    }
    assert!(accepted > 100, "{accepted} accepted");
}

/// The slots of a valid tree in preorder, along its links.
fn preorder_slots(area: &[u8]) -> Vec<u16> {
    let mut slots = Vec::new();
    let mut open = vec![u16::from_le_bytes([area[2], area[3]])];
    while let Some(number) = open.pop() {
        slots.push(number);
        let slot = Slot::read(area, number).expect("a used slot");
        let links = [slot.next_sibling, slot.first_child];
        open.extend(links.iter().filter(|&&link| link != 0));
    }
    slots
}
