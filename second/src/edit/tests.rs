//! What edit replies and leaves in the lent buffers, case by case.

use super::*;
use crate::parse::parse;
use crate::reference::IMAGE;
use crate::samples;
use crate::tables::{self, TABLE_BYTES};
use crate::tree::{area_bytes, Header, Slot};

/// The kinds of U and V.
const U: &[u8] = &[1, 2, 5];
const V: &[u8] = &[1, 2, 5, 1, 2, 5];

/// What is lent to edit, with right lengths and bytes at first.
#[derive(Clone)]
struct Lent {
    image: Vec<u8>,
    tables: Vec<u8>,
    area: Vec<u8>,
    work: Vec<u8>,
}

impl Lent {
    /// The tree of these kinds as parse leaves it.
    fn new(kinds: &[u8], slots: usize) -> Lent {
        let mut lent = Lent {
            image: IMAGE.to_vec(),
            tables: tables::of(&samples::reference()),
            area: vec![0; area_bytes(slots)],
            work: vec![0xbb; 3 * area_bytes(slots)],
        };
        let tokens = samples::token_bytes(kinds);
        let mut work = lent.work.clone();
        let reply = parse(&IMAGE, &lent.tables, &tokens, &mut lent.area, &mut work);
        assert!(reply.is_accepted());
        lent
    }

    fn edit_bytes(&mut self, place: u32, removed: u32, token_bytes: &[u8]) -> Reply {
        let change = Change {
            place,
            removed,
            token_bytes,
        };
        let (area, work) = (&mut self.area, &mut self.work);
        edit(&self.image, &self.tables, area, change, work)
    }

    fn edit(&mut self, place: u32, removed: u32, kinds: &[u8]) -> Reply {
        let bytes = tokens::bytes(&new_tokens(kinds));
        self.edit_bytes(place, removed, &bytes)
    }

    fn slot(&self, number: u16) -> Slot {
        Slot::read(&self.area, number).expect("a used slot")
    }

    /// The symbols of these slots.
    fn symbols(&self, numbers: &[u16]) -> Vec<u8> {
        let numbers = numbers.iter();
        numbers.map(|&number| self.slot(number).symbol).collect()
    }

    fn root(&self) -> u16 {
        Header::read(&self.area).expect("a tree").root
    }

    /// The tokens of the tree, which is valid.
    fn tokens(&self) -> Vec<Token> {
        let contents = tree::read(&samples::reference(), &self.area);
        contents.expect("a valid tree").tokens
    }
}

/// Tokens of these kinds whose tags no old token has.
fn new_tokens(kinds: &[u8]) -> Vec<Token> {
    let tagged = kinds.iter().zip(0x0b00_0000..);
    tagged.map(|(&kind, tag)| Token { kind, tag }).collect()
}

/// Whatever the reply, the work area is zero; a refusal leaves the tree area.
fn assert_refused(mut lent: Lent, change: (u32, u32, &[u8]), reply: Reply) {
    let before = lent.area.clone();
    let (place, removed, token_bytes) = change;
    assert_eq!(lent.edit_bytes(place, removed, token_bytes), reply);
    assert_eq!(lent.area, before);
    assert!(lent.work.iter().all(|&byte| byte == 0));
}

/// A refusal that has a place alone.
fn refusal(number: u32, place: u64) -> Reply {
    Reply {
        number,
        place,
        ..Reply::ACCEPTED
    }
}

#[test]
fn example_g_an_exception_is_inserted() {
    let mut lent = Lent::new(U, 1_000);
    assert_eq!(lent.edit(2, 0, &[4, 2]), Reply::edited(13, 8, 5, 1));
    assert_eq!(lent.symbols(&[7, 10, 11, 12, 13]), [10, 4, 8, 2, 9]);
    assert_eq!(
        lent.symbols(&[1, 2, 3, 4, 5, 6, 8, 9]),
        [6, 7, 1, 8, 2, 9, 5, 6]
    );
    let expected = [
        &samples::tokens(U)[..2],
        &new_tokens(&[4, 2]),
        &samples::tokens(U)[2..],
    ];
    assert_eq!(lent.tokens(), expected.concat());
    assert!(lent.work.iter().all(|&byte| byte == 0));
}

#[test]
fn example_h_the_first_rule_is_removed() {
    let mut lent = Lent::new(V, 1_000);
    let before = lent.clone();
    assert_eq!(lent.edit(0, 3, &[]), Reply::edited(9, 9, 0, 8));
    assert_eq!(lent.root(), 9);
    for number in 10..=17 {
        assert_eq!(lent.slot(number), before.slot(number));
    }
    for number in 1..=8 {
        assert_eq!(Slot::read(&lent.area, number), None);
    }
    assert_eq!(lent.tokens(), samples::tokens(V)[3..]);
}

#[test]
fn example_i_two_rules_become_one() {
    let mut lent = Lent::new(V, 1_000);
    assert_eq!(lent.edit(2, 2, &[3]), Reply::edited(13, 10, 3, 7));
    assert_eq!(lent.symbols(&[6, 8, 9]), [9, 3, 6]);
    assert_eq!(lent.slot(6).first_child, 8);
    assert_eq!(lent.slot(8).next_sibling, 12);
    assert_eq!(lent.slot(1).first_child, 2);
    assert_eq!(lent.slot(2).next_sibling, 9);
    assert_eq!(lent.slot(7).next_sibling, 16);
}

#[test]
fn example_j_a_refusal_leaves_the_tree() {
    let refusal = Reply::syntax(2, 56);
    assert_refused(Lent::new(V, 1_000), (2, 2, &[]), refusal);
}

#[test]
fn example_k_the_end_is_in_range() {
    let mut lent = Lent::new(U, 1_000);
    let before = lent.area.clone();
    assert_eq!(lent.edit(3, 0, &[]), Reply::edited(9, 9, 0, 0));
    assert_eq!(lent.area, before);
    assert_refused(lent, (3, 1, &[]), refusal(8, 3));
}

#[test]
fn a_new_token_equal_to_the_removed_one_is_still_new() {
    let mut lent = Lent::new(U, 20);
    let before = lent.area.clone();
    let host = tokens::bytes(&samples::tokens(U)[1..2]);
    assert_eq!(lent.edit_bytes(1, 1, &host), Reply::edited(9, 6, 3, 3));
    assert_eq!(lent.area, before);
    let all = samples::token_bytes(U);
    assert_eq!(lent.edit_bytes(0, 3, &all), Reply::edited(9, 0, 9, 9));
    assert_eq!(lent.area, before);
}

#[test]
fn a_root_without_tokens_is_kept_if_the_new_one_has_none() {
    let mut lent = Lent::new(&[], 9);
    assert_eq!(lent.edit(0, 0, &[]), Reply::edited(1, 1, 0, 0));
    assert_eq!(lent.edit(0, 0, U), Reply::edited(9, 0, 9, 1));
    assert_eq!(lent.edit(0, 3, &[]), Reply::edited(1, 0, 1, 9));
    assert_eq!(lent.root(), 1);
}

#[test]
fn new_nodes_take_the_lowest_slots_also_those_given_up() {
    let mut lent = Lent::new(V, 17);
    assert_eq!(lent.edit(0, 3, &[]), Reply::edited(9, 9, 0, 8));
    // A rule and its Book behind the root's, which is in slot 9.
    assert_eq!(lent.edit(3, 0, U), Reply::edited(17, 8, 9, 1));
    assert_eq!(lent.root(), 9);
    assert_eq!(
        lent.symbols(&[1, 2, 3, 4, 5, 6, 7, 8, 17]),
        [6, 7, 1, 8, 2, 9, 10, 5, 6]
    );
}

#[test]
fn the_new_tree_may_fill_the_area_and_no_more() {
    let mut lent = Lent::new(U, 13);
    assert_eq!(lent.edit(2, 0, &[4, 2]), Reply::edited(13, 8, 5, 1));
    let more = samples::token_bytes(&[4, 2]);
    assert_refused(Lent::new(U, 12), (2, 0, &more), Reply::NO_ROOM);
}

#[test]
fn place_and_removed_are_added_without_wrapping() {
    let out_of_range = Reply::out_of_range(3);
    let max = u32::MAX;
    for (place, removed) in [
        (4, 0),
        (0, 4),
        (max, 0),
        (0, max),
        (max, 1),
        (max, 4),
        (1, max),
        (max, max),
    ] {
        assert_refused(Lent::new(U, 9), (place, removed, &[]), out_of_range);
    }
}

#[test]
fn refusals_come_in_the_order_of_their_numbers() {
    let good = Lent::new(U, 9);
    let change = (4, 0, &[1, 0][..]);
    let mut lent = good.clone();
    lent.work.truncate(3 * area_bytes(9) - 1);
    lent.area[15] = 1;
    lent.tables[0] ^= 1;
    let with_image = |image: &[u8]| Lent {
        image: image.to_vec(),
        ..lent.clone()
    };
    let added = [&IMAGE[..], &[0x47, 0x50, 10, 1, 5]].concat();
    assert_refused(with_image(&[]), change, refusal(1, 0));
    assert_refused(with_image(&IMAGE[..48]), change, refusal(1, 45));
    assert_refused(with_image(&IMAGE[..5]), change, refusal(2, 6));
    assert_refused(with_image(&added), change, refusal(3, 10));
    assert_refused(lent.clone(), change, Reply::WRONG_TABLES);
    lent.tables = good.tables.clone();
    assert_refused(lent.clone(), change, Reply::WRONG_AREA);
    lent.area = good.area.clone();
    assert_refused(lent.clone(), change, Reply::short_work(480));
    lent.work = good.work.clone();
    assert_refused(lent.clone(), change, Reply::bad_token(0));
    assert_refused(lent.clone(), (4, 0, &[]), Reply::out_of_range(3));
    assert_refused(lent, (2, 1, &[]), Reply::syntax(2, 56));
}

#[test]
fn wrong_lengths_are_refused() {
    let good = Lent::new(U, 9);
    for length in [0, TABLE_BYTES - 1, TABLE_BYTES + 1] {
        let mut lent = good.clone();
        lent.tables.resize(length, 0);
        assert_refused(lent, (0, 0, &[]), Reply::WRONG_TABLES);
    }
    for length in [0, 16, 159, 161] {
        let mut lent = good.clone();
        lent.area.resize(length, 0);
        assert_refused(lent, (0, 0, &[]), Reply::WRONG_AREA);
    }
    let mut lent = good;
    lent.area.fill(0);
    assert_refused(lent, (0, 0, &[]), Reply::WRONG_AREA);
}

#[test]
fn tokens_that_never_fit_are_no_room() {
    let tokens = samples::token_bytes(&U.repeat(30_000));
    assert_refused(Lent::new(U, 1_000), (3, 0, &tokens), Reply::NO_ROOM);
    let tokens = samples::token_bytes(&[1].repeat(70_000));
    assert_refused(Lent::new(U, 1_000), (3, 0, &tokens), Reply::syntax(4, 4));
}
