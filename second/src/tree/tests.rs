//! Areas byte by byte: what is written, and that each rule alone is kept.

use super::*;
use crate::derivation::Node;
use crate::descent;
use crate::samples;
use crate::tables;

/// The slots of U's nodes in preorder, of which there are twelve to take.
const SLOTS: [u16; 9] = [5, 12, 1, 7, 3, 11, 10, 2, 8];

/// The slots of single nodes of U's tree.
const BOOK: u16 = 5;
const RULE: u16 = 12;
const ALLOW: u16 = 1;
const LIST: u16 = 7;
const HOST: u16 = 3;
const REST: u16 = 11;
const BAR: u16 = 10;
const SEMICOLON: u16 = 2;
const LAST_BOOK: u16 = 8;
/// A slot that is free.
const SPARE: u16 = 4;

/// U's tree in twelve slots.
fn area() -> Vec<u8> {
    let grammar = samples::reference();
    let tokens = samples::tokens(&[1, 2, 5]);
    let tree = descent::parse(&grammar, &tables::of(&grammar), &tokens, 9).expect("U");
    let mut area = vec![0xaa; area_bytes(12)];
    write(&tree, &tree.in_slots(SLOTS), &mut area);
    area
}

fn is_valid(area: &[u8]) -> bool {
    read(&samples::reference(), area).is_some()
}

/// The slot of this number in U's tree.
fn slot(number: u16) -> Slot {
    Slot::read(&area(), number).expect("a used slot")
}

/// U's tree with some slots written anew.
fn with_slots(changes: &[(u16, Slot)]) -> Vec<u8> {
    let mut area = area();
    for (number, slot) in changes {
        slot.write(&mut area, *number);
    }
    area
}

/// U's tree with another header.
fn with_header(root: u16, used: u16, tokens: u16) -> Vec<u8> {
    let mut area = area();
    Header { root, used, tokens }.write(&mut area);
    area
}

/// Changing slots so makes the tree invalid.
fn assert_invalid(changes: &[(u16, Slot)]) {
    assert!(!is_valid(&with_slots(changes)), "{changes:?}");
}

#[test]
fn lengths_are_right_for_1_to_1000_slots() {
    let right: Vec<usize> = (0..20_000).filter_map(slots).collect();
    assert_eq!(right, (1..=1_000).collect::<Vec<_>>());
    assert_eq!(slots(32), Some(1));
    assert_eq!(slots(16_016), Some(1_000));
}

#[test]
fn a_tree_is_written_byte_by_byte() {
    let nodes = vec![
        Node {
            production: 1,
            first_child: 1,
            ..Node::root(3)
        },
        Node {
            tag: 0x0403_0201,
            ..Node::of(1, 0)
        },
        Node {
            production: 2,
            is_last: true,
            ..Node::of(4, 0)
        },
    ];
    let preorder = vec![0, 1, 2];
    let mut area = [0xaa; area_bytes(5)];
    write(&Derivation { nodes, preorder }, &[2, 4, 1], &mut area);
    #[rustfmt::skip]
    let expected = [
        0x54, 0x52, 2, 0, 3, 0, 1, 0, 0, 0, 0, 0, 0, 0, 0, 0,
        0x4e, 0x44, 4, 2, 2, 0, 0, 0, 0, 0, 0, 0, 0, 0, 0, 0,
        0x4e, 0x44, 3, 1, 0, 0, 4, 0, 0, 0, 0, 0, 0, 0, 0, 0,
        0, 0, 0, 0, 0, 0, 0, 0, 0, 0, 0, 0, 0, 0, 0, 0,
        0x4e, 0x44, 1, 0, 2, 0, 0, 0, 1, 0, 1, 2, 3, 4, 0, 0,
        0, 0, 0, 0, 0, 0, 0, 0, 0, 0, 0, 0, 0, 0, 0, 0,
    ];
    assert_eq!(area, expected);
}

#[test]
fn a_written_tree_and_its_slots_are_found_again() {
    let grammar = samples::reference();
    let tables = tables::of(&grammar);
    for kinds in [&[][..], &[1, 2, 5], &[1, 2, 3, 2, 4, 2, 5, 1, 2, 5]] {
        let tree = descent::parse(&grammar, &tables, &samples::tokens(kinds), 40).expect("a tree");
        let slot_of = tree.in_slots((1..=40).rev());
        let mut area = vec![0; area_bytes(40)];
        write(&tree, &slot_of, &mut area);
        assert_eq!(derivation(&area), (tree, slot_of));
    }
}

#[test]
fn numbers_have_two_bytes_each() {
    let header = Header {
        root: 0x0102,
        used: 0x0304,
        tokens: 0x0506,
    };
    assert_eq!(header.bytes()[..8], [0x54, 0x52, 2, 1, 4, 3, 6, 5]);
    assert_eq!(Header::read(&header.bytes()), Some(header));
    let slot = Slot {
        symbol: 1,
        production: 2,
        parent: 0x0304,
        first_child: 0x0506,
        next_sibling: 0x0708,
        tag: 0x0c0b_0a09,
    };
    let bytes = [0x4e, 0x44, 1, 2, 4, 3, 6, 5, 8, 7, 9, 10, 11, 12, 0, 0];
    assert_eq!(slot.bytes(), bytes);
    assert_eq!(Slot::read(&bytes, 0), Some(slot));
}

#[test]
fn a_tree_in_any_slots_is_valid() {
    let contents = read(&samples::reference(), &area()).expect("a valid tree");
    assert_eq!(contents.total, 9);
    assert_eq!(contents.tokens, samples::tokens(&[1, 2, 5]));
}

#[test]
fn slots_without_mark_or_zeros_are_not_read() {
    let mut area = area();
    assert_eq!(Slot::read(&area, SPARE), None);
    assert_eq!(Slot::read(&area, 13), None);
    for byte in [0, 1, 14, 15] {
        let place = usize::from(HOST) * SLOT_BYTES + byte;
        area[place] ^= 1;
        assert_eq!(Slot::read(&area, HOST), None);
        assert!(!is_valid(&area));
        area[place] ^= 1;
    }
    assert!(is_valid(&area));
}

#[test]
fn every_bit_matters_but_those_of_a_leafs_tag() {
    let area = area();
    let is_tag = |place: usize| {
        let (slot, byte) = ((place / SLOT_BYTES) as u16, place % SLOT_BYTES);
        [ALLOW, HOST, SEMICOLON].contains(&slot) && (10..14).contains(&byte)
    };
    for place in 0..area.len() {
        for bit in 0..8 {
            let mut changed = area.clone();
            changed[place] ^= 1 << bit;
            assert_eq!(is_valid(&changed), is_tag(place), "byte {place} bit {bit}");
        }
    }
}

#[test]
fn an_all_zero_area_is_no_tree() {
    assert!(!is_valid(&[0; 32]));
    assert!(!is_valid(&[0; 16_016]));
}

#[test]
fn an_area_of_a_wrong_length_is_no_tree() {
    let mut area = area();
    area.push(0);
    assert!(!is_valid(&area));
    area.resize(area_bytes(1_000), 0);
    assert!(is_valid(&area));
    area.resize(area_bytes(1_001), 0);
    assert!(!is_valid(&area));
    assert!(!is_valid(&[]));
}

#[test]
fn the_root_must_be_a_slot_with_the_start_symbol() {
    for root in (0..=13).chain([u16::MAX]) {
        assert_eq!(is_valid(&with_header(root, 9, 3)), root == BOOK, "{root}");
    }
}

#[test]
fn the_counts_must_be_right() {
    for used in [0, 8, 10, 12, 9 + 256] {
        assert!(!is_valid(&with_header(BOOK, used, 3)));
    }
    for tokens in [0, 2, 4, 9, 3 + 256] {
        assert!(!is_valid(&with_header(BOOK, 9, tokens)));
    }
}

#[test]
fn a_subtree_of_the_start_symbol_is_not_the_whole() {
    let last = Slot {
        parent: 0,
        ..slot(LAST_BOOK)
    };
    let mut area = with_slots(&[(LAST_BOOK, last)]);
    area[..8].copy_from_slice(&[0x54, 0x52, LAST_BOOK as u8, 0, 1, 0, 0, 0]);
    assert!(!is_valid(&area));
    for number in 1..=12 {
        if number != LAST_BOOK {
            let start = usize::from(number) * SLOT_BYTES;
            area[start..start + SLOT_BYTES].fill(0);
        }
    }
    assert!(is_valid(&area));
}

#[test]
fn the_root_has_neither_parent_nor_sibling() {
    let root = slot(BOOK);
    assert_invalid(&[(
        BOOK,
        Slot {
            parent: RULE,
            ..root
        },
    )]);
    assert_invalid(&[(
        BOOK,
        Slot {
            next_sibling: SPARE,
            ..root
        },
    )]);
    assert_invalid(&[(
        BOOK,
        Slot {
            next_sibling: BOOK,
            ..root
        },
    )]);
}

#[test]
fn children_must_point_to_their_parent() {
    for number in [RULE, ALLOW, HOST, REST, LAST_BOOK] {
        for parent in (0..=13).filter(|&parent| parent != slot(number).parent) {
            let changed = Slot {
                parent,
                ..slot(number)
            };
            assert_invalid(&[(number, changed)]);
        }
    }
}

#[test]
fn links_to_any_other_slot_are_wrong() {
    for number in SLOTS {
        let right = slot(number);
        for link in (0..=13).chain([u16::MAX]) {
            if link != right.first_child {
                let changed = Slot {
                    first_child: link,
                    ..right
                };
                assert_invalid(&[(number, changed)]);
            }
            if link != right.next_sibling {
                let changed = Slot {
                    next_sibling: link,
                    ..right
                };
                assert_invalid(&[(number, changed)]);
            }
        }
    }
}

#[test]
fn a_body_that_repeats_a_symbol_needs_a_slot_for_each() {
    let grammar = samples::grammar(1, 1, 2, &[(2, &[1, 1])]);
    let tokens = samples::tokens(&[1, 1]);
    let tree = descent::parse(&grammar, &tables::of(&grammar), &tokens, 3).expect("a tree");
    let mut area = vec![0; area_bytes(3)];
    write(&tree, &[1, 2, 3], &mut area);
    assert!(read(&grammar, &area).is_some());
    // The first leaf becomes its own sibling; the second stays in its slot.
    area[2 * SLOT_BYTES + 8] = 2;
    assert_eq!(read(&grammar, &area), None);
    // The second one is given up, and so is its count.
    area[3 * SLOT_BYTES..].fill(0);
    area[4] = 2;
    assert_eq!(read(&grammar, &area), None);
}

#[test]
fn a_production_must_be_one_of_the_symbol_with_the_children_as_its_body() {
    for production in (0..=9).chain([u8::MAX]) {
        for number in SLOTS {
            let right = slot(number);
            if production != right.production {
                let changed = Slot {
                    production,
                    ..right
                };
                assert_invalid(&[(number, changed)]);
            }
        }
    }
}

#[test]
fn children_in_another_order_are_no_body() {
    let allow = Slot {
        next_sibling: BAR,
        ..slot(ALLOW)
    };
    let bar = Slot {
        next_sibling: LIST,
        ..slot(BAR)
    };
    let list = Slot {
        next_sibling: SEMICOLON,
        ..slot(LIST)
    };
    assert_invalid(&[(ALLOW, allow), (BAR, bar), (LIST, list)]);
}

#[test]
fn a_child_too_few_or_too_many_is_no_body() {
    let bar = Slot {
        next_sibling: 0,
        ..slot(BAR)
    };
    let mut area = with_slots(&[(BAR, bar)]);
    let start = usize::from(SEMICOLON) * SLOT_BYTES;
    area[start..start + SLOT_BYTES].fill(0);
    area[4] = 8;
    area[6] = 2;
    assert!(!is_valid(&area));
    let semicolon = Slot {
        next_sibling: SPARE,
        ..slot(SEMICOLON)
    };
    let mut area = with_slots(&[(SEMICOLON, semicolon), (SPARE, slot(SEMICOLON))]);
    area[4] = 10;
    area[6] = 4;
    assert!(!is_valid(&area));
}

#[test]
fn a_used_slot_that_is_not_reached_is_wrong_whatever_the_counts() {
    for (used, tokens) in [(9, 3), (10, 3), (10, 4)] {
        let mut area = with_slots(&[(SPARE, slot(HOST))]);
        let header = Header {
            root: BOOK,
            used,
            tokens,
        };
        header.write(&mut area);
        assert!(!is_valid(&area));
    }
}

#[test]
fn tags_are_carried_by_leaves_alone() {
    let tagged = |number| Slot {
        tag: 0x8000_0000,
        ..slot(number)
    };
    let area = with_slots(&[(HOST, tagged(HOST))]);
    let contents = read(&samples::reference(), &area).expect("a valid tree");
    assert_eq!(contents.tokens[1].tag, 0x8000_0000);
    for number in [BOOK, RULE, LIST, REST, BAR, LAST_BOOK] {
        assert_invalid(&[(number, tagged(number))]);
    }
}

#[test]
fn a_tree_as_deep_as_can_be_is_read() {
    let grammar = samples::grammar(1, 1, 2, &[(2, &[1, 2]), (2, &[])]);
    let tokens = samples::tokens(&[1; 499]);
    let tables = tables::of(&grammar);
    let tree = descent::parse(&grammar, &tables, &tokens, 1_000).expect("a tree");
    let mut area = vec![0; area_bytes(1_000)];
    write(&tree, &tree.in_slots((1..=1_000).rev()), &mut area);
    let contents = read(&grammar, &area).expect("a valid tree");
    assert_eq!((contents.total, contents.tokens.len()), (999, 499));
}
