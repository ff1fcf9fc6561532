//! How what is lent is sent and shown, and what becomes wrong.

use super::*;
use crate::reference::IMAGE;
use crate::samples;

fn small(tables: Tables) -> Lent {
    Lent {
        image: vec![0x47, 0x48, 7],
        tables,
        tokens: vec![1, 2],
        area: vec![3, 4, 5],
        work_length: 9,
        reply_length: 2,
        fill: 0xaa,
    }
}

#[test]
fn sent_are_sending_lengths_fill_and_bytes() {
    let lent = small(Tables::Sent(vec![8, 9]));
    #[rustfmt::skip]
    let expected = [
        0,
        3, 0, 0, 0, 2, 0, 0, 0, 2, 0, 0, 0, 3, 0, 0, 0, 9, 0, 0, 0, 2, 0, 0, 0,
        0xaa,
        0x47, 0x48, 7,
        8, 9,
        1, 2,
        3, 4, 5,
    ];
    assert_eq!(lent.bytes(), expected);
}

#[test]
fn prepared_tables_are_sent_by_their_changes() {
    let lent = small(Tables::Prepared {
        length: 33_792,
        changes: vec![(0x0102, 5), (0, 6)],
    });
    #[rustfmt::skip]
    let expected = [
        1,
        3, 0, 0, 0, 0x00, 0x84, 0, 0, 2, 0, 0, 0, 3, 0, 0, 0, 9, 0, 0, 0, 2, 0, 0, 0,
        0xaa,
        0x47, 0x48, 7,
        2, 0, 0, 0, 2, 1, 0, 0, 5, 0, 0, 0, 0, 6,
        1, 2,
        3, 4, 5,
    ];
    assert_eq!(lent.bytes(), expected);
}

#[test]
fn prepared_tables_are_changed_then_cut_or_lengthened() {
    let right = tables::of(&samples::reference());
    let bytes = |length, changes| Tables::Prepared { length, changes }.bytes(&IMAGE, 0x55);
    assert_eq!(bytes(TABLE_BYTES, Vec::new()), right);
    assert_eq!(bytes(2, vec![(1, 99)]), [right[0], 99]);
    let longer = bytes(TABLE_BYTES + 2, Vec::new());
    assert_eq!(longer[..TABLE_BYTES], right);
    assert_eq!(longer[TABLE_BYTES..], [0x55; 2]);
    let refused = Tables::RIGHT.bytes(&[], 0x55);
    assert_eq!(refused, [0x55; TABLE_BYTES]);
}

#[test]
fn all_is_shown() {
    let expected = "image of 3 bytes: 47 48 07\n\
                    tables of 2 bytes: 08 09\n\
                    tokens of 2 bytes: 01 02\n\
                    tree of 3 bytes: 03 04 05\n\
                    work of 9 bytes, reply of 2 bytes, filled with aa\n";
    assert_eq!(small(Tables::Sent(vec![8, 9])).text(), expected);
    let prepared = small(Tables::Prepared {
        length: 7,
        changes: vec![(1, 2)],
    });
    let tables = "\ntables as prepared, 7 bytes, changes (place, value): [(1, 2)]\n";
    assert!(prepared.text().contains(tables));
}

#[test]
fn the_answer_tells_whether_the_work_area_is_zero() {
    let lent = small(Tables::Sent(vec![8, 9]));
    let (reply, answer) = lent.expected(|tables, area, work| {
        assert_eq!((tables, work.len()), (&[8, 9][..], 9));
        area[1] = 7;
        work.fill(0);
        Reply::WRONG_AREA
    });
    assert_eq!(reply, Reply::WRONG_AREA);
    let expected = Answer {
        reply: vec![5, 0],
        written: vec![3, 7, 5],
        signs: vec![1, 1],
    };
    assert_eq!(answer, expected);
    let (_, answer) = lent.expected(|_, _, _| Reply::WRONG_AREA);
    assert_eq!(answer.signs, [1, 0]);
}

#[test]
fn each_thing_becomes_wrong_or_stays_right() {
    let grammar = samples::reference();
    let mut met = [0; 6];
    for case in 0..300 {
        let random = &mut Random::of_case(51, case);
        let tokens = samples::tokens(&[1, 2, 5]);
        let mut lent = Lent::right(random, &grammar, &tokens, vec![0; 32]);
        assert_eq!(
            (&lent.image[..], &lent.tables),
            (&IMAGE[..], &Tables::RIGHT)
        );
        assert!(lent.work_length >= 96);
        let kinds = lent.spoil(random, &grammar, 2, |_, area| {
            area.clear();
            "no area"
        });
        met[0] += usize::from(lent.image != IMAGE);
        met[1] += usize::from(lent.tables != Tables::RIGHT);
        met[2] += usize::from(lent.area.is_empty());
        met[3] += usize::from(lent.work_length < 3 * lent.area.len());
        met[4] += usize::from(lent.tokens != samples::token_bytes(&[1, 2, 5]));
        met[5] += usize::from(kinds.is_empty());
    }
    assert!(met[5] > 0, "{met:?}");
    assert!(met[..5].iter().all(|n| (50..250).contains(n)), "{met:?}");
}
