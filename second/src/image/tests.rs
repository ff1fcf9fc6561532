//! Good images, and bad ones of every kind with the offset of the bad record.

use super::*;
use crate::reference::IMAGE;

/// Where the records of the reference image begin, and its end.
const BOUNDS: [usize; 10] = [0, 5, 11, 15, 23, 29, 35, 39, 45, 49];

/// The reference image with one byte replaced.
fn reference_with(offset: usize, byte: u8) -> Vec<u8> {
    let mut image = IMAGE.to_vec();
    image[offset] = byte;
    image
}

/// The reference image with bytes added at the end.
fn reference_and(added: &[u8]) -> Vec<u8> {
    [&IMAGE[..], added].concat()
}

/// A head with 5 terminals, 5 nonterminals and start 6, then some records.
fn after_head(records: &[u8]) -> Vec<u8> {
    [&IMAGE[..HEAD_BYTES], records].concat()
}

/// A head and this many productions without a body.
fn with_productions(count: usize) -> Vec<u8> {
    after_head(&[0x47, 0x50, 6, 0].repeat(count))
}

fn assert_bad_at(offset: usize, image: &[u8]) {
    assert_eq!(read(image), Err(offset), "image {image:02x?}");
}

fn assert_good(image: &[u8]) -> Grammar {
    read(image).unwrap_or_else(|offset| panic!("bad at {offset}: image {image:02x?}"))
}

#[test]
fn the_reference_image_holds_the_reference_grammar() {
    let grammar = assert_good(&IMAGE);
    assert_eq!((grammar.t, grammar.n, grammar.start), (5, 5, 6));
    let productions = [
        (6, vec![7, 6]),
        (6, vec![]),
        (7, vec![1, 8, 10, 5]),
        (8, vec![2, 9]),
        (9, vec![3, 8]),
        (9, vec![]),
        (10, vec![4, 8]),
        (10, vec![]),
    ];
    assert_eq!(grammar.productions, productions);
}

#[test]
fn the_records_of_the_reference_grammar_are_its_image() {
    assert_eq!(records(&assert_good(&IMAGE)).concat(), IMAGE);
}

#[test]
fn an_empty_image_is_bad_at_0() {
    assert_bad_at(0, &[]);
}

#[test]
fn a_cut_head_is_bad_at_0() {
    for length in 1..HEAD_BYTES {
        assert_bad_at(0, &IMAGE[..length]);
    }
}

#[test]
fn a_cut_production_is_bad_where_it_begins() {
    for pair in BOUNDS[1..].windows(2) {
        for end in pair[0] + 1..pair[1] {
            assert_bad_at(pair[0], &IMAGE[..end]);
        }
    }
}

#[test]
fn an_image_may_end_between_any_two_records() {
    for (count, end) in BOUNDS[1..].iter().enumerate() {
        assert_eq!(assert_good(&IMAGE[..*end]).productions.len(), count);
    }
}

#[test]
fn example_l_the_first_48_bytes_are_bad_at_45() {
    assert_bad_at(45, &IMAGE[..48]);
}

#[test]
fn a_wrong_mark_in_the_head_is_bad_at_0() {
    for byte in [0x00, 0x46, 0x48, 0x50, 0xff] {
        assert_bad_at(0, &reference_with(0, byte));
    }
    for byte in [0x00, 0x47, 0x49, 0x50, 0xff] {
        assert_bad_at(0, &reference_with(1, byte));
    }
}

#[test]
fn a_wrong_mark_in_a_production_is_bad_where_it_begins() {
    for offset in BOUNDS[1..9].iter().copied() {
        for byte in [0x00, 0x46, 0x48, 0x50, 0xff] {
            assert_bad_at(offset, &reference_with(offset, byte));
        }
        for byte in [0x00, 0x47, 0x48, 0x51, 0xff] {
            assert_bad_at(offset, &reference_with(offset + 1, byte));
        }
    }
}

#[test]
fn t_of_0_or_above_31_is_bad_at_0() {
    assert_bad_at(0, &[0x47, 0x48, 0, 1, 1]);
    assert_bad_at(0, &[0x47, 0x48, 32, 1, 33]);
    assert_bad_at(0, &[0x47, 0x48, 255, 1, 0]);
    assert_bad_at(0, &[0x47, 0x48, 255, 255, 255]);
}

#[test]
fn n_of_0_or_above_32_is_bad_at_0() {
    assert_bad_at(0, &[0x47, 0x48, 1, 0, 1]);
    assert_bad_at(0, &[0x47, 0x48, 1, 0, 2]);
    assert_bad_at(0, &[0x47, 0x48, 1, 33, 2]);
    assert_bad_at(0, &[0x47, 0x48, 31, 255, 32]);
}

#[test]
fn a_start_that_is_no_nonterminal_is_bad_at_0() {
    for start in [0, 1, 5, 11, 255] {
        assert_bad_at(0, &reference_with(4, start));
    }
}

#[test]
fn a_left_side_that_is_no_nonterminal_is_bad() {
    for offset in BOUNDS[1..9].iter().copied() {
        for left in [0, 1, 5, 11, 255] {
            assert_bad_at(offset, &reference_with(offset + 2, left));
        }
    }
}

#[test]
fn a_body_symbol_of_0_or_above_the_last_is_bad() {
    for symbol in [0, 11, 64, 255] {
        for place in 19..23 {
            assert_bad_at(15, &reference_with(place, symbol));
        }
    }
}

#[test]
fn a_body_of_9_symbols_is_bad() {
    assert_bad_at(
        5,
        &after_head(&[0x47, 0x50, 6, 9, 1, 1, 1, 1, 1, 1, 1, 1, 1]),
    );
    let longest = [&[0x47, 0x50, 6, 255][..], &[1; 255]].concat();
    assert_bad_at(5, &after_head(&longest));
}

#[test]
fn a_129th_production_is_bad_whatever_it_holds() {
    let image = with_productions(128);
    let contents: [&[u8]; 6] = [
        &[0x47, 0x50, 6, 0],
        &[0x47, 0x50, 6, 1, 1],
        &[0x47, 0x50, 6, 1, 0],
        &[0x47, 0x50, 5, 0],
        &[0x47, 0x50],
        &[0],
    ];
    for added in contents {
        assert_bad_at(image.len(), &[&image, added].concat());
    }
    assert_bad_at(image.len(), &with_productions(400));
}

#[test]
fn a_second_head_is_bad_where_it_begins() {
    let head = &IMAGE[..HEAD_BYTES];
    assert_bad_at(5, &after_head(head));
    assert_bad_at(49, &reference_and(head));
    assert_bad_at(15, &[&IMAGE[..15], head, &IMAGE[15..]].concat());
}

#[test]
fn a_production_before_the_head_is_bad_at_0() {
    assert_bad_at(0, &IMAGE[HEAD_BYTES..]);
    assert_bad_at(0, &[&IMAGE[5..11], &IMAGE[..5]].concat());
}

#[test]
fn trailing_bytes_are_bad_where_they_begin() {
    for count in 1..BEFORE_BODY_BYTES {
        assert_bad_at(49, &reference_and(&[0x47, 0x50, 6][..count]));
    }
    for count in [1, 2, 3, 4, 5, 100] {
        assert_bad_at(49, &reference_and(&vec![0; count]));
    }
    assert_bad_at(49, &reference_and(&[0x47]));
    assert_bad_at(49, &reference_and(&[0x47, 0x50, 6, 1]));
}

#[test]
fn the_first_of_two_bad_records_counts() {
    let mut image = reference_with(17, 1);
    image[41] = 1;
    assert_bad_at(15, &image);
    image[3] = 0;
    assert_bad_at(0, &image);
}

#[test]
fn a_head_alone_is_good() {
    assert!(assert_good(&IMAGE[..HEAD_BYTES]).productions.is_empty());
}

#[test]
fn the_smallest_t_and_n_are_good() {
    let grammar = assert_good(&[0x47, 0x48, 1, 1, 2]);
    assert_eq!((grammar.t, grammar.n, grammar.start), (1, 1, 2));
}

#[test]
fn t_of_31_and_n_of_32_are_good() {
    assert_eq!(assert_good(&[0x47, 0x48, 31, 1, 32]).t, 31);
    assert_eq!(assert_good(&[0x47, 0x48, 1, 32, 2]).n, 32);
    assert_eq!(assert_good(&[0x47, 0x48, 31, 32, 32]).start, 32);
}

#[test]
fn the_last_symbol_may_be_start_left_side_and_body_symbol() {
    let grammar = assert_good(&[0x47, 0x48, 31, 32, 63, 0x47, 0x50, 63, 2, 63, 1]);
    assert_eq!(grammar.start, 63);
    assert_eq!(grammar.productions, [(63, vec![63, 1])]);
}

#[test]
fn a_body_of_8_symbols_is_good() {
    let image = after_head(&[0x47, 0x50, 10, 8, 1, 2, 3, 4, 5, 6, 7, 10]);
    assert_eq!(
        assert_good(&image).productions,
        [(10, vec![1, 2, 3, 4, 5, 6, 7, 10])]
    );
}

#[test]
fn a_body_of_0_symbols_is_good() {
    assert_eq!(
        assert_good(&after_head(&[0x47, 0x50, 6, 0])).productions,
        [(6, vec![])]
    );
}

#[test]
fn up_to_128_productions_are_good() {
    for count in [1, 127, 128] {
        assert_eq!(
            assert_good(&with_productions(count)).productions.len(),
            count
        );
    }
}

#[test]
fn the_longest_good_image_has_1541_bytes() {
    let record = [0x47, 0x50, 63, 8, 1, 2, 3, 4, 5, 6, 62, 63];
    let image = [
        &[0x47, 0x48, 31, 32, 32][..],
        &record.repeat(MAX_PRODUCTIONS),
    ]
    .concat();
    assert_eq!(image.len(), 1541);
    assert_good(&image);
}
