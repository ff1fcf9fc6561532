//! Images for comparing: the images of random grammars as they are, with one
//! record made bad in a known way, or changed with an outcome left to reading.

use crate::grammar::{Grammar, MAX_BODY, MAX_NONTERMINALS, MAX_PRODUCTIONS, MAX_TERMINALS};
use crate::image::{self, BEFORE_BODY_BYTES, HEAD_MARK, PRODUCTION_MARK};
use crate::random::Random;
use crate::random_grammar;
use crate::reference;

/// An image as the list of its records, the head first.
type Records = Vec<Vec<u8>>;

/// The longest image made here.
const MAX_IMAGE: usize = 3_000;

/// Where t, n and the start symbol stand in a head.
const T_BYTE: usize = 2;
const N_BYTE: usize = 3;
const START_BYTE: usize = 4;

/// Where left side and body length stand in a production record.
const LEFT_BYTE: usize = 2;
const LENGTH_BYTE: usize = 3;

/// Bytes with which no mark begins.
const NO_MARK: [u8; 4] = [0x00, 0x46, 0x48, 0xff];

/// A way to make one record bad. It gives back that record's number, the
/// head's being 0, and leaves the records before it good.
type Fault = fn(&mut Random, &mut Records) -> usize;

/// A change after which the image may be good or bad.
type Change = fn(&mut Random, &mut Records);

const FAULTS: [(&str, Fault); 14] = [
    ("no records", no_records),
    ("cut head", cut_head),
    ("cut production", cut_production),
    ("wrong mark", wrong_mark),
    ("t out of range", t_out_of_range),
    ("n out of range", n_out_of_range),
    ("start no nonterminal", start_no_nonterminal),
    ("left side no nonterminal", left_no_nonterminal),
    ("body symbol out of range", body_symbol_out_of_range),
    ("body too long", body_too_long),
    ("too many productions", too_many_productions),
    ("second head", second_head),
    ("no head", no_head),
    ("trailing bytes", trailing_bytes),
];

const CHANGES: [(&str, Change); 8] = [
    ("no change", |_, _| ()),
    ("flipped bits", flip_bits),
    ("other byte", replace_byte),
    ("cut", cut),
    ("added bytes", add_bytes),
    ("swapped records", swap_records),
    ("random bytes", random_bytes),
    ("long image", lengthen),
];

/// In how many ways an image comes about from a grammar.
pub const KINDS: usize = FAULTS.len() + CHANGES.len();

/// An image to compare, and how it came about.
pub struct Case {
    pub kind: &'static str,
    /// The offset of the first bad record, where the kind settles it.
    pub bad_at: Option<usize>,
    pub image: Vec<u8>,
}

/// A case of a seed. The first cases are the beginnings of the reference
/// image, cut at every place and whole; then each fault and each change takes
/// its turn.
pub fn case(seed: u64, number: usize) -> Case {
    if number <= reference::IMAGE_BYTES {
        let image = reference::IMAGE[..number].to_vec();
        return Case {
            kind: "reference",
            bad_at: None,
            image,
        };
    }
    let mut random = Random::of_case(seed, number as u64);
    let grammar = random_grammar::any(&mut random);
    of_kind(number % KINDS, &grammar, &mut random)
}

/// The image of a grammar with the fault or the change of one kind.
pub fn of_kind(kind: usize, grammar: &Grammar, random: &mut Random) -> Case {
    let mut records = image::records(grammar);
    if let Some((kind, spoil)) = FAULTS.get(kind) {
        let bad = spoil(random, &mut records);
        let bad_at = Some(records[..bad].concat().len());
        return Case {
            kind,
            bad_at,
            image: records.concat(),
        };
    }
    let (kind, change) = CHANGES[kind - FAULTS.len()];
    change(random, &mut records);
    Case {
        kind,
        bad_at: None,
        image: records.concat(),
    }
}

fn no_records(_: &mut Random, records: &mut Records) -> usize {
    records.clear();
    0
}

fn cut_head(random: &mut Random, records: &mut Records) -> usize {
    cut_record(random, records, 0)
}

fn cut_production(random: &mut Random, records: &mut Records) -> usize {
    let number = some_production(random, records);
    cut_record(random, records, number)
}

fn wrong_mark(random: &mut Random, records: &mut Records) -> usize {
    let number = random.below(records.len());
    let other = [0x00, 0x46, 0x47, 0x48, 0x49, 0x4f, 0x50, 0x51, 0xff];
    let mark = &mut records[number][random.below(HEAD_MARK.len())];
    let right = *mark;
    while *mark == right {
        *mark = random.one_of(&other);
    }
    number
}

fn t_out_of_range(random: &mut Random, records: &mut Records) -> usize {
    let t = out_of_range(random, MAX_TERMINALS);
    records[0][T_BYTE] = t;
    records[0][START_BYTE] = t.saturating_add(1);
    0
}

fn n_out_of_range(random: &mut Random, records: &mut Records) -> usize {
    records[0][N_BYTE] = out_of_range(random, MAX_NONTERMINALS);
    0
}

fn start_no_nonterminal(random: &mut Random, records: &mut Records) -> usize {
    records[0][START_BYTE] = no_nonterminal(random, records);
    0
}

fn left_no_nonterminal(random: &mut Random, records: &mut Records) -> usize {
    let number = some_production(random, records);
    records[number][LEFT_BYTE] = no_nonterminal(random, records);
    number
}

fn body_symbol_out_of_range(random: &mut Random, records: &mut Records) -> usize {
    let number = some_production(random, records);
    let symbol = no_symbol(random, records);
    let record = &mut records[number];
    if record.len() == BEFORE_BODY_BYTES {
        record.push(symbol);
        record[LENGTH_BYTE] = 1;
    } else {
        let place = BEFORE_BODY_BYTES + random.below(record.len() - BEFORE_BODY_BYTES);
        record[place] = symbol;
    }
    number
}

/// Every symbol of the body is good; only the length is not.
fn body_too_long(random: &mut Random, records: &mut Records) -> usize {
    let number = some_production(random, records);
    let shortest = MAX_BODY as u8 + 1;
    let most = random.one_of(&[shortest, u8::MAX]);
    let length = random.between(shortest, most);
    let symbol = records[0][START_BYTE];
    let record = &mut records[number];
    record[LENGTH_BYTE] = length;
    record.resize(BEFORE_BODY_BYTES + usize::from(length), symbol);
    number
}

/// The 129th production may hold anything, and more may follow.
fn too_many_productions(random: &mut Random, records: &mut Records) -> usize {
    fill_productions(random, records);
    let number = records.len();
    if random.once_in(2) {
        let added = 1 + random.below(20);
        (0..added).for_each(|_| add_production(random, records));
    } else {
        let count = 1 + random.below(20);
        records.push(random.bytes(count));
    }
    number
}

fn second_head(random: &mut Random, records: &mut Records) -> usize {
    let number = 1 + random.below(records.len());
    records.insert(number, records[0].clone());
    number
}

fn no_head(random: &mut Random, records: &mut Records) -> usize {
    some_production(random, records);
    records.remove(0);
    0
}

/// Too few bytes for a record, or bytes without a mark.
fn trailing_bytes(random: &mut Random, records: &mut Records) -> usize {
    let number = records.len();
    let mut bytes = random.bytes(2 * BEFORE_BODY_BYTES);
    if random.once_in(2) {
        bytes[..PRODUCTION_MARK.len()].copy_from_slice(&PRODUCTION_MARK);
        bytes.truncate(1 + random.below(BEFORE_BODY_BYTES - 1));
    } else {
        bytes[0] = random.one_of(&NO_MARK);
        bytes.truncate(1 + random.below(2 * BEFORE_BODY_BYTES));
    }
    records.push(bytes);
    number
}

fn flip_bits(random: &mut Random, records: &mut Records) {
    for _ in 0..=random.below(4) {
        *some_byte(random, records) ^= 1 << random.below(8);
    }
}

fn replace_byte(random: &mut Random, records: &mut Records) {
    let (t, last) = (records[0][T_BYTE], last_symbol(records));
    let limits = [
        0,
        1,
        t,
        t + 1,
        last,
        last + 1,
        MAX_BODY as u8,
        MAX_BODY as u8 + 1,
    ];
    *some_byte(random, records) = random.one_of(&limits);
}

/// Ends the image at any place, which may be between records.
fn cut(random: &mut Random, records: &mut Records) {
    let mut image = records.concat();
    image.truncate(random.below(image.len()));
    *records = vec![image];
}

fn add_bytes(random: &mut Random, records: &mut Records) {
    let count = 1 + random.below(20);
    records.push(random.bytes(count));
}

fn swap_records(random: &mut Random, records: &mut Records) {
    let (one, other) = (random.below(records.len()), random.below(records.len()));
    records.swap(one, other);
}

/// Random bytes alone, or after the head.
fn random_bytes(random: &mut Random, records: &mut Records) {
    records.truncate(random.below(2));
    let count = random.below(100);
    records.push(random.bytes(count));
}

/// Adds records or bytes up to a length that may be past any good image's.
fn lengthen(random: &mut Random, records: &mut Records) {
    let shortest = records.concat().len();
    let length = shortest + random.below(MAX_IMAGE - shortest + 1);
    let with_records = random.once_in(2);
    while with_records && records.concat().len() < length {
        add_production(random, records);
    }
    let mut image = records.concat();
    image.extend(random.bytes(length.saturating_sub(image.len())));
    image.truncate(length);
    *records = vec![image];
}

/// The number of a production record; a list without one gets one first.
fn some_production(random: &mut Random, records: &mut Records) -> usize {
    if records.len() == 1 {
        add_production(random, records);
    }
    1 + random.below(records.len() - 1)
}

/// Adds a good production under the head's t and n.
fn add_production(random: &mut Random, records: &mut Records) {
    let (t, n) = (records[0][T_BYTE], records[0][N_BYTE]);
    let production = random_grammar::production(random, t, n, 0..=MAX_BODY);
    records.push(image::production_record(&production));
}

/// Adds good productions up to the greatest number of them.
fn fill_productions(random: &mut Random, records: &mut Records) {
    while records.len() <= MAX_PRODUCTIONS {
        add_production(random, records);
    }
}

/// Ends the image inside a record.
fn cut_record(random: &mut Random, records: &mut Records, number: usize) -> usize {
    records.truncate(number + 1);
    let record = &mut records[number];
    record.truncate(1 + random.below(record.len() - 1));
    number
}

fn some_byte<'a>(random: &mut Random, records: &'a mut Records) -> &'a mut u8 {
    let number = random.below(records.len());
    let record = &mut records[number];
    let place = random.below(record.len());
    &mut record[place]
}

fn last_symbol(records: &Records) -> u8 {
    records[0][T_BYTE] + records[0][N_BYTE]
}

/// A number that is not 1..limit, often one next to that range.
fn out_of_range(random: &mut Random, limit: u8) -> u8 {
    let beyond = random.between(limit + 1, u8::MAX);
    random.one_of(&[0, limit + 1, beyond])
}

/// A byte that is no symbol of the grammar.
fn no_symbol(random: &mut Random, records: &Records) -> u8 {
    out_of_range(random, last_symbol(records))
}

/// A byte that is no nonterminal of the grammar.
fn no_nonterminal(random: &mut Random, records: &Records) -> u8 {
    let terminal = random.between(1, records[0][T_BYTE]);
    let no_symbol = no_symbol(random, records);
    random.one_of(&[terminal, no_symbol])
}

#[cfg(test)]
mod tests {
    use super::*;

    #[test]
    fn every_fault_is_refused_at_its_record() {
        for number in 0..20_000 {
            let Case {
                kind,
                bad_at,
                image,
            } = case(3, number);
            if let Some(offset) = bad_at {
                assert_eq!(image::read(&image), Err(offset), "{kind}: {image:02x?}");
            }
        }
    }

    #[test]
    fn changes_leave_some_images_good_and_some_bad() {
        for (wanted, _) in CHANGES {
            let cases = (0..20_000).map(|number| case(3, number));
            let images = cases
                .filter(|case| case.kind == wanted)
                .map(|case| case.image);
            let (good, bad): (Vec<_>, Vec<_>) =
                images.partition(|image| image::read(image).is_ok());
            assert_eq!(good.is_empty(), wanted == "added bytes", "{wanted}");
            assert_eq!(bad.is_empty(), wanted == "no change", "{wanted}");
        }
    }

    #[test]
    fn the_first_cases_cut_the_reference_image_at_every_place() {
        for number in 0..=reference::IMAGE_BYTES {
            assert_eq!(case(9, number).image, reference::IMAGE[..number]);
        }
    }

    #[test]
    fn every_kind_has_its_turn() {
        let kinds: Vec<&str> = (50..100).map(|number| case(1, number).kind).collect();
        let faults = FAULTS.iter().map(|(kind, _)| kind);
        let changes = CHANGES.iter().map(|(kind, _)| kind);
        assert!(faults.chain(changes).all(|kind| kinds.contains(kind)));
    }

    #[test]
    fn images_are_longer_than_any_good_one_but_not_than_3000_bytes() {
        let lengths: Vec<usize> = (0..5_000)
            .map(|number| case(1, number).image.len())
            .collect();
        assert!(lengths.iter().any(|&length| length > 2_900));
        assert!(lengths.iter().all(|&length| length <= MAX_IMAGE));
    }

    #[test]
    fn seed_and_number_settle_a_case() {
        for number in 0..500 {
            assert_eq!(case(5, number).image, case(5, number).image);
        }
        assert!((50..150).any(|number| case(5, number).image != case(6, number).image));
    }
}
