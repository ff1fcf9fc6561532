//! The call prepare: it writes the tables of an image's grammar, or gives the
//! first of replies 1, 2, 3 and 4 that applies.

use crate::grammar::Grammar;
use crate::image;
use crate::reply::Reply;
use crate::sets::Sets;
use crate::tables;

/// Writes the tables of the grammar in an image. A refusal leaves them as they
/// were.
pub fn prepare(image: &[u8], tables: &mut [u8]) -> Reply {
    write_tables(image, tables).err().unwrap_or(Reply::ACCEPTED)
}

/// Writes the tables, or gives the refusal.
fn write_tables(image: &[u8], tables: &mut [u8]) -> Result<(), Reply> {
    let (grammar, sets) = ll1_grammar(image)?;
    let tables = tables.try_into().map_err(|_| Reply::WRONG_TABLES)?;
    tables::write(&grammar, &sets, tables);
    Ok(())
}

/// The grammar of an image and its sets, or the first of replies 1, 2 and 3
/// that applies.
pub fn ll1_grammar(image: &[u8]) -> Result<(Grammar, Sets), Reply> {
    let grammar = image::read(image).map_err(Reply::bad_record)?;
    let sets = Sets::of(&grammar);
    if let Some(symbol) = sets.lowest_useless(&grammar) {
        return Err(Reply::useless(symbol));
    }
    if let Some(symbol) = tables::lowest_conflict(&grammar, &sets) {
        return Err(Reply::conflict(symbol));
    }
    Ok((grammar, sets))
}

#[cfg(test)]
mod tests {
    use super::*;
    use crate::reference::IMAGE;
    use crate::samples;
    use crate::tables::TABLE_BYTES;

    fn assert_refused(number: u32, place: u64, image: &[u8]) {
        let mut tables = [0xaa; TABLE_BYTES];
        assert_eq!(
            prepare(image, &mut tables),
            Reply {
                number,
                place,
                ..Reply::ACCEPTED
            },
            "image {image:02x?}"
        );
        assert_eq!(tables, [0xaa; TABLE_BYTES]);
    }

    #[test]
    fn the_reference_image_is_accepted() {
        let mut tables = [0xaa; TABLE_BYTES];
        assert_eq!(prepare(&IMAGE, &mut tables), Reply::ACCEPTED);
        assert!(!tables.contains(&0xaa));
    }

    #[test]
    fn tables_of_another_length_are_reply_4_place_0() {
        for length in [0, 1, TABLE_BYTES - 1, TABLE_BYTES + 1, 2 * TABLE_BYTES] {
            let mut tables = vec![0xaa; length];
            let reply = prepare(&IMAGE, &mut tables);
            assert_eq!((reply.number, reply.place), (4, 0));
            assert!(tables.iter().all(|&byte| byte == 0xaa));
        }
    }

    #[test]
    fn every_other_refusal_comes_before_the_length_of_the_tables() {
        let conflict = samples::image(1, 1, 2, &[(2, &[]), (2, &[])]);
        let images = [&IMAGE[..48], &IMAGE[..5], &conflict];
        let numbers = images.map(|image| prepare(image, &mut []).number);
        assert_eq!(numbers, [1, 2, 3]);
    }

    #[test]
    fn example_l_the_first_48_bytes_are_reply_1_place_45() {
        assert_refused(1, 45, &IMAGE[..48]);
    }

    #[test]
    fn example_l_with_n_of_6_is_reply_2_place_11() {
        let mut image = IMAGE;
        image[3] = 6;
        assert_refused(2, 11, &image);
    }

    #[test]
    fn example_l_with_a_production_added_is_reply_3_place_10() {
        let image = [&IMAGE[..], &[0x47, 0x50, 0x0a, 0x01, 0x05]].concat();
        assert_refused(3, 10, &image);
    }

    #[test]
    fn an_empty_image_is_reply_1_place_0() {
        assert_refused(1, 0, &[]);
    }

    #[test]
    fn a_head_alone_is_reply_2_with_the_lowest_nonterminal() {
        assert_refused(2, 6, &IMAGE[..5]);
        assert_refused(2, 32, &[0x47, 0x48, 31, 32, 63]);
    }

    #[test]
    fn a_bad_record_comes_before_a_useless_symbol() {
        assert_refused(1, 5, &[0x47, 0x48, 1, 1, 2, 0]);
    }

    #[test]
    fn a_useless_symbol_comes_before_a_conflict() {
        let image = samples::image(1, 2, 2, &[(2, &[1]), (2, &[1])]);
        assert_refused(2, 3, &image);
    }

    #[test]
    fn the_same_production_twice_is_a_conflict() {
        assert_refused(3, 2, &samples::image(1, 1, 2, &[(2, &[1]), (2, &[1])]));
        assert_refused(3, 2, &samples::image(1, 1, 2, &[(2, &[]), (2, &[])]));
    }

    #[test]
    fn left_recursion_is_a_conflict() {
        assert_refused(3, 2, &samples::image(1, 1, 2, &[(2, &[2, 1]), (2, &[])]));
        let hidden = samples::image(2, 2, 3, &[(3, &[4, 3, 1]), (3, &[2]), (4, &[])]);
        assert_refused(3, 3, &hidden);
    }

    #[test]
    fn the_lowest_of_several_nonterminals_in_conflict_is_the_place() {
        let productions: [(u8, &[u8]); 7] = [
            (2, &[1, 4]),
            (4, &[1]),
            (4, &[1, 3]),
            (3, &[1]),
            (3, &[]),
            (3, &[1, 1]),
            (2, &[]),
        ];
        assert_refused(3, 3, &samples::image(1, 3, 2, &productions));
    }

    #[test]
    fn a_conflict_of_first_with_follow_is_found() {
        let image = samples::image(1, 2, 2, &[(2, &[3, 1]), (3, &[1]), (3, &[])]);
        assert_refused(3, 3, &image);
    }
}
