//! What the program `listing` prints for token bytes: the tree of the
//! reference grammar in 1,000 slots, or the refusal.

use crate::parse::{parse, WORK_AREAS};
use crate::prepare::prepare;
use crate::reference::IMAGE;
use crate::reply::Reply;
use crate::tables::TABLE_BYTES;
use crate::tokens::TOKEN_BYTES;
use crate::tree::{area_bytes, Header, Slot, MAX_SLOTS};

/// The longest input that is parsed.
pub const MAX_INPUT: usize = MAX_SLOTS * TOKEN_BYTES;

/// The tree of a sentence line by line, or the refusal of it.
pub fn listing(input: &[u8]) -> String {
    if input.len() > MAX_INPUT {
        return refused(Reply::bad_token(MAX_SLOTS));
    }
    let mut tables = [0; TABLE_BYTES];
    prepare(&IMAGE, &mut tables);
    let mut area = [0; area_bytes(MAX_SLOTS)];
    let mut work = [0; WORK_AREAS * area_bytes(MAX_SLOTS)];
    let reply = parse(&IMAGE, &tables, input, &mut area, &mut work);
    if reply.is_accepted() {
        tree_text(&area)
    } else {
        refused(reply)
    }
}

/// A line with the numbers of nodes and tokens, then one for each slot. Parse
/// puts nodes in slots 1, 2, .. in preorder.
fn tree_text(area: &[u8]) -> String {
    let header = Header::read(area).expect("parse writes a header");
    let mut text = format!("accepted {} {}\n", header.used, header.tokens);
    for number in 1..=header.used {
        let slot = Slot::read(area, number).expect("parse writes a slot for each node");
        let Slot {
            symbol,
            production,
            parent,
            tag,
            ..
        } = slot;
        text += &format!("{number} {symbol} {production} {parent} {tag}\n");
    }
    text
}

fn refused(reply: Reply) -> String {
    let Reply {
        number,
        place,
        expected,
        ..
    } = reply;
    format!("refused {number} {place} {expected}\n")
}

#[cfg(test)]
mod tests {
    use super::*;
    use crate::samples;

    #[test]
    fn the_example_is_listed() {
        let input = [1, 0, 0, 0, 0, 2, 7, 0, 0, 0, 5, 0, 0, 0, 0];
        let expected = "accepted 9 3\n\
                        1 6 1 0 0\n\
                        2 7 3 1 0\n\
                        3 1 0 2 0\n\
                        4 8 4 2 0\n\
                        5 2 0 4 7\n\
                        6 9 6 4 0\n\
                        7 10 8 2 0\n\
                        8 5 0 2 0\n\
                        9 6 2 1 0\n";
        assert_eq!(listing(&input), expected);
    }

    #[test]
    fn no_tokens_are_one_node() {
        assert_eq!(listing(&[]), "accepted 1 0\n1 6 2 0 0\n");
    }

    #[test]
    fn tags_are_unsigned() {
        let mut input = samples::token_bytes(&[1, 2, 5]);
        input[6..10].fill(0xff);
        assert!(listing(&input).contains("\n5 2 0 4 4294967295\n"));
    }

    #[test]
    fn refusals_have_number_place_and_expected_set() {
        let refused = |kinds: &[u8]| listing(&samples::token_bytes(kinds));
        assert_eq!(refused(&[1, 2]), "refused 9 2 56\n");
        assert_eq!(refused(&[1, 2, 4, 2, 4]), "refused 9 4 32\n");
        assert_eq!(refused(&[1, 6]), "refused 7 1 0\n");
        assert_eq!(listing(&[1, 0, 0, 0]), "refused 7 0 0\n");
        assert_eq!(refused(&[1, 2, 5].repeat(125)), "refused 10 0 0\n");
    }

    #[test]
    fn input_above_5000_bytes_is_refused_whatever_it_holds() {
        assert_eq!(listing(&[0; 5_001]), "refused 7 1000 0\n");
        assert_eq!(listing(&[1; 10_000]), "refused 7 1000 0\n");
        assert_eq!(listing(&[0; 5_000]), "refused 7 0 0\n");
        let book = samples::token_bytes(&[1, 2, 5].repeat(334)[..1_000]);
        assert_eq!(book.len(), 5_000);
        assert_eq!(listing(&book), "refused 10 0 0\n");
    }
}
