//! What the commands print: lines of fields one space apart, in decimal, a
//! newline at the end of each.

use crate::grammar::Grammar;
use crate::image;
use crate::prepare::prepare;
use crate::reply::Reply;
use crate::tables::TABLE_BYTES;

/// The grammar of an image, or the refusal of it.
pub fn grammar_text(image: &[u8]) -> String {
    match image::read(image) {
        Ok(grammar) => good_grammar(&grammar),
        Err(offset) => refused(Reply::bad_record(offset)) + "\n",
    }
}

/// The reply of prepare and, if it accepts, a line with offset and value for
/// each table byte that is not 0.
pub fn tables_text(image: &[u8]) -> String {
    let mut tables = [0; TABLE_BYTES];
    match prepare(image, &mut tables) {
        Reply::ACCEPTED => {
            let used = tables.iter().enumerate().filter(|(_, &byte)| byte != 0);
            let lines = used.map(|(offset, byte)| format!("{offset} {byte}\n"));
            std::iter::once("accepted\n".to_string())
                .chain(lines)
                .collect()
        }
        reply => refused(reply) + "\n",
    }
}

/// Named bytes with their number, in one line; many equal ones in short.
pub fn bytes(name: &str, bytes: &[u8]) -> String {
    let length = bytes.len();
    match bytes {
        [first, rest @ ..] if length > 64 && rest.iter().all(|byte| byte == first) => {
            format!("{name} of {length} bytes, all {first:02x}")
        }
        _ => format!("{name} of {length} bytes: {}", hex(bytes)),
    }
}

/// Bytes in hexadecimal, one space apart.
pub fn hex(bytes: &[u8]) -> String {
    let digits: Vec<String> = bytes.iter().map(|byte| format!("{byte:02x}")).collect();
    digits.join(" ")
}

/// A line for the head, then one for each production.
fn good_grammar(grammar: &Grammar) -> String {
    let Grammar {
        t,
        n,
        start,
        productions,
    } = grammar;
    let mut text = format!("grammar {t} {n} {start} {}\n", productions.len());
    for (number, (left, body)) in grammar.numbered() {
        text += &format!("{number} {left}");
        body.iter().for_each(|symbol| text += &format!(" {symbol}"));
        text += "\n";
    }
    text
}

/// A refusal by its number and place.
pub fn refused(reply: Reply) -> String {
    format!("refused {} {}", reply.number, reply.place)
}

#[cfg(test)]
mod tests {
    use super::*;
    use crate::reference::IMAGE;

    #[test]
    fn the_reference_grammar_is_shown_line_by_line() {
        let expected = "grammar 5 5 6 8\n\
                        1 6 7 6\n\
                        2 6\n\
                        3 7 1 8 10 5\n\
                        4 8 2 9\n\
                        5 9 3 8\n\
                        6 9\n\
                        7 10 4 8\n\
                        8 10\n";
        assert_eq!(grammar_text(&IMAGE), expected);
    }

    #[test]
    fn a_head_alone_is_shown_as_one_line() {
        assert_eq!(grammar_text(&IMAGE[..5]), "grammar 5 5 6 0\n");
    }

    #[test]
    fn a_bad_image_is_shown_with_its_offset() {
        assert_eq!(grammar_text(&[]), "refused 1 0\n");
        assert_eq!(grammar_text(&IMAGE[..48]), "refused 1 45\n");
    }

    #[test]
    fn bytes_are_shown_by_two_digits_each() {
        assert_eq!(hex(&[0, 0x47, 255]), "00 47 ff");
    }

    #[test]
    fn many_equal_bytes_are_shown_in_short() {
        assert_eq!(bytes("tree", &[0xaa; 65]), "tree of 65 bytes, all aa");
        assert_eq!(bytes("tree", &[1, 1]), "tree of 2 bytes: 01 01");
        let unequal = [&[0; 64][..], &[1]].concat();
        assert!(bytes("tree", &unequal).ends_with(" 00 00 01"));
    }

    #[test]
    fn tables_are_shown_by_their_bytes_that_are_not_0() {
        let text = tables_text(&IMAGE);
        assert!(text.starts_with("accepted\n0 2\n1 1\n33 3\n"));
        assert_eq!(text.lines().count(), 1 + 9 + 25);
    }

    #[test]
    fn a_refusal_of_prepare_is_shown_with_number_and_place() {
        assert_eq!(tables_text(&IMAGE[..5]), "refused 2 6\n");
    }
}
