//! Replies: a number, a place, an expected set and counts. Accepted is number
//! 0; every other number names the one reason of a refusal.

use std::ops::Range;

/// Accepted.
const ACCEPTED: u32 = 0;
/// A grammar record is bad, or the image is empty.
const BAD_RECORD: u32 = 1;
/// A nonterminal derives no terminal string, or the start derives no string
/// that holds it.
const USELESS: u32 = 2;
/// The grammar is not LL(1).
const CONFLICT: u32 = 3;
/// The tables have another length or, in parse and edit, are not what prepare
/// writes.
const WRONG_TABLES: u32 = 4;
/// The area's length is wrong or, in edit and read back, the area is no valid
/// tree.
const WRONG_AREA: u32 = 5;
/// The work area is shorter than three times the tree area.
const SHORT_WORK: u32 = 6;
/// The token bytes end inside a record, or a kind is not 1..t.
const BAD_TOKEN: u32 = 7;
/// Place plus removed exceeds the old token count.
const OUT_OF_RANGE: u32 = 8;
/// The sentence is not in the language.
const SYNTAX: u32 = 9;
/// The tree has no room in the area.
const NO_ROOM: u32 = 10;
/// The output is shorter than 5 bytes a token.
const SHORT_OUTPUT: u32 = 11;

/// How many bytes a reply has: number, place, expected set and the counts
/// total, kept, made and given up.
pub const REPLY_BYTES: usize = 32;
/// Where the fields stand in a reply.
const NUMBER: Range<usize> = 0..4;
const PLACE: Range<usize> = 4..12;
const EXPECTED: Range<usize> = 12..16;
const TOTAL: Range<usize> = 16..20;
const KEPT: Range<usize> = 20..24;
const MADE: Range<usize> = 24..28;
const GIVEN_UP: Range<usize> = 28..32;

/// A reply. Fields that a reply does not have are 0.
#[derive(Clone, Copy, Debug, PartialEq)]
pub struct Reply {
    pub number: u32,
    pub place: u64,
    /// Bit a for each lookahead a that was expected.
    pub expected: u32,
    /// How many nodes the stored tree has.
    pub total: u32,
    /// How many of them kept their slots.
    pub kept: u32,
    /// How many of them the call made.
    pub made: u32,
    /// How many nodes of the tree before are not in it any more.
    pub given_up: u32,
}

impl Reply {
    /// Reply 0 without counts.
    pub const ACCEPTED: Reply = Reply::with_place(ACCEPTED, 0);

    /// Reply 4.
    pub const WRONG_TABLES: Reply = Reply::with_place(WRONG_TABLES, 0);

    /// Reply 5.
    pub const WRONG_AREA: Reply = Reply::with_place(WRONG_AREA, 0);

    /// Reply 10.
    pub const NO_ROOM: Reply = Reply::with_place(NO_ROOM, 0);

    /// The reply whose other fields are 0.
    const fn with_place(number: u32, place: u64) -> Reply {
        Reply {
            number,
            place,
            expected: 0,
            total: 0,
            kept: 0,
            made: 0,
            given_up: 0,
        }
    }

    /// Reply 0 of parse, which makes every node of the tree.
    pub fn parsed(total: usize) -> Reply {
        Reply {
            made: total as u32,
            ..Reply::read_back(total)
        }
    }

    /// Reply 0 of read back.
    pub fn read_back(total: usize) -> Reply {
        Reply {
            total: total as u32,
            ..Reply::ACCEPTED
        }
    }

    /// Reply 0 of edit.
    pub fn edited(total: usize, kept: usize, made: usize, given_up: usize) -> Reply {
        Reply {
            kept: kept as u32,
            made: made as u32,
            given_up: given_up as u32,
            ..Reply::read_back(total)
        }
    }

    /// Reply 1, its place the byte offset of the first bad record.
    pub fn bad_record(offset: usize) -> Reply {
        Reply::with_place(BAD_RECORD, offset as u64)
    }

    /// Reply 2, its place the lowest useless symbol.
    pub fn useless(symbol: u8) -> Reply {
        Reply::with_place(USELESS, symbol.into())
    }

    /// Reply 3, its place the lowest nonterminal in conflict.
    pub fn conflict(symbol: u8) -> Reply {
        Reply::with_place(CONFLICT, symbol.into())
    }

    /// Reply 6, its place the length needed.
    pub fn short_work(needed: usize) -> Reply {
        Reply::with_place(SHORT_WORK, needed as u64)
    }

    /// Reply 7, its place the first bad record, from 0.
    pub fn bad_token(record: usize) -> Reply {
        Reply::with_place(BAD_TOKEN, record as u64)
    }

    /// Reply 8, its place the old token count.
    pub fn out_of_range(tokens: usize) -> Reply {
        Reply::with_place(OUT_OF_RANGE, tokens as u64)
    }

    /// Reply 9, its place the token that was not expected.
    pub fn syntax(token: usize, expected: u32) -> Reply {
        Reply {
            expected,
            ..Reply::with_place(SYNTAX, token as u64)
        }
    }

    /// Reply 11, its place the bytes needed.
    pub fn short_output(needed: usize) -> Reply {
        Reply::with_place(SHORT_OUTPUT, needed as u64)
    }

    pub fn is_accepted(self) -> bool {
        self.number == ACCEPTED
    }

    /// The fields of the reply, little-endian.
    pub fn bytes(self) -> [u8; REPLY_BYTES] {
        let mut bytes = [0; REPLY_BYTES];
        bytes[NUMBER].copy_from_slice(&self.number.to_le_bytes());
        bytes[PLACE].copy_from_slice(&self.place.to_le_bytes());
        bytes[EXPECTED].copy_from_slice(&self.expected.to_le_bytes());
        bytes[TOTAL].copy_from_slice(&self.total.to_le_bytes());
        bytes[KEPT].copy_from_slice(&self.kept.to_le_bytes());
        bytes[MADE].copy_from_slice(&self.made.to_le_bytes());
        bytes[GIVEN_UP].copy_from_slice(&self.given_up.to_le_bytes());
        bytes
    }

    /// Writes the reply into a buffer, as much as fits; what lies beyond the
    /// reply stays as it was.
    pub fn write(self, buffer: &mut [u8]) {
        let fields = self.bytes();
        buffer
            .iter_mut()
            .zip(fields)
            .for_each(|(byte, field)| *byte = field);
    }
}

#[cfg(test)]
mod tests {
    use super::*;

    const REPLY: Reply = Reply {
        number: 0x0403_0201,
        place: 0x0c0b_0a09_0807_0605,
        expected: 0x100f_0e0d,
        total: 0x1413_1211,
        kept: 0x1817_1615,
        made: 0x1c1b_1a19,
        given_up: 0x201f_1e1d,
    };

    #[test]
    fn fields_are_little_endian_and_in_order() {
        let expected: Vec<u8> = (1..=32).collect();
        assert_eq!(REPLY.bytes()[..], expected);
    }

    #[test]
    fn a_short_buffer_gets_the_first_bytes() {
        for length in 0..=REPLY_BYTES {
            let mut buffer = vec![0xaa; length];
            REPLY.write(&mut buffer);
            assert_eq!(buffer, REPLY.bytes()[..length]);
        }
    }

    #[test]
    fn bytes_beyond_the_reply_stay() {
        let mut buffer = [0xaa; REPLY_BYTES + 3];
        REPLY.write(&mut buffer);
        assert_eq!(buffer[..REPLY_BYTES], REPLY.bytes());
        assert_eq!(buffer[REPLY_BYTES..], [0xaa; 3]);
    }

    #[test]
    fn parse_counts_total_and_made_edit_all_four_and_read_back_total_alone() {
        let counts = |reply: Reply| (reply.total, reply.kept, reply.made, reply.given_up);
        assert_eq!(counts(Reply::parsed(9)), (9, 0, 9, 0));
        assert_eq!(counts(Reply::edited(9, 4, 5, 6)), (9, 4, 5, 6));
        assert_eq!(counts(Reply::read_back(9)), (9, 0, 0, 0));
        assert!(Reply::edited(9, 4, 5, 6).is_accepted());
    }
}
