//! Tokens: 5 bytes each, a kind and a little-endian tag that is carried and
//! never interpreted.

/// How many bytes a token has.
pub const TOKEN_BYTES: usize = 5;

/// A token.
#[derive(Clone, Copy, Debug, PartialEq)]
pub struct Token {
    pub kind: u8,
    pub tag: u32,
}

/// Tokens of these kinds, each with its number, from 1, as its tag.
pub fn numbered(kinds: impl Iterator<Item = u8>) -> Vec<Token> {
    let tagged = kinds.zip(1..);
    tagged.map(|(kind, tag)| Token { kind, tag }).collect()
}

/// The tokens of these bytes, or the number of the first record that is cut
/// or has a kind that is not 1..t.
pub fn read(bytes: &[u8], t: u8) -> Result<Vec<Token>, usize> {
    let records = bytes.chunks(TOKEN_BYTES).enumerate();
    records
        .map(|(number, record)| read_record(record, t).ok_or(number))
        .collect()
}

fn read_record(record: &[u8], t: u8) -> Option<Token> {
    let &[kind, tag_0, tag_1, tag_2, tag_3] = record.first_chunk::<TOKEN_BYTES>()?;
    let tag = u32::from_le_bytes([tag_0, tag_1, tag_2, tag_3]);
    (1..=t).contains(&kind).then_some(Token { kind, tag })
}

/// Writes tokens into a buffer of exactly as many bytes as they have.
pub fn write(tokens: &[Token], buffer: &mut [u8]) {
    for (token, record) in tokens.iter().zip(buffer.chunks_exact_mut(TOKEN_BYTES)) {
        record[0] = token.kind;
        record[1..].copy_from_slice(&token.tag.to_le_bytes());
    }
}

/// The bytes of tokens.
pub fn bytes(tokens: &[Token]) -> Vec<u8> {
    let mut bytes = vec![0; tokens.len() * TOKEN_BYTES];
    write(tokens, &mut bytes);
    bytes
}

#[cfg(test)]
mod tests {
    use super::*;

    const TOKENS: [Token; 2] = [
        Token {
            kind: 5,
            tag: 0x0403_0201,
        },
        Token { kind: 1, tag: 0 },
    ];

    #[test]
    fn tokens_are_kind_and_little_endian_tag() {
        assert_eq!(bytes(&TOKENS), [5, 1, 2, 3, 4, 1, 0, 0, 0, 0]);
        assert_eq!(read(&bytes(&TOKENS), 5), Ok(TOKENS.to_vec()));
    }

    #[test]
    fn no_bytes_are_no_tokens() {
        assert_eq!(read(&[], 1), Ok(Vec::new()));
    }

    #[test]
    fn a_kind_above_t_or_0_is_bad_at_its_record() {
        assert_eq!(read(&bytes(&TOKENS), 4), Err(0));
        let mut changed = bytes(&TOKENS);
        changed[5] = 0;
        assert_eq!(read(&changed, 5), Err(1));
    }

    #[test]
    fn a_cut_record_is_bad_whatever_its_kind() {
        for length in 6..10 {
            assert_eq!(read(&bytes(&TOKENS)[..length], 5), Err(1));
        }
        for length in 1..5 {
            assert_eq!(read(&[0; 5][..length], 5), Err(0));
        }
    }

    #[test]
    fn the_lowest_bad_record_wins() {
        let mut changed = bytes(&TOKENS)[..9].to_vec();
        changed[0] = 6;
        assert_eq!(read(&changed, 5), Err(0));
    }
}
