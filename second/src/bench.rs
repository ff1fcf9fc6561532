//! How long the calls take, next to plain copies of the buffers concerned.

use crate::book;
use crate::edit::{self, Change};
use crate::grammar::Grammar;
use crate::parse::{self, WORK_AREAS};
use crate::prepare;
use crate::read_back;
use crate::reply::Reply;
use crate::show;
use crate::tables::{self, TABLE_BYTES};
use crate::tokens::{self, TOKEN_BYTES};
use crate::tree::{self, area_bytes, MAX_SLOTS};
use std::hint::black_box;
use std::num::NonZeroU32;
use std::time::Instant;

/// The length of the tree area of 1,000 slots and of its work area.
const AREA_BYTES: usize = area_bytes(MAX_SLOTS);
const WORK_BYTES: usize = WORK_AREAS * AREA_BYTES;

/// Into how many batches the calls of an edit are split.
const BATCHES: u32 = 20;

/// A line with the nanoseconds of one call of prepare, whichever reply it
/// gives, and those of one copy of the tables.
pub fn prepare(count: NonZeroU32, image: &[u8]) -> String {
    let mut tables = [0; TABLE_BYTES];
    let call = nanoseconds(count, || {
        black_box(prepare::prepare(black_box(image), black_box(&mut tables)));
    });
    let copy = copy_nanoseconds(count, TABLE_BYTES);
    format!("prepare {call} copy {copy}")
}

/// A line with the nanoseconds of one call of parse into 1,000 slots, of the
/// parse alone when all is checked, and of one copy of the tree area, of the
/// tables and of the work area; or the refusal of the sentence.
pub fn parse(count: NonZeroU32, image: &[u8], token_bytes: &[u8]) -> Result<String, String> {
    let Parsed {
        grammar,
        tables,
        mut area,
        mut work,
    } = Parsed::of(image, token_bytes)?;
    let call = nanoseconds(count, || {
        let (area, work) = (black_box(&mut area), black_box(&mut work));
        black_box(parse::parse(image, &tables, token_bytes, area, work));
    });
    let tokens = tokens::read(token_bytes, grammar.t).expect("parse accepts the tokens");
    let alone = nanoseconds(count, || {
        let area = black_box(&mut area);
        black_box(parse::write_tree(&grammar, &tables, &tokens, area)).ok();
    });
    let [tree, tables, work] =
        [AREA_BYTES, TABLE_BYTES, WORK_BYTES].map(|length| copy_nanoseconds(count, length));
    Ok(format!(
        "parse {call} alone {alone} copy-tree {tree} copy-tables {tables} copy-work {work}"
    ))
}

/// A line with the nanoseconds of one call of read back from 1,000 slots, of
/// the walk that tells a valid tree alone, and of one copy of the tree area
/// and of the tokens; or the refusal of the sentence.
pub fn read_back(count: NonZeroU32, image: &[u8], token_bytes: &[u8]) -> Result<String, String> {
    let Parsed { grammar, area, .. } = Parsed::of(image, token_bytes)?;
    let mut output = vec![0; MAX_SLOTS * TOKEN_BYTES];
    let call = nanoseconds(count, || {
        let output = black_box(&mut output);
        black_box(read_back::read_back(image, black_box(&area), output));
    });
    let walk = nanoseconds(count, || {
        black_box(tree::read(&grammar, black_box(&area)));
    });
    let [tree, tokens] =
        [AREA_BYTES, token_bytes.len()].map(|length| copy_nanoseconds(count, length));
    Ok(format!(
        "read-back {call} walk {walk} copy-tree {tree} copy-tokens {tokens}"
    ))
}

/// A line with the nanoseconds of each edit of a book in 1,000 slots, and of
/// one copy of the tree area, of the tables and of the work area; or the
/// refusal of the book. Each edit finds the tree as it was parsed, by a copy
/// that its time includes, and is the best of many batches.
pub fn edit(count: NonZeroU32, image: &[u8], token_bytes: &[u8]) -> Result<String, String> {
    let mut parsed = Parsed::of(image, token_bytes)?;
    let tokens = tokens::read(token_bytes, parsed.grammar.t).expect("parse accepts the tokens");
    let mut fields = Vec::new();
    for (name, run, inserted) in book::edits(&tokens).ok_or("a book without hosts")? {
        let change = Change {
            place: run.start as u32,
            removed: run.len() as u32,
            token_bytes: &tokens::bytes(&inserted),
        };
        let time = parsed.edit_nanoseconds(count, image, change)?;
        fields.push(format!("{name} {time}"));
    }
    let buffers = [
        ("copy-tree", AREA_BYTES),
        ("copy-tables", TABLE_BYTES),
        ("copy-work", WORK_BYTES),
    ];
    for (name, length) in buffers {
        fields.push(format!("{name} {}", copy_nanoseconds(count, length)));
    }
    Ok(fields.join(" "))
}

/// The tree of a sentence in 1,000 slots, and what the calls on it are lent.
struct Parsed {
    grammar: Grammar,
    tables: Vec<u8>,
    area: Vec<u8>,
    work: Vec<u8>,
}

impl Parsed {
    /// Parses a sentence, or gives the refusal of it.
    fn of(image: &[u8], token_bytes: &[u8]) -> Result<Parsed, String> {
        let (grammar, _) = prepare::ll1_grammar(image).map_err(show::refused)?;
        let tables = tables::of(&grammar);
        let mut area = vec![0; AREA_BYTES];
        let mut work = vec![0; WORK_BYTES];
        let reply = parse::parse(image, &tables, token_bytes, &mut area, &mut work);
        if !reply.is_accepted() {
            return Err(show::refused(reply));
        }
        Ok(Parsed {
            grammar,
            tables,
            area,
            work,
        })
    }

    /// The time of one edit in nanoseconds, or the refusal of it.
    fn edit_nanoseconds(
        &mut self,
        count: NonZeroU32,
        image: &[u8],
        change: Change,
    ) -> Result<u128, String> {
        let mut area = self.area.clone();
        let mut reply = Reply::ACCEPTED;
        let time = best_nanoseconds(count, || {
            area.copy_from_slice(&self.area);
            let (area, work) = (black_box(&mut area), black_box(&mut self.work));
            reply = edit::edit(image, &self.tables, area, black_box(change), work);
        });
        if reply.is_accepted() {
            Ok(time)
        } else {
            Err(show::refused(reply))
        }
    }
}

/// The mean time of one copy of this many bytes in nanoseconds.
fn copy_nanoseconds(count: NonZeroU32, length: usize) -> u128 {
    let (source, mut target) = (vec![1; length], vec![0; length]);
    nanoseconds(count, || {
        black_box(&mut target).copy_from_slice(black_box(&source));
    })
}

/// The least mean time of one call in nanoseconds among batches of calls.
fn best_nanoseconds(count: NonZeroU32, mut call: impl FnMut()) -> u128 {
    let batch = NonZeroU32::new(count.get() / BATCHES).unwrap_or(NonZeroU32::MIN);
    let times = (0..BATCHES).map(|_| nanoseconds(batch, &mut call));
    times.min().expect("there are batches")
}

/// The mean time of one call in nanoseconds.
fn nanoseconds(count: NonZeroU32, mut call: impl FnMut()) -> u128 {
    let start = Instant::now();
    for _ in 0..count.get() {
        call();
    }
    start.elapsed().as_nanos() / u128::from(count.get())
}

#[cfg(test)]
mod tests {
    use super::*;
    use crate::book;
    use crate::reference::IMAGE;
    use crate::samples;

    /// The words of a line, which takes turns with times.
    fn words(line: &str) -> Vec<&str> {
        let fields: Vec<&str> = line.split(' ').collect();
        let (words, times): (Vec<&str>, Vec<&str>) =
            fields.chunks(2).map(|pair| (pair[0], pair[1])).unzip();
        assert!(times.iter().all(|time| time.parse::<u64>().is_ok()));
        words
    }

    #[test]
    fn the_line_of_prepare_holds_both_times() {
        let line = prepare(NonZeroU32::MIN, &IMAGE);
        assert_eq!(words(&line), ["prepare", "copy"]);
    }

    #[test]
    fn the_lines_of_the_other_calls_hold_all_times() {
        let book = tokens::bytes(&book::tokens(93));
        let line = parse(NonZeroU32::MIN, &IMAGE, &book).expect("a book");
        assert_eq!(
            words(&line),
            ["parse", "alone", "copy-tree", "copy-tables", "copy-work"]
        );
        let line = read_back(NonZeroU32::MIN, &IMAGE, &book).expect("a book");
        assert_eq!(
            words(&line),
            ["read-back", "walk", "copy-tree", "copy-tokens"]
        );
        let line = edit(NonZeroU32::MIN, &IMAGE, &book).expect("a book");
        let edits = ["first-host", "middle-host", "last-host", "remove-rule"];
        let copies = ["copy-tree", "copy-tables", "copy-work"];
        assert_eq!(words(&line), [&edits[..], &copies].concat());
    }

    #[test]
    fn a_refused_sentence_is_an_error() {
        let tokens = samples::token_bytes(&[1, 2]);
        let refused = Err("refused 9 2".to_string());
        assert_eq!(parse(NonZeroU32::MIN, &IMAGE, &tokens), refused);
        assert_eq!(read_back(NonZeroU32::MIN, &IMAGE, &tokens), refused);
        assert_eq!(edit(NonZeroU32::MIN, &IMAGE, &tokens), refused);
        let no_book = Err("a book without hosts".to_string());
        assert_eq!(edit(NonZeroU32::MIN, &IMAGE, &[]), no_book);
    }

    #[test]
    fn each_call_is_made() {
        let mut calls = 0;
        let count = NonZeroU32::new(7).expect("7 is not 0");
        nanoseconds(count, || calls += 1);
        assert_eq!(calls, 7);
        let count = NonZeroU32::new(60).expect("60 is not 0");
        best_nanoseconds(count, || calls += 1);
        assert_eq!(calls, 67);
    }
}
