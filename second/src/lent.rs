//! What parse and edit are lent in a case, how it is sent to the other program
//! and shown, and how it is made wrong.

use crate::calls::{self, Answer};
use crate::choices;
use crate::grammar::Grammar;
use crate::image;
use crate::parse::WORK_AREAS;
use crate::prepare::prepare;
use crate::random::Random;
use crate::reply::Reply;
use crate::show;
use crate::tables::{self, TABLE_BYTES};
use crate::token_damage;
use crate::tokens::{self, Token};

/// How the other program gets the tables: sent, or prepared by itself.
const SENT: u8 = 0;
const PREPARED: u8 = 1;

/// Work areas are longer than needed by less than this.
const SURPLUS_BOUND: usize = 3_000;

/// The buffer that both calls write, and what the signs of their answers say.
pub const WRITTEN: &str = "tree";
pub const SIGNS: &[&str] = &["image, tables and tokens unchanged", "work area zero"];

/// What is lent.
#[derive(Debug, PartialEq)]
pub struct Lent {
    pub image: Vec<u8>,
    pub tables: Tables,
    pub tokens: Vec<u8>,
    pub area: Vec<u8>,
    pub work_length: usize,
    pub reply_length: usize,
    pub fill: u8,
}

/// The tables that are lent.
#[derive(Debug, PartialEq)]
pub enum Tables {
    /// These bytes.
    Sent(Vec<u8>),
    /// What prepare makes of right-sized tables full of the fill byte, some
    /// bytes of that changed, then cut or lengthened by the fill byte.
    Prepared {
        length: usize,
        changes: Vec<(usize, u8)>,
    },
}

impl Lent {
    /// Nothing wrong: the image and tables of a grammar, enough work.
    pub fn right(random: &mut Random, grammar: &Grammar, tokens: &[Token], area: Vec<u8>) -> Lent {
        Lent {
            image: image::records(grammar).concat(),
            tables: Tables::RIGHT,
            tokens: tokens::bytes(tokens),
            work_length: enough_work(random, area.len()),
            area,
            reply_length: choices::reply_length(random),
            fill: choices::fill(random),
        }
    }

    /// Makes each thing wrong once in so many times, the area by a change that
    /// is given; tells what became wrong.
    pub fn spoil(
        &mut self,
        random: &mut Random,
        grammar: &Grammar,
        times: usize,
        change_area: impl FnOnce(&mut Random, &mut Vec<u8>) -> &'static str,
    ) -> Vec<&'static str> {
        let mut kinds = Vec::new();
        if random.once_in(times) {
            let (kind, bad) = choices::bad_image(random, grammar);
            self.image = bad;
            kinds.push(kind);
        }
        if random.once_in(times) {
            self.tables = Tables::wrong(random);
            kinds.push("wrong tables");
        }
        if random.once_in(times) {
            kinds.push(change_area(random, &mut self.area));
            self.work_length = enough_work(random, self.area.len());
        }
        if random.once_in(times) {
            self.work_length = short_work(random, self.area.len());
            kinds.push("short work");
        }
        if random.once_in(times) {
            kinds.push(token_damage::spoiled(random, grammar.t, &mut self.tokens));
        }
        kinds
    }

    /// How the tables are sent, the lengths of image, tables, tokens, tree,
    /// work and reply, the fill byte, the image, the tables or their changes,
    /// the tokens, the tree area.
    pub fn bytes(&self) -> Vec<u8> {
        let sending = match self.tables {
            Tables::Sent(_) => SENT,
            Tables::Prepared { .. } => PREPARED,
        };
        let lengths = calls::numbers([
            self.image.len(),
            self.tables.length(),
            self.tokens.len(),
            self.area.len(),
            self.work_length,
            self.reply_length,
        ]);
        let parts = [
            &[sending][..],
            &lengths,
            &[self.fill],
            &self.image,
            &self.tables.sent_bytes(),
            &self.tokens,
            &self.area,
        ];
        parts.concat()
    }

    /// The buffers before the call.
    pub fn before(&self) -> Answer {
        Answer {
            reply: vec![self.fill; self.reply_length],
            written: self.area.clone(),
            signs: vec![1; SIGNS.len()],
        }
    }

    /// The reply and the right answer of a call that takes tables, tree area
    /// and work area.
    pub fn expected(
        &self,
        call: impl FnOnce(&[u8], &mut [u8], &mut [u8]) -> Reply,
    ) -> (Reply, Answer) {
        let mut answer = self.before();
        let tables = self.tables.bytes(&self.image, self.fill);
        let mut work = vec![self.fill; self.work_length];
        let reply = call(&tables, &mut answer.written, &mut work);
        reply.write(&mut answer.reply);
        answer.signs[1] = work.iter().all(|&byte| byte == 0).into();
        (reply, answer)
    }

    /// All that is lent, line by line.
    pub fn text(&self) -> String {
        let Lent {
            image,
            tables,
            tokens,
            area,
            work_length,
            reply_length,
            fill,
        } = self;
        let image = show::bytes("image", image);
        let tables = tables.text();
        let tokens = show::bytes("tokens", tokens);
        let area = show::bytes("tree", area);
        let lengths = format!("work of {work_length} bytes, reply of {reply_length} bytes");
        format!("{image}\n{tables}\n{tokens}\n{area}\n{lengths}, filled with {fill:02x}\n")
    }
}

impl Tables {
    /// What prepare writes.
    pub const RIGHT: Tables = Tables::Prepared {
        length: TABLE_BYTES,
        changes: Vec::new(),
    };

    /// Prepared tables with some bytes changed or of another length, or tables
    /// of another grammar.
    fn wrong(random: &mut Random) -> Tables {
        match random.below(8) {
            0 | 1 => Tables::Prepared {
                length: choices::tables_length(random),
                changes: Vec::new(),
            },
            2 => {
                let (_, other) = choices::ll1_grammar(random);
                Tables::Sent(tables::of(&other))
            }
            _ => Tables::Prepared {
                length: TABLE_BYTES,
                changes: (0..=random.below(3))
                    .map(|_| changed_byte(random))
                    .collect(),
            },
        }
    }

    /// The bytes of the tables with this image and fill byte.
    fn bytes(&self, image: &[u8], fill: u8) -> Vec<u8> {
        let (length, changes) = match self {
            Tables::Sent(bytes) => return bytes.clone(),
            Tables::Prepared { length, changes } => (*length, changes),
        };
        let mut tables = vec![fill; TABLE_BYTES];
        prepare(image, &mut tables);
        for &(place, value) in changes {
            tables[place] = value;
        }
        tables.resize(length, fill);
        tables
    }

    pub fn length(&self) -> usize {
        match self {
            Tables::Sent(bytes) => bytes.len(),
            Tables::Prepared { length, .. } => *length,
        }
    }

    /// The bytes, or the number of changes and place and value of each.
    fn sent_bytes(&self) -> Vec<u8> {
        match self {
            Tables::Sent(bytes) => bytes.clone(),
            Tables::Prepared { changes, .. } => {
                let count = calls::numbers([changes.len()]);
                let change = |&(place, value)| [calls::numbers([place]), vec![value]].concat();
                let changes = changes.iter().map(change);
                std::iter::once(count)
                    .chain(changes)
                    .collect::<Vec<_>>()
                    .concat()
            }
        }
    }

    fn text(&self) -> String {
        match self {
            Tables::Sent(bytes) => show::bytes("tables", bytes),
            Tables::Prepared { length, changes } => {
                format!("tables as prepared, {length} bytes, changes (place, value): {changes:?}")
            }
        }
    }
}

/// Any value for a byte of the tables, of the predictions above all.
fn changed_byte(random: &mut Random) -> (usize, u8) {
    let bound = random.one_of(&[64, 1_024, TABLE_BYTES, TABLE_BYTES]);
    let place = random.below(bound);
    let place = random.one_of(&[place, place, TABLE_BYTES - 1]);
    let value = random.between(0, u8::MAX);
    let value = random.one_of(&[0, 1, value, u8::MAX]);
    (place, value)
}

/// Just enough work or more.
fn enough_work(random: &mut Random, area_length: usize) -> usize {
    let surplus = random.below(SURPLUS_BOUND);
    WORK_AREAS * area_length + random.one_of(&[0, 0, 1, surplus])
}

/// Less work than the area needs; none for an area without bytes.
fn short_work(random: &mut Random, area_length: usize) -> usize {
    let needed = WORK_AREAS * area_length;
    let less = random.below(needed + 1);
    random.one_of(&[0, needed.saturating_sub(1), less, area_length])
}

#[cfg(test)]
mod tests;
