//! The plain parse by recursive descent: each call reads what one node
//! derives. It meets lookaheads and makes nodes in the order of the plain
//! parse, so that it is refused for the same reason.

use crate::derivation::{Derivation, Node};
use crate::grammar::{Grammar, END_MARK};
use crate::reply::Reply;
use crate::tables;
use crate::tokens::Token;
use std::ops::Range;

/// The derivation tree of a sentence if it has at most as many nodes as there
/// are slots, else reply 9 or 10. The tables must be those of the grammar.
pub fn parse(
    grammar: &Grammar,
    tables: &[u8],
    tokens: &[Token],
    slots: usize,
) -> Result<Derivation, Reply> {
    let mut descent = Descent {
        grammar,
        tables,
        tokens,
        slots,
        nodes: Vec::with_capacity(slots),
        preorder: Vec::with_capacity(slots),
        matched: 0,
    };
    descent.nodes.push(Node::root(grammar.start));
    descent.read(0)?;
    if descent.matched < tokens.len() {
        return Err(descent.expected(1 << END_MARK));
    }
    Ok(Derivation {
        nodes: descent.nodes,
        preorder: descent.preorder,
    })
}

/// A parse under way.
struct Descent<'a> {
    grammar: &'a Grammar,
    tables: &'a [u8],
    tokens: &'a [Token],
    slots: usize,
    nodes: Vec<Node>,
    /// The numbers of the nodes read so far, or being read.
    preorder: Vec<u16>,
    /// How many tokens are matched.
    matched: usize,
}

impl Descent<'_> {
    /// Reads the tokens below a node and makes the nodes below it.
    fn read(&mut self, number: u16) -> Result<(), Reply> {
        self.preorder.push(number);
        let symbol = self.nodes[usize::from(number)].symbol;
        if self.grammar.terminals().contains(&symbol) {
            self.nodes[usize::from(number)].tag = self.matched_tag(symbol)?;
            return Ok(());
        }
        let row = tables::predictions(self.tables, self.grammar.row(symbol));
        let production = row[usize::from(self.lookahead())];
        let Some(index) = usize::from(production).checked_sub(1) else {
            return Err(self.expected(predicted(row)));
        };
        self.nodes[usize::from(number)].production = production;
        let children = self.add_nodes(number, &self.grammar.productions[index].1)?;
        children.into_iter().try_for_each(|child| self.read(child))
    }

    /// The tag of the next token, which must be of this kind.
    fn matched_tag(&mut self, kind: u8) -> Result<u32, Reply> {
        match self.tokens.get(self.matched) {
            Some(token) if token.kind == kind => {
                self.matched += 1;
                Ok(token.tag)
            }
            _ => Err(self.expected(1 << kind)),
        }
    }

    /// Adds a child for each symbol of a body, if there is room for all.
    fn add_nodes(&mut self, parent: u16, body: &[u8]) -> Result<Range<u16>, Reply> {
        let first = self.nodes.len();
        if first + body.len() > self.slots {
            return Err(Reply::NO_ROOM);
        }
        let Some((&last, others)) = body.split_last() else {
            return Ok(0..0);
        };
        let others = others.iter().map(|&symbol| Node::of(symbol, parent));
        self.nodes.extend(others);
        self.nodes.push(Node {
            is_last: true,
            ..Node::of(last, parent)
        });
        let first = first as u16;
        self.nodes[usize::from(parent)].first_child = first;
        Ok(first..first + body.len() as u16)
    }

    /// The kind of the next token, or the end mark.
    fn lookahead(&self) -> u8 {
        self.tokens
            .get(self.matched)
            .map_or(END_MARK, |token| token.kind)
    }

    /// Reply 9 at the next token.
    fn expected(&self, lookaheads: u32) -> Reply {
        Reply::syntax(self.matched, lookaheads)
    }
}

/// Bit a for each lookahead a with a prediction in a row.
fn predicted(row: &[u8]) -> u32 {
    let bits = row.iter().enumerate().map(|(a, &p)| u32::from(p != 0) << a);
    bits.sum()
}

#[cfg(test)]
mod tests;
