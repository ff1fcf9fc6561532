//! The plain parse for the tests, step by step as the rules word it: a stack
//! of symbols and a count of nodes, with the predictors themselves instead of
//! tables.

use crate::grammar::{Grammar, Production, END_MARK};
use crate::reply::Reply;
use crate::sets::Sets;
use crate::symbol_set::SymbolSet;

/// The reply of the plain parse to kinds that are all 1..t.
pub fn reply(grammar: &Grammar, sets: &Sets, kinds: &[u8], slots: usize) -> Reply {
    let mut stack = vec![grammar.start];
    let mut count = 1;
    let mut place = 0;
    loop {
        let a = kinds.get(place).copied().unwrap_or(END_MARK);
        let Some(top) = stack.pop() else {
            if a == END_MARK {
                return Reply::parsed(count);
            }
            return Reply::syntax(place, 1 << END_MARK);
        };
        if grammar.terminals().contains(&top) {
            if top != a {
                return Reply::syntax(place, 1 << top);
            }
            place += 1;
            continue;
        }
        let Some((_, body)) = predicted(grammar, sets, top, a) else {
            return Reply::syntax(place, expected(grammar, sets, top));
        };
        count += body.len();
        if count > slots {
            return Reply::NO_ROOM;
        }
        stack.extend(body.iter().rev());
    }
}

/// The productions of a nonterminal.
fn productions(grammar: &Grammar, symbol: u8) -> impl Iterator<Item = &Production> {
    let productions = grammar.productions.iter();
    productions.filter(move |(left, _)| *left == symbol)
}

/// The production of a nonterminal that a lookahead predicts.
fn predicted<'a>(grammar: &'a Grammar, sets: &Sets, symbol: u8, a: u8) -> Option<&'a Production> {
    productions(grammar, symbol).find(|production| sets.predictors(production).contains(a))
}

/// Bit a for each lookahead with a prediction for a nonterminal.
fn expected(grammar: &Grammar, sets: &Sets, symbol: u8) -> u32 {
    let predictors = productions(grammar, symbol).map(|production| sets.predictors(production));
    let lookaheads = predictors.fold(SymbolSet::EMPTY, SymbolSet::or);
    lookaheads.symbols().map(|a| 1 << a).sum()
}
