//! Books of a wanted number of rules and edits of them, for measuring.

use crate::tokens::{self, Token};
use std::ops::Range;

/// The kinds of the first and last tokens of a rule, and of a host.
const ALLOW: u8 = 1;
const SEMICOLON: u8 = 5;
const HOST: u8 = 2;

/// The kinds of the rules, which take turns: one host; two hosts; a host and
/// an exception.
const RULES: [&[u8]; 3] = [&[1, 2, 5], &[1, 2, 3, 2, 5], &[1, 2, 4, 2, 5]];

/// The tokens of a book with this many rules.
pub fn tokens(rules: usize) -> Vec<Token> {
    let kinds = RULES.iter().cycle().take(rules).copied().flatten();
    tokens::numbered(kinds.copied())
}

/// An edit with its name: the run of tokens that is removed, and those that
/// are put there.
pub type Edit = (&'static str, Range<usize>, Vec<Token>);

/// Edits of a book with hosts: its first, its middle and its last host become
/// others, and the rule of the middle one is removed.
pub fn edits(book: &[Token]) -> Option<[Edit; 4]> {
    let is_host = |&place: &usize| book[place].kind == HOST;
    let hosts: Vec<usize> = (0..book.len()).filter(is_host).collect();
    let middle = *hosts.get(hosts.len() / 2)?;
    let other_host = |name, place: usize| {
        let tag = !book[place].tag;
        (name, place..place + 1, vec![Token { kind: HOST, tag }])
    };
    Some([
        other_host("first-host", hosts[0]),
        other_host("middle-host", middle),
        other_host("last-host", hosts[hosts.len() - 1]),
        ("remove-rule", rule(book, middle)?, Vec::new()),
    ])
}

/// The tokens of the rule in which a token stands.
fn rule(book: &[Token], place: usize) -> Option<Range<usize>> {
    let is_kind = |kind: u8| move |token: &Token| token.kind == kind;
    let first = book[..place].iter().rposition(is_kind(ALLOW))?;
    let behind = book[place..].iter().position(is_kind(SEMICOLON))?;
    Some(first..place + behind + 1)
}

#[cfg(test)]
mod tests {
    use super::*;
    use crate::descent;
    use crate::samples;
    use crate::tables;
    use crate::tree::MAX_SLOTS;

    #[test]
    fn books_are_sentences_of_the_reference_grammar() {
        let grammar = samples::reference();
        let tables = tables::of(&grammar);
        let nodes = |rules| {
            let tree = descent::parse(&grammar, &tables, &tokens(rules), MAX_SLOTS);
            tree.map(|tree| tree.nodes.len())
        };
        assert_eq!(nodes(0), Ok(1));
        assert_eq!(nodes(1), Ok(9));
        assert_eq!(nodes(3), Ok(33));
        assert_eq!(nodes(93), Ok(993));
        assert!(nodes(94).is_err());
    }

    #[test]
    fn three_hosts_become_others_and_a_rule_is_removed() {
        let book = tokens(3);
        let edits = edits(&book).expect("a book with hosts");
        let runs = edits.clone().map(|(_, run, _)| run);
        assert_eq!(runs, [1..2, 6..7, 11..12, 3..8]);
        for (_, run, inserted) in &edits[..3] {
            let [host] = inserted[..] else {
                panic!("one host is inserted");
            };
            assert_eq!(host.kind, book[run.start].kind);
            assert_ne!(host.tag, book[run.start].tag);
        }
        assert_eq!(edits[3].2, []);
        assert!(super::edits(&[]).is_none());
    }
}
