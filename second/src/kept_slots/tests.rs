//! The rule on slots once more, word by word over paths and maps, on the areas
//! before and after many edits.

use super::*;
use crate::calls::Case as _;
use crate::edit_case;
use crate::tree::{Header, Slot};
use std::collections::{HashMap, HashSet};

/// The child numbers from the root down to a node.
type Path = Vec<usize>;

/// A node of a valid area.
struct Found {
    slot: u16,
    symbol: u8,
    /// Its first token, if it has tokens.
    first: Option<usize>,
    path: Path,
}

/// The nodes of a valid area in preorder.
fn found(area: &[u8]) -> Vec<Found> {
    let mut nodes = Vec::new();
    let root = Header::read(area).expect("a valid tree").root;
    find(area, root, Vec::new(), &mut 0, &mut nodes);
    nodes
}

/// Adds a node and those below it; counts the tokens.
fn find(area: &[u8], number: u16, path: Path, tokens: &mut usize, nodes: &mut Vec<Found>) {
    let slot = Slot::read(area, number).expect("a used slot");
    let (place, first) = (nodes.len(), *tokens);
    nodes.push(Found {
        slot: number,
        symbol: slot.symbol,
        first: None,
        path: path.clone(),
    });
    *tokens += usize::from(slot.production == 0);
    let mut child = slot.first_child;
    for child_number in 0.. {
        if child == 0 {
            break;
        }
        let path = [&path[..], &[child_number]].concat();
        find(area, child, path, tokens, nodes);
        child = Slot::read(area, child).expect("a used slot").next_sibling;
    }
    if *tokens > first {
        nodes[place].first = Some(first);
    }
}

/// Where a token stands after the edit, if it is kept.
fn kept_token(run: Run, token: usize) -> Option<usize> {
    let [place, removed, inserted] = [run.place, run.removed, run.inserted].map(usize::from);
    if token < place {
        Some(token)
    } else {
        (token >= place + removed).then(|| token - removed + inserted)
    }
}

/// For the path of each old node that keeps its slot, the path in the new tree.
fn kept_paths(old: &[Found], new: &[Found], run: Run) -> HashMap<Path, Path> {
    let by_path: HashMap<&Path, &Found> = new.iter().map(|node| (&node.path, node)).collect();
    let mut by_start: HashMap<(usize, u8), &Path> = HashMap::new();
    for node in new {
        if let Some(first) = node.first {
            let other = by_start.insert((first, node.symbol), &node.path);
            assert_eq!(other, None, "there is at most one such node");
        }
    }
    let mut kept: HashMap<Path, Path> = HashMap::new();
    for node in old {
        let path = match (node.first, node.path.split_last()) {
            (Some(first), _) => kept_token(run, first)
                .and_then(|first| by_start.get(&(first, node.symbol)))
                .map(|path| path.to_vec()),
            (None, None) => Some(Vec::new()),
            (None, Some((&number, parent))) => {
                let parent = kept.get(parent);
                parent.map(|parent| [&parent[..], &[number]].concat())
            }
        };
        let is_fit = |path: &Path| by_path[path].first.is_some() == node.first.is_some();
        if let Some(path) = path.filter(is_fit) {
            assert_eq!(by_path[&path].symbol, node.symbol);
            kept.insert(node.path.clone(), path);
        }
    }
    kept
}

#[test]
fn the_rule_word_by_word_gives_the_same_slots_and_counts() {
    let mut accepted = 0;
    let mut scattered = 0;
    for case in edit_case::cases(71).take(6_000) {
        let (reply, answer) = case.expected();
        if !reply.is_accepted() {
            continue;
        }
        accepted += 1;
        let (old, new) = (found(&case.lent.area), found(&answer.written));
        let kept = kept_paths(&old, &new, case.run());
        let old_slots = old.iter().filter_map(|node| {
            let path = kept.get(&node.path)?;
            Some((path, node.slot))
        });
        let old_slots: HashMap<&Path, u16> = old_slots.collect();
        let held: HashSet<u16> = old_slots.values().copied().collect();
        assert_eq!((old_slots.len(), held.len()), (kept.len(), kept.len()));
        let mut free = (1..).filter(|slot| !held.contains(slot));
        let mut made = Vec::new();
        for node in &new {
            let expected = old_slots.get(&node.path).copied();
            let expected = expected.unwrap_or_else(|| {
                made.extend(free.next());
                made[made.len() - 1]
            });
            assert_eq!(node.slot, expected, "{}", case.text());
        }
        let counts = [reply.total, reply.kept, reply.made, reply.given_up];
        let expected = [new.len(), kept.len(), made.len(), old.len() - kept.len()];
        assert_eq!(counts.map(|count| count as usize), expected);
        let (first, last) = (made.first().copied(), made.last().copied());
        let is_run = first
            .zip(last)
            .is_none_or(|(first, last)| usize::from(last - first) < made.len());
        scattered += usize::from(!is_run);
    }
    assert!(accepted > 3_000, "{accepted} accepted");
    assert!(scattered > 600, "{scattered} scattered");
}
