//! The descent against the plain parse step by step, Earley's method, and the
//! strings that small grammars derive.

use super::*;
use crate::earley;
use crate::enumeration;
use crate::limits;
use crate::plain_parse;
use crate::prepare;
use crate::random::Random;
use crate::random_grammar;
use crate::random_ll1;
use crate::random_sentence;
use crate::samples;
use crate::sets::Sets;

/// The reply to kinds in this many slots.
fn reply(grammar: &Grammar, tables: &[u8], kinds: &[u8], slots: usize) -> Reply {
    match parse(grammar, tables, &samples::tokens(kinds), slots) {
        Ok(derivation) => Reply::parsed(derivation.nodes.len()),
        Err(refusal) => refusal,
    }
}

fn book(kinds: &[u8], slots: usize) -> Reply {
    let grammar = samples::reference();
    reply(&grammar, &tables::of(&grammar), kinds, slots)
}

/// A sentence with up to three changes, of any kind but a bad one.
fn changed(random: &mut Random, grammar: &Grammar, mut kinds: Vec<u8>) -> Vec<u8> {
    for _ in 0..random.below(4) {
        let kind = random.between(1, grammar.t);
        let place = random.below(kinds.len() + 1);
        match random.below(4) {
            0 => kinds.insert(place, kind),
            1 => kinds.truncate(place),
            2 if place < kinds.len() => kinds[place] = kind,
            3 if place < kinds.len() => drop(kinds.remove(place)),
            _ => (),
        }
    }
    kinds
}

#[test]
fn example_c_the_empty_sentence_is_one_node() {
    assert_eq!(book(&[], 1), Reply::parsed(1));
}

#[test]
fn example_d_nine_nodes_need_nine_slots() {
    assert_eq!(book(&[1, 2, 5], 9), Reply::parsed(9));
    assert_eq!(book(&[1, 2, 5], 8), Reply::NO_ROOM);
}

#[test]
fn example_e_the_first_reason_is_the_reply() {
    assert_eq!(book(&[1, 2], 9), Reply::syntax(2, 56));
    assert_eq!(book(&[1, 2], 8), Reply::NO_ROOM);
}

#[test]
fn example_f_a_terminal_expects_itself() {
    assert_eq!(book(&[1, 2, 4, 2, 4], 1_000), Reply::syntax(4, 32));
}

#[test]
fn tokens_behind_a_whole_sentence_meet_the_end_mark() {
    let grammar = samples::grammar(2, 1, 3, &[(3, &[1])]);
    let tables = tables::of(&grammar);
    assert_eq!(reply(&grammar, &tables, &[1, 2], 9), Reply::syntax(1, 1));
    assert_eq!(reply(&grammar, &tables, &[1, 1, 2], 9), Reply::syntax(1, 1));
}

#[test]
fn an_empty_body_needs_no_slot() {
    let grammar = samples::grammar(1, 1, 2, &[(2, &[])]);
    assert_eq!(
        reply(&grammar, &tables::of(&grammar), &[], 1),
        Reply::parsed(1)
    );
}

#[test]
fn lookahead_31_has_the_highest_bit() {
    let grammar = limits::chain();
    let tables = tables::of(&grammar);
    let highest = Reply::syntax(0, 1 << 31);
    assert_eq!(reply(&grammar, &tables, &[], 1), highest);
    assert_eq!(reply(&grammar, &tables, &[30], 1), highest);
    assert_eq!(reply(&grammar, &tables, &[31], 33), Reply::parsed(33));
    assert_eq!(reply(&grammar, &tables, &[31], 32), Reply::NO_ROOM);
}

#[test]
fn the_children_of_each_node_are_a_body_in_order() {
    let grammar = samples::reference();
    let tables = tables::of(&grammar);
    let tokens = samples::tokens(&[1, 2, 4, 2, 5]);
    let tree = parse(&grammar, &tables, &tokens, 1_000).expect("a sentence");
    assert!(tree.nodes[0].is_last);
    let mut leaves = Vec::new();
    for &number in &tree.preorder {
        let node = &tree.nodes[usize::from(number)];
        if node.production == 0 {
            let Node { symbol, tag, .. } = *node;
            leaves.push(Token { kind: symbol, tag });
            continue;
        }
        let (left, body) = &grammar.productions[usize::from(node.production) - 1];
        assert_eq!((*left, 0), (node.symbol, node.tag));
        assert_eq!(node.first_child == 0, body.is_empty());
        let children = tree.nodes.iter().skip(node.first_child.into());
        for (place, (symbol, child)) in body.iter().zip(children).enumerate() {
            assert_eq!((child.symbol, child.parent), (*symbol, number));
            assert_eq!(child.is_last, place + 1 == body.len());
        }
    }
    assert_eq!(leaves, tokens);
    let mut numbers = tree.preorder.clone();
    numbers.sort();
    assert_eq!(numbers, (0..tree.nodes.len() as u16).collect::<Vec<_>>());
}

#[test]
fn the_plain_parse_step_by_step_agrees_in_any_number_of_slots() {
    let mut counts = [0; 12];
    for case in 0..600 {
        let random = &mut Random::of_case(21, case);
        let grammar = random_ll1::grammar(random);
        let sets = Sets::of(&grammar);
        let tables = tables::of(&grammar);
        for _ in 0..8 {
            let nodes = random.one_of(&[10, 100, 1_000, 1_500]);
            let sentence = random_sentence::kinds(random, &grammar, nodes);
            let kinds = changed(random, &grammar, sentence);
            let most = random.one_of(&[10, 100, 1_000]);
            let some = 1 + random.below(most);
            let slots = random.one_of(&[1_000, some]);
            let found = reply(&grammar, &tables, &kinds, slots);
            let expected = plain_parse::reply(&grammar, &sets, &kinds, slots);
            assert_eq!(found, expected, "{grammar:?}: {kinds:?} in {slots}");
            counts[found.number as usize] += 1;
        }
    }
    assert!([0, 9, 10].iter().all(|&n| counts[n] > 500), "{counts:?}");
}

#[test]
fn earleys_method_agrees_on_sentences_and_longest_beginnings() {
    let mut counts = [0; 12];
    for case in 0..600 {
        let random = &mut Random::of_case(22, case);
        let grammar = random_ll1::grammar(random);
        let sets = Sets::of(&grammar);
        let tables = tables::of(&grammar);
        for _ in 0..5 {
            let sentence = random_sentence::kinds(random, &grammar, 60);
            let mut kinds = changed(random, &grammar, sentence);
            kinds.truncate(60);
            let found = reply(&grammar, &tables, &kinds, 1_000);
            counts[found.number as usize] += 1;
            let verdict = earley::verdict(&grammar, &sets, &kinds);
            let agrees = match found.number {
                0 => verdict.is_accepted,
                9 => !verdict.is_accepted && found.place == verdict.viable as u64,
                _ => true,
            };
            assert!(agrees, "{grammar:?}: {kinds:?}: {found:?}, {verdict:?}");
        }
    }
    assert!(counts[0] > 500 && counts[9] > 500, "{counts:?}");
}

#[test]
fn enumeration_agrees_on_all_short_sentences_of_small_grammars() {
    let mut compared = 0;
    for case in 0..8_000 {
        let grammar = random_grammar::small(&mut Random::of_case(23, case));
        let image = crate::image::records(&grammar).concat();
        if prepare::ll1_grammar(&image).is_ok() {
            compared += 1;
            assert_agrees_with_enumeration(&grammar);
        }
    }
    assert!(compared > 300, "{compared} compared");
}

/// All sentences of up to three tokens are accepted exactly if enumeration
/// finds them, and refused behind the longest beginning that it finds.
fn assert_agrees_with_enumeration(grammar: &Grammar) {
    let tables = tables::of(grammar);
    let strings = enumeration::terminal_beginnings(grammar);
    let mut sentences = vec![Vec::new()];
    for _ in 0..3 {
        let longer = sentences.iter().flat_map(|sentence: &Vec<u8>| {
            let with = |a| [&sentence[..], &[a]].concat();
            grammar.terminals().map(with)
        });
        let longer: Vec<Vec<u8>> = longer.collect();
        sentences.extend(longer);
    }
    for kinds in sentences {
        let viable = (0..=kinds.len())
            .rev()
            .find(|&length| strings.beginnings.contains(&kinds[..length]))
            .expect("every sentence begins with no tokens");
        let found = reply(grammar, &tables, &kinds, 1_000);
        let is_sentence = strings.sentences.contains(&kinds);
        assert_eq!(found.number == 0, is_sentence, "{grammar:?}: {kinds:?}");
        if found.number != 0 {
            assert_eq!(
                (found.number, found.place),
                (9, viable as u64),
                "{grammar:?}: {kinds:?}"
            );
        }
    }
}
