//! Changes of the shape of a tree in an area: slots more or fewer, or in each
//! other's place.

use super::Area;
use crate::grammar::Grammar;
use crate::random::Random;
use crate::tree::{Header, Slot};

/// A free slot becomes one like the root or a leaf, counted or not.
pub fn second_root(random: &mut Random, _: &Grammar, area: &mut Area) {
    let Some(number) = area.some_free(random) else {
        return;
    };
    let used = area.some_used(random);
    let like = random.one_of(&[area.header().root, used]);
    let slot = Slot {
        first_child: 0,
        parent: 0,
        next_sibling: 0,
        ..area.slot(like)
    };
    slot.write(area.bytes, number);
    let is_counted = random.once_in(2);
    area.change_header(|header| {
        header.used += u16::from(is_counted);
        header.tokens += u16::from(is_counted && slot.production == 0);
    });
}

/// The whole tree once more in free slots, as far as there is room; counted
/// or not.
pub fn second_tree(random: &mut Random, _: &Grammar, area: &mut Area) {
    let count = area.used.len();
    if area.free.len() < count {
        return;
    }
    let mut moved = vec![0; area.used.len() + area.free.len() + 1];
    for (&old, &new) in area.used.iter().zip(&area.free) {
        moved[usize::from(old)] = new;
    }
    let to = |link: u16| moved[usize::from(link)];
    for number in area.used.clone() {
        let slot = area.slot(number);
        let copy = Slot {
            parent: to(slot.parent),
            first_child: to(slot.first_child),
            next_sibling: to(slot.next_sibling),
            ..slot
        };
        copy.write(area.bytes, to(number));
    }
    if random.once_in(2) {
        area.change_header(|header| {
            header.used *= 2;
            header.tokens *= 2;
        });
    }
}

/// A slot loses its last child, if that has none itself; the counts are right.
pub fn lose_last_child(random: &mut Random, _: &Grammar, area: &mut Area) {
    let Some(parent) = area.some(random, |slot| slot.first_child != 0) else {
        return;
    };
    let mut children = area.children(parent);
    let last = children.pop().expect("the slot has a child");
    let slot = area.slot(last);
    if slot.first_child != 0 {
        return;
    }
    area.free(last);
    area.link_children(parent, &children);
    area.change_header(|header| {
        header.used -= 1;
        header.tokens -= u16::from(slot.production == 0);
    });
}

/// A slot gets a leaf or a childless slot more; the counts are right.
pub fn add_child(random: &mut Random, _: &Grammar, area: &mut Area) {
    let Some(number) = area.some_free(random) else {
        return;
    };
    let parent = area.some_used(random);
    let like = area.some(random, |slot| slot.first_child == 0);
    let slot = area.slot(like.expect("some slot has no child"));
    slot.write(area.bytes, number);
    let mut children = area.children(parent);
    children.insert(random.below(children.len() + 1), number);
    area.link_children(parent, &children);
    area.change_header(|header| {
        header.used += 1;
        header.tokens += u16::from(slot.production == 0);
    });
}

/// The children of a slot in another order.
pub fn exchange_siblings(random: &mut Random, _: &Grammar, area: &mut Area) {
    if let Some(parent) = area.some(random, |slot| slot.first_child != 0) {
        let mut children = area.children(parent);
        random.shuffle(&mut children);
        area.link_children(parent, &children);
    }
}

/// Two slots with children give them to each other.
pub fn exchange_subtrees(random: &mut Random, _: &Grammar, area: &mut Area) {
    let Some(one) = area.some(random, |slot| slot.first_child != 0) else {
        return;
    };
    let symbol = area.slot(one).symbol;
    let is_alike = random.once_in(2);
    let sort = |slot: &Slot| slot.first_child != 0 && (!is_alike || slot.symbol == symbol);
    let other = area
        .some(random, sort)
        .expect("the first one is of this sort");
    let (first, second) = (area.children(one), area.children(other));
    let (one_production, other_production) =
        (area.slot(one).production, area.slot(other).production);
    area.link_children(one, &second);
    area.link_children(other, &first);
    if is_alike {
        area.change(one, |slot| slot.production = other_production);
        area.change(other, |slot| slot.production = one_production);
    }
}

/// A subtree becomes the whole tree; the counts are right.
pub fn subtree_alone(random: &mut Random, _: &Grammar, area: &mut Area) {
    let root = area.some_used(random);
    area.change(root, |slot| {
        slot.parent = 0;
        slot.next_sibling = 0;
    });
    let mut below = vec![root];
    let mut reached = 0;
    while let Some(&number) = below.get(reached) {
        below.extend(area.children(number));
        reached += 1;
    }
    let is_leaf = |&&number: &&u16| area.slot(number).production == 0;
    let header = Header {
        root,
        used: below.len() as u16,
        tokens: below.iter().filter(is_leaf).count() as u16,
    };
    for number in area.used.clone() {
        if !below.contains(&number) {
            area.free(number);
        }
    }
    header.write(area.bytes);
}

/// A used slot becomes zero, counted still or not.
pub fn free_slot(random: &mut Random, _: &Grammar, area: &mut Area) {
    let number = area.some_used(random);
    let is_counted = random.once_in(2);
    area.change_header(|header| header.used -= u16::from(!is_counted));
    area.free(number);
}
