//! Changes of an area that holds a valid tree. Most leave it no valid tree,
//! and each rule has changes that break it alone.

mod shapes;

use crate::grammar::{Grammar, Production};
use crate::random::Random;
use crate::tree::{self, area_bytes, Header, Slot, MAX_SLOTS, SLOT_BYTES};

/// Where the zeros stand in the header and in a slot.
const HEADER_ZEROS: std::ops::Range<usize> = 8..16;
const SLOT_ZEROS: std::ops::Range<usize> = 14..16;
/// Areas of a wrong length are shorter than this.
const AREA_BOUND: usize = 20_000;

/// A change of an area under a grammar.
type Change = fn(&mut Random, &Grammar, &mut Area);

const CHANGES: [(&str, Change); 29] = [
    ("flipped bits", flip_bits),
    ("flipped bits of header or slot", flip_slot_bits),
    ("another count", another_count),
    ("another root", another_root),
    ("link out of range", link_out_of_range),
    ("another link", another_link),
    ("exchanged links", exchange_links),
    ("cycle", cycle),
    ("shared child", shared_child),
    ("another parent", another_parent),
    ("stray byte in a free slot", stray_in_free_slot),
    ("stray byte among zeros", stray_among_zeros),
    ("tag of a nonterminal", tag_of_nonterminal),
    ("another production", another_production),
    ("another left side", another_left_side),
    ("another symbol", another_symbol),
    ("second root", shapes::second_root),
    ("second tree", shapes::second_tree),
    ("last child lost", shapes::lose_last_child),
    ("child added", shapes::add_child),
    ("siblings exchanged", shapes::exchange_siblings),
    ("subtrees exchanged", shapes::exchange_subtrees),
    ("slot freed", shapes::free_slot),
    ("subtree alone", shapes::subtree_alone),
    ("wrong mark", wrong_mark),
    ("another tag", another_tag),
    ("random bytes", random_bytes),
    ("zero area", |_, _, area| area.bytes.fill(0)),
    ("another length", another_length),
];

/// Changes the bytes of a valid tree in any way.
pub fn changed(random: &mut Random, grammar: &Grammar, bytes: &mut Vec<u8>) -> &'static str {
    let (kind, change) = random.one_of(&CHANGES);
    change(random, grammar, &mut Area::of(bytes));
    kind
}

/// An area before a change, which finds its slots used or free.
struct Area<'a> {
    used: Vec<u16>,
    free: Vec<u16>,
    bytes: &'a mut Vec<u8>,
}

impl<'a> Area<'a> {
    fn of(bytes: &'a mut Vec<u8>) -> Area<'a> {
        let slots = tree::slots(bytes.len()).expect("the length of the area is right");
        let is_used = |&slot: &u16| Slot::read(bytes, slot).is_some();
        let (used, free) = (1..=slots as u16).partition(is_used);
        Area { used, free, bytes }
    }

    fn slot(&self, number: u16) -> Slot {
        Slot::read(self.bytes, number).expect("the slot is used")
    }

    fn change(&mut self, number: u16, change: impl FnOnce(&mut Slot)) {
        let mut slot = self.slot(number);
        change(&mut slot);
        slot.write(self.bytes, number);
    }

    fn header(&self) -> Header {
        Header::read(self.bytes).expect("the tree is valid")
    }

    fn change_header(&mut self, change: impl FnOnce(&mut Header)) {
        let mut header = self.header();
        change(&mut header);
        header.write(self.bytes);
    }

    /// The children of a slot.
    fn children(&self, number: u16) -> Vec<u16> {
        let link = |number: u16| (number != 0).then_some(number);
        let first = link(self.slot(number).first_child);
        std::iter::successors(first, |&child| link(self.slot(child).next_sibling)).collect()
    }

    /// Links the children of a slot in this order.
    fn link_children(&mut self, number: u16, children: &[u16]) {
        let mut next = 0;
        for &child in children.iter().rev() {
            self.change(child, |slot| {
                slot.parent = number;
                slot.next_sibling = next;
            });
            next = child;
        }
        self.change(number, |slot| slot.first_child = next);
    }

    fn free(&mut self, number: u16) {
        let start = usize::from(number) * SLOT_BYTES;
        self.bytes[start..start + SLOT_BYTES].fill(0);
    }

    fn some_used(&self, random: &mut Random) -> u16 {
        random.one_of(&self.used)
    }

    fn some_free(&self, random: &mut Random) -> Option<u16> {
        (!self.free.is_empty()).then(|| random.one_of(&self.free))
    }

    /// A used slot of this sort, if there is one.
    fn some(&self, random: &mut Random, sort: impl Fn(&Slot) -> bool) -> Option<u16> {
        let numbers = self.used.iter().copied();
        let of_sort: Vec<u16> = numbers.filter(|&number| sort(&self.slot(number))).collect();
        (!of_sort.is_empty()).then(|| random.one_of(&of_sort))
    }

    /// Nothing, a used slot, or any slot.
    fn some_link(&self, random: &mut Random) -> u16 {
        let any = 1 + random.below(self.used.len() + self.free.len()) as u16;
        let used = self.some_used(random);
        random.one_of(&[0, used, used, any])
    }
}

/// One of the links of a slot.
fn link<'a>(random: &mut Random, slot: &'a mut Slot) -> &'a mut u16 {
    match random.below(3) {
        0 => &mut slot.parent,
        1 => &mut slot.first_child,
        _ => &mut slot.next_sibling,
    }
}

fn flip_bits(random: &mut Random, _: &Grammar, area: &mut Area) {
    for _ in 0..=random.below(3) {
        let place = random.below(area.bytes.len());
        area.bytes[place] ^= 1 << random.below(8);
    }
}

fn flip_slot_bits(random: &mut Random, _: &Grammar, area: &mut Area) {
    let used = area.some_used(random);
    let number = random.one_of(&[0, used, used]);
    for _ in 0..=random.below(2) {
        let place = usize::from(number) * SLOT_BYTES + random.below(SLOT_BYTES);
        area.bytes[place] ^= 1 << random.below(8);
    }
}

fn another_count(random: &mut Random, _: &Grammar, area: &mut Area) {
    let Header { used, tokens, .. } = area.header();
    let is_used = random.once_in(2);
    let right = if is_used { used } else { tokens };
    let any = random.number() as u16;
    let wrong = [
        0,
        right.wrapping_sub(1),
        right + 1,
        right ^ 0x0100,
        used,
        tokens,
        any,
    ];
    let count = random.one_of(&wrong);
    area.change_header(|header| {
        *if is_used {
            &mut header.used
        } else {
            &mut header.tokens
        } = count;
    });
}

fn another_root(random: &mut Random, _: &Grammar, area: &mut Area) {
    let beyond = tree::slots(area.bytes.len()).map_or(0, |slots| slots as u16 + 1);
    let link = area.some_link(random);
    let root = random.one_of(&[link, link, beyond, u16::MAX]);
    area.change_header(|header| header.root = root);
}

fn link_out_of_range(random: &mut Random, _: &Grammar, area: &mut Area) {
    let slots = (area.used.len() + area.free.len()) as u16;
    let number = area.some_used(random);
    let high = area.slot(number).next_sibling | 0x8000;
    let beyond = random.one_of(&[slots + 1, MAX_SLOTS as u16 + 1, high, u16::MAX]);
    area.change(number, |slot| *link(random, slot) = beyond);
}

fn another_link(random: &mut Random, _: &Grammar, area: &mut Area) {
    let number = area.some_used(random);
    let other = area.some_link(random);
    area.change(number, |slot| *link(random, slot) = other);
}

/// Two links of one slot, or the same link of two.
fn exchange_links(random: &mut Random, _: &Grammar, area: &mut Area) {
    let (one, other) = (area.some_used(random), area.some_used(random));
    let (first, second) = (area.slot(one), area.slot(other));
    match random.below(4) {
        0 => area.change(one, |slot| {
            std::mem::swap(&mut slot.first_child, &mut slot.next_sibling)
        }),
        1 => {
            area.change(one, |slot| slot.parent = second.parent);
            area.change(other, |slot| slot.parent = first.parent);
        }
        2 => {
            area.change(one, |slot| slot.first_child = second.first_child);
            area.change(other, |slot| slot.first_child = first.first_child);
        }
        _ => {
            area.change(one, |slot| slot.next_sibling = second.next_sibling);
            area.change(other, |slot| slot.next_sibling = first.next_sibling);
        }
    }
}

/// A child or sibling link that leads back to the slot or above it.
fn cycle(random: &mut Random, _: &Grammar, area: &mut Area) {
    let number = area.some_used(random);
    let link = |number: u16| (number != 0).then_some(number);
    let above: Vec<u16> =
        std::iter::successors(Some(number), |&number| link(area.slot(number).parent)).collect();
    let back = random.one_of(&above);
    let is_child = random.once_in(2);
    area.change(number, |slot| {
        *if is_child {
            &mut slot.first_child
        } else {
            &mut slot.next_sibling
        } = back;
    });
}

/// One slot takes the first child of another, or its place among siblings.
fn shared_child(random: &mut Random, _: &Grammar, area: &mut Area) {
    let (one, other) = (area.some_used(random), area.some_used(random));
    let source = area.slot(other);
    if random.once_in(2) {
        area.change(one, |slot| slot.first_child = source.first_child);
    } else {
        area.change(one, |slot| slot.next_sibling = other);
    }
}

fn another_parent(random: &mut Random, _: &Grammar, area: &mut Area) {
    let number = area.some_used(random);
    let parent = area.some_link(random);
    area.change(number, |slot| slot.parent = parent);
}

fn stray_in_free_slot(random: &mut Random, grammar: &Grammar, area: &mut Area) {
    let Some(number) = area.some_free(random) else {
        return stray_among_zeros(random, grammar, area);
    };
    let place = usize::from(number) * SLOT_BYTES + random.below(SLOT_BYTES);
    area.bytes[place] = random.between(1, u8::MAX);
}

fn stray_among_zeros(random: &mut Random, _: &Grammar, area: &mut Area) {
    let place = if random.once_in(2) {
        HEADER_ZEROS.start + random.below(HEADER_ZEROS.len())
    } else {
        let start = usize::from(area.some_used(random)) * SLOT_BYTES;
        start + SLOT_ZEROS.start + random.below(SLOT_ZEROS.len())
    };
    area.bytes[place] = random.between(1, u8::MAX);
}

fn tag_of_nonterminal(random: &mut Random, _: &Grammar, area: &mut Area) {
    let number = area.some(random, |slot| slot.production != 0);
    let tag = 1 << random.below(32);
    area.change(number.expect("the root"), |slot| slot.tag = tag);
}

/// Often another production of the same symbol.
fn another_production(random: &mut Random, grammar: &Grammar, area: &mut Area) {
    let number = area.some_used(random);
    let symbol = area.slot(number).symbol;
    let numbered = grammar.numbered();
    let of_symbol = numbered.filter(|(_, (left, _))| *left == symbol);
    let mut choices: Vec<u8> = of_symbol.map(|(number, _)| number).collect();
    let count = grammar.productions.len() as u8;
    choices.extend([0, count + 1, random.between(0, u8::MAX)]);
    let production = random.one_of(&choices);
    area.change(number, |slot| slot.production = production);
}

/// A slot gets a production with the same body but another left side, if some
/// slot can.
fn another_left_side(random: &mut Random, grammar: &Grammar, area: &mut Area) {
    let others = |slot: &Slot| -> Vec<u8> {
        let mut numbered = grammar.numbered();
        let Some((_, (own, body))) = numbered.find(|(number, _)| *number == slot.production) else {
            return Vec::new();
        };
        let is_other = |(left, other): &Production| left != own && other == body;
        let others = grammar.numbered().filter(|(_, other)| is_other(other));
        others.map(|(number, _)| number).collect()
    };
    if let Some(number) = area.some(random, |slot| !others(slot).is_empty()) {
        let production = random.one_of(&others(&area.slot(number)));
        area.change(number, |slot| slot.production = production);
    }
}

fn another_symbol(random: &mut Random, grammar: &Grammar, area: &mut Area) {
    let number = area.some_used(random);
    let last = *grammar.nonterminals().end();
    let any = random.between(0, last + 1);
    let symbol = random.one_of(&[any, any, 0, u8::MAX]);
    area.change(number, |slot| slot.symbol = symbol);
}

fn wrong_mark(random: &mut Random, _: &Grammar, area: &mut Area) {
    let used = area.some_used(random);
    let number = random.one_of(&[0, used]);
    let place = usize::from(number) * SLOT_BYTES + random.below(2);
    let any = random.between(0, u8::MAX);
    area.bytes[place] = random.one_of(&[0x00, 0x44, 0x4e, 0x52, 0x54, 0xff, any]);
}

fn another_tag(random: &mut Random, _: &Grammar, area: &mut Area) {
    let tag = random.number() as u32;
    if let Some(number) = area.some(random, |slot| slot.production == 0) {
        area.change(number, |slot| slot.tag = tag);
    }
}

/// Random bytes from any place on.
fn random_bytes(random: &mut Random, _: &Grammar, area: &mut Area) {
    let start = random.below(area.bytes.len());
    let start = random.one_of(&[0, SLOT_BYTES, start]);
    let bytes = random.bytes(area.bytes.len() - start);
    area.bytes[start..].copy_from_slice(&bytes);
}

/// Cut, or lengthened by zeros: also to lengths that are right.
fn another_length(random: &mut Random, _: &Grammar, area: &mut Area) {
    let length = area.bytes.len();
    let any = random.below(AREA_BOUND);
    let near = length - SLOT_BYTES + random.below(2 * SLOT_BYTES + 1);
    let few = length.min(3 * SLOT_BYTES) / 2;
    let wanted = [
        0,
        SLOT_BYTES,
        few,
        near,
        length - SLOT_BYTES,
        length + SLOT_BYTES,
        area_bytes(MAX_SLOTS),
        area_bytes(MAX_SLOTS + 1),
        any,
    ];
    area.bytes.resize(random.one_of(&wanted), 0);
}
