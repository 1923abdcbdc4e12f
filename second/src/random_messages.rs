//! Random messages of neighbours with their lists of next hops, and withdrawals to be written.

use crate::calls::{Message, Writing};
use crate::draft::{attribute, long_attribute, next_hop, prefix_bytes, Draft};
use crate::library::MOST_HOPS;
use crate::random::Random;
use crate::routes::Route;
use crate::rules;
use crate::spoilt_messages::{spoil_bytes, spoil_draft};

/// The size of the longest message.
const MOST_BYTES: usize = 4096;

/// So many messages of a thousand have a list of more than 65,536 next hops.
const LONG_LISTS: usize = 20;

/// A party, the routes that a history is about, and those that are stored, where it is known which are.
pub struct Source<'a> {
    pub party: u32,
    pub pool: &'a [(u32, u32)],
    pub stored: &'a [Route],
}

impl Source<'_> {
    /// A route; so many of a hundred are stored, most of these by the party itself.
    fn route(&self, random: &mut Random, stored: usize) -> (u32, u32) {
        let chance = random.below(100);
        if chance < stored && !self.stored.is_empty() {
            let two = [(); 2].map(|_| &self.stored[random.below(self.stored.len())]);
            let route = two.iter().find(|route| route.party == self.party).unwrap_or(&two[0]);
            return (route.prefix, route.length);
        }
        if chance < 92 {
            return random.pick(self.pool);
        }
        let length = random.within(0, 32);
        (rules::prefix(length, random.word()), length)
    }

    /// So many prefixes as they are written, now and then one of them twice. Bits after the length mean
    /// nothing, and are often set.
    pub fn prefixes(&self, random: &mut Random, count: usize, stored: usize) -> Vec<Vec<u8>> {
        let mut prefixes: Vec<Vec<u8>> = Vec::new();
        for _ in 0..count {
            if !prefixes.is_empty() && random.percent(8) {
                prefixes.push(prefixes[random.below(prefixes.len())].clone());
                continue;
            }
            let (prefix, length) = self.route(random, stored);
            let noise = if random.percent(40) { random.word().checked_shr(length).unwrap_or(0) } else { 0 };
            prefixes.push(prefix_bytes(prefix | noise, length));
        }
        prefixes
    }
}

/// A message, with something wrong about it if that is asked.
pub fn message(random: &mut Random, source: &Source, spoilt: bool) -> Message {
    let hop = match random.below(20) {
        0 => random.pick(&[0, 1, 1 << 31, u32::MAX, 0x0a0a_0a0a]),
        _ => random.word(),
    };
    let mut draft = draft(random, source, hop);
    if spoilt {
        spoil_draft(random, &mut draft, hop);
    }
    let mut bytes = draft.bytes();
    if spoilt {
        spoil_bytes(random, &draft.layout(), &mut bytes);
    }
    let hops = hops(random, hop);
    Message { party: source.party, bytes, offset: random.below(4), hops, hops_offset: random.below(4) }
}

/// A good message, whose NEXT_HOP is this one, if it has any.
pub fn draft(random: &mut Random, source: &Source, hop: u32) -> Draft {
    let [withdrawn, announced] = [(); 2].map(|_| match random.below(100) {
        0..=29 => 0,
        30..=54 => 1,
        55..=89 => random.within(2, 6) as usize,
        90..=98 => random.within(7, 40) as usize,
        _ => random.within(41, 200) as usize,
    });
    let mut draft = Draft {
        withdrawn: source.prefixes(random, withdrawn, 75),
        attributes: attributes(random, announced > 0, hop),
        announced: source.prefixes(random, announced, 25),
    };
    if random.percent(2) {
        let size = random.pick(&[MOST_BYTES - 1, MOST_BYTES, MOST_BYTES, MOST_BYTES, MOST_BYTES + 1]);
        fill(random, source, &mut draft, size);
    }
    draft
}

/// Path attributes in any order, NEXT_HOP mostly among them where routes are announced.
pub fn attributes(random: &mut Random, announces: bool, hop: u32) -> Vec<Vec<u8>> {
    let count = random.pick(&[0, 0, 1, 2, 2, 3, 5]);
    let mut attributes: Vec<Vec<u8>> = (0..count).map(|_| other_attribute(random, hop)).collect();
    if random.percent(if announces { 93 } else { 30 }) {
        let at = random.below(attributes.len() + 1);
        attributes.insert(at, next_hop(random, &hop.to_be_bytes()));
    }
    attributes
}

/// An attribute that is stepped over. Its value may look like a NEXT_HOP.
fn other_attribute(random: &mut Random, hop: u32) -> Vec<u8> {
    let kind = match random.percent(70) {
        true => random.pick(&[1, 2, 4, 5, 8, 14, 15]),
        false => random.pick(&[0, 6, 7, 19, 35, 64, 67, 128, 131, 255]),
    };
    let size = match random.below(100) {
        0..=29 => random.below(3),
        30..=79 => random.below(24),
        80..=96 => random.below(120),
        _ => random.pick(&[254, 255, 256, 257, 300, 1000]),
    };
    let value = match random.below(10) {
        0 => next_hop(random, &hop.to_be_bytes()),
        1 => hop.to_be_bytes().to_vec(),
        _ => random.bytes(size),
    };
    attribute(random, kind, &value)
}

/// Fills a message up to so many bytes, where it has fewer: with one long attribute, or with routes of which
/// the last ones are default routes, which take a byte each.
fn fill(random: &mut Random, source: &Source, draft: &mut Draft, size: usize) {
    let room = size.saturating_sub(draft.size());
    let way = random.below(6);
    if way < 2 && room >= 4 {
        let value = random.bytes(room - 4);
        return draft.attributes.push(long_attribute(random, 8, &value));
    }
    let mut routes = source.prefixes(random, if way < 4 { room / 5 } else { 0 }, 50);
    routes.extend(vec![vec![0]; room - routes.concat().len()]);
    match way % 2 {
        0 => draft.withdrawn.extend(routes),
        _ => draft.announced.extend(routes),
    }
}

/// A list of next hops in which this one stands nowhere, at one place or at several.
pub fn hops(random: &mut Random, hop: u32) -> Vec<u32> {
    if random.below(1000) < LONG_LISTS {
        return many_hops(random, hop);
    }
    let count = match random.below(100) {
        0..=7 => 0,
        8..=24 => 1,
        25..=94 => random.within(2, 12) as usize,
        _ => random.within(13, 400) as usize,
    };
    let mut hops: Vec<u32> = (0..count).map(|_| other_hop(random, hop)).collect();
    let times = random.pick(&[0, 1, 1, 1, 1, 1, 2, 2, 3]);
    for _ in 0..if hops.is_empty() { 0 } else { times } {
        let at = random.below(hops.len());
        hops[at] = hop;
    }
    hops
}

/// An address that is not much unlike a hop's.
fn other_hop(random: &mut Random, hop: u32) -> u32 {
    match random.below(12) {
        0 => hop.swap_bytes(),
        1 => hop ^ 1 << random.within(0, 31),
        2 => random.pick(&[0, 1, u32::MAX]),
        3 => hop & 0xffff,
        4 => hop.wrapping_add(1),
        _ => random.word(),
    }
}

/// A list of so many that its last places are no hops.
pub fn many_hops(random: &mut Random, hop: u32) -> Vec<u32> {
    let other = other_hop(random, hop);
    let mut hops = vec![other; random.pick(&[65_536, 65_537, 65_538, 65_700, MOST_HOPS])];
    for _ in 0..random.within(1, 2) {
        let at = random.pick(&[65_534, 65_535, 65_535, 65_535, 65_536, 65_536, 65_536, 65_537, 0]);
        let last = hops.len() - 1;
        hops[at.min(last)] = hop;
    }
    hops
}

/// A withdrawal to be written; now and then with something wrong about its route or its room.
pub fn writing(random: &mut Random, source: &Source) -> Writing {
    let (mut prefix, mut length) = match random.below(8) {
        0 => (0, 0),
        1 => (random.word(), 32),
        _ => source.route(random, 30),
    };
    let mut size = 24 + length.div_ceil(8) as usize;
    for _ in 0..random.pick(&[0, 0, 0, 1, 1, 2]) {
        match random.below(7) {
            0 => length = random.pick(&[33, 33, 34, 40, 64, 256, 264, u32::MAX]),
            1 => length += random.pick(&[33, 224, 256]),
            2 => prefix |= 1 << random.within(0, 31u32.saturating_sub(length)),
            3 => prefix |= random.word().checked_shr(length).unwrap_or(1),
            4 => size += random.pick(&[1, 1, 2, 4, 5, 19, 1000]),
            5 => size = size.saturating_sub(random.pick(&[1, 1, 2, 4, 24])),
            _ => size = random.pick(&[0, 1, 19, 22, 23, 24, 25, 28, 29]),
        }
    }
    let room = match random.below(4) {
        0 => vec![random.pick(&[0, 255]); size],
        _ => random.bytes(size),
    };
    Writing { prefix, length, room, offset: random.below(4) }
}
