//! What a comparison meets in a table that no history leaves there, so that a run can show that it has met it all.

use crate::calls::Settings;
use crate::pair::Pair;
use crate::parties::{owner, EDGES};
use crate::rules::{bucket, counter_at, default_word, positions, prefix};
use crate::sharing::PLACES;

/// What damaged memory can hold of a party.
pub const DAMAGES: [&str; 5] = [
    "a slot outside its prefix's bucket",
    "a slot with a bit after its length",
    "a prefix in two slots with other hops",
    "a prefix that the filter denies",
    "the other's mark in the party's default word",
];

/// What a party finds in a table: damage, and the marks at which something changes, by their place.
pub struct Found {
    pub damages: [bool; DAMAGES.len()],
    pub edges: [[bool; EDGES.len()]; PLACES.len()],
}

/// What a slot holds.
#[derive(Clone, Copy)]
struct Slot {
    prefix: u32,
    mark: u32,
    /// Whether the prefix has no bit after its length, and whether it is in its own bucket.
    whole: bool,
    own: bool,
}

/// What a party finds in a table that is read by these settings.
pub fn found(pair: &Pair, t: &Settings, party: u32) -> Found {
    let edges = [[false; EDGES.len()]; PLACES.len()];
    let mut found = Found { damages: [false; DAMAGES.len()], edges };
    let (buckets, size) = (1 << t.e, t.s as usize);
    for length in 1..=32 {
        for b in 0..buckets {
            let first = ((length as usize - 1) * buckets + b) * size;
            let slot = |n: usize| {
                let (p, mark) = (pair.word(2 * n), pair.word(2 * n + 1));
                Slot { prefix: p, mark, whole: prefix(length, p) == p, own: bucket(t, p) == b }
            };
            let slots: Vec<Slot> = (first..first + size).map(slot).filter(|slot| slot.prefix > 0).collect();
            found.bucket(pair, t, party, length, &slots);
        }
    }
    for (place, whose) in [(1, 0), (2, 1)] {
        let mark = pair.word(default_word(t, whose));
        found.edge(place, mark);
        found.damages[4] |= whose == party && owner(mark) == Some(1 - party);
    }
    found
}

impl Found {
    /// Notes what the slots of a bucket hold. Those with the prefix 0, which a cleared table has, do not count.
    fn bucket(&mut self, pair: &Pair, t: &Settings, party: u32, length: u32, slots: &[Slot]) {
        for (at, slot) in slots.iter().enumerate() {
            let whose = owner(slot.mark);
            if whose == Some(party) {
                self.damages[0] |= slot.whole && !slot.own;
                self.damages[1] |= slot.own && !slot.whole;
            }
            if !slot.whole || !slot.own {
                continue;
            }
            self.edge(0, slot.mark);
            if whose != Some(party) {
                continue;
            }
            let equal = |lower: &Slot| lower.prefix == slot.prefix && owner(lower.mark) == Some(party);
            let counted = |j: usize| pair.counter(counter_at(t, length, j)) != 0;
            self.damages[2] |= slots[..at].iter().any(|lower| equal(lower) && lower.mark != slot.mark);
            self.damages[3] |= !positions(t, length, slot.prefix).into_iter().all(counted);
        }
    }

    fn edge(&mut self, place: usize, mark: u32) {
        for (met, edge) in self.edges[place].iter_mut().zip(EDGES) {
            *met |= edge == mark;
        }
    }
}
