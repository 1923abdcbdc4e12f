//! Adds of stored prefixes, which replace a hop: what each of them meets, so that a run can show that it has
//! met it all.

use crate::calls::{Call, Settings};
use crate::pair::Pair;
use crate::parties::owner;
use crate::rules::{counter_at, default_word, first_slot, mark, positions};

/// What such an add can meet.
pub const MEETS: [&str; 8] = [
    "with another hop",
    "of length 0",
    "in a full bucket",
    "with a counter of 15",
    "after a free slot",
    "in two slots",
    "with a counter of 0",
    "beside its prefix under a mark above 131,072",
];

/// So many of them, the first, are met without damage.
pub const MEETS_UNDAMAGED: usize = 5;

/// What a call on this table is about to meet, if it is an add of a stored prefix.
pub fn met(pair: &Pair, t: &Settings, call: Call) -> Option<[bool; MEETS.len()]> {
    match call {
        Call::Add { party: party @ 0..=1, length: 0, hop, .. } => {
            let held = pair.word(default_word(t, party));
            let stored = owner(held) == Some(party);
            stored.then(|| [held != mark(party, hop), true, false, false, false, false, false, false])
        }
        Call::Add { party: party @ 0..=1, prefix, length: length @ 1..=32, hop } => {
            met_in_bucket(pair, t, party, prefix, length, hop)
        }
        _ => None,
    }
}

fn met_in_bucket(
    pair: &Pair,
    t: &Settings,
    party: u32,
    prefix: u32,
    length: u32,
    hop: u32,
) -> Option<[bool; MEETS.len()]> {
    let first = first_slot(t, length, prefix);
    let slots = (first..first + t.s as usize).map(|n| (pair.word(2 * n), pair.word(2 * n + 1)));
    let slots: Vec<(u32, u32)> = slots.collect();
    let counters = positions(t, length, prefix).into_iter().map(|j| pair.counter(counter_at(t, length, j)));
    let counters: Vec<u8> = counters.collect();
    let free = |(_, mark): &(u32, u32)| owner(*mark).is_none();
    let holds = |(held, mark): &(u32, u32)| *held == prefix && owner(*mark) == Some(party);
    let own = slots.iter().position(holds)?;
    Some([
        slots[own].1 != mark(party, hop),
        false,
        !slots.iter().any(free),
        counters.contains(&15),
        slots[..own].iter().any(free),
        slots[own + 1..].iter().any(holds),
        counters.contains(&0),
        slots.iter().any(|(held, mark)| *held == prefix && *mark > 131_072),
    ])
}
