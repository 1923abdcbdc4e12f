//! What a call meets of the other party, and of the marks at which something changes, so that a run can show that it
//! has met it all.

use crate::calls::{Call, Settings};
use crate::pair::Pair;
use crate::parties::{owner, EDGES, PARTIES};
use crate::routes::Routes;
use crate::rules::{counter_at, default_word, first_slot, positions, prefix};
use crate::told::Parts;

/// What a call of one party can meet of the other's routes.
pub const MEETS: [&str; 22] = [
    "add to a bucket with the other's equal",
    "add again after the other's equal",
    "add again before the other's equal",
    "add refused as 8 by both parties' slots",
    "add refused as 8 by the other's slots alone",
    "add refused as 9 that its own routes leave room for",
    "withdraw after the other's equal",
    "withdraw before the other's equal",
    "withdraw refused as 7 beside the other's equal",
    "change after the other's equal",
    "change before the other's equal",
    "change refused as 7 beside the other's equal",
    "lookup past the other's equal",
    "lookup of a route after the other's equal",
    "lookup of a route before the other's equal",
    "lookup with more probes than its own routes make",
    "lookup of none beside the other's default",
    "lookup of a default beside the other's",
    "add of a default beside the other's",
    "withdrawal of a default beside the other's",
    "change of a default beside the other's",
    "update refused as 7 beside the other's default",
];

/// The calls that read marks one by one, and where they find them.
pub const READERS: [&str; 4] = ["lookup", "add", "withdraw", "change"];
pub const PLACES: [&str; 3] = ["a slot", "the default word of party 0", "the default word of party 1"];

/// One lookup of so many is held to its own party's routes, which takes a while.
pub const PROBED: usize = 6;

/// What the memory holds of a call's route before the call.
pub struct Held {
    bucket: Vec<(u32, u32)>,
    defaults: [u32; PARTIES],
}

/// What a call of a party has met.
pub struct Met {
    pub party: usize,
    pub reader: usize,
    pub meets: [bool; MEETS.len()],
    /// The marks at which something changes that were read, by their place.
    pub edges: [[bool; EDGES.len()]; PLACES.len()],
    /// Whether the party's own default word was asked for, and holds a mark of the other party.
    pub strange_default: bool,
}

/// The prefixes and marks of a bucket.
fn bucket(pair: &Pair, t: &Settings, length: u32, p: u32) -> Vec<(u32, u32)> {
    let first = first_slot(t, length, p);
    (first..first + t.s as usize).map(|n| (pair.word(2 * n), pair.word(2 * n + 1))).collect()
}

pub fn held(pair: &Pair, t: &Settings, call: Call) -> Held {
    let defaults = [0, 1].map(|party| pair.word(default_word(t, party)));
    let bucket = match call {
        Call::Add { prefix, length: length @ 1..=32, .. }
        | Call::Withdraw { prefix, length: length @ 1..=32, .. }
        | Call::Change { prefix, length: length @ 1..=32, .. } => bucket(pair, t, length, prefix),
        _ => Vec::new(),
    };
    Held { bucket, defaults }
}

/// Where in a bucket a party's route stands and where the other's equal does, the lowest of each.
fn places(bucket: &[(u32, u32)], p: u32, party: u32) -> [Option<usize>; 2] {
    let place = |whose: u32| bucket.iter().position(|(held, mark)| *held == p && owner(*mark) == Some(whose));
    [place(party), place(1 - party)]
}

impl Met {
    fn new(party: u32, reader: usize) -> Met {
        let edges = [[false; EDGES.len()]; PLACES.len()];
        Met { party: party as usize, reader, meets: [false; MEETS.len()], edges, strange_default: false }
    }

    /// Notes the marks of a prefix in a bucket, up to the party's own route.
    fn slots(&mut self, bucket: &[(u32, u32)], p: u32) {
        let own = places(bucket, p, self.party as u32)[0].map_or(bucket.len(), |own| own + 1);
        for (_, mark) in bucket[..own].iter().filter(|(held, _)| *held == p) {
            self.edge(0, *mark);
        }
    }

    /// Notes the marks of both default words.
    fn defaults(&mut self, defaults: [u32; PARTIES]) {
        for (word, mark) in defaults.into_iter().enumerate() {
            self.edge(1 + word, mark);
        }
        self.strange_default = owner(defaults[self.party]) == Some(1 - self.party as u32);
    }

    fn edge(&mut self, place: usize, mark: u32) {
        for (met, edge) in self.edges[place].iter_mut().zip(EDGES) {
            *met |= edge == mark;
        }
    }
}

/// What a call of one of the parties has met that is no list, no message and no chunk. Where it is asked, a lookup's
/// probes are held to its own party's routes.
pub fn met(pair: &Pair, t: &Settings, held: &Held, call: Call, answer: u64, probed: bool) -> Option<Met> {
    let party = call.party().filter(|party| *party <= 1)?;
    let refusal = answer >> 48;
    if matches!(refusal, 1..=5 | 11) {
        return None;
    }
    match call {
        Call::Lookup { address, .. } => Some(lookup_met(pair, t, held, party, address, answer, probed)),
        Call::Add { length: 0, .. } => Some(default_met(held, party, 1, refusal)),
        Call::Withdraw { length: 0, .. } => Some(default_met(held, party, 2, refusal)),
        Call::Change { length: 0, .. } => Some(default_met(held, party, 3, refusal)),
        Call::Add { prefix, length, .. } => {
            let mut met = update_met(held, party, 1, prefix, refusal);
            let routes = pair.routes.as_ref().filter(|_| refusal == 9);
            met.meets[5] = routes.is_some_and(|routes| leaves_room(routes, t, party, prefix, length));
            Some(met)
        }
        Call::Withdraw { prefix, .. } => Some(update_met(held, party, 2, prefix, refusal)),
        Call::Change { prefix, .. } => Some(update_met(held, party, 3, prefix, refusal)),
        Call::Clear | Call::Vector { .. } => None,
    }
}

fn default_met(held: &Held, party: u32, reader: usize, refusal: u64) -> Met {
    let mut met = Met::new(party, reader);
    met.defaults(held.defaults);
    if owner(held.defaults[1 - met.party]) == Some(1 - party) {
        met.meets[if refusal == 7 { 21 } else { 17 + reader }] = true;
    }
    met
}

fn update_met(held: &Held, party: u32, reader: usize, p: u32, refusal: u64) -> Met {
    let mut met = Met::new(party, reader);
    met.slots(&held.bucket, p);
    let [own, other] = places(&held.bucket, p, party);
    let owns = held.bucket.iter().any(|(_, mark)| owner(*mark) == Some(party));
    let (after, before) = match (own, other) {
        (Some(own), Some(other)) => (other < own, own < other),
        _ => (false, false),
    };
    let beside = own.is_none() && other.is_some();
    let first = [0, 0, 6, 9][reader];
    match (reader, refusal) {
        (1, 8) => (met.meets[3], met.meets[4]) = (both(held), !owns),
        (1, 0) => [met.meets[first], met.meets[first + 1], met.meets[first + 2]] = [beside, after, before],
        (_, 7) => met.meets[first + 2] = beside,
        (2 | 3, 0) => (met.meets[first], met.meets[first + 1]) = (after, before),
        _ => {}
    }
    met
}

/// Whether a bucket has slots of both parties.
fn both(held: &Held) -> bool {
    [0, 1].iter().all(|party| held.bucket.iter().any(|(_, mark)| owner(*mark) == Some(*party)))
}

/// Whether a party's own routes leave room for a route in the counters.
fn leaves_room(routes: &Routes, t: &Settings, party: u32, p: u32, length: u32) -> bool {
    let own = || routes.list().iter().filter(|route| route.party == party && route.length == length);
    let mut hit: Vec<usize> = own().flat_map(|route| positions(t, length, route.prefix)).collect();
    let new = positions(t, length, p);
    hit.extend(&new);
    new.iter().all(|j| hit.iter().filter(|hit| *hit == j).count() <= 15)
}

fn lookup_met(
    pair: &Pair,
    t: &Settings,
    held: &Held,
    party: u32,
    address: u32,
    answer: u64,
    probed: bool,
) -> Met {
    let mut met = Met::new(party, 0);
    let Parts([found, _, answered, probes]) = Parts::of_number(answer);
    for length in answered.max(1)..=32 {
        let p = prefix(length, address);
        let claimed = |j: usize| pair.counter(counter_at(t, length, j)) != 0;
        if !positions(t, length, p).into_iter().all(claimed) {
            continue;
        }
        let bucket = bucket(pair, t, length, p);
        met.slots(&bucket, p);
        match places(&bucket, p, party) {
            [None, Some(_)] => met.meets[12] = true,
            [Some(own), Some(other)] => {
                (met.meets[13], met.meets[14]) = (other < own, own < other);
            }
            _ => {}
        }
    }
    if answered == 0 {
        met.defaults(held.defaults);
        let other = owner(held.defaults[1 - met.party]) == Some(1 - party);
        (met.meets[16], met.meets[17]) = (other && found == 0, other && found == 1);
    }
    if let (true, Some(routes)) = (probed, &pair.routes) {
        let covered = (answered.max(1)..=32).filter(|length| covers(routes, t, party, *length, address));
        met.meets[15] = (covered.count() as u32) < probes;
    }
    met
}

/// Whether each position of an address at a length is a position of a party's own route of that length.
fn covers(routes: &Routes, t: &Settings, party: u32, length: u32, address: u32) -> bool {
    let own = routes.list().iter().filter(|route| route.party == party && route.length == length);
    let hit: Vec<usize> = own.flat_map(|route| positions(t, length, route.prefix)).collect();
    positions(t, length, prefix(length, address)).iter().all(|j| hit.contains(j))
}
