//! One call that lists how two tables differ, as it crosses from C: what C gets and what lies in its list.
//!
//! Refusals 1 and 2 are asked of each table as `rules` asks them for a lookup. Then all that a table has for
//! the party is collected into a map, and the two maps are compared. Slips are told as there: the arm `_` and
//! the first value of `or` are right.

use std::collections::{BTreeMap, BTreeSet};

use super::calls::{Lent, Settings};
use super::rules::{bucket, counter_at, default_word, mark, positions, prefix, table_refusal};
use super::slips::Slip;

/// What a refusal is multiplied by in the number that C gets.
const REFUSAL: u64 = 1 << 48;

/// How many bytes a difference takes in the list.
const BYTES: usize = 16;

/// How many marks each party has.
const MARKS: u32 = 65_536;

/// Length, prefix, the first table's mark and the second's, in the order in which they lie in the list.
type Words = [u32; 4];

/// What a table has for the party: by length and prefix, the mark as it is told.
type Marks = BTreeMap<(u32, u32), u32>;

/// A table as it crosses from C: its settings, its memory, and how much of it is lent (slots in bytes).
#[derive(Clone, Copy)]
pub struct Side<'a> {
    pub t: &'a Settings,
    pub counters: &'a [u8],
    pub slots: &'a [u32],
    pub lent: Lent,
}

/// Does one call that lists how two tables differ, as it crosses from C, and gives its answer as one number.
pub fn answer_differences(first: Side, second: Side, party: u32, list: &mut [u8], slip: Option<Slip>) -> u64 {
    let pair = Pair { first, second, party, slip };
    let refusal = pair.refusal();
    if refusal != 0 {
        return refusal * REFUSAL;
    }
    let differences = pair.differences();
    let count = differences.len() as u64;
    if pair.list_wrong(list.len(), differences.len() * BYTES) {
        if pair.is(Slip::DifferencesShortFilled) {
            write(list, &differences);
        }
        return 18 * REFUSAL + pair.or(0, Slip::DifferencesShortCounted, count);
    }
    write(list, &differences);
    if pair.is(Slip::DifferencesRestZeroed) {
        list[differences.len() * BYTES..].fill(0);
    }
    count
}

/// Writes differences from the list's start on, as far as the list reaches (only a slip asks for more).
fn write(list: &mut [u8], differences: &[Words]) {
    let bytes = differences.iter().flatten().flat_map(|word| word.to_le_bytes());
    for (place, byte) in list.iter_mut().zip(bytes) {
        *place = byte;
    }
}

/// The two tables, and the party whose routes are compared.
struct Pair<'a> {
    first: Side<'a>,
    second: Side<'a>,
    party: u32,
    slip: Option<Slip>,
}

// ---- Refusals ----

impl Pair<'_> {
    fn is(&self, slip: Slip) -> bool {
        self.slip == Some(slip)
    }

    /// The right value, or the wrong one if the slip named is at work.
    fn or<V>(&self, right: V, slip: Slip, wrong: V) -> V {
        if self.is(slip) {
            wrong
        } else {
            right
        }
    }

    /// The first refusal before 18 whose condition holds: 1 or 2 of the first table, then of the second, then
    /// 15; 0 if none does.
    fn refusal(&self) -> u64 {
        let of_table = |side: &Side| table_refusal(side.t, side.lent, self.slip);
        let (first, second) = (of_table(&self.first), of_table(&self.second));
        let of_party = if self.party > 1 { 15 } else { 0 };
        let order = match self.slip {
            Some(Slip::DifferencesSecondBefore) => [second, first, of_party],
            Some(Slip::DifferencesPartyBeforeSecond) => [first, of_party, second],
            _ => [first, second, of_party],
        };
        order.into_iter().find(|number| *number != 0).unwrap_or(0)
    }

    /// Whether the list, of so many bytes, is not of a size that the differences can be written to.
    fn list_wrong(&self, lent: usize, asked: usize) -> bool {
        match self.slip {
            Some(Slip::DifferencesListEdge) => lent <= asked,
            Some(Slip::DifferencesListWhole) => lent < asked || lent % BYTES != 0,
            Some(Slip::DifferencesListExact) => lent != asked,
            _ => lent < asked,
        }
    }
}

// ---- What a table has ----

impl Pair<'_> {
    /// What the first table has, and what the second has: each is read by its own settings.
    fn both(&self) -> (Marks, Marks) {
        let own = self.second.t;
        let by = self.or(own, Slip::DifferencesSecondByFirst, self.first.t);
        let default_by = self.or(by, Slip::DifferencesSecondDefault, self.first.t);
        (self.marks(&self.first, self.first.t, self.first.t), self.marks(&self.second, by, default_by))
    }

    /// What a table has if it is read by these settings, and its default by those.
    fn marks(&self, side: &Side, t: &Settings, default_by: &Settings) -> Marks {
        let mut marks = Marks::new();
        let default = self.told(word(side, default_word(default_by, self.party)));
        if default != 0 && !self.is(Slip::DifferencesDefaultMissing) {
            marks.insert((0, 0), default);
        }
        let (buckets, size) = (2usize.pow(t.e), t.s as usize);
        for length in 1..=32 {
            for b in 0..buckets {
                for s in 0..size {
                    let n = ((length as usize - 1) * buckets + b) * size + s;
                    let (p, told) = (word(side, 2 * n), self.told(word(side, 2 * n + 1)));
                    if told != 0 && self.placed(side, t, length, b, p) {
                        self.take(&mut marks, length, p, told);
                    }
                }
            }
        }
        marks
    }

    /// Takes what a slot of the party's holds, slots coming from the lowest up: of equals the first counts.
    fn take(&self, marks: &mut Marks, length: u32, p: u32, told: u32) {
        let kept = marks.entry((length, p)).or_insert(told);
        if self.is(Slip::DifferencesHighest) {
            *kept = told;
        }
    }

    /// Whether a prefix that a slot of bucket b holds is one of its length, and the bucket is its own.
    fn placed(&self, side: &Side, t: &Settings, length: u32, b: usize, p: u32) -> bool {
        let own = bucket(t, p) == b;
        let whole = prefix(length, p) == p;
        match self.slip {
            Some(Slip::DifferencesMisplacedListed) => whole,
            Some(Slip::DifferencesLooseListed) => own,
            Some(Slip::DifferencesFilterAsked) => own && whole && claimed(side, t, length, p),
            _ => own && whole,
        }
    }

    /// A mark of the party's as it is told, which is as for party 0: hop + 1. Zero for any other mark.
    fn told(&self, held: u32) -> u32 {
        let least = mark(self.party, 0);
        let own = least <= held && held < least + MARKS;
        match self.slip {
            Some(Slip::DifferencesEitherParty) if 1 <= held && held <= 2 * MARKS => (held - 1) % MARKS + 1,
            Some(Slip::DifferencesMarksStored) if own => held,
            _ if own => held - least + 1,
            _ => 0,
        }
    }
}

/// A word of a table's slot memory, as far as it is lent; only a slip asks for one beyond.
fn word(side: &Side, at: usize) -> u32 {
    let words = side.slots.len().min(side.lent.slots / 4);
    side.slots[..words].get(at).copied().unwrap_or(0)
}

/// A slip's: whether no counter of a prefix is zero. The right rule asks no counter.
fn claimed(side: &Side, t: &Settings, length: u32, p: u32) -> bool {
    let bytes = side.counters.len().min(side.lent.counters);
    let counter = |j: usize| side.counters[..bytes].get(counter_at(t, length, j)).copied().unwrap_or(0);
    positions(t, length, p).into_iter().all(|j| counter(j) != 0)
}

// ---- Differences ----

impl Pair<'_> {
    /// All differences, in the order of the list: by rising length, then by rising prefix. The default has
    /// length 0 and so comes first.
    fn differences(&self) -> Vec<Words> {
        let (first, second) = self.both();
        let either: BTreeSet<(u32, u32)> = first.keys().chain(second.keys()).copied().collect();
        let mut found = Vec::new();
        for (length, p) in either {
            let told = |marks: &Marks| marks.get(&(length, p)).copied().unwrap_or(0);
            found.extend(self.compared(length, p, told(&first), told(&second)));
        }
        match self.slip {
            Some(Slip::DifferencesDefaultLast) => found.sort_by_key(|words| words[0] == 0),
            Some(Slip::DifferencesAddressFirst) => found.sort_by_key(|words| (words[1], words[0])),
            _ => (),
        }
        found
    }

    /// What is listed of a prefix: one difference if its marks differ, else nothing.
    fn compared(&self, length: u32, p: u32, first: u32, second: u32) -> Vec<Words> {
        match self.slip {
            _ if first == second => vec![],
            Some(Slip::DifferencesHopTwice) if first != 0 && second != 0 => {
                vec![[length, p, first, 0], [length, p, 0, second]]
            }
            _ => vec![[length, p, first, second]],
        }
    }
}
