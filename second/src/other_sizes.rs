//! Calls whose list of sizes, counters or slots are others than the table's own: which kinds there are, how each is
//! made, and which a call is of, so that a run can show that every call has met them all.

use crate::calls::{Lent, Settings, Sizes};
use crate::library::MOST_LENT_COUNTERS;
use crate::random::Random;
use crate::random_sizes::{GREATEST, LEAST};
use crate::rules::{counter_bytes, slot_words};
use std::fmt;

/// Where in a list a value stands.
#[derive(Clone, Copy, PartialEq, Eq)]
pub enum At {
    First,
    Between,
    Last,
}

#[derive(Clone, Copy, PartialEq, Eq)]
pub enum Kind {
    /// One value out of its range, beside the table's own counters.
    Value(At, u8),
    /// One value out of its range, beside counters that would fit it.
    FittedValue(u8),
    /// So many values, beside counters that do not fit them.
    Count(usize),
    /// So many values, beside counters that would fit them.
    FittedCount(usize),
    /// A list as above, beside counters that fit neither it nor the table.
    BadTwice,
    /// The table's list, beside counters of a byte more or less, or as many more or less as a filter has.
    ByteMore,
    ByteLess,
    FilterMore,
    FilterLess,
    /// The table's list and counters, beside slots that have room for one party's default only.
    OneDefault,
    /// Another good list, which asks for as many counters.
    SameSum,
}

pub const KINDS: [Kind; 31] = [
    Kind::Value(At::First, 3),
    Kind::Value(At::First, 12),
    Kind::Value(At::First, 0),
    Kind::Value(At::First, 255),
    Kind::Value(At::Between, 3),
    Kind::Value(At::Between, 12),
    Kind::Value(At::Between, 0),
    Kind::Value(At::Between, 255),
    Kind::Value(At::Last, 3),
    Kind::Value(At::Last, 12),
    Kind::Value(At::Last, 0),
    Kind::Value(At::Last, 255),
    Kind::FittedValue(3),
    Kind::FittedValue(12),
    Kind::Count(0),
    Kind::Count(1),
    Kind::Count(31),
    Kind::Count(33),
    Kind::Count(40),
    Kind::FittedCount(0),
    Kind::FittedCount(1),
    Kind::FittedCount(31),
    Kind::FittedCount(33),
    Kind::FittedCount(40),
    Kind::BadTwice,
    Kind::ByteMore,
    Kind::ByteLess,
    Kind::FilterMore,
    Kind::FilterLess,
    Kind::OneDefault,
    Kind::SameSum,
];

impl fmt::Display for Kind {
    fn fmt(&self, f: &mut fmt::Formatter) -> fmt::Result {
        match self {
            Kind::Value(At::First, value) => write!(f, "a {value} at length 1"),
            Kind::Value(At::Between, value) => write!(f, "a {value} in between"),
            Kind::Value(At::Last, value) => write!(f, "a {value} at length 32"),
            Kind::FittedValue(value) => write!(f, "a {value} that the counters fit"),
            Kind::Count(1) => write!(f, "1 value"),
            Kind::Count(count) => write!(f, "{count} values"),
            Kind::FittedCount(1) => write!(f, "1 value that the counters fit"),
            Kind::FittedCount(count) => write!(f, "{count} values that the counters fit"),
            Kind::BadTwice => write!(f, "a bad list and counters that fit nothing"),
            Kind::ByteMore => write!(f, "a byte more of counters"),
            Kind::ByteLess => write!(f, "a byte less of counters"),
            Kind::FilterMore => write!(f, "a filter more of counters"),
            Kind::FilterLess => write!(f, "a filter less of counters"),
            Kind::OneDefault => write!(f, "slots with room for one default"),
            Kind::SameSum => write!(f, "another list of the same sum"),
        }
    }
}

/// Which kinds a call is of whose table has these settings and asks for this memory: nothing else about it is
/// other than the table's.
pub fn met(table: &Settings, right: Lent, t: &Settings, lent: Lent) -> [bool; KINDS.len()] {
    let own = t.d == table.d && lent.counters == right.counters;
    let else_right = Settings { d: table.d, ..*t } == *table && own != (lent.slots == right.slots);
    match else_right {
        true => KINDS.map(|kind| is(kind, table, right, t, lent)),
        false => [false; KINDS.len()],
    }
}

fn is(kind: Kind, table: &Settings, right: Lent, t: &Settings, lent: Lent) -> bool {
    let (own, values) = (table.d.values(), t.d.values());
    let (fits_own, fits) = (lent.counters == right.counters, lent.counters == counter_bytes(t));
    let in_range = |values: &[u8]| values.iter().all(|value| (LEAST..=GREATEST).contains(value));
    let counted = |count: usize| values.len() == count && in_range(values);
    // The only value that is not the table's own.
    let changed = || {
        let mut others = (0..own.len()).filter(|at| own[*at] != values[*at]);
        others.next().filter(|_| others.next().is_none())
    };
    let changed = if values.len() == own.len() { changed() } else { None };
    let filter = |size: usize| own.iter().any(|d| size == 1 << d);
    match kind {
        Kind::Value(at, value) => {
            let there = |place: usize| match at {
                At::First => place == 0,
                At::Between => 0 < place && place < own.len() - 1,
                At::Last => place == own.len() - 1,
            };
            fits_own && changed.is_some_and(|place| there(place) && values[place] == value)
        }
        Kind::FittedValue(value) => fits && changed.is_some_and(|place| values[place] == value),
        Kind::Count(count) => !fits && counted(count),
        Kind::FittedCount(count) => fits && counted(count),
        Kind::BadTwice => !fits_own && !fits && (values.len() != own.len() || !in_range(values)),
        Kind::ByteMore => t.d == table.d && lent.counters == right.counters + 1,
        Kind::ByteLess => t.d == table.d && lent.counters + 1 == right.counters,
        Kind::FilterMore => t.d == table.d && filter(lent.counters.saturating_sub(right.counters)),
        Kind::FilterLess => t.d == table.d && filter(right.counters.saturating_sub(lent.counters)),
        Kind::OneDefault => lent.slots + word(t, right.slots) == right.slots,
        Kind::SameSum => t.d != table.d && fits_own && counted(own.len()) && fits,
    }
}

/// Makes a list and its counters other than the table's own. Now and then there is no way to.
pub fn make(random: &mut Random, kind: Kind, t: &mut Settings, lent: &mut Lent) {
    let own = t.d;
    match kind {
        Kind::Value(at, value) => t.d = with_value(random, &own, at, value),
        Kind::FittedValue(value) => {
            let at = random.pick(&[At::First, At::Between, At::Last]);
            t.d = with_value(random, &own, at, value);
            fit(t, lent);
        }
        Kind::Count(count) => {
            t.d = with_count(random, &own, count);
            if let missing @ 1.. = own.values().len().saturating_sub(count) {
                // As if each value that is missing were a 4, or the last one.
                let last = t.d.values().last().copied().unwrap_or(LEAST);
                let filled = |d: u8| counter_bytes(t) + missing * (1 << d);
                let counters = random.pick(&[lent.counters, filled(LEAST), filled(last)]);
                lent.counters = counters.min(MOST_LENT_COUNTERS);
            }
        }
        Kind::FittedCount(count) => {
            t.d = with_count(random, &own, count);
            fit(t, lent);
        }
        Kind::BadTwice => {
            spoil(random, t);
            lent.counters = random.pick(&[lent.counters - 1, lent.counters + 1]);
        }
        Kind::ByteMore => lent.counters += 1,
        Kind::ByteLess => lent.counters -= 1,
        Kind::FilterMore => lent.counters += 1 << random.pick(own.values()),
        Kind::FilterLess => lent.counters -= 1 << random.pick(own.values()),
        Kind::OneDefault => lent.slots -= word(t, lent.slots),
        Kind::SameSum => t.d = same_sum(random, &own),
    }
}

/// How much of so many slots, in words or in bytes, one word is.
fn word(t: &Settings, slots: usize) -> usize {
    slots / slot_words(t)
}

/// Makes a list bad, in any way; the counters stay.
pub fn spoil(random: &mut Random, t: &mut Settings) {
    let values: Vec<u8> = t.d.values().to_vec();
    t.d = match random.below(10) {
        0..=5 => {
            let at = random.pick(&[At::First, At::Between, At::Last]);
            let value = random.pick(&[0, 1, 2, 3, 3, 3, 12, 12, 12, 13, 32, 36, 64, 128, 255]);
            with_value(random, &t.d, at, value)
        }
        6 => Sizes::of(&values.iter().map(|_| random.word() as u8).collect::<Vec<u8>>()),
        _ => {
            let count = random.pick(&[0, 1, 16, 30, 31, 31, 31, 33, 33, 33, 34, 40]);
            with_count(random, &t.d, count)
        }
    };
}

/// As many counters as the list asks for, where that is within what can be lent.
fn fit(t: &Settings, lent: &mut Lent) {
    lent.counters = counter_bytes(t).min(MOST_LENT_COUNTERS);
}

/// A list with another value somewhere. One that is too short to have it there stays as it is.
fn with_value(random: &mut Random, own: &Sizes, at: At, value: u8) -> Sizes {
    let mut values = own.values().to_vec();
    let between = 1 + random.below(30);
    let place = match at {
        At::First => 0,
        At::Between => random.pick(&[1, 30, between]),
        At::Last => 31,
    };
    if let Some(there) = values.get_mut(place) {
        *there = value;
    }
    Sizes::of(&values)
}

/// The table's list with values left out or put in, at its end or elsewhere.
fn with_count(random: &mut Random, own: &Sizes, count: usize) -> Sizes {
    let mut values = own.values().to_vec();
    let at_end = random.percent(70);
    while values.len() > count {
        let at = if at_end { values.len() - 1 } else { random.below(values.len()) };
        values.remove(at);
    }
    while values.len() < count {
        let at = if at_end { values.len() } else { random.below(values.len() + 1) };
        let last = values.last().copied().unwrap_or(LEAST);
        let any = random.within(LEAST.into(), GREATEST.into()) as u8;
        values.insert(at, random.pick(&[LEAST, last, any]));
    }
    Sizes::of(&values)
}

/// Another list of the same sum: values change places, or three of them are others. A list of equal values has
/// none of these, and stays.
pub fn same_sum(random: &mut Random, own: &Sizes) -> Sizes {
    let mut values = own.values().to_vec();
    let last = values.len().saturating_sub(1);
    if random.percent(30) && traded(random, &mut values) {
        return Sizes::of(&values);
    }
    match random.below(4) {
        0 => values.reverse(),
        1 => values.rotate_left(1),
        2 => values.rotate_right(1),
        _ => {
            let one = random.below(values.len());
            let others: Vec<usize> = (0..=last).filter(|at| values[*at] != values[one]).collect();
            if !others.is_empty() {
                values.swap(one, random.pick(&others));
            }
        }
    }
    Sizes::of(&values)
}

/// A filter is halved and another of that size put in, for two equal filters that become one twice as large:
/// (x + 1, y, y) becomes (x, x, y + 1), and the sum stays. False if there are no three such values.
fn traded(random: &mut Random, values: &mut [u8]) -> bool {
    let places: Vec<usize> = (0..values.len()).collect();
    for _ in 0..20 {
        let [halved, one, other] = [(); 3].map(|_| random.pick(&places));
        let (x, y) = (values[halved].saturating_sub(1), values[one]);
        let apart = halved != one && one != other && halved != other;
        if apart && values[other] == y && x != y && x >= LEAST && y < GREATEST {
            (values[halved], values[one], values[other]) = (x, x, y + 1);
            return true;
        }
    }
    false
}
