//! One call on lent memory, sound or damaged: what it answers and what it leaves behind.
//!
//! Where a `match` on the slip stands, the arm `_` is the right rule and the arms before it are wrong on
//! purpose; of `or(right, slip, wrong)` the first value is right. Memory is reached through checked places,
//! so that a slip gone astray reads zero and writes nothing.

use super::calls::{Call, Lent, Settings, Sizes};
use super::slips::{swapped, takes_either, unasked, walks, Slip};

/// The settings of the small worked table: its filters are all of one size.
pub const T: Settings = Settings { k: 2, d: Sizes::equal(4), e: 1, s: 2, a: 1, b: 2, c: 1 };

/// 2^n, held at the greatest 64-bit number (which only bad settings reach).
fn two_to(n: u32) -> u64 {
    2u64.saturating_pow(n)
}

/// x·y modulo 2^32.
fn product(x: u32, y: u32) -> u64 {
    x as u64 * y as u64 % two_to(32)
}

// ---- The list of filter sizes ----

/// The D of a length, from 1. A length that the list leaves out, which only a slip asks for, has 0.
fn d_of(t: &Settings, length: u32) -> u32 {
    let place = (length as usize).checked_sub(1);
    place.and_then(|at| t.d.values().get(at)).map_or(0, |d| *d as u32)
}

fn largest(t: &Settings) -> u32 {
    t.d.values().iter().max().map_or(0, |d| *d as u32)
}

fn smallest(t: &Settings) -> u32 {
    t.d.values().iter().min().map_or(0, |d| *d as u32)
}

/// How many counters the filters of some values have together, held at the greatest 64-bit number.
fn together(values: &[u8]) -> u64 {
    values.iter().fold(0, |sum, d| sum.saturating_add(two_to(*d as u32)))
}

/// The settings as a call takes them: the list as it was lent, unless a slip makes another of it.
fn taken(t: &Settings, slip: Option<Slip>) -> Settings {
    let mut list = t.d.values().to_vec();
    match (slip, list.len()) {
        (Some(Slip::DShortFilled), 31) => list.push(4),
        (Some(Slip::DShortLastAgain), 31) => list.push(list[30]),
        (Some(Slip::DLongCut), 33) => list.truncate(32),
        (Some(Slip::DEmptyPasses), 0) | (Some(Slip::DCountUnasked), _) => list.resize(32, 4),
        (Some(Slip::DOneForAll), 1) => list.resize(32, list[0]),
        (Some(Slip::DTurned), _) => list.reverse(),
        (Some(Slip::DOneAhead), 2..) => {
            list.remove(0);
            list.push(list[list.len() - 1]);
        }
        _ => (),
    }
    Settings { d: Sizes::of(&list), ..*t }
}

// ---- Prefix, positions, bucket ----

/// The first `length` bits of an address, zeros after them.
pub fn prefix(length: u32, address: u32) -> u32 {
    cut(length, address, None)
}

fn cut(length: u32, address: u32, slip: Option<Slip>) -> u32 {
    let kept = match slip {
        Some(Slip::PrefixBitMore) => length.saturating_add(1).min(32),
        Some(Slip::PrefixBitFewer) => length.saturating_sub(1),
        Some(Slip::PrefixUncut) => 32,
        Some(Slip::PrefixOtherEnd) => 32u32.saturating_sub(length),
        Some(Slip::PrefixShift32) if length == 0 => 32,
        _ => length,
    };
    // Only a slip asks about more than 32 bits; it then clears 31, as shifting by minus one does.
    let unit = two_to(32u32.checked_sub(kept).unwrap_or(31));
    (address as u64 / unit * unit) as u32
}

/// Whether a prefix is kept out by adds: whether it lies wholly in 127.0.0.0/8 or in 224.0.0.0/4.
pub fn odd(length: u32, p: u32) -> bool {
    kept_out(length, p, None)
}

fn kept_out(length: u32, p: u32, slip: Option<Slip>) -> bool {
    let in_block = |octet: u64, bits: u32| lies_in(length, p, (octet * two_to(24)) as u32, bits, slip);
    let (one, other) = (in_block(127, 8), in_block(224, 4));
    match slip {
        Some(Slip::Odd127As7) => in_block(126, 7) || other,
        Some(Slip::Odd127Itself) => one && length == 8 || other,
        Some(Slip::Odd224Itself) => one || other && length == 4,
        Some(Slip::Odd127Only) => one,
        Some(Slip::Odd224Only) => other,
        Some(Slip::Odd224As8) => one || in_block(224, 8),
        Some(Slip::Odd240Too) => one || other || in_block(240, 4),
        Some(Slip::Odd128Too) => one || other || in_block(128, 8),
        _ => one || other,
    }
}

/// Whether a prefix lies wholly in a block: it begins with the block's bits, and has them all.
fn lies_in(length: u32, p: u32, block: u32, bits: u32, slip: Option<Slip>) -> bool {
    let shared = length.min(bits);
    match slip {
        Some(Slip::OddByAddress) => prefix(bits, p) == block,
        Some(Slip::OddContaining) => prefix(shared, p) == prefix(shared, block),
        Some(Slip::OddLongerOnly) => length > bits && prefix(bits, p) == block,
        _ => length >= bits && prefix(bits, p) == block,
    }
}

/// The K positions of a prefix in the filter of its length, in the order of the steps.
pub fn positions(t: &Settings, length: u32, p: u32) -> Vec<usize> {
    steps(t, length, p, None)
}

fn steps(t: &Settings, length: u32, p: u32, slip: Option<Slip>) -> Vec<usize> {
    let (a, b) = if slip == Some(Slip::AAndBSwapped) { (t.b, t.a) } else { (t.a, t.b) };
    let top = two_to(32) - 1;
    let stride = match slip {
        Some(Slip::StrideIsB) => b as u64,
        Some(Slip::StrideSticks) => top.min(b as u64 * p as u64),
        _ => product(b, p),
    };
    let start = match slip {
        Some(Slip::StartIsA) => a as u64,
        Some(Slip::StartStepLate) => (product(a, p) + stride) % two_to(32),
        Some(Slip::StartSticks) => top.min(a as u64 * p as u64),
        _ => product(a, p),
    };
    grown(t, length, start, stride, slip)
}

/// The positions of g in a length's filter, from its start, with what it grows by between them.
fn grown(t: &Settings, length: u32, start: u64, stride: u64, slip: Option<Slip>) -> Vec<usize> {
    let count = match slip {
        Some(Slip::StepFewer) => t.k.saturating_sub(1),
        Some(Slip::StepMore) => t.k + 1,
        _ => t.k,
    };
    let d = position_d(t, length, slip);
    let (mut g, mut found) = (start, Vec::new());
    for _ in 0..count {
        found.push(position(d, g, slip) as usize);
        g = match slip {
            Some(Slip::SumSticks) => (two_to(32) - 1).min(g + stride),
            Some(Slip::SumUnwrapped) => g + stride,
            _ => (g + stride) % two_to(32),
        };
    }
    found
}

/// The D that positions at a length are taken by.
fn position_d(t: &Settings, length: u32, slip: Option<Slip>) -> u32 {
    match slip {
        Some(Slip::PositionByFirst) => d_of(t, 1),
        Some(Slip::PositionByLast) => d_of(t, 32),
        Some(Slip::PositionByNext) => d_of(t, length.saturating_add(1).min(32)),
        Some(Slip::PositionByBefore) => d_of(t, length.saturating_sub(1).max(1)),
        Some(Slip::PositionByLargest) => largest(t),
        Some(Slip::PositionBySmallest) => smallest(t),
        _ => d_of(t, length),
    }
}

/// The position that one value of g gives in a filter of 2^d counters. Only a slip lets d pass 11.
fn position(d: u32, g: u64, slip: Option<Slip>) -> u64 {
    let dropped = 32u32.saturating_sub(d);
    match slip {
        Some(Slip::PositionLowBits) => g % two_to(d),
        Some(Slip::PositionBitFewer) => g / two_to(dropped + 1),
        Some(Slip::PositionRoundedUp) => g.div_ceil(two_to(dropped)),
        _ => g / two_to(dropped),
    }
}

/// The bucket of a prefix.
pub fn bucket(t: &Settings, p: u32) -> usize {
    bucket_of(t, p, None) as usize
}

fn bucket_of(t: &Settings, p: u32, slip: Option<Slip>) -> u64 {
    let mixed = match slip {
        Some(Slip::BucketByA) => product(t.a, p),
        Some(Slip::BucketUnmixed) => p as u64,
        Some(Slip::BucketUnwrapped) => t.c as u64 * p as u64,
        _ => product(t.c, p),
    };
    match slip {
        Some(Slip::BucketLowBits) => mixed % two_to(t.e),
        Some(Slip::BucketRoundedUp) => mixed.div_ceil(two_to(32 - t.e)),
        Some(Slip::BucketShift32) if t.e == 0 => mixed,
        _ => mixed / two_to(32 - t.e),
    }
}

// ---- Sizes and places ----

/// How many counters, one byte each: those of every value in the list, however many there are.
pub fn counter_bytes(t: &Settings) -> usize {
    together(t.d.values()) as usize
}

/// The number of counters that a call asks for.
fn counters_asked(t: &Settings, slip: Option<Slip>) -> usize {
    let sum = together(t.d.values());
    let (first, last) = (two_to(d_of(t, 1)), two_to(d_of(t, 32)));
    let asked = match slip {
        Some(Slip::CountersRowMore) => sum.saturating_add(last),
        Some(Slip::CountersRowFewer) => sum.saturating_sub(last),
        Some(Slip::CountersFirstLeft) => sum.saturating_sub(first),
        Some(Slip::CountersByFirst) => first.saturating_mul(32),
        Some(Slip::CountersByLast) => last.saturating_mul(32),
        Some(Slip::CountersByLargest) => two_to(largest(t)).saturating_mul(32),
        Some(Slip::CountersSum16Bits) => sum % 65_536,
        _ => sum,
    };
    asked as usize
}

/// How many words of slot memory, the marks of both parties' defaults included.
pub fn slot_words(t: &Settings) -> usize {
    64u64.saturating_mul(two_to(t.e)).saturating_mul(t.s as u64).saturating_add(2) as usize
}

/// Which word holds the mark of a party's default: after all slots, party 0's and then party 1's.
pub fn default_word(t: &Settings, party: u32) -> usize {
    (slot_words(t) - 2).saturating_add(party as usize)
}

/// The mark that stands for a party's hop. Only slips ask for a hop or a party that has none.
pub fn mark(party: u32, hop: u32) -> u32 {
    hop.wrapping_add(1).wrapping_add(party.wrapping_mul(65_536))
}

/// The byte of one counter.
pub fn counter_at(t: &Settings, length: u32, position: usize) -> usize {
    counter_of(t, length, position, None) as usize
}

fn counter_of(t: &Settings, length: u32, position: usize, slip: Option<Slip>) -> u64 {
    let j = position as u64;
    match slip {
        Some(Slip::CounterColumns) => column_place(t, length, j),
        _ => filter_start(t, length, slip).saturating_add(j),
    }
}

/// The byte at which the filter of a length begins: just after those of all shorter lengths.
fn filter_start(t: &Settings, length: u32, slip: Option<Slip>) -> u64 {
    let values = t.d.values();
    let row = length.saturating_sub(1) as usize;
    let sum = |from: usize, to: usize| together(&values[from.min(values.len())..to.min(values.len())]);
    let rows_of = |d: u32| two_to(d).saturating_mul(row as u64);
    match slip {
        Some(Slip::CounterRowL) => sum(0, row + 1),
        Some(Slip::FilterRowFewer) => sum(0, row.saturating_sub(1)),
        Some(Slip::FilterSumsAbove) => sum(1, row + 1),
        Some(Slip::FilterSumsBelow) if row > 0 => sum(0, 1).saturating_add(sum(0, row - 1)),
        Some(Slip::FilterRowsOwn) => rows_of(d_of(t, length)),
        Some(Slip::FilterRowsFirst) => rows_of(d_of(t, 1)),
        Some(Slip::FilterRowsLargest) => rows_of(largest(t)),
        Some(Slip::FiltersTurned) => sum(row + 1, 32),
        Some(Slip::FilterSumsD) => values.iter().take(row).map(|d| *d as u64).sum(),
        _ => sum(0, row),
    }
}

/// A slip's: the byte of a counter if all filters' counters 0 come first, then all their counters 1, and on.
fn column_place(t: &Settings, length: u32, j: u64) -> u64 {
    let sizes = || t.d.values().iter().map(|d| two_to(*d as u32));
    let before = sizes().fold(0u64, |sum, size| sum.saturating_add(size.min(j)));
    before.saturating_add(sizes().take(length as usize - 1).filter(|size| *size > j).count() as u64)
}

/// The number of slot 0 in the bucket of a prefix.
pub fn first_slot(t: &Settings, length: u32, p: u32) -> usize {
    first_of(t, length, p, None) as usize
}

fn first_of(t: &Settings, length: u32, p: u32, slip: Option<Slip>) -> u64 {
    let (row, b, s) = (length as u64 - 1, bucket_of(t, p, slip), t.s as u64);
    match slip {
        Some(Slip::SlotRowL) => ((row + 1) * two_to(t.e) + b) * s,
        Some(Slip::SlotByBucket) => (b * 32 + row) * s,
        _ => (row * two_to(t.e) + b) * s,
    }
}

// ---- One call ----

/// Does one call and gives its answer as one number.
pub fn answer(
    t: &Settings,
    counters: &mut [u8],
    slots: &mut [u32],
    lent: Lent,
    call: Call,
    slip: Option<Slip>,
) -> u64 {
    let t = taken(t, slip);
    let bytes = counters.len().min(lent.counters).min(counter_bytes(&t));
    let words = slots.len().min(lent.slots / call.units()).min(slot_words(&t));
    let (party, either) = (party_of(call), takes_either(call, slip));
    let (counters, slots) = (&mut counters[..bytes], &mut slots[..words]);
    let mut table = Table { t, party, either, counters, slots, slip };
    let asked = Asked::of(call, slip);
    let numbers = numbers(call, slip);
    if let Some(refusal) = numbers.into_iter().find(|number| table.given(*number, lent, call, asked)) {
        table.begun(refusal, call, asked);
        return table.refused(refusal, call);
    }
    let Asked { p, length, hop } = asked;
    match call {
        Call::Vector { address } => return table.vector(address),
        Call::Lookup { address, .. } => return table.lookup(address),
        _ if slip == Some(Slip::ShamWritesNothing) => (),
        Call::Clear => table.clear(),
        Call::Add { .. } => table.add(call, asked),
        Call::Withdraw { .. } => table.withdraw(p, length),
        Call::Change { .. } => table.change(p, length, hop),
    }
    0
}

/// The number 1 or 2, if a question about this table gets it, else 0. Neither asks what the memory holds.
pub fn table_refusal(t: &Settings, lent: Lent, slip: Option<Slip>) -> u64 {
    let t = taken(t, slip);
    let table = Table { t, party: 0, either: false, counters: &mut [], slots: &mut [], slip };
    let call = Call::Lookup { party: 0, address: 0 };
    let asked = Asked::of(call, slip);
    numbers(call, slip).into_iter().find(|number| table.given(*number, lent, call, asked)).unwrap_or(0)
}

/// The party that a call names; 0 for one that names none.
fn party_of(call: Call) -> u32 {
    match call {
        Call::Clear | Call::Vector { .. } => 0,
        Call::Add { party, .. }
        | Call::Withdraw { party, .. }
        | Call::Change { party, .. }
        | Call::Lookup { party, .. } => party,
    }
}

/// What an update is about; zeros for the other calls.
#[derive(Clone, Copy)]
struct Asked {
    p: u32,
    length: u32,
    hop: u32,
}

impl Asked {
    fn of(call: Call, slip: Option<Slip>) -> Asked {
        let (p, length, hop) = match call {
            Call::Add { prefix, length, hop, .. } | Call::Change { prefix, length, hop, .. } => {
                (prefix, length, hop)
            }
            Call::Withdraw { prefix, length, .. } => (prefix, length, 0),
            _ => (0, 0, 0),
        };
        match slip {
            Some(Slip::LengthLowByte) => Asked { p, length: length % 256, hop },
            Some(Slip::HopLow16Bits) => Asked { p, length, hop: hop % 65_536 },
            Some(Slip::BitsDropped) if length <= 32 => Asked { p: prefix(length, p), length, hop },
            _ => Asked { p, length, hop },
        }
    }
}

/// The refusals that a call can get, in the order in which they are asked.
fn numbers(call: Call, slip: Option<Slip>) -> Vec<u64> {
    let mut order = match call {
        Call::Clear | Call::Vector { .. } => vec![1, 2],
        Call::Lookup { .. } => vec![1, 2, 15],
        Call::Add { .. } => match slip {
            Some(Slip::ReplaceRefused | Slip::DefaultReplaceRefused) => vec![1, 2, 15, 3, 4, 11, 5, 6, 8, 9],
            Some(Slip::OddLast) => vec![1, 2, 15, 3, 4, 5, 8, 9, 11],
            _ => vec![1, 2, 15, 3, 4, 11, 5, 8, 9],
        },
        Call::Withdraw { .. } => match slip {
            Some(Slip::WithdrawAsksOdd) => vec![1, 2, 15, 3, 4, 11, 7, 10],
            _ => vec![1, 2, 15, 3, 4, 7, 10],
        },
        Call::Change { .. } => match slip {
            Some(Slip::ChangeAsksOdd) => vec![1, 2, 15, 3, 4, 11, 5, 7],
            _ => vec![1, 2, 15, 3, 4, 5, 7],
        },
    };
    let (one, other) = swapped(slip);
    let place = |number: u64| order.iter().position(|n| *n == number);
    if let (Some(x), Some(y)) = (place(one), place(other)) {
        order[x..=y].rotate_right(1);
    }
    order.retain(|number| *number != unasked(call, slip));
    order
}

/// The lent memory, as long as the settings ask and no longer, with the settings it is read by and the party
/// that it is read for.
struct Table<'a> {
    t: Settings,
    party: u32,
    /// Whether the other party's slots are taken for the caller's, as only slips do.
    either: bool,
    counters: &'a mut [u8],
    slots: &'a mut [u32],
    slip: Option<Slip>,
}

// ---- Refusals ----

impl Table<'_> {
    fn is(&self, slip: Slip) -> bool {
        self.slip == Some(slip)
    }

    /// The right value, or the wrong one if the slip named is at work.
    fn or<V>(&self, right: V, slip: Slip, wrong: V) -> V {
        if self.is(slip) {
            wrong
        } else {
            right
        }
    }

    /// Whether what a refusal's number stands for is so.
    fn given(&self, number: u64, lent: Lent, call: Call, asked: Asked) -> bool {
        let Asked { p, length, hop } = asked;
        let from_one = |slip: Slip| length >= 1 || self.is(slip);
        let stored = || self.stored(p, length, call);
        let unstored = |slip: Slip| !stored() || self.is(slip);
        match number {
            1 => self.settings_bad() || self.list_bad(lent, call),
            2 if self.is(Slip::DCountGives2) && self.count_wrong() => true,
            2 => self.sizes_wrong(lent, call),
            3 => self.too_long(length),
            4 => self.bit_after(p, length),
            5 if self.is(Slip::ReplaceHopUnasked) && matches!(call, Call::Add { .. }) && stored() => false,
            5 => self.hop_too_big(hop),
            // Only slips ask for 6.
            6 => stored() && (length == 0 || self.is(Slip::ReplaceRefused)),
            7 => !stored(),
            8 if self.is(Slip::ShamRefusesAdds) => true,
            8 => {
                unstored(Slip::ReplaceAsksBucket)
                    && from_one(Slip::DefaultAsksBucket)
                    && self.full(p, length.max(1))
            }
            9 => {
                unstored(Slip::ReplaceAsksRoom)
                    && from_one(Slip::DefaultAsksRoom)
                    && self.no_room(p, length.max(1))
            }
            11 if self.is(Slip::OddStoredReplaced) && stored() => false,
            11 => kept_out(length, p, self.slip),
            15 => self.party > self.or(1, Slip::PartyTo0, 0),
            _ => from_one(Slip::DefaultAsksHits) && self.too_few(p, length.max(1)),
        }
    }

    /// One end of a range; one less or one more if a slip that is named moves it.
    fn end(&self, right: u32, lower: Slip, higher: Slip) -> u32 {
        match self.slip {
            Some(slip) if slip == lower => right - 1,
            Some(slip) if slip == higher => right + 1,
            _ => right,
        }
    }

    /// Whether a setting other than the list is out of its range.
    fn settings_bad(&self) -> bool {
        let Settings { k, e, s, a, b, c, .. } = self.t;
        outside(k, self.end(1, Slip::KFrom0, Slip::KFrom2), self.end(8, Slip::KTo7, Slip::KTo9))
            || outside(e, self.or(0, Slip::EFrom1, 1), self.end(8, Slip::ETo7, Slip::ETo9))
            || outside(s, self.end(1, Slip::SFrom0, Slip::SFrom2), self.end(8, Slip::STo7, Slip::STo9))
            || self.is(Slip::ZeroMultiplierBad) && (a == 0 || b == 0 || c == 0)
    }

    /// Whether the list of filter sizes has another count than 32 or a value out of range.
    fn list_bad(&self, lent: Lent, call: Call) -> bool {
        let (count, values) = (self.count_wrong(), self.values_bad());
        match self.slip {
            Some(Slip::SizeBeforeList) if self.sizes_wrong(lent, call) => false,
            Some(Slip::SizeBeforeCount) if self.sizes_wrong(lent, call) => values,
            Some(Slip::DCountGives2) => values,
            _ => count || values,
        }
    }

    fn count_wrong(&self) -> bool {
        self.t.d.values().len() != 32
    }

    fn values_bad(&self) -> bool {
        let least = self.end(4, Slip::DFrom3, Slip::DFrom5);
        let most = self.end(11, Slip::DTo10, Slip::DTo12);
        let values = self.t.d.values();
        let bad = |d: &u8| outside(*d as u32, least, most);
        match self.slip {
            Some(Slip::DFirstUnasked) => values.iter().skip(1).any(bad),
            Some(Slip::DLastUnasked) => values.iter().rev().skip(1).any(bad),
            Some(Slip::DFirstOnly) => values.iter().take(1).any(bad),
            Some(Slip::DLastOnly) => values.iter().rev().take(1).any(bad),
            Some(Slip::DLargestOnly) => values.iter().max().is_some_and(bad),
            Some(Slip::DSmallestOnly) => values.iter().min().is_some_and(bad),
            Some(Slip::DOneEnough) => values.iter().all(bad),
            Some(Slip::DZeroPasses) => values.iter().any(|d| *d != 0 && bad(d)),
            _ => values.iter().any(bad),
        }
    }

    fn sizes_wrong(&self, lent: Lent, call: Call) -> bool {
        let units = self.or(call.units(), Slip::SlotsBytesAsWords, 1);
        let unasked = match self.slip {
            Some(Slip::SlotsNoDefault) => 2,
            Some(Slip::SlotsOneDefault) => 1,
            _ => 0,
        };
        let words = slot_words(&self.t) - unasked;
        let slots = words.saturating_mul(units);
        let counters = counters_asked(&self.t, self.slip);
        match self.slip {
            Some(Slip::CountersLonger) => lent.counters < counters || lent.slots != slots,
            Some(Slip::CountersShorter) => lent.counters > counters || lent.slots != slots,
            Some(Slip::SlotsLonger) => lent.counters != counters || lent.slots < slots,
            Some(Slip::SlotsShorter) => lent.counters != counters || lent.slots > slots,
            Some(Slip::SlotsBytesRounded) => lent.counters != counters || lent.slots / units != words,
            _ => lent.counters != counters || lent.slots != slots,
        }
    }

    fn too_long(&self, length: u32) -> bool {
        match self.slip {
            Some(Slip::LengthTo31) => length > 31,
            Some(Slip::LengthTo33) => length > 33,
            _ => length > 32,
        }
    }

    fn bit_after(&self, p: u32, length: u32) -> bool {
        match self.slip {
            Some(Slip::BitFirstOnly) if length < 32 => prefix(length, p) != prefix(length + 1, p),
            Some(Slip::BitLength32) if length == 32 => p != 0,
            _ => self.cut(length, p) != p,
        }
    }

    fn hop_too_big(&self, hop: u32) -> bool {
        match self.slip {
            Some(Slip::HopTo65534) => hop > 65_534,
            Some(Slip::HopTo65536) => hop > 65_536,
            _ => hop > 65_535,
        }
    }

    /// Whether some slot of the caller's, in its bucket, holds the prefix; for length 0, whether the caller
    /// has a default.
    fn stored(&self, p: u32, length: u32, call: Call) -> bool {
        if length == 0 {
            return self.default_hop().is_some();
        }
        let holding = self.holding(length, p);
        let held = !holding.is_empty();
        match (self.slip, call) {
            (Some(Slip::ReplaceAddsAgain), Call::Add { .. }) => false,
            (Some(Slip::ReplaceStopsAtFree), Call::Add { .. }) => {
                held && self.free(length, p).iter().all(|n| holding[0] < *n)
            }
            (Some(Slip::AddTrustsFilter), Call::Add { .. }) => self.claimed(length, p),
            (Some(Slip::AddAsksFilter), Call::Add { .. }) => held && self.claimed(length, p),
            (Some(Slip::WithdrawAsksFilter), Call::Withdraw { .. }) => held && self.claimed(length, p),
            (Some(Slip::ChangeAsksFilter), Call::Change { .. }) => held && self.claimed(length, p),
            (Some(Slip::WithdrawOddUnstored), Call::Withdraw { .. }) => held && !odd(length, p),
            (Some(Slip::ChangeOddUnstored), Call::Change { .. }) => held && !odd(length, p),
            _ => held,
        }
    }

    fn full(&self, p: u32, length: u32) -> bool {
        match self.slip {
            Some(Slip::FullOneEarly) => self.free(length, p).len() <= 1,
            Some(Slip::FullOwnOnly) => self.bucket_slots(length, p).all(|n| self.hop(self.mark(n)).is_some()),
            _ => self.free(length, p).is_empty(),
        }
    }

    /// Whether some counter that the prefix hits would pass 15.
    fn no_room(&self, p: u32, length: u32) -> bool {
        let most = match self.slip {
            Some(Slip::RoomTo14) => 14,
            Some(Slip::RoomTo16) => 16,
            _ => 15,
        };
        let hit = match self.slip {
            Some(Slip::RoomByFirst) => self.steps(1, p),
            _ => self.steps(length, p),
        };
        let wanted = |j: usize| match self.slip {
            Some(Slip::RoomWithoutHits) => 1,
            Some(Slip::RoomSeesRaised) if Some(&j) == hit.first() => hits(&hit, j) + 1,
            _ => hits(&hit, j),
        };
        let over = |j: usize| self.counter(length, j) + wanted(j) > most;
        match self.slip {
            Some(Slip::RoomFirstOnly) => hit.iter().take(1).any(|j| over(*j)),
            Some(Slip::RoomEverywhere) => (0..two_to(d_of(&self.t, length))).any(|j| over(j as usize)),
            _ => hit.iter().any(|j| over(*j)),
        }
    }

    /// Whether some counter that the prefix hits holds less than its hits.
    fn too_few(&self, p: u32, length: u32) -> bool {
        let hit = match self.slip {
            Some(Slip::HitsByFirst) => self.steps(1, p),
            _ => self.steps(length, p),
        };
        hit.iter().any(|j| match self.slip {
            Some(Slip::HitsOne) => self.counter(length, *j) < 1,
            Some(Slip::HitsOneMore) => self.counter(length, *j) <= hits(&hit, *j),
            _ => self.counter(length, *j) < hits(&hit, *j),
        })
    }

    /// Slips only: what a call had written before it was refused.
    fn begun(&mut self, refusal: u64, call: Call, asked: Asked) {
        let Asked { p, length, hop } = asked;
        match (self.slip, refusal, call) {
            (Some(Slip::ClearLate), _, Call::Clear) => self.clear(),
            _ if length == 0 => (),
            (Some(Slip::FullLate), 8, _) | (Some(Slip::RoomLate), 9, _) => {
                for j in self.steps(length, p).into_iter().take(1) {
                    self.set_counter(length, j, self.counter(length, j) + 1);
                }
            }
            (Some(Slip::RoomSlotLate), 9, _) => self.fill(length, p, hop),
            (Some(Slip::OddLate), 11, _) if !self.stored(p, length, call) => self.fill(length, p, hop),
            (Some(Slip::OddReplacedLate), 11, _) => self.replace(p, length, hop),
            (Some(Slip::UnstoredLate), 7, Call::Withdraw { .. }) => self.lower(length, p),
            (Some(Slip::HitsLate), 10, _) => self.empty(length, p),
            _ => (),
        }
    }
}

fn outside(value: u32, least: u32, most: u32) -> bool {
    value < least || value > most
}

/// How often a position occurs among the steps.
fn hits(steps: &[usize], position: usize) -> u64 {
    steps.iter().filter(|j| **j == position).count() as u64
}

// ---- Bytes and words ----

impl Table<'_> {
    fn cut(&self, length: u32, address: u32) -> u32 {
        cut(length, address, self.slip)
    }

    fn steps(&self, length: u32, p: u32) -> Vec<usize> {
        steps(&self.t, length, p, self.slip)
    }

    fn byte(&self, at: u64) -> u64 {
        self.counters.get(at as usize).map_or(0, |byte| *byte as u64)
    }

    fn counter(&self, length: u32, j: usize) -> u64 {
        self.byte(counter_of(&self.t, length, j, self.slip))
    }

    fn set_counter(&mut self, length: u32, j: usize, value: u64) {
        let at = counter_of(&self.t, length, j, self.slip) as usize;
        if let Some(byte) = self.counters.get_mut(at) {
            *byte = (value % 256) as u8;
        }
    }

    fn word(&self, at: u64) -> u32 {
        self.slots.get(at as usize).copied().unwrap_or(0)
    }

    fn set_word(&mut self, at: u64, value: u32) {
        if let Some(word) = self.slots.get_mut(at as usize) {
            *word = value;
        }
    }

    /// Where slot n has its prefix and its mark.
    fn places(&self, n: u64) -> (u64, u64) {
        self.or((2 * n, 2 * n + 1), Slip::MarkBeforePrefix, (2 * n + 1, 2 * n))
    }

    fn held(&self, n: u64) -> u32 {
        self.word(self.places(n).0)
    }

    fn mark(&self, n: u64) -> u32 {
        self.word(self.places(n).1)
    }

    fn set_slot(&mut self, n: u64, p: u32, mark: u32) {
        let (prefix_at, mark_at) = self.places(n);
        self.set_word(prefix_at, p);
        self.set_word(mark_at, mark);
    }

    /// Whose an occupied mark is; nothing for a free one.
    fn owner(&self, mark: u32) -> Option<u32> {
        let (least, most) = match self.slip {
            Some(Slip::Mark0Occupied) => (0, 65_536),
            Some(Slip::Mark1Free) => (2, 65_536),
            Some(Slip::Mark65536Free) => (1, 65_535),
            Some(Slip::Mark65537Occupied) => (1, 65_537),
            _ => (1, 65_536),
        };
        let last = match self.slip {
            Some(Slip::Mark131073Occupied) => 131_073,
            Some(Slip::MarkNonzeroOccupied) => u32::MAX,
            _ => 131_072,
        };
        if least <= mark && mark <= most {
            Some(0)
        } else if 65_537 <= mark && mark <= last {
            Some(1)
        } else {
            None
        }
    }

    /// The hop of an occupied mark, whoever's it is; nothing for a free one.
    fn any_hop(&self, held: u32) -> Option<u64> {
        let owner = self.owner(held)?;
        let hop = match self.slip {
            Some(Slip::HopIsMark) => held,
            Some(Slip::HopMarkLess1) => held.wrapping_sub(1),
            _ => held.wrapping_sub(mark(owner, 0)),
        };
        Some(hop as u64)
    }

    /// The hop of a mark of the caller's; nothing for any other.
    fn hop(&self, mark: u32) -> Option<u64> {
        self.any_hop(mark).filter(|_| self.owner(mark) == Some(self.party))
    }

    /// The mark that stands for a hop of the caller's.
    fn marked(&self, hop: u32) -> u32 {
        self.or(mark(self.party, hop), Slip::MarkIsHop, hop)
    }

    /// Which word holds the mark of the caller's default.
    fn default_at(&self) -> u64 {
        let words = slot_words(&self.t) as u64;
        match self.slip {
            Some(Slip::DefaultWordFirst) => 0,
            Some(Slip::DefaultWordBefore) => words.saturating_sub(2),
            Some(Slip::DefaultWordLast) => words - 1,
            _ => default_word(&self.t, self.party) as u64,
        }
    }

    /// The hop of the caller's default, if there is one.
    fn default_hop(&self) -> Option<u64> {
        let mark = self.word(self.default_at());
        match self.slip {
            Some(Slip::DefaultNonzero) if mark != 0 => self.hop(mark).or(Some(mark as u64 - 1)),
            Some(Slip::DefaultEitherParty) => self.any_hop(mark),
            _ => self.hop(mark),
        }
    }

    /// The slots of a prefix's bucket, lowest first.
    fn bucket_slots(&self, length: u32, p: u32) -> std::ops::Range<u64> {
        let first = first_of(&self.t, length, p, self.slip);
        first..first + self.t.s as u64
    }

    /// The caller's slots of the bucket that hold the prefix, lowest first.
    fn holding(&self, length: u32, p: u32) -> Vec<u64> {
        let own = self.bucket_slots(length, p);
        let searched = match self.slip {
            Some(Slip::SearchWholeLength) => {
                let row = two_to(self.t.e) * self.t.s as u64;
                (length as u64 - 1) * row..length as u64 * row
            }
            Some(Slip::SearchFirstSlot) => own.start..own.end.min(own.start + 1),
            Some(Slip::SearchLastMissed) => own.start..own.end - 1,
            Some(Slip::SearchStopsAtFree) => {
                own.start..self.free(length, p).first().copied().unwrap_or(own.end)
            }
            _ => own,
        };
        searched
            .filter(|n| self.searched(self.mark(*n)))
            .filter(|n| self.held(*n) == p || self.is(Slip::SearchAnyPrefix))
            .collect()
    }

    /// Whether a search takes a slot of this mark: whether the mark is the caller's.
    fn searched(&self, mark: u32) -> bool {
        match self.owner(mark) {
            Some(owner) => owner == self.party || self.either,
            None => self.is(Slip::SearchUnmarked),
        }
    }

    /// The free slots of the bucket, which neither party has, lowest first.
    fn free(&self, length: u32, p: u32) -> Vec<u64> {
        self.bucket_slots(length, p)
            .filter(|n| match self.slip {
                Some(Slip::FreeOnlyZero) => self.mark(*n) == 0,
                Some(Slip::FreeOtherParty) => self.hop(self.mark(*n)).is_none(),
                _ => self.owner(self.mark(*n)).is_none(),
            })
            .collect()
    }

    /// The lowest of some slots; with the named slip, the highest.
    fn lowest(&self, slots: Vec<u64>, highest: Slip) -> Option<u64> {
        self.or(slots.first(), highest, slots.last()).copied()
    }
}

// ---- Clear and the updates ----

impl Table<'_> {
    fn clear(&mut self) {
        let bytes = match self.slip {
            Some(Slip::ClearKeepsCounters) => 0,
            Some(Slip::ClearKeepsLastCounter) => self.counters.len().saturating_sub(1),
            Some(Slip::ClearByFirst) => self.counters.len().min(32 * two_to(d_of(&self.t, 1)) as usize),
            _ => self.counters.len(),
        };
        let words = match self.slip {
            Some(Slip::ClearKeepsSlots) => 0,
            Some(Slip::ClearKeepsDefault) => self.slots.len().saturating_sub(2),
            _ => self.slots.len(),
        };
        self.counters[..bytes].fill(0);
        for at in 0..words {
            if self.cleared(at) {
                self.slots[at] = 0;
            }
        }
    }

    /// Whether a clear that has come to a word writes it: always, but for slips.
    fn cleared(&self, at: usize) -> bool {
        let of_default = at >= default_word(&self.t, 0);
        // The word that says whose this one is: of a slot, the second.
        let mark_at = if of_default { at } else { at / 2 * 2 + 1 };
        match self.slip {
            Some(Slip::ClearMarksOnly) => of_default || at == mark_at,
            Some(Slip::ClearKeepsParty1) => self.owner(self.word(mark_at as u64)) != Some(1),
            _ => true,
        }
    }

    fn add(&mut self, call: Call, asked: Asked) {
        let Asked { p, length, hop } = asked;
        if self.is(Slip::ShamFirstAddOnly) && self.slots.iter().any(|word| *word != 0) {
            return;
        }
        if self.stored(p, length, call) {
            return self.replace(p, length, hop);
        }
        if length == 0 {
            if self.is(Slip::DefaultCounted) {
                self.raise(1, p);
            }
            return self.set_default(self.marked(hop), Slip::DefaultAddUnwritten);
        }
        self.fill(length, p, hop);
        self.raise(length, p);
    }

    /// An add of a stored prefix: the caller's lowest slot that holds it gets a new mark.
    fn replace(&mut self, p: u32, length: u32, hop: u32) {
        if length == 0 {
            return self.set_default(self.marked(hop), Slip::DefaultReplaceUnwritten);
        }
        match self.slip {
            Some(Slip::ReplaceUnwritten) => return,
            Some(Slip::ReplaceTakesFree) => return self.fill(length, p, hop),
            Some(Slip::ReplaceMoves) => {
                self.empty(length, p);
                return self.fill(length, p, hop);
            }
            Some(Slip::ReplaceRaises) => self.raise(length, p),
            Some(Slip::ReplaceMendsFilter) if !self.claimed(length, p) => self.raise(length, p),
            _ => (),
        }
        let holding = self.holding(length, p);
        let lowest = self.lowest(holding.clone(), Slip::ReplaceHighest).into_iter().collect();
        for n in self.or(lowest, Slip::ReplaceEverySlot, holding) {
            self.set_word(self.places(n).1, self.marked(hop));
        }
    }

    fn withdraw(&mut self, p: u32, length: u32) {
        if length == 0 {
            return self.set_default(0, Slip::DefaultWithdrawUnwritten);
        }
        self.empty(length, p);
        self.lower(length, p);
    }

    fn change(&mut self, p: u32, length: u32, hop: u32) {
        if length == 0 {
            return self.set_default(self.marked(hop), Slip::DefaultChangeUnwritten);
        }
        if let Some(n) = self.lowest(self.holding(length, p), Slip::ChangeHighest) {
            let mark = self.or(self.marked(hop), Slip::ChangeUnwritten, self.mark(n));
            self.set_word(self.places(n).1, mark);
        }
        if self.is(Slip::ChangeRaises) {
            self.raise(length, p);
        }
    }

    fn set_default(&mut self, mark: u32, unwritten: Slip) {
        if !self.is(unwritten) {
            self.set_word(self.default_at(), mark);
        }
    }

    /// Puts a route into the lowest free slot of its bucket.
    fn fill(&mut self, length: u32, p: u32, hop: u32) {
        let spill = self.or(None, Slip::FullSpills, Some(self.bucket_slots(length, p).end));
        if let Some(n) = self.lowest(self.free(length, p), Slip::AddHighest).or(spill) {
            let p = self.or(p, Slip::AddPrefixUnwritten, self.held(n));
            let mark = self.or(self.marked(hop), Slip::AddMarkUnwritten, self.mark(n));
            self.set_slot(n, p, mark);
        }
    }

    /// Empties the caller's lowest slot that holds a prefix.
    fn empty(&mut self, length: u32, p: u32) {
        let holding = self.holding(length, p);
        let lowest = self.lowest(holding.clone(), Slip::WithdrawHighest).into_iter().collect();
        for n in self.or(lowest, Slip::WithdrawEverySlot, holding) {
            match self.slip {
                Some(Slip::WithdrawPrefixLeft) => self.set_slot(n, p, 0),
                Some(Slip::WithdrawMarkLeft) => self.set_slot(n, 0, self.mark(n)),
                Some(Slip::WithdrawClosesGap) => {
                    let last = self.bucket_slots(length, p).end - 1;
                    for m in n..last {
                        self.set_slot(m, self.held(m + 1), self.mark(m + 1));
                    }
                    self.set_slot(last, 0, 0);
                }
                _ => self.set_slot(n, 0, 0),
            }
        }
    }

    /// Each step adds one to its counter.
    fn raise(&mut self, length: u32, p: u32) {
        for j in self.counted(self.steps(length, p), Slip::AddDoubledOnce) {
            let now = self.counter(length, j);
            let next = match self.slip {
                Some(Slip::AddCountersLeft) => now,
                Some(Slip::AddFirstCounter) if Some(&j) != self.steps(length, p).first() => now,
                Some(Slip::AddSetsOne) => 1,
                Some(Slip::AddSticksAt15) if now >= 15 => now,
                _ => now + 1,
            };
            self.set_counter(length, j, next);
        }
    }

    /// Each step takes one from its counter.
    fn lower(&mut self, length: u32, p: u32) {
        let by = self.or(length, Slip::WithdrawByFirst, 1);
        for j in self.counted(self.steps(by, p), Slip::WithdrawDoubledOnce) {
            let now = self.counter(length, j);
            let next = match self.slip {
                Some(Slip::WithdrawZeroesCounters) => 0,
                Some(Slip::WithdrawCountersLeft) => now,
                Some(Slip::WithdrawSticksAt15) if now == 15 => 15,
                Some(Slip::WithdrawStopsAtZero) => now.saturating_sub(1),
                _ => now.wrapping_sub(1),
            };
            self.set_counter(length, j, next);
        }
    }

    /// The steps as they are; with the named slip, each position once.
    fn counted(&self, mut steps: Vec<usize>, once: Slip) -> Vec<usize> {
        if self.is(once) {
            steps.sort();
            steps.dedup();
        }
        steps
    }
}

// ---- Questions ----

impl Table<'_> {
    /// Whether no counter of the prefix is zero.
    fn claimed(&self, length: u32, p: u32) -> bool {
        self.all_count(self.steps(length, p).into_iter().map(|j| self.counter(length, j)))
    }

    /// Whether no counter, of those read at the steps, is zero.
    fn all_count(&self, mut counters: impl Iterator<Item = u64>) -> bool {
        let counts = |counter: u64| match self.slip {
            Some(Slip::VectorAboveOne) => counter > 1,
            Some(Slip::VectorNibble) => counter & 15 != 0,
            _ => counter != 0,
        };
        match self.slip {
            Some(Slip::VectorAnyCounter) => counters.any(counts),
            Some(Slip::VectorFirstCounter) => counters.take(1).all(counts),
            _ => counters.all(counts),
        }
    }

    fn vector(&self, address: u32) -> u64 {
        let lengths = match self.slip {
            Some(Slip::VectorNo32) => 1..=31,
            Some(Slip::VectorNo1) => 2..=32,
            _ => 1..=32,
        };
        let bit = |length: u32| match self.slip {
            Some(Slip::VectorBitL) => two_to(length),
            Some(Slip::VectorTurned) => two_to(32 - length),
            _ => two_to(length - 1),
        };
        if walks(self.slip) {
            let claimed = self.walk(address).into_iter().filter(|stage| self.claimed_at(*stage));
            return claimed.map(|stage| bit(stage.length)).sum();
        }
        lengths.filter(|length| self.claimed(*length, self.cut(*length, address))).map(bit).sum()
    }

    fn lookup(&self, address: u32) -> u64 {
        let (in_bucket, made) = self.probe(address);
        let default = self.default_hop().map(|hop| (hop, 0));
        let route = match self.slip {
            Some(Slip::ShamNone) => None,
            Some(Slip::ShamDefault) => default,
            Some(Slip::DefaultFirst) => default.or(in_bucket),
            Some(Slip::DefaultNever) => in_bucket,
            _ => in_bucket.or(default),
        };
        let probes = match (self.slip, route) {
            (Some(Slip::ShamOneProbe), _) => 1,
            (Some(Slip::Sham32Probes), _) => 32,
            (Some(Slip::ProbesWithoutHit), Some((_, 1..))) => made - 1,
            (Some(Slip::ProbesAll), _) => (0..32).map(|n| self.vector(address) / two_to(n) % 2).sum(),
            (Some(Slip::ProbesDefault), Some((_, 0))) => made + 1,
            (Some(Slip::ProbesZeroForDefault), Some((_, 0))) => 0,
            (Some(Slip::ProbesZeroForNone), None) => 0,
            _ => made,
        };
        match (self.slip, route) {
            (Some(Slip::DefaultUnfound), Some((hop, 0))) => self.packed(0, hop, 0, probes),
            (Some(Slip::LengthOneLess), Some((hop, long @ 1..))) => self.packed(1, hop, long - 1, probes),
            (Some(Slip::NoneWithLength), None) => self.packed(0, 0, 1, probes),
            (_, Some((hop, length))) => self.packed(1, hop, length, probes),
            (_, None) => self.packed(0, 0, 0, probes),
        }
    }

    /// The hop and length that a bucket gives, if one does, and the probes made.
    fn probe(&self, address: u32) -> (Option<(u64, u64)>, u64) {
        let vector = self.vector(address);
        let mut lengths: Vec<u32> = (1..=32).rev().collect();
        if self.is(Slip::LookupUpward) {
            lengths.reverse();
        }
        let mut probes = 0;
        for length in lengths {
            let set = vector / two_to(length - 1) % 2 == 1;
            if !set && self.is(Slip::ProbesUnclaimed) {
                probes += 1;
            }
            if !set && !self.is(Slip::LookupUnfiltered) {
                continue;
            }
            probes += self.or(1, Slip::ProbesSlots, self.t.s as u64);
            let p = self.sought(length, address);
            if self.is(Slip::LookupPassesOdd) && odd(length, p) {
                continue;
            }
            if let Some(n) = self.lowest(self.holding(length, p), Slip::LookupHighest) {
                let hop = self.any_hop(self.mark(n)).unwrap_or(0);
                return (Some((hop, length as u64)), probes);
            }
            if self.is(Slip::LookupStopsAtFirst) {
                break;
            }
        }
        (None, probes)
    }

    /// The prefix that a bucket is searched for.
    fn sought(&self, length: u32, address: u32) -> u32 {
        match self.slip {
            Some(Slip::WalkSearchLast) => self.walk(address)[31].p,
            slip if walks(slip) => self.walk(address)[32 - length as usize].p,
            _ => self.cut(length, address),
        }
    }

    /// Found, hop, length and probes of a lookup as one number.
    fn packed(&self, found: u64, hop: u64, length: u64, probes: u64) -> u64 {
        let at = |right: u32, slip: Slip, wrong: u32| two_to(self.or(right, slip, wrong));
        found * at(40, Slip::FoundAt32, 32)
            + hop * at(16, Slip::HopAt24, 24)
            + length * at(8, Slip::LengthProbesSwapped, 0)
            + probes * at(0, Slip::LengthProbesSwapped, 8)
    }

    /// A refusal as one number, nothing beside it.
    fn refused(&self, refusal: u64, call: Call) -> u64 {
        match self.slip {
            Some(Slip::RefusalAt40) => refusal * two_to(40),
            Some(Slip::DCountGives18) if refusal == 1 && self.count_wrong() => 18 * two_to(48),
            Some(Slip::RefusedWithOne) if call.units() == 4 => refusal * two_to(48) + 1,
            _ => refusal * two_to(48),
        }
    }
}

// ---- The walk ----
//
// A second way to the prefixes, which only the slips named `Walk…` go: the right rule cuts each on its own.

/// Whether the walk without a slip comes, at each length from 32 down to 1, to what a cut there gives.
pub fn walk_agrees(address: u32) -> bool {
    let sizes: Vec<u8> = (1..=32).map(|length| 4 + length * 5 % 8).collect();
    let t = Settings { d: Sizes::of(&sizes), a: 3, b: 5, ..T };
    let table = Table { t, party: 0, either: false, counters: &mut [], slots: &mut [], slip: None };
    let cuts = (1..=32).rev().map(|length| Stage::cut(&t, length, address));
    table.walk(address).into_iter().eq(cuts)
}

/// One length of the walk, with all that is carried down.
#[derive(Clone, Copy, PartialEq, Eq)]
struct Stage {
    length: u32,
    p: u32,
    /// Where g starts.
    start: u64,
    /// What g grows by.
    stride: u64,
    /// The length whose filter is asked.
    filter: u32,
    /// The byte at which that filter begins.
    base: u64,
}

impl Stage {
    fn cut(t: &Settings, length: u32, address: u32) -> Stage {
        let p = prefix(length, address);
        let (start, stride, base) = (product(t.a, p), product(t.b, p), filter_start(t, length, None));
        Stage { length, p, start, stride, filter: length, base }
    }
}

/// x less y, modulo 2^32.
fn less(x: u64, y: u64) -> u64 {
    (x + two_to(32) - y) % two_to(32)
}

impl Table<'_> {
    /// The stages from length 32 down to 1.
    fn walk(&self, address: u32) -> Vec<Stage> {
        let address = self.or(address, Slip::WalkFrom31, prefix(31, address));
        let filter = self.or(32, Slip::WalkFilterBelow, 31);
        let base = filter_start(&self.t, filter, None);
        let mut stages = vec![Stage { filter, base, ..Stage::cut(&self.t, 32, address) }];
        for at in 0..31 {
            stages.push(self.next(stages[at]));
        }
        stages
    }

    /// One length down the prefix loses one bit, and its products lose what that bit made; the filter begins
    /// earlier by its own size.
    fn next(&self, last: Stage) -> Stage {
        let Settings { a, b, .. } = self.t;
        let (length, bit) = (last.length - 1, two_to(32 - last.length));
        let lost = self.lost(last, bit);
        let start = match self.slip {
            Some(Slip::WalkProductsLate) => product(a, last.p),
            Some(Slip::WalkStartLosesA) if lost != 0 => less(last.start, a as u64),
            Some(Slip::WalkStartLosesAlways) => less(last.start, product(a, bit as u32)),
            _ => less(last.start, product(a, lost)),
        };
        let stride = match self.slip {
            Some(Slip::WalkProductsLate) => product(b, last.p),
            Some(Slip::WalkStrideStays) => last.stride,
            _ => less(last.stride, product(b, lost)),
        };
        let filter = match self.slip {
            Some(Slip::WalkFilterBelow) if last.filter == 1 => 1,
            Some(Slip::WalkFilterIfSet) if lost == 0 => last.filter,
            _ => last.filter - 1,
        };
        let size = match self.slip {
            _ if filter == last.filter => 0,
            Some(Slip::WalkBaseByAbove) => two_to(d_of(&self.t, last.filter)),
            Some(Slip::WalkBaseByLast) => two_to(d_of(&self.t, 32)),
            _ => two_to(d_of(&self.t, filter)),
        };
        // Only a slip takes more than lies before.
        let base = last.base.saturating_sub(size);
        Stage { length, p: less(last.p as u64, lost as u64) as u32, start, stride, filter, base }
    }

    /// What the last prefix loses with one bit: the bit, if it was set.
    fn lost(&self, last: Stage, bit: u64) -> u32 {
        let held = |bit: u64| last.p as u64 / bit % 2 * bit;
        let lost = match self.slip {
            Some(Slip::WalkShortOf1) if last.length == 2 => 0,
            Some(Slip::WalkBitHigher) => held(2 * bit),
            Some(Slip::WalkOtherEnd) => held(two_to(31) / bit),
            Some(Slip::WalkTwoBits) => held(bit) + held(2 * bit),
            Some(Slip::WalkLowestOne) => held(two_to(last.p.trailing_zeros())),
            Some(Slip::WalkFlips) if held(bit) == 0 => less(0, bit),
            Some(Slip::WalkClearsClaimed) if !self.claimed_at(last) => 0,
            Some(Slip::WalkClearsDenied) if self.claimed_at(last) => 0,
            _ => held(bit),
        };
        lost as u32
    }

    /// Whether no counter of a stage is zero.
    fn claimed_at(&self, stage: Stage) -> bool {
        let by = match self.slip {
            Some(Slip::WalkSizeStays) => 32,
            Some(Slip::WalkSizeLate) => (stage.filter + 1).min(32),
            _ => stage.filter,
        };
        let steps = grown(&self.t, by, stage.start, stage.stride, self.slip);
        self.all_count(steps.into_iter().map(|j| self.byte(stage.base.saturating_add(j as u64))))
    }
}
