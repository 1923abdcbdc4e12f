//! Calls and their answers in words.

use crate::calls::{
    AnyCall, Call, Chunk, Comparison, End, Lending, Lent, List, Message, Of, Settings, Sizes, Writing,
};
use std::fmt;

/// A call in words.
pub fn told<'a>(t: &Settings, lent: Lent, call: impl Into<AnyCall<'a>>) -> String {
    let call = call.into();
    let asked = match call {
        AnyCall::One(call) => told_call(call),
        AnyCall::List(list) => told_list(list),
        AnyCall::Comparison(comparison) => return told_comparison(comparison),
        AnyCall::Message(message) => told_message(message),
        AnyCall::Writing(writing) => return told_writing(writing),
        AnyCall::Chunk(chunk) => told_chunk(chunk),
        AnyCall::End(End { words, .. }) => return format!("end of a stream with the words {words:?}"),
    };
    let unit = if call.units() == 4 { "bytes" } else { "words" };
    let asked = match call.party() {
        Some(party) => format!("party {party}: {asked}"),
        None => asked,
    };
    format!("{asked}; {}", told_table(t, lent, unit))
}

/// A table's settings, and how much of its memory is lent.
fn told_table(t: &Settings, lent: Lent, unit: &str) -> String {
    let Settings { k, e, s, a, b, c, .. } = t;
    format!(
        "K {k}, {}, E {e}, S {s}, A {a}, B {b}, C {c}; lent {} counters, {} {unit} of slots",
        told_sizes(&t.d),
        lent.counters,
        lent.slots
    )
}

/// The list of the filters' sizes: a single D if all 32 are the same.
fn told_sizes(sizes: &Sizes) -> String {
    match sizes.values() {
        [] => "no D".to_string(),
        [d, ..] if *sizes == Sizes::equal(*d) => format!("D {d}"),
        values => {
            let each: Vec<String> = values.iter().map(u8::to_string).collect();
            let count = match values.len() {
                32 => "D".to_string(),
                count => counted(count, "value of D", "values of D"),
            };
            format!("{count} ({})", each.join(" "))
        }
    }
}

fn told_call(call: Call) -> String {
    match call {
        Call::Clear => "clear".to_string(),
        Call::Add { prefix, length, hop, .. } => format!("add {}/{length} hop {hop}", dotted(prefix)),
        Call::Withdraw { prefix, length, .. } => format!("withdraw {}/{length}", dotted(prefix)),
        Call::Change { prefix, length, hop, .. } => format!("change {}/{length} hop {hop}", dotted(prefix)),
        Call::Vector { address } => format!("match vector of {}", dotted(address)),
        Call::Lookup { address, .. } => format!("lookup of {}", dotted(address)),
    }
}

fn counted(count: usize, one: &str, more: &str) -> String {
    format!("{count} {}", if count == 1 { one } else { more })
}

fn told_list(list: &List) -> String {
    let addresses = counted(list.addresses.len() / 4, "address", "addresses");
    let stray = match list.addresses.len() % 4 {
        0 => String::new(),
        stray => format!(" and {}", counted(stray, "stray byte", "stray bytes")),
    };
    let results = counted(list.results.len(), "byte", "bytes");
    let List { addresses_offset, results_offset, .. } = list;
    format!(
        "lookup of a list of {addresses}{stray}, {results} of results \
         ({addresses_offset} and {results_offset} past a word's address)"
    )
}

fn told_comparison(comparison: &Comparison) -> String {
    let Comparison { party, first, second, list, offset } = comparison;
    let table = |table: &Lending| {
        let Lending { t, area, offsets, lent } = table;
        let places = format!("{} and {} past their places", offsets.slots, offsets.sizes);
        format!("{area:?}, slots and D {places}: {}", told_table(t, *lent, "bytes"))
    };
    format!(
        "party {party}: comparison with a list of {} ({offset} past a word's address); the first table {}; the second \
         {}",
        counted(list.len(), "byte", "bytes"),
        table(first),
        table(second)
    )
}

fn told_message(message: &Message) -> String {
    let Message { bytes, offset, hops, hops_offset, .. } = message;
    format!("message of {}, {}", told_bytes(bytes, *offset), told_hops(hops, *hops_offset))
}

fn told_chunk(chunk: &Chunk) -> String {
    let Chunk { of, bytes, offset, hops, hops_offset, counts, tally, words, header, offsets, .. } = chunk;
    let (call, counted, counted_at) = match of {
        Of::Dump => ("import", format!("counts {counts:?}"), offsets.counts),
        Of::Day => ("replay", format!("tally {tally:?}"), offsets.tally),
    };
    let header: String = header.iter().map(|byte| format!("{byte:02x}")).collect();
    format!(
        "{call} of a chunk of {}, {}; {counted}, words {words:?}, room that begins with {header}, these \
         {counted_at}, {} and {} past their places",
        told_bytes(bytes, *offset),
        told_hops(hops, *hops_offset),
        offsets.words,
        offsets.room
    )
}

/// Bytes, without those beyond many.
fn told_bytes(bytes: &[u8], offset: usize) -> String {
    const MANY: usize = 4097;
    let mut told: String = bytes.iter().take(MANY).map(|byte| format!("{byte:02x}")).collect();
    if bytes.len() > MANY {
        told += "..";
    }
    format!("{}: {told} ({offset} past a word's address)", counted(bytes.len(), "byte", "bytes"))
}

/// Next hops, without those beyond many.
fn told_hops(hops: &[u32], offset: usize) -> String {
    const MANY: usize = 40;
    let mut told: Vec<String> = hops.iter().take(MANY).map(|hop| dotted(*hop)).collect();
    if hops.len() > MANY {
        told.push("..".to_string());
    }
    let count = counted(hops.len(), "next hop", "next hops");
    format!("{count} ({offset} words past their place): {}", told.join(" "))
}

fn told_writing(writing: &Writing) -> String {
    let Writing { prefix, length, room, offset } = writing;
    let room = counted(room.len(), "byte", "bytes");
    format!(
        "withdrawal of {}/{length} written into {room} of room ({offset} past a word's address)",
        dotted(*prefix)
    )
}

pub fn dotted(address: u32) -> String {
    let [a, b, c, d] = address.to_be_bytes();
    format!("{a}.{b}.{c}.{d}")
}

/// A call's answer, to be shown taken apart.
pub struct Answer<'a>(AnyCall<'a>, u64);

impl<'a> Answer<'a> {
    pub fn to(call: impl Into<AnyCall<'a>>, number: u64) -> Answer<'a> {
        Answer(call.into(), number)
    }
}

impl PartialEq for Answer<'_> {
    fn eq(&self, other: &Answer) -> bool {
        self.1 == other.1
    }
}

impl fmt::Display for Answer<'_> {
    fn fmt(&self, f: &mut fmt::Formatter) -> fmt::Result {
        let Answer(call, n) = self;
        write!(f, "{n:#x} (refusal {}", n >> 48)?;
        match call {
            AnyCall::One(Call::Lookup { .. }) => write!(f, ", {})", Parts::of_number(*n)),
            AnyCall::One(Call::Vector { .. }) => write!(f, ", vector {})", n & 0xffff_ffff_ffff),
            AnyCall::Comparison(_) => write!(f, ", differences {})", n & 0xffff_ffff_ffff),
            AnyCall::Message(_) => {
                write!(f, ", routes refused {}, accepted {})", (n & 0xffff_ffff_ffff) >> 12, n & 0xfff)
            }
            _ => write!(f, ")"),
        }
    }
}

/// Found, hop, length and probes of an address.
#[derive(Clone, Copy, PartialEq)]
pub struct Parts(pub [u32; 4]);

impl Parts {
    /// Of a lookup's number.
    pub fn of_number(n: u64) -> Parts {
        Parts([n >> 40 & 0xff, n >> 16 & 0xff_ffff, n >> 8 & 0xff, n & 0xff].map(|part| part as u32))
    }
}

impl fmt::Display for Parts {
    fn fmt(&self, f: &mut fmt::Formatter) -> fmt::Result {
        let Parts([found, hop, length, probes]) = self;
        write!(f, "found {found}, hop {hop}, length {length}, probes {probes}")
    }
}
