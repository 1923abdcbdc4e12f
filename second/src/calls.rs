//! The calls as a driver makes them: which numbers and lists go in. No rule stands here.

use crate::library::{Area, Offsets};
use std::rc::Rc;

/// The list of filter sizes that a caller lends: any bytes, at most 40 of them here.
#[derive(Clone, Copy, Debug, PartialEq, Eq)]
pub struct Sizes {
    count: usize,
    values: [u8; 40],
}

impl Sizes {
    /// One value at each of the 32 lengths.
    pub const fn equal(d: u8) -> Sizes {
        let (mut values, mut at) = ([0; 40], 0);
        while at < 32 {
            values[at] = d;
            at += 1;
        }
        Sizes { count: 32, values }
    }

    /// Any list of at most 40 values.
    pub fn of(values: &[u8]) -> Sizes {
        let mut filled = [0; 40];
        filled[..values.len()].copy_from_slice(values);
        Sizes { count: values.len(), values: filled }
    }

    /// The values lent, length 1 first.
    pub fn values(&self) -> &[u8] {
        &self.values[..self.count]
    }
}

/// The settings of a table, as any caller may give them, good or bad.
#[derive(Clone, Copy, Debug, PartialEq, Eq)]
pub struct Settings {
    pub k: u32,
    pub d: Sizes,
    pub e: u32,
    pub s: u32,
    pub a: u32,
    pub b: u32,
    pub c: u32,
}

/// One call, with what it is asked beside settings and memory.
#[derive(Clone, Copy, Debug)]
pub enum Call {
    Clear,
    Add { party: u32, prefix: u32, length: u32, hop: u32 },
    Withdraw { party: u32, prefix: u32, length: u32 },
    Change { party: u32, prefix: u32, length: u32, hop: u32 },
    Vector { address: u32 },
    Lookup { party: u32, address: u32 },
}

impl Call {
    /// How many units of slot memory a word is to this call: an update is lent words, a question (as it
    /// crosses from C) bytes.
    pub fn units(&self) -> usize {
        match self {
            Call::Vector { .. } | Call::Lookup { .. } => 4,
            _ => 1,
        }
    }
}

/// A list of addresses and its results, as they cross from C: any bytes, which begin so many bytes after a
/// word's address.
#[derive(Clone, Debug)]
pub struct List {
    pub party: u32,
    pub addresses: Vec<u8>,
    pub addresses_offset: usize,
    /// What the results hold before the call.
    pub results: Vec<u8>,
    pub results_offset: usize,
}

/// A message of a neighbour, which begins so many bytes after a word's address, and the list of next hops,
/// which begins so many words after its place.
#[derive(Clone, Debug)]
pub struct Message {
    pub party: u32,
    pub bytes: Vec<u8>,
    pub offset: usize,
    pub hops: Vec<u32>,
    pub hops_offset: usize,
}

/// The message that withdraws a route, to be written into room that begins so many bytes after a word's
/// address. No table is lent.
#[derive(Clone, Debug)]
pub struct Writing {
    pub prefix: u32,
    pub length: u32,
    /// What the room holds before the call.
    pub room: Vec<u8>,
    pub offset: usize,
}

/// What the bytes of a stream are taken for, and so by which call: by an import or by a replay.
#[derive(Clone, Copy, Debug, PartialEq, Eq)]
pub enum Of {
    Dump,
    Day,
}

/// How many figures the tally of a replay has.
pub const FIGURES: usize = 23;

/// Where the counts, the tally, the words and the room of a stream begin, in bytes after their places.
#[derive(Clone, Copy, Debug)]
pub struct StreamOffsets {
    pub counts: usize,
    pub tally: usize,
    pub words: usize,
    pub room: usize,
}

/// A chunk of a stream, which begins so many bytes after a word's address, and the list of next hops, which begins
/// so many words after its place.
#[derive(Clone, Debug)]
pub struct Chunk {
    pub party: u32,
    pub of: Of,
    pub bytes: Vec<u8>,
    pub offset: usize,
    pub hops: Rc<[u32]>,
    pub hops_offset: usize,
    /// What the stream holds before the call, but of its room the header alone, and where it lies.
    pub counts: [u32; 3],
    pub tally: [u32; FIGURES],
    pub words: [u32; 3],
    pub header: [u8; 12],
    pub offsets: StreamOffsets,
}

/// The end of a stream whose words are these before the call. No table is lent.
#[derive(Clone, Debug)]
pub struct End {
    pub words: [u32; 3],
    pub offsets: StreamOffsets,
}

/// One of the two tables of a comparison: its settings, where it lies, and how much of it is lent.
#[derive(Clone, Copy, Debug)]
pub struct Lending {
    pub t: Settings,
    pub area: Area,
    pub offsets: Offsets,
    pub lent: Lent,
}

/// A comparison of two tables for a party, with the list of their differences, which begins so many bytes after a
/// word's address. Both tables may be the same memory.
#[derive(Clone, Debug)]
pub struct Comparison {
    pub party: u32,
    pub first: Lending,
    pub second: Lending,
    /// What the list holds before the call.
    pub list: Vec<u8>,
    pub offset: usize,
}

impl Comparison {
    /// The two tables, the first one first.
    pub fn tables(&self) -> [&Lending; 2] {
        [&self.first, &self.second]
    }
}

/// A call of any kind.
#[derive(Clone, Copy)]
pub enum AnyCall<'a> {
    One(Call),
    List(&'a List),
    Comparison(&'a Comparison),
    Message(&'a Message),
    Writing(&'a Writing),
    Chunk(&'a Chunk),
    End(&'a End),
}

impl AnyCall<'_> {
    /// As above; a list and a comparison are questions too, a message and a chunk are updates.
    pub fn units(&self) -> usize {
        match self {
            AnyCall::One(call) => call.units(),
            AnyCall::List(_) | AnyCall::Comparison(_) => 4,
            AnyCall::Message(_) | AnyCall::Writing(_) | AnyCall::Chunk(_) | AnyCall::End(_) => 1,
        }
    }
}

impl From<Call> for AnyCall<'_> {
    fn from(call: Call) -> Self {
        AnyCall::One(call)
    }
}

impl<'a> From<&'a List> for AnyCall<'a> {
    fn from(list: &'a List) -> Self {
        AnyCall::List(list)
    }
}

impl<'a> From<&'a Comparison> for AnyCall<'a> {
    fn from(comparison: &'a Comparison) -> Self {
        AnyCall::Comparison(comparison)
    }
}

impl<'a> From<&'a Message> for AnyCall<'a> {
    fn from(message: &'a Message) -> Self {
        AnyCall::Message(message)
    }
}

impl<'a> From<&'a Writing> for AnyCall<'a> {
    fn from(writing: &'a Writing) -> Self {
        AnyCall::Writing(writing)
    }
}

impl<'a> From<&'a Chunk> for AnyCall<'a> {
    fn from(chunk: &'a Chunk) -> Self {
        AnyCall::Chunk(chunk)
    }
}

impl<'a> From<&'a End> for AnyCall<'a> {
    fn from(end: &'a End) -> Self {
        AnyCall::End(end)
    }
}

/// How much memory a call says that it lends: counters in bytes; slots in the call's units.
#[derive(Clone, Copy, Debug)]
pub struct Lent {
    pub counters: usize,
    pub slots: usize,
}

/// What an import or a replay is lent beside its table and its chunk.
#[derive(Clone, Debug, PartialEq, Eq)]
pub struct Stream {
    /// Of an import: routes accepted, routes refused, records with none.
    pub counts: [u32; 3],
    /// Of a replay: how many records it saw, how many UPDATEs it applied, how many of their routes were accepted,
    /// and how many were refused, from number 0 to number 19.
    pub tally: [u32; FIGURES],
    pub words: [u32; 3],
    /// Always 65,548 bytes.
    pub room: Vec<u8>,
}
