//! What can be wrong about a record of a dump that is read.

use crate::draft::{next_hop, EXTENDED};
use crate::random::Random;
use crate::record_draft::{header, record, Body, Entry, MOST_BODY, PREFIX_AT, READ};

/// Writes the enum and its list from one table of names and texts.
macro_rules! spoils {
    ($($name:ident: $text:literal,)*) => {
        /// One thing that is made wrong.
        #[derive(Clone, Copy, Debug, PartialEq, Eq)]
        pub enum Spoil {
            $($name,)*
        }
        /// All of them, in words.
        pub const SPOILS: [(Spoil, &str); [$($text),*].len()] = [$((Spoil::$name, $text)),*];
    };
}
pub(crate) use spoils;

spoils! {
    NoBytes: "the body has no bytes",
    StartCut: "the body ends before its entries",
    PrefixLength: "the prefix has a length above 32",
    EntryMissing: "an entry is missing",
    EntryCut: "an entry ends before its attributes",
    AttributesCut: "the last entry's attributes go past the body's end",
    BytesAfter: "bytes follow the last entry",
    AttributeHeader: "an attribute's header goes past the end of its entry",
    AttributeValue: "an attribute's value goes past the end of its entry",
    NextHopSize: "a NEXT_HOP has not four bytes",
    NextHopTwice: "an entry has a second NEXT_HOP",
    AnyByte: "one byte is another",
    ByteTooLong: "the body has 65,537 bytes",
    TooLong: "the body has more bytes than that",
    Longest: "the body has 2^32 - 1 bytes",
}

/// A record with something wrong about it. Now and then it comes out right, if one byte is another.
pub fn spoilt_record(random: &mut Random, mut body: Body, hop: u32) -> (Vec<u8>, Spoil) {
    let (spoil, _) = random.pick(&SPOILS);
    if body.entries.is_empty() {
        body.entries.push(Entry::new(random, Vec::new()));
    }
    spoil_draft(random, spoil, &mut body, hop);
    let mut bytes = body.bytes();
    let too_long = match spoil {
        Spoil::ByteTooLong => MOST_BODY as u32 + 1,
        Spoil::TooLong => random.pick(&[65_538, 65_548, 65_549, 65_792, 1 << 17, 1 << 24, 1 << 31]),
        Spoil::Longest => u32::MAX,
        _ => {
            spoil_bytes(random, spoil, &body, &mut bytes);
            // What makes a body longer may make it too long.
            bytes.truncate(MOST_BODY);
            return (record(random, READ, &bytes), spoil);
        }
    };
    if random.percent(20) {
        bytes = random.bytes(MOST_BODY + 1);
    }
    ([header(random, READ, too_long), bytes].concat(), spoil)
}

/// The first entry, the last one or any.
fn some_entry<'a>(random: &mut Random, body: &'a mut Body) -> &'a mut Entry {
    let any = random.below(body.entries.len());
    let last = body.entries.len() - 1;
    &mut body.entries[random.pick(&[0, last, last, any])]
}

/// Spoils the prefix or the attributes.
fn spoil_draft(random: &mut Random, spoil: Spoil, body: &mut Body, hop: u32) {
    match spoil {
        Spoil::PrefixLength => {
            let length: u8 = random.pick(&[33, 33, 33, 34, 40, 41, 64, 255]);
            let bytes = random.pick(&[4, usize::from(length).div_ceil(8)]);
            body.prefix = [vec![length], random.bytes(bytes)].concat();
        }
        Spoil::AttributeHeader => {
            let flags = random.word() as u8;
            let most = if flags & EXTENDED == 0 { 2 } else { 3 };
            let size = random.within(1, most) as usize;
            let cut = [flags, random.pick(&[1, 3, 8]), 0][..size].to_vec();
            some_entry(random, body).attributes.push(cut);
        }
        Spoil::AttributeValue => {
            let value = random.below(6);
            let said = (value as u8).saturating_add(random.pick(&[1, 1, 1, 2, 8, 9, 250]));
            let header = [random.word() as u8 & !EXTENDED, random.pick(&[1, 3, 8]), said];
            let cut = [&header[..], &random.bytes(value)].concat();
            some_entry(random, body).attributes.push(cut);
        }
        Spoil::NextHopSize => {
            let mut value = hop.to_be_bytes().to_vec();
            value.resize(random.pick(&[0, 1, 3, 3, 5, 5, 8, 16, 260]), 0);
            let only = next_hop(random, &value);
            let entry = some_entry(random, body);
            entry.attributes.retain(|attribute| attribute[1] != only[1]);
            entry.attributes.insert(random.below(entry.attributes.len() + 1), only);
        }
        Spoil::NextHopTwice => {
            let second = if random.percent(50) { hop } else { random.word() };
            let two = [hop, second].map(|hop| next_hop(random, &hop.to_be_bytes()));
            let entry = some_entry(random, body);
            for hop in two {
                entry.attributes.insert(random.below(entry.attributes.len() + 1), hop);
            }
        }
        _ => {}
    }
}

/// Spoils the bytes of a body.
fn spoil_bytes(random: &mut Random, spoil: Spoil, body: &Body, bytes: &mut Vec<u8>) {
    let (count_at, entries) = (body.count_at(), body.entries.len());
    let places = body.entries_at();
    let last = places[entries - 1];
    match spoil {
        Spoil::NoBytes => bytes.clear(),
        Spoil::StartCut => bytes.truncate(random.within(1, count_at as u32 + 1) as usize),
        Spoil::EntryMissing => {
            let more = random.pick(&[1, 1, 1, 2, 255, 256, 65_535 - entries]);
            put_number(bytes, count_at, entries + more);
        }
        Spoil::EntryCut => bytes.truncate(last + random.within(1, 7) as usize),
        Spoil::AttributesCut => {
            let size = bytes.len() - last - 8;
            if size > 0 && random.percent(50) {
                let any = random.below(size);
                bytes.truncate(last + 8 + random.pick(&[0, size - 1, any]));
            } else {
                put_number(bytes, last + 6, random.pick(&[size + 1, size + 1, size + 2, size + 256, 65_535]));
            }
        }
        Spoil::BytesAfter => match random.below(3) {
            0 => put_number(bytes, count_at, entries - 1),
            1 => bytes.extend(random.pick(&[&[0][..], &[0; 8], &[64, 3, 4]])),
            _ => {
                let more = random.within(1, 12) as usize;
                bytes.extend(random.bytes(more));
            }
        },
        Spoil::AnyByte => {
            let any = random.below(bytes.len());
            let at = random.pick(&[PREFIX_AT, count_at, count_at + 1, last + 6, last + 7, any]);
            bytes[at] = match random.below(4) {
                0 => bytes[at].wrapping_add(1),
                1 => bytes[at].wrapping_sub(1),
                2 => bytes[at] ^ 1 << random.within(0, 7),
                _ => random.word() as u8,
            };
        }
        _ => {}
    }
}

/// Puts a number of two bytes.
pub fn put_number(bytes: &mut [u8], at: usize, number: usize) {
    bytes[at..at + 2].copy_from_slice(&(number as u16).to_be_bytes());
}
