//! What can be wrong about a message.

use crate::draft::{next_hop, Draft, Layout, EXTENDED, LENGTH_AT, TYPE_AT, WITHDRAWN_AT};
use crate::library::MOST_MESSAGE;
use crate::random::Random;

/// Spoils the attributes of a message or one of its prefixes, or leaves them.
pub fn spoil_draft(random: &mut Random, draft: &mut Draft, hop: u32) {
    match random.below(16) {
        0 | 1 => {
            for _ in 0..random.within(1, 2) {
                let value = if random.percent(50) { hop } else { random.word() };
                insert(random, draft, &value.to_be_bytes());
            }
        }
        2 | 3 => {
            let size = random.pick(&[0, 1, 3, 3, 3, 5, 5, 5, 8, 16, 260]);
            let mut value = hop.to_be_bytes().to_vec();
            value.resize(size, 0);
            insert(random, draft, &value);
        }
        4 => {
            let header = [random.word() as u8 | EXTENDED, random.pick(&[1, 3, 8]), 0];
            let size = random.within(1, 3) as usize;
            draft.attributes.push(header[..size].to_vec());
        }
        5 => {
            let header = [random.word() as u8 & !EXTENDED, random.pick(&[1, 3, 8])];
            let size = random.within(1, 2) as usize;
            draft.attributes.push(header[..size].to_vec());
        }
        6 | 7 => {
            let length = random.pick(&[33, 33, 33, 34, 40, 41, 64, 255]);
            let mut prefix = vec![length];
            prefix.extend(random.bytes(usize::from(length).div_ceil(8)));
            let part = if random.percent(50) { &mut draft.withdrawn } else { &mut draft.announced };
            let at = random.below(part.len() + 1);
            part.insert(at, prefix);
        }
        _ => {}
    }
}

/// Puts one more NEXT_HOP among the attributes, or this one in place of any other.
fn insert(random: &mut Random, draft: &mut Draft, value: &[u8]) {
    let hop = next_hop(random, value);
    if random.percent(40) {
        draft.attributes.retain(|attribute| attribute[1] != hop[1]);
    }
    let at = random.below(draft.attributes.len() + 1);
    draft.attributes.insert(at, hop);
}

/// Spoils the bytes of a message, once or twice or not at all. Now and then they come out right.
pub fn spoil_bytes(random: &mut Random, layout: &Layout, bytes: &mut Vec<u8>) {
    for _ in 0..random.pick(&[0, 1, 1, 1, 1, 1, 2]) {
        match random.below(40) {
            0..=2 => spoil_marker(random, bytes),
            3 | 4 => spoil_length(random, bytes),
            5..=9 => spoil_withdrawn(random, bytes),
            10..=13 => spoil_attributes(random, layout, bytes),
            14..=17 => spoil_attribute(random, layout, bytes),
            18..=22 => spoil_prefix(random, layout, bytes),
            23..=26 => cut(random, bytes),
            27..=30 => grow(random, bytes),
            31..=35 => spoil_byte(random, bytes),
            36..=38 => random_bytes(random, bytes),
            _ => *bytes = wrapping(random),
        }
    }
}

fn put(bytes: &mut [u8], at: usize, byte: u8) {
    if let Some(place) = bytes.get_mut(at) {
        *place = byte;
    }
}

/// Puts a number of two bytes.
fn put_number(bytes: &mut [u8], at: usize, number: usize) {
    let [high, low] = (number as u16).to_be_bytes();
    put(bytes, at, high);
    put(bytes, at + 1, low);
}

fn number(bytes: &[u8], at: usize) -> usize {
    match bytes.get(at..at + 2) {
        Some(two) => usize::from(two[0]) << 8 | usize::from(two[1]),
        None => 0,
    }
}

fn put_length(bytes: &mut [u8]) {
    put_number(bytes, LENGTH_AT, bytes.len());
}

/// The marker, or the type.
fn spoil_marker(random: &mut Random, bytes: &mut [u8]) {
    if random.percent(50) {
        let at = if random.percent(50) { random.pick(&[0, 15]) } else { random.below(16) };
        put(bytes, at, random.pick(&[0, 127, 254, 254]));
    } else {
        put(bytes, TYPE_AT, random.pick(&[0, 1, 3, 4, 5, 130, 255]));
    }
}

/// The length of the whole message.
fn spoil_length(random: &mut Random, bytes: &mut [u8]) {
    let right = bytes.len();
    let length = match random.below(8) {
        0 | 1 => right + 1,
        2 | 3 => right.wrapping_sub(1),
        4 => right.wrapping_sub(random.pick(&[2, 16, 19, 23, 256])),
        5 => right + random.pick(&[2, 16, 19, 256, 4096]),
        6 => right << 8 | right >> 8,
        _ => random.pick(&[0, 19, 22, 23, 4096, 4097, 65_535]),
    };
    put_number(bytes, LENGTH_AT, length);
}

/// A length that is off by a little, or ends its part, of which so many bytes are left, near that end.
fn off(random: &mut Random, right: usize, left: usize) -> usize {
    match random.below(10) {
        0 | 1 => right + 1,
        2 | 3 => right.wrapping_sub(1),
        4 => left,
        5 => left + 1,
        6 => left.wrapping_sub(1),
        7 => left.wrapping_sub(random.pick(&[2, 2, 3, 4])),
        8 => right << 8 | right >> 8,
        _ => random.pick(&[0, left + 2, 255, 256, 4096, 65_535]),
    }
}

/// The length of the withdrawn routes.
fn spoil_withdrawn(random: &mut Random, bytes: &mut [u8]) {
    let length = off(random, number(bytes, WITHDRAWN_AT), bytes.len().saturating_sub(WITHDRAWN_AT + 2));
    put_number(bytes, WITHDRAWN_AT, length);
}

/// The length of the attributes.
fn spoil_attributes(random: &mut Random, layout: &Layout, bytes: &mut [u8]) {
    let at = layout.attributes;
    let length = off(random, number(bytes, at), bytes.len().saturating_sub(at + 2));
    put_number(bytes, at, length);
}

/// The length of one attribute, or its flags.
fn spoil_attribute(random: &mut Random, layout: &Layout, bytes: &mut [u8]) {
    if layout.every_attribute.is_empty() {
        return;
    }
    let at = random.pick(&layout.every_attribute);
    let Some(flags) = bytes.get(at).copied() else {
        return;
    };
    if random.percent(20) {
        return put(bytes, at, flags ^ EXTENDED);
    }
    if flags & EXTENDED != 0 {
        let length = off(random, number(bytes, at + 2), layout.announced.saturating_sub(at + 4));
        put_number(bytes, at + 2, length);
    } else {
        let right = bytes.get(at + 2).map_or(0, |length| usize::from(*length));
        put(bytes, at + 2, off(random, right, layout.announced.saturating_sub(at + 3)) as u8);
    }
}

/// The length of one prefix, often of the last one of its part.
fn spoil_prefix(random: &mut Random, layout: &Layout, bytes: &mut [u8]) {
    let before = |end: usize| layout.every_prefix.iter().rev().find(|at| **at < end).copied();
    let at = match random.below(3) {
        0 => before(layout.attributes),
        1 => before(bytes.len()),
        _ if layout.every_prefix.is_empty() => None,
        _ => Some(random.pick(&layout.every_prefix)),
    };
    let Some(at) = at.filter(|at| *at < bytes.len()) else {
        return;
    };
    let right = bytes[at];
    let length = match random.below(6) {
        0 => random.pick(&[33, 33, 33, 34, 39, 40]),
        1 => random.pick(&[41, 64, 128, 255]),
        2 => right.wrapping_add(8),
        3 => right.wrapping_sub(8),
        4 => random.within(0, 32) as u8,
        _ => random.word() as u8,
    };
    put(bytes, at, length);
}

/// Takes bytes from the end; the message's length is put right, or not.
fn cut(random: &mut Random, bytes: &mut Vec<u8>) {
    let size = match random.below(8) {
        0..=3 => bytes.len().saturating_sub(1),
        4 => bytes.len().saturating_sub(random.within(2, 6) as usize),
        5 => random.pick(&[0, 1, 16, 18, 19, 20, 21, 22, 22, 23]),
        _ => random.below(bytes.len() + 1),
    };
    bytes.truncate(size);
    if random.percent(80) {
        put_length(bytes);
    }
}

/// Puts bytes at the end; the message's length is put right, or not.
fn grow(random: &mut Random, bytes: &mut Vec<u8>) {
    let more = match random.below(20) {
        0..=10 => 1,
        11..=15 => random.within(2, 6) as usize,
        16 => 4096usize.saturating_sub(bytes.len()),
        17 => 4097usize.saturating_sub(bytes.len()),
        // The length of such a message, in two bytes, is the one that it had.
        _ => 65_536,
    };
    let more = more.min(MOST_MESSAGE - bytes.len());
    match random.below(3) {
        0 => bytes.extend(random.bytes(more)),
        1 => bytes.extend(vec![0; more]),
        _ => bytes.extend([32, 33, 1, 8, 9].iter().cycle().take(more)),
    }
    if random.percent(80) {
        put_length(bytes);
    }
}

/// Any one byte, the header's seldom.
fn spoil_byte(random: &mut Random, bytes: &mut [u8]) {
    if bytes.is_empty() {
        return;
    }
    let from = if random.percent(90) { TYPE_AT.min(bytes.len() - 1) } else { 0 };
    let at = from + random.below(bytes.len() - from);
    let was = bytes[at];
    bytes[at] = match random.below(4) {
        0 => was.wrapping_add(1),
        1 => was.wrapping_sub(1),
        2 => was ^ 1 << random.within(0, 7),
        _ => random.word() as u8,
    };
}

/// Random bytes from the start, from after the marker, from after the header or from later on.
fn random_bytes(random: &mut Random, bytes: &mut Vec<u8>) {
    let size = if random.percent(30) { random.below(120) } else { bytes.len() };
    let any = random.below(size + 1);
    let kept = random.pick(&[0, 16, 18, 19, 19, 21, 23, any]).min(size);
    bytes.truncate(kept);
    let low = random.percent(50);
    let more = random.bytes(size - bytes.len());
    bytes.extend(more.into_iter().map(|byte| if low { byte & 31 } else { byte }));
    if kept >= TYPE_AT && random.percent(90) {
        put_length(bytes);
    }
}

/// A message with a part whose end, kept in 16 bits, would lie before its start, at a place where the
/// message could go on: in the header, where type 2 and the first byte after it make a length of attributes,
/// of which there is then one; or at the last withdrawn byte, where a prefix could begin.
fn wrapping(random: &mut Random) -> Vec<u8> {
    let mut bytes = vec![255; TYPE_AT];
    bytes.push(2);
    if random.percent(50) {
        let size = 2 * 256 + 255 - 4;
        bytes.extend([0xff, 0xfd, 8]);
        bytes.extend((size as u16).to_be_bytes());
        bytes.extend(random.bytes(size));
    } else {
        bytes.extend([0, 4, 24, 10, 0, 32, 0xff, 0xfd]);
        bytes.extend(random.bytes(2));
    }
    put_length(&mut bytes);
    bytes
}
