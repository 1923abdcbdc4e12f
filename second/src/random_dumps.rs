//! Random dumps.

use crate::calls::Of;
use crate::draft::long_attribute;
use crate::random::Random;
use crate::random_messages::{attributes, Source};
use crate::record_draft::{header, record, Body, Entry, MOST_BODY, READ};
use crate::recordings::{hops_of, recording, Recording, Spoilt};
use crate::spoilt_records::spoilt_record;

/// So many records of a thousand have a body of up to 65,536 bytes, or of another kind a few more.
const LARGE: usize = 6;

/// Kinds that are stepped over, most of them like the one that is read.
const OTHER_KINDS: [(u16, u16); 18] = [
    (13, 1),
    (13, 3),
    (13, 4),
    (13, 5),
    (13, 6),
    (13, 8),
    (13, 0),
    (12, 1),
    (12, 2),
    (16, 4),
    (17, 4),
    (16, 2),
    (2, 13),
    (13, 258),
    (13, 512),
    (269, 2),
    (3328, 2),
    (0, 0),
];

/// A dump; every other one has something wrong about it.
pub fn dump(random: &mut Random, source: &Source) -> Recording {
    let (known, hops) = hops_of(random);
    recording(random, Of::Dump, hops, |random, wrong| {
        if wrong {
            let body = body(random, source, &known);
            let (bytes, spoil) = spoilt_record(random, body, known[0]);
            (bytes, Some(Spoilt::Dump(spoil)))
        } else if random.percent(62) {
            let body = body(random, source, &known).bytes();
            (record(random, READ, &body), None)
        } else {
            (other_record(random, source, &known), None)
        }
    })
}

/// The body of a record that is read, with a route and what none, one or several neighbours say of it.
pub fn body(random: &mut Random, source: &Source, known: &[u32]) -> Body {
    let count = match random.below(100) {
        0..=5 => 0,
        6..=40 => 1,
        41..=94 => random.within(2, 5),
        _ => random.within(6, 20),
    };
    let entry = |_| {
        let hop = if random.percent(88) { random.pick(known) } else { random.word() };
        let with_hop = random.percent(80);
        let attributes = attributes(random, with_hop, hop);
        Entry::new(random, attributes)
    };
    let entries = (0..count).map(entry).collect();
    let prefix = source.prefixes(random, 1, 30).remove(0);
    let mut body = Body { number: random.word().to_be_bytes(), prefix, entries };
    if random.below(1000) < LARGE {
        let most = random.within(5000, MOST_BODY as u32) as usize;
        let size = random.pick(&[MOST_BODY, MOST_BODY, MOST_BODY, MOST_BODY - 1, most]);
        fill(random, &mut body, size);
    }
    body
}

/// Fills a body up to so many bytes: with one long attribute, or with entries that say nothing, of which the last
/// has an attribute of the rest.
fn fill(random: &mut Random, body: &mut Body, size: usize) {
    let Some(room) = size.checked_sub(body.bytes().len() + 32) else {
        return;
    };
    if random.percent(50) && !body.entries.is_empty() {
        let value = random.bytes(room + 32 - 4);
        let at = random.below(body.entries.len());
        let long = long_attribute(random, 8, &value);
        return body.entries[at].attributes.push(long);
    }
    for _ in 0..room / 8 {
        body.entries.push(Entry::new(random, Vec::new()));
    }
    let value = random.bytes(room % 8 + 32 - 8 - 4);
    let rest = long_attribute(random, 2, &value);
    body.entries.push(Entry::new(random, vec![rest]));
}

/// A record that is stepped over. Its body may look like one that is read, and may be said to be longer than all
/// that follows.
fn other_record(random: &mut Random, source: &Source, known: &[u32]) -> Vec<u8> {
    let kind = match random.percent(80) {
        true => random.pick(&OTHER_KINDS),
        false => (random.word() as u16, random.below(9) as u16),
    };
    // A random kind may be the one that is read.
    let kind = if kind == READ { (13, 1) } else { kind };
    let body = match random.below(1000) {
        0..LARGE => {
            let size = random.pick(&[MOST_BODY - 1, MOST_BODY, MOST_BODY + 1, 70_000]);
            random.bytes(size)
        }
        LARGE..=150 => Vec::new(),
        151..=500 => body(random, source, known).bytes(),
        501..=600 => {
            let body = body(random, source, known).bytes();
            record(random, READ, &body)
        }
        _ => {
            let size = random.below(60);
            random.bytes(size)
        }
    };
    if random.percent(96) {
        return record(random, kind, &body);
    }
    let longer = body.len() as u32 + random.within(1, 200);
    let size = random.pick(&[u32::MAX, u32::MAX, 1 << 31, 1 << 24, longer, longer]);
    [header(random, kind, size), body].concat()
}
