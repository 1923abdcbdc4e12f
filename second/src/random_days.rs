//! Random days: the messages of neighbours as they are recorded, most of them UPDATEs, and what else stands in such
//! files.

use crate::calls::Of;
use crate::day_draft::{message, Heard, ADDRESSES, IPV4, IPV6, READ_AS2, READ_AS4};
use crate::draft::{Draft, LENGTH_AT, TYPE_AT};
use crate::random::Random;
use crate::random_dumps;
use crate::random_messages::{draft, Source};
use crate::record_draft::{header, record, MOST_BODY};
use crate::recordings::{hops_of, recording, Recording, Spoilt};
use crate::spoilt_days::{spoilt_record, SPOILS};
use crate::spoilt_records::put_number;

/// So many records of a thousand have a body of up to 65,536 bytes, and so many of other kinds of a few more.
const LARGE: usize = 8;
const LARGE_OTHERS: usize = 25;

/// Kinds that are stepped over: of the same type, of the type with finer times, of a dump, and others like those
/// that are read.
const OTHER_KINDS: [(u16, u16); 24] = [
    (16, 0),
    (16, 0),
    (16, 5),
    (16, 5),
    (16, 6),
    (16, 6),
    (16, 7),
    (16, 7),
    (17, 1),
    (17, 1),
    (17, 4),
    (17, 4),
    (13, 1),
    (13, 2),
    (13, 2),
    (13, 4),
    (16, 2),
    (16, 3),
    (16, 9),
    (16, 257),
    (16, 1024),
    (272, 4),
    (4096, 1),
    (4, 16),
];

/// Address families that are neither of the two with names, some with a byte of IPv4's.
const OTHER_FAMILIES: [u16; 8] = [0, 3, 25, 256, 257, 257, 513, 16_388];

/// A day; every other one has something wrong about it, that whose turn it is.
pub fn day(random: &mut Random, source: &Source, turn: &mut usize) -> Recording {
    let (known, hops) = hops_of(random);
    recording(random, Of::Day, hops, |random, wrong| {
        if !wrong {
            return (any_record(random, source, &known), None);
        }
        let (spoil, _) = SPOILS[*turn % SPOILS.len()];
        *turn += 1;
        let update = draft(random, source, known[0]);
        (spoilt_record(random, spoil, update, known[0]), Some(Spoilt::Day(spoil)))
    })
}

/// A record of any kind, that of an UPDATE most often.
fn any_record(random: &mut Random, source: &Source, known: &[u32]) -> Vec<u8> {
    let kind = random.pick(&[READ_AS2, READ_AS4]);
    match random.below(1000) {
        0..LARGE => large_record(random, kind),
        LARGE..=539 => {
            let update = update(random, source, known);
            heard(random, kind, IPV4, update)
        }
        540..=569 => {
            let end_of_rib = Draft { withdrawn: Vec::new(), attributes: Vec::new(), announced: Vec::new() };
            heard(random, kind, IPV4, end_of_rib.bytes())
        }
        570..=719 => {
            let message = other_message(random, source, known);
            heard(random, kind, IPV4, message)
        }
        720..=799 => other_family(random, source, known, kind),
        800..=819 => {
            // The numbers of AS are of the other size.
            let update = update(random, source, known);
            let other = if kind == READ_AS2 { READ_AS4 } else { READ_AS2 };
            let body = Heard::new(random, other, IPV4, update).body();
            record(random, kind, &body)
        }
        _ => other_record(random, source, known),
    }
}

fn heard(random: &mut Random, kind: (u16, u16), family: u16, message: Vec<u8>) -> Vec<u8> {
    let body = Heard::new(random, kind, family, message).body();
    record(random, kind, &body)
}

/// A good UPDATE, whose NEXT_HOP is most often one of these.
fn update(random: &mut Random, source: &Source, known: &[u32]) -> Vec<u8> {
    let hop = if random.percent(88) { random.pick(known) } else { random.word() };
    draft(random, source, hop).bytes()
}

/// A message of another type, with anything in it. Now and then it is an UPDATE but for its type, or has a bad marker
/// or a length that is not its own.
fn other_message(random: &mut Random, source: &Source, known: &[u32]) -> Vec<u8> {
    let kind = random.pick(&[1, 3, 4, 4, 5, 0, 6, 130, 255]);
    let size = random.below(40);
    let mut message = match kind {
        _ if random.percent(15) => {
            let mut update = update(random, source, known);
            update[TYPE_AT] = kind;
            update
        }
        4 => message(4, &[]),
        5 => message(5, &[0, 1, 0, 1]),
        1 => message(1, &[&[4], &random.bytes(8)[..], &[0]].concat()),
        _ => message(kind, &random.bytes(size)),
    };
    if random.percent(25) {
        message[random.below(LENGTH_AT)] = random.pick(&[0, 127, 254]);
    }
    if random.percent(20) {
        let right = message.len();
        put_number(&mut message, LENGTH_AT, random.pick(&[0, 18, right + 1, right - 1, 4097, 65_535]));
    }
    message
}

/// A message of another address family, whose body may end anywhere after that: a body that is long enough for IPv4
/// may look as if it were such a one.
fn other_family(random: &mut Random, source: &Source, known: &[u32], kind: (u16, u16)) -> Vec<u8> {
    let family = if random.percent(60) { IPV6 } else { random.pick(&OTHER_FAMILIES) };
    let message = match random.percent(70) {
        true => update(random, source, known),
        false => other_message(random, source, known),
    };
    let mut heard = Heard::new(random, kind, family, message);
    if random.percent(25) {
        heard.addresses.truncate(ADDRESSES);
    }
    let (mut body, least) = (heard.body(), heard.addresses_at());
    if random.percent(40) {
        let any = random.below(body.len() - least + 1);
        body.truncate(least + random.pick(&[0, 1, 7, 8, 26, any]));
    }
    record(random, kind, &body)
}

/// A record that is read, with a body of up to as many bytes as there can be: what is no UPDATE of IPv4 may be so
/// long.
fn large_record(random: &mut Random, kind: (u16, u16)) -> Vec<u8> {
    let most = random.within(5000, MOST_BODY as u32) as usize;
    let size = random.pick(&[MOST_BODY, MOST_BODY, MOST_BODY, MOST_BODY - 1, most]);
    let family = random.pick(&[IPV4, IPV4, IPV6, 3]);
    let mut heard = Heard::new(random, kind, family, message(4, &[]));
    let rest = size - heard.body().len();
    heard.message.extend(random.bytes(rest));
    record(random, kind, &heard.body())
}

/// A record that is stepped over. It may hold what would be read in another one, and may be said to be longer than all
/// that follows.
fn other_record(random: &mut Random, source: &Source, known: &[u32]) -> Vec<u8> {
    let kind = match random.percent(85) {
        true => random.pick(&OTHER_KINDS),
        false => (random.word() as u16, random.below(9) as u16),
    };
    // A random kind may be one that is read.
    let kind = if kind == READ_AS2 || kind == READ_AS4 { (16, 2) } else { kind };
    let body = match random.below(1000) {
        0..LARGE_OTHERS => {
            let size = random.pick(&[MOST_BODY, MOST_BODY + 1, MOST_BODY + 1, 70_000]);
            random.bytes(size)
        }
        LARGE_OTHERS..=120 => Vec::new(),
        121..=200 => {
            let size = random.below(60);
            random.bytes(size)
        }
        _ => body_of(random, source, known, kind),
    };
    if random.percent(96) {
        return record(random, kind, &body);
    }
    let longer = body.len() as u32 + random.within(1, 200);
    let size = random.pick(&[u32::MAX, u32::MAX, 1 << 31, 1 << 24, longer, longer]);
    [header(random, kind, size), body].concat()
}

/// A body as such a record has it: of a dump a route, of a change of state the two states, and of all others a
/// message, after the microseconds if the times are finer.
fn body_of(random: &mut Random, source: &Source, known: &[u32], kind: (u16, u16)) -> Vec<u8> {
    if kind.0 == 13 {
        return random_dumps::body(random, source, known).bytes();
    }
    let message = match kind {
        (16, 0 | 5) => vec![0, random.within(1, 6) as u8, 0, random.within(1, 6) as u8],
        _ => update(random, source, known),
    };
    let body = Heard::new(random, kind, IPV4, message).body();
    match kind.0 {
        17 if random.percent(60) => [random.bytes(4), body].concat(),
        _ => body,
    }
}
