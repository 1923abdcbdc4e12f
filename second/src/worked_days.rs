//! Days with the answers, tallies, words and rooms that follow from their bytes, worked out by hand.

use crate::calls::{Lent, Of, Settings, Sizes, Stream, FIGURES};
use crate::library::{Library, ROOM};
use crate::rules::T;
use crate::worked::{address, found, one_off, refused, Case};
use crate::worked_imports::RECORD as ROUTE;
use crate::worked_messages::{update, MESSAGE, NEXT_HOP};
use std::rc::Rc;

/// A message of AS 65010, at 10.255.0.5, to AS 65030, at 10.255.0.3: what stands before it.
pub const BEFORE: [u8; 28] = [
    0x6a, 0x00, 0x00, 0x00, // a time
    0x00, 0x10, 0x00, 0x01, // type 16, subtype 1
    0x00, 0x00, 0x00, 0x3d, // 61 bytes: 16 and a message of 45
    0xfd, 0xf2, 0xfe, 0x06, // two AS numbers of two bytes
    0x00, 0x00, // an interface
    0x00, 0x01, // IPv4
    0x0a, 0xff, 0x00, 0x05, // 10.255.0.5
    0x0a, 0xff, 0x00, 0x03, // 10.255.0.3
];

/// The same with AS numbers of four bytes.
const BEFORE_AS4: [u8; 32] = [
    0x6a, 0x00, 0x00, 0x00, // a time
    0x00, 0x10, 0x00, 0x04, // type 16, subtype 4
    0x00, 0x00, 0x00, 0x41, // 65 bytes: 20 and a message of 45
    0x00, 0x00, 0xfd, 0xf2, 0x00, 0x00, 0xfe, 0x06, // two AS numbers of four bytes
    0x00, 0x00, // an interface
    0x00, 0x01, // IPv4
    0x0a, 0xff, 0x00, 0x05, // 10.255.0.5
    0x0a, 0xff, 0x00, 0x03, // 10.255.0.3
];

/// Where in both the type and the size stand, and the body begins.
const TYPE: usize = 4;
const SIZE: usize = 8;
const BODY: usize = 12;

/// Where the family stands in the body of either subtype, and where the message begins in it.
const FAMILY: [usize; 2] = [6, 10];
const MESSAGE_AT: [usize; 2] = [16, 20];

/// NEXT_HOP of the worked message stands at place 1.
pub const HOPS: [u32; 2] = [7, NEXT_HOP];

/// What stands before a message in a record of subtype 1, and of subtype 4.
fn befores() -> [&'static [u8]; 2] {
    [&BEFORE, &BEFORE_AS4]
}

/// A record with this header, but for its size, and this body.
fn of_body(before: &[u8], body: &[u8]) -> Vec<u8> {
    [&before[..SIZE], &(body.len() as u32).to_be_bytes(), body].concat()
}

/// A record with this message.
pub fn with_message(before: &[u8], message: &[u8]) -> Vec<u8> {
    of_body(before, &[&before[BODY..], message].concat())
}

/// A message of another type and so many bytes after its header.
fn of_type(kind: u8, rest: usize) -> Vec<u8> {
    let mut message = update(&vec![0; rest]);
    message[18] = kind;
    message
}

/// An UPDATE that withdraws these prefixes of length 8 and announces those, with NEXT_HOP 10.9.9.1.
fn eights(withdrawn: &[u8], announced: &[u8]) -> Vec<u8> {
    let prefixes = |octets: &[u8]| -> Vec<u8> { octets.iter().flat_map(|octet| [8, *octet]).collect() };
    let size = [0, 2 * withdrawn.len() as u8];
    let next_hop = [0, 7, 0x40, 3, 4, 10, 9, 9, 1];
    update(&[&size[..], &prefixes(withdrawn), &next_hop, &prefixes(announced)].concat())
}

/// A tally: records seen, UPDATEs applied, routes accepted, and how many were refused under some numbers.
pub fn tally(seen: u32, applied: u32, accepted: u32, refused: &[(usize, u32)]) -> [u32; FIGURES] {
    let mut tally = [0; FIGURES];
    tally[..3].copy_from_slice(&[seen, applied, accepted]);
    for (number, times) in refused {
        tally[3 + number] = *times;
    }
    tally
}

/// No record, and the worked message applied to a table without 10.1.0.0/16, as often as that is seen.
pub const NONE: [u32; FIGURES] = [0; FIGURES];
fn applied(times: u32) -> [u32; FIGURES] {
    tally(times, times, 2 * times, &[(7, times)])
}

/// So many records that are seen and not applied.
fn seen(times: u32) -> [u32; FIGURES] {
    tally(times, 0, 0, &[])
}

impl Case<'_> {
    /// Begins a stream, in room whose bytes are 7.
    pub fn begin_day(&mut self, tally: [u32; FIGURES], words: [u32; 3]) {
        self.begin_in(tally, words, vec![7; ROOM]);
    }

    fn begin_in(&mut self, tally: [u32; FIGURES], words: [u32; 3], room: Vec<u8>) {
        self.pair.stream.begin(self.library, self.pair.area, 0, words, Some(room));
        self.pair.stream.set_tally(self.library, tally);
    }

    pub fn replay_with(
        &mut self,
        t: &Settings,
        lent: Option<Lent>,
        chunk: &[u8],
        hops: &[u32],
        number: u64,
    ) -> Result<(), String> {
        let chunk = self.pair.stream.chunk(self.party, Of::Day, chunk.to_vec(), 0, Rc::from(hops), 0);
        let lent = lent.unwrap_or(self.pair.lent(&chunk));
        let given = self.pair.call_chunk(self.library, t, lent, &chunk);
        let given = given.map_err(|difference| self.wrong(lent, &chunk, difference.0))?;
        self.documented(lent, &chunk, given, refused(number))
    }

    /// A chunk is given a number, and leaves this tally and these words.
    pub fn replay(
        &mut self,
        chunk: &[u8],
        number: u64,
        tally: [u32; FIGURES],
        words: [u32; 3],
    ) -> Result<(), String> {
        let t = self.t;
        self.replay_with(&t, None, chunk, &HOPS, number)?;
        self.tells(tally, words)
    }

    pub fn tells(&self, tally: [u32; FIGURES], words: [u32; 3]) -> Result<(), String> {
        let Stream { tally: told, words: kept, .. } = self.pair.stream.held();
        let what = format!("tally {tally:?} and words {words:?}, where there are {told:?} and {kept:?}");
        self.holds((*told, *kept) == (tally, words), &what)
    }

    /// A record ends the replay at its last byte with 12, after a good one that stays, and nothing of it is counted.
    fn ends_day(&mut self, record: &[u8]) -> Result<(), String> {
        let good = with_message(&BEFORE, &of_type(4, 0));
        self.begin_day(NONE, [0; 3]);
        self.replay(&[&good, record, &good].concat(), 12, seen(1), [13, 0, 0])?;
        self.begin_day(NONE, [0; 3]);
        let words = match record.len() {
            BODY => [0, 11, 0],
            size => [0, size as u32 - 1, 1],
        };
        let (most, last) = record.split_at(record.len() - 1);
        self.replay(most, 0, NONE, words)?;
        self.replay(last, 12, NONE, [13, 0, 0])?;
        self.replay(&good, 12, NONE, [13, 0, 0])?;
        self.end_gives(12)
    }

    /// A record leaves this tally.
    fn day_of(&mut self, record: &[u8], tally: [u32; FIGURES]) -> Result<(), String> {
        self.begin_day(NONE, [0; 3]);
        self.replay(record, 0, tally, [0; 3])?;
        self.kept(record)
    }
}

pub fn run(library: &mut Library) -> Result<(), String> {
    cut(library)?;
    ended(library)?;
    subtypes(library)?;
    other_types(library)?;
    other_families(library)?;
    short_bodies(library)?;
    damaged(library)?;
    hops(library)?;
    kinds(library)?;
    too_long(library)?;
    longest(library)?;
    numbers(library)?;
    order(library)?;
    refused_chunks(library)?;
    words(library)?;
    both_calls(library)?;
    whole_day(library)
}

/// The worked message in a record that is cut in two at each place, and its end there.
fn cut(library: &mut Library) -> Result<(), String> {
    for before in befores() {
        let record = with_message(before, &MESSAGE);
        let whole = before.len() + MESSAGE.len();
        for at in 0..=whole {
            let mut case = Case::new(library, "an UPDATE in two chunks", T)?;
            case.holds(record.starts_with(before), "61 or 65 bytes follow the header")?;
            case.begin_day(NONE, [0; 3]);
            let (first, second) = record.split_at(at);
            let words = match at {
                0..BODY => [0, at as u32, 0],
                _ if at < whole => [0, at as u32, (whole - at) as u32],
                _ => [0; 3],
            };
            let tally = if at == whole { applied(1) } else { NONE };
            case.replay(first, 0, tally, words)?;
            case.kept(first)?;
            case.replay(&[], 0, tally, words)?;
            case.replay(second, 0, applied(1), [0; 3])?;
            case.kept(&record)?;
            case.lookup(address(192, 0, 2, 9), found(1, 24, 1))?;
            case.lookup(address(10, 1, 2, 3), found(1, 0, 0))?;
            case.end_gives(0)?;
            case.tells(applied(1), [1, 0, 0])?;

            case.begin_day(NONE, [0; 3]);
            case.replay(first, 0, tally, words)?;
            let number = if at == 0 || at == whole { 0 } else { 17 };
            case.end_gives(number)?;
            case.tells(tally, [number as u32 + 1, 0, 0])?;
            case.replay(second, number, tally, [number as u32 + 1, 0, 0])?;
        }
    }
    Ok(())
}

/// What has ended takes no more, whatever is wrong with a chunk.
fn ended(library: &mut Library) -> Result<(), String> {
    let mut case = Case::new(library, "a replay that has ended", T)?;
    let record = with_message(&BEFORE, &MESSAGE);
    let high = tally(4_000_000_001, 0, 0, &[]);
    for number in [0, 12, 14, 17, 300] {
        let words = [number as u32 + 1, 0, 0];
        case.begin_day(high, words);
        for chunk in [&[][..], &record, &[0; 65_537]] {
            case.replay(chunk, number, high, words)?;
            case.replay_with(&Settings { k: 9, ..T }, None, chunk, &HOPS, number)?;
        }
        case.end_gives(number)?;
        case.tells(high, words)?;
        case.kept(&[])?;
    }
    // Of a number the low 16 bits count.
    case.begin_day(NONE, [65_536 + 13, 9, 9]);
    case.replay(&record, 12, NONE, [65_536 + 13, 9, 9])?;
    case.lookup(address(192, 0, 2, 9), 0)
}

/// The size of the AS numbers is the subtype's.
fn subtypes(library: &mut Library) -> Result<(), String> {
    let mut case = Case::new(library, "AS numbers of either size", T)?;
    case.day_of(&with_message(&BEFORE, &MESSAGE), applied(1))?;
    case.day_of(&with_message(&BEFORE_AS4, &MESSAGE), applied(1))?;
    // With numbers of two bytes under subtype 4 the family is the end of the peer's address, 5.
    let body = [&BEFORE[BODY..], &MESSAGE].concat();
    case.day_of(&of_body(&BEFORE_AS4, &body), seen(1))?;
    // If that is 1, the message begins four bytes into its marker, and its type is 10, from the withdrawn route.
    let mut one = body.clone();
    one[11] = 1;
    case.day_of(&of_body(&BEFORE_AS4, &one), seen(1))?;
    // If that is 2, it is an UPDATE, with a bad marker.
    one[MESSAGE_AT[0] + 22] = 2;
    case.ends_day(&of_body(&BEFORE_AS4, &one))?;
    // With numbers of four bytes under subtype 1 the family is the end of the second, 65030.
    let mut body = [&BEFORE_AS4[BODY..], &MESSAGE].concat();
    case.day_of(&of_body(&BEFORE, &body), seen(1))?;
    // If that is 1, the message begins at an address, and its type is in the marker.
    body[6..8].copy_from_slice(&[0, 1]);
    case.day_of(&of_body(&BEFORE, &body), seen(1))
}

/// Messages of other types are seen, whatever else is in them.
fn other_types(library: &mut Library) -> Result<(), String> {
    let mut case = Case::new(library, "a message that is no UPDATE", T)?;
    for before in befores() {
        for kind in [0, 1, 3, 4, 5, 6, 130, 255] {
            for rest in [0, 1, 10, 26] {
                case.day_of(&with_message(before, &of_type(kind, rest)), seen(1))?;
            }
            // An UPDATE but for its type; a bad marker; a length of 0 and of one more.
            let mut message = MESSAGE.to_vec();
            message[18] = kind;
            case.day_of(&with_message(before, &message), seen(1))?;
            for (at, byte) in [(0, 0), (15, 254), (16, 255), (17, 0), (17, 46)] {
                message[at] = byte;
                case.day_of(&with_message(before, &message), seen(1))?;
            }
        }
    }
    case.lookup(address(192, 0, 2, 9), 0)
}

/// Other address families are seen once they are read, whatever follows.
fn other_families(library: &mut Library) -> Result<(), String> {
    let mut case = Case::new(library, "another address family", T)?;
    for (before, family_at) in befores().into_iter().zip(FAMILY) {
        for family in [[0, 0], [0, 2], [0, 3], [1, 0], [1, 1], [255, 255]] {
            let mut body = [&before[BODY..], &MESSAGE].concat();
            body[family_at..family_at + 2].copy_from_slice(&family);
            for size in [family_at + 2, family_at + 3, family_at + 36, body.len()] {
                case.day_of(&of_body(before, &body[..size]), seen(1))?;
            }
        }
    }
    case.lookup(address(192, 0, 2, 9), 0)
}

/// Bodies that end before the family, and those of IPv4 that end before the message's 19 bytes.
fn short_bodies(library: &mut Library) -> Result<(), String> {
    let mut case = Case::new(library, "a body that is too short", T)?;
    for (which, before) in befores().into_iter().enumerate() {
        let (family_at, message_at) = (FAMILY[which], MESSAGE_AT[which]);
        let body = [&before[BODY..], &of_type(4, 0)].concat();
        for size in 0..message_at + 19 {
            case.ends_day(&of_body(before, &body[..size]))?;
        }
        case.day_of(&of_body(before, &body), seen(1))?;
        let mut body = body;
        body[family_at + 1] = 2;
        for size in 0..body.len() {
            let record = of_body(before, &body[..size]);
            match size < family_at + 2 {
                true => case.ends_day(&record)?,
                false => case.day_of(&record, seen(1))?,
            }
        }
    }
    Ok(())
}

/// UPDATEs that a message call refuses as 12, and some that it nearly does.
fn damaged(library: &mut Library) -> Result<(), String> {
    let mut case = Case::new(library, "a damaged UPDATE", T)?;
    for before in befores() {
        // The marker; the length of the message, of the withdrawn routes and of the attributes.
        for (at, byte) in
            [(0, 254), (15, 0), (16, 1), (17, 44), (17, 46), (20, 2), (20, 4), (20, 24), (25, 13)]
        {
            let mut message = MESSAGE.to_vec();
            message[at] = byte;
            case.ends_day(&with_message(before, &message))?;
        }
        // Prefixes of length 33, withdrawn and announced; a NEXT_HOP of 3 bytes; an ORIGIN that becomes one of 1 byte.
        for (at, byte) in [(21, 33), (40, 33), (35, 3), (27, 3)] {
            let mut message = MESSAGE.to_vec();
            message[at] = byte;
            case.ends_day(&with_message(before, &message))?;
        }
        let next_hop = &MESSAGE[33..40];
        let twice = update(&[&[0, 0, 0, 14], next_hop, next_hop, &[0]].concat());
        case.ends_day(&with_message(before, &twice))?;
        // A byte after the message, a byte less; 19 to 22 bytes, and 23.
        case.ends_day(&with_message(before, &[&MESSAGE[..], &[0]].concat()))?;
        case.ends_day(&with_message(before, &MESSAGE[..44]))?;
        for rest in 0..4 {
            case.ends_day(&with_message(before, &update(&vec![0; rest])))?;
        }
        case.day_of(&with_message(before, &update(&[0; 4])), tally(1, 1, 0, &[]))?;
        // 4,097 bytes, and 4,096: so many default routes are withdrawn, and none is stored.
        for (routes, more) in [(4074u32, 1), (4073, 0)] {
            let size = (routes as u16).to_be_bytes();
            let message = update(&[&size[..], &vec![0; routes as usize + 2]].concat());
            case.holds(message.len() == 4096 + more, "4,097 or 4,096 bytes")?;
            match more {
                0 => case.day_of(&with_message(before, &message), tally(1, 1, 0, &[(7, routes)]))?,
                _ => case.ends_day(&with_message(before, &message))?,
            }
        }
    }
    case.lookup(address(192, 0, 2, 9), 0)
}

/// Without a hop for its routes an UPDATE is seen and nothing of it is done.
fn hops(library: &mut Library) -> Result<(), String> {
    let mut case = Case::new(library, "the hop of an UPDATE", T)?;
    case.add(address(10, 1, 0, 0), 16, 9, 0)?;
    let record = with_message(&BEFORE, &MESSAGE);
    // Withdraws 10.0.0.0/8 and announces 11.0.0.0/8, without an attribute.
    let missing = update(&[0, 2, 8, 10, 0, 0, 8, 11]);
    let mut many = vec![0; 65_538];
    (many[65_536], many[65_537]) = (NEXT_HOP, NEXT_HOP);
    case.begin_day(NONE, [0; 3]);
    for hops in [&[][..], &[NEXT_HOP.swap_bytes(), NEXT_HOP + 1], &many] {
        case.replay_with(&T, None, &record, hops, 0)?;
    }
    case.replay(&with_message(&BEFORE_AS4, &missing), 0, seen(4), [0; 3])?;
    case.lookup(address(10, 1, 2, 3), found(9, 16, 1))?;
    // The last place that gives a hop is 65,535. Then 10.1.0.0/16 goes, and two routes come.
    many[65_535] = NEXT_HOP;
    case.replay_with(&T, None, &record, &many, 0)?;
    case.tells(tally(5, 1, 3, &[]), [0; 3])?;
    case.lookup(address(192, 0, 2, 9), found(65_535, 24, 1))?;
    // Nothing is announced: no hop is asked.
    let withdrawal = update(&[0, 4, 24, 192, 0, 2, 0, 0]);
    case.replay_with(&T, None, &with_message(&BEFORE, &withdrawal), &[], 0)?;
    let unlisted = update(&[0, 1, 0, 0, 7, 0x40, 3, 4, 1, 2, 3, 4]);
    case.replay_with(&T, None, &with_message(&BEFORE, &unlisted), &[], 0)?;
    case.tells(tally(7, 3, 5, &[]), [0; 3])?;
    case.lookup(address(192, 0, 2, 9), 0)
}

/// Other kinds are stepped over, whatever they hold, and seen with their last byte.
fn kinds(library: &mut Library) -> Result<(), String> {
    let mut case = Case::new(library, "a record of another kind", T)?;
    let kinds = [
        [0, 16, 0, 0],
        [0, 16, 0, 5],
        [0, 16, 0, 6],
        [0, 16, 0, 7],
        [0, 17, 0, 1],
        [0, 17, 0, 4],
        [0, 13, 0, 1],
        [0, 13, 0, 2],
        [0, 16, 1, 1],
        [1, 16, 0, 4],
        [0, 16, 4, 0],
    ];
    for kind in kinds {
        let mut other = with_message(&BEFORE, &MESSAGE);
        other[TYPE..SIZE].copy_from_slice(&kind);
        case.begin_day(NONE, [0; 3]);
        case.replay(&other[..BODY], 0, NONE, [0, 0, 61])?;
        case.kept(&other[..BODY])?;
        case.replay(&other[BODY..72], 0, NONE, [0, 0, 1])?;
        case.replay(&other[72..], 0, seen(1), [0; 3])?;
        case.kept(&other[..BODY])?;
        // Its body may have no bytes: it is seen with its header's last byte.
        case.replay(&other[..SIZE], 0, seen(1), [0, 8, 0])?;
        case.replay(&[0; 3], 0, seen(1), [0, 11, 0])?;
        case.replay(&[0], 0, seen(2), [0; 3])?;
        // It may have 65,537 bytes, or 2^32 - 1, of which 61 come, and then it is not seen.
        let long = [&other[..SIZE], &[0, 1, 0, 1], &[3; 65_524]].concat();
        case.replay(&long, 0, seen(2), [0, 0, 13])?;
        case.replay(&[3; 13], 0, seen(3), [0; 3])?;
        let longest = [&other[..SIZE], &[255; 4], &other[BODY..]].concat();
        case.replay(&longest, 0, seen(3), [0, 0, u32::MAX - 61])?;
        case.end_gives(17)?;
        case.tells(seen(3), [18, 0, 0])?;
    }
    // Twelve zeros are a record of no type without a body: 5,461 of them in a chunk, and four bytes of another.
    case.begin_day(NONE, [0; 3]);
    case.replay(&[0; 65_536], 0, seen(5461), [0, 4, 0])?;
    case.replay(&[0; 65_536], 0, seen(5461 + 5461), [0, 8, 0])?;
    case.lookup(address(192, 0, 2, 9), 0)
}

/// 14, once the header is read, whatever the family.
fn too_long(library: &mut Library) -> Result<(), String> {
    let mut case = Case::new(library, "a body above 65,536 bytes", T)?;
    for (before, family_at) in befores().into_iter().zip(FAMILY) {
        let good = with_message(before, &of_type(4, 0));
        for size in [65_537u32, 65_538, 1 << 31, u32::MAX] {
            for family in [1, 2, 9] {
                let mut long = with_message(before, &MESSAGE);
                long[SIZE..BODY].copy_from_slice(&size.to_be_bytes());
                long[BODY + family_at + 1] = family;
                case.begin_day(NONE, [0; 3]);
                let day = [&good[..], &long].concat();
                let (first, second) = day.split_at(good.len() + 11);
                case.replay(first, 0, seen(1), [0, 11, 0])?;
                case.replay(second, 14, seen(1), [15, 0, 0])?;
                case.replay(&good, 14, seen(1), [15, 0, 0])?;
                case.end_gives(14)?;
            }
        }
    }
    case.lookup(address(192, 0, 2, 9), 0)
}

/// A body of 65,536 bytes fills the room. What is no UPDATE of IPv4 may have so many.
fn longest(library: &mut Library) -> Result<(), String> {
    let mut case = Case::new(library, "a body of 65,536 bytes", T)?;
    for (before, family_at) in befores().into_iter().zip(FAMILY) {
        for (family, kind) in [(1, 4), (2, 2)] {
            let mut body = [&before[BODY..], &of_type(kind, 0)].concat();
            body[family_at + 1] = family;
            body.resize(65_536, 3);
            let record = of_body(before, &body);
            case.begin_day(NONE, [0; 3]);
            case.replay(&record[..65_536], 0, NONE, [0, 65_536, 12])?;
            case.replay(&record[65_536..], 0, seen(1), [0; 3])?;
            case.kept(&record)?;
        }
        // An UPDATE has another length than it says.
        let mut body = [&before[BODY..], &MESSAGE].concat();
        body.resize(65_536, 3);
        let record = of_body(before, &body);
        case.begin_day(NONE, [0; 3]);
        case.replay(&record[..65_536], 0, NONE, [0, 65_536, 12])?;
        case.replay(&record[65_536..], 12, NONE, [13, 0, 0])?;
    }
    Ok(())
}

/// Routes that are refused are counted under their numbers.
fn numbers(library: &mut Library) -> Result<(), String> {
    let mut case = Case::new(library, "routes that are refused", T)?;
    // All of 0.0.0.0/1 has bucket 0: at length 8 two routes fit. 127.0.0.0/8 and 224.0.0.0/8 are odd.
    let first = with_message(&BEFORE, &eights(&[], &[10, 8, 9, 127, 224]));
    // Then 8.0.0.0/8 goes, twice, so that 9.0.0.0/8 fits, and 10.0.0.0/8 is replaced.
    let second = with_message(&BEFORE_AS4, &eights(&[8, 8], &[9, 10, 11]));
    case.begin_day(NONE, [0; 3]);
    case.replay(&first, 0, tally(1, 1, 2, &[(8, 1), (11, 2)]), [0; 3])?;
    case.replay(&second, 0, tally(2, 2, 5, &[(7, 1), (8, 2), (11, 2)]), [0; 3])?;
    case.lookup(address(9, 1, 2, 3), found(1, 8, 1))?;
    // Both anew: 10.0.0.0/8 is replaced and 9.0.0.0/8 too, but 8.0.0.0/8 does not fit, and is not withdrawn.
    case.replay(
        &[first, second].concat(),
        0,
        tally(4, 4, 5 + 2 + 2, &[(7, 1 + 2), (8, 2 + 1 + 1), (11, 4)]),
        [0; 3],
    )?;

    // Five steps on one position of 15: three routes of length 32 fit, and four would in the bucket.
    let zero = Settings { k: 5, d: Sizes::equal(4), e: 0, s: 4, a: 0, b: 0, c: 0 };
    let mut case = Case::new(library, "a route that fills a counter", zero)?;
    let routes: Vec<u8> = (1..=4).flat_map(|last| [32, 10, 0, 0, last]).collect();
    let announced = update(&[&[0, 0, 0, 7, 0x40, 3, 4, 10, 9, 9, 1][..], &routes].concat());
    case.begin_day(NONE, [0; 3]);
    case.replay(&with_message(&BEFORE, &announced), 0, tally(1, 1, 3, &[(9, 1)]), [0; 3])
}

/// Withdrawn routes go before announced ones, and records one after the other.
fn order(library: &mut Library) -> Result<(), String> {
    let mut case = Case::new(library, "the order of a day", T)?;
    let both = with_message(&BEFORE, &eights(&[10], &[10]));
    case.begin_day(NONE, [0; 3]);
    case.replay(&both, 0, tally(1, 1, 1, &[(7, 1)]), [0; 3])?;
    case.lookup(address(10, 1, 2, 3), found(1, 8, 1))?;
    case.replay(&both, 0, tally(2, 2, 3, &[(7, 1)]), [0; 3])?;
    case.lookup(address(10, 1, 2, 3), found(1, 8, 1))?;
    let gone = with_message(&BEFORE_AS4, &eights(&[10], &[]));
    case.replay(&[gone.clone(), both, gone].concat(), 0, tally(5, 5, 3 + 3, &[(7, 1 + 1)]), [0; 3])?;
    case.lookup(address(10, 1, 2, 3), 0)
}

/// 19, and then 1 and 2. Such a chunk leaves everything.
fn refused_chunks(library: &mut Library) -> Result<(), String> {
    let mut case = Case::new(library, "a chunk of a day that is refused", T)?;
    let mut other = with_message(&BEFORE, &MESSAGE);
    other[TYPE..BODY].copy_from_slice(&[0, 16, 0, 5, 0, 1, 0, 0]);
    let long = [&other[..], &[0; 65_536 - 73]].concat();
    case.begin_day(NONE, [0; 3]);
    case.replay(&[&long[..], &[0]].concat(), 19, NONE, [0; 3])?;
    case.kept(&[])?;
    case.replay(&long, 0, NONE, [0, 0, 12])?;

    let most = 4_000_000_000;
    let record = with_message(&BEFORE, &MESSAGE);
    for which in 0..FIGURES {
        for (figure, number) in [(most + 1, 19), (u32::MAX, 19), (most, 0)] {
            let mut tally = [5; FIGURES];
            tally[which] = figure;
            case.begin_day(tally, [0; 3]);
            if number == 0 {
                // Seen, applied, accepted twice and refused as 7.
                for (which, more) in [(0, 1), (1, 1), (2, 2), (10, 1)] {
                    tally[which] += more;
                }
            }
            case.replay(&record, number, tally, [0; 3])?;
            let high = tally.iter().any(|figure| *figure > most);
            case.replay(&[], if high { 19 } else { 0 }, tally, [0; 3])?;
        }
    }
    // The counts of imports are not asked.
    case.begin_day(NONE, [0; 3]);
    case.pair.stream.set_counts(case.library, [u32::MAX; 3]);
    case.replay(&record, 0, applied(1), [0; 3])?;
    case.holds(case.pair.stream.held().counts == [u32::MAX; 3], "a replay leaves the counts")?;

    case.begin_day(NONE, [0; 3]);
    case.replay(&record[..20], 0, NONE, [0, 20, 53])?;
    let lent = case.pair.lent(&case.pair.stream.end());
    for chunk in [&[][..], &record[20..]] {
        for lent in one_off(lent) {
            case.replay_with(&T, Some(lent), chunk, &HOPS, 2)?;
            case.replay_with(&Settings { k: 9, ..T }, Some(lent), chunk, &HOPS, 1)?;
            case.replay_with(&Settings { k: 9, ..T }, Some(lent), &vec![0; 65_537], &HOPS, 19)?;
        }
    }
    case.tells(NONE, [0, 20, 53])?;
    case.replay(&record[20..], 0, applied(1), [0; 3])
}

/// Words that no call leaves.
fn words(library: &mut Library) -> Result<(), String> {
    let mut case = Case::new(library, "any words of a day", T)?;
    let record = with_message(&BEFORE_AS4, &MESSAGE);
    // So many bytes of a header are none.
    for kept in [12, 13, 65_548, u32::MAX] {
        case.begin_day(NONE, [0, kept, 0]);
        case.replay(&[], 0, NONE, [0; 3])?;
        case.begin_day(NONE, [0, kept, 0]);
        case.replay(&record, 0, applied(1), [0; 3])?;
    }
    // The room holds no header of the kind that is read, or not so much: these are stepped over, and seen.
    for (kept, to_come) in [(12, 2), (11, 2), (0, 2), (13, 65_536), (u32::MAX, 2)] {
        case.begin_day(NONE, [0, kept, to_come]);
        case.replay(&[], 0, NONE, [0, 0, to_come])?;
        case.begin_day(NONE, [0, kept, to_come]);
        case.replay(&[9], 0, NONE, [0, 0, to_come - 1])?;
        case.begin_day(NONE, [0, kept, 1]);
        case.replay(&[9], 0, seen(1), [0; 3])?;
        case.kept(&[])?;
    }
    // With the header in the room it is read, up to what the room holds. What it says of its size is not asked.
    let mut room = vec![7; ROOM];
    room[..76].copy_from_slice(&record[..76]);
    room[SIZE..BODY].fill(9);
    for (kept, to_come, tally, words) in [
        (76, 1, applied(1), [0; 3]),
        (76, 65_472, NONE, [0, 77, 65_471]),
        (76, 65_473, NONE, [0, 0, 65_472]),
        (11, 1, seen(1), [0; 3]),
    ] {
        case.begin_in(NONE, [0, kept, to_come], room.clone());
        case.replay(&record[76..], 0, tally, words)?;
    }
    // An empty body of which words say that a byte is to come: 12 with that byte, since no family is in it.
    case.begin_in(NONE, [0, 12, 1], room);
    case.replay(&[9], 12, NONE, [13, 0, 0])
}

/// Words and room mean the same to an import and to a replay, but each reads records of its own kinds.
fn both_calls(library: &mut Library) -> Result<(), String> {
    let mut case = Case::new(library, "a stream of both calls", T)?;
    let day = with_message(&BEFORE, &MESSAGE);
    // An import begins the header of an UPDATE: the replay reads it.
    case.begin_day(NONE, [0; 3]);
    case.import(&day[..11], 0, [0; 3], [0, 11, 0])?;
    case.replay(&day[11..], 0, applied(1), [0; 3])?;
    // It has stepped over the header: the replay does so too, and sees the record.
    case.import(&day[..40], 0, [0; 3], [0, 0, 33])?;
    case.replay(&day[40..], 0, tally(2, 1, 2, &[(7, 1)]), [0; 3])?;
    // A replay reads an UPDATE: the import steps over the rest, and no replay sees the record.
    case.replay(&day[..40], 0, tally(2, 1, 2, &[(7, 1)]), [0, 40, 33])?;
    case.import(&day[40..], 0, [0; 3], [0; 3])?;
    case.tells(tally(2, 1, 2, &[(7, 1)]), [0; 3])?;
    // The same with a chunk of no bytes, after which the replay steps over the rest.
    case.replay(&day[..40], 0, tally(2, 1, 2, &[(7, 1)]), [0, 40, 33])?;
    case.import(&[], 0, [0; 3], [0, 0, 33])?;
    case.replay(&day[40..], 0, tally(3, 1, 2, &[(7, 1)]), [0; 3])?;
    // An import reads a route: the replay steps over the rest, and sees the record.
    case.import(&ROUTE[..30], 0, [0; 3], [0, 30, 20])?;
    case.replay(&ROUTE[30..], 0, tally(4, 1, 2, &[(7, 1)]), [0; 3])?;
    case.import(&ROUTE, 0, [1, 0, 0], [0; 3])?;
    case.lookup(address(10, 1, 2, 3), found(1, 8, 1))?;
    // What ended one has ended both.
    case.replay(&of_body(&BEFORE, &[]), 12, tally(4, 1, 2, &[(7, 1)]), [13, 0, 0])?;
    case.import(&ROUTE, 12, [1, 0, 0], [13, 0, 0])?;
    case.end_gives(12)
}

/// A day with a record of most kinds, whole and byte by byte.
fn whole_day(library: &mut Library) -> Result<(), String> {
    let keepalive = of_type(4, 0);
    let mut state = of_body(&BEFORE, &[&BEFORE[BODY..], &[0, 1, 0, 2]].concat());
    state[TYPE..SIZE].copy_from_slice(&[0, 16, 0, 0]);
    let mut six = with_message(&BEFORE_AS4, &MESSAGE);
    six[BODY + FAMILY[1] + 1] = 2;
    let day = [
        state,                                                // seen
        with_message(&BEFORE, &of_type(1, 10)),               // seen
        with_message(&BEFORE, &keepalive),                    // seen
        with_message(&BEFORE_AS4, &MESSAGE),                  // applied, with 2 accepted and 7 once
        with_message(&BEFORE, &eights(&[], &[10, 127])),      // applied, with 1 accepted and 11 once
        six,                                                  // seen
        with_message(&BEFORE, &eights(&[10, 192], &[8, 10])), // applied, with 3 accepted and 7 once
        with_message(&BEFORE, &update(&[0; 4])),              // applied
        ROUTE.to_vec(),                                       // seen
        with_message(&BEFORE_AS4, &of_type(3, 2)),            // seen
    ]
    .concat();
    for size in [day.len(), 1, 2, 11, 12, 13, 73, 100] {
        let mut case = Case::new(library, "a day", T)?;
        case.begin_day(NONE, [0; 3]);
        for chunk in day.chunks(size) {
            case.replay_with(&T, None, chunk, &HOPS, 0)?;
        }
        case.tells(tally(10, 4, 6, &[(7, 2), (11, 1)]), [0; 3])?;
        case.lookup(address(10, 1, 2, 3), found(1, 8, 1))?;
        case.lookup(address(8, 1, 2, 3), found(1, 8, 1))?;
        case.lookup(address(192, 0, 2, 9), found(1, 24, 1))?;
        case.end_gives(0)?;
    }
    Ok(())
}
