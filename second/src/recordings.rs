//! What random dumps and random days have in common: how many records there are and that one of them is spoilt,
//! the list of next hops for them, and what a stream of them may hold when it begins.

use crate::calls::Of;
use crate::day_draft::{READ_AS2, READ_AS4};
use crate::library::ROOM;
use crate::random::Random;
use crate::random_messages::{hops, many_hops};
use crate::record_draft::{header, HEADER, READ};
use crate::{spoilt_days, spoilt_records};
use std::rc::Rc;

/// So many recordings of a hundred have a list of more than 65,536 next hops, beside a few more.
const LONG_LISTS: usize = 4;

/// So many of a hundred begin with a figure at its limit or above it.
const AT_LIMITS: usize = 40;

/// The most that a figure, be it a count or of a tally, may be before a chunk.
pub const MOST_COUNTED: u32 = 4_000_000_000;

/// Figures that a caller may have got to, those oftenest that a run must meet.
const LIMITS: [u32; 9] = [
    MOST_COUNTED + 1,
    MOST_COUNTED,
    u32::MAX,
    MOST_COUNTED + 1,
    MOST_COUNTED,
    MOST_COUNTED - 1,
    MOST_COUNTED + 1,
    MOST_COUNTED,
    1 << 31,
];

/// What is wrong about a record.
#[derive(Clone, Copy)]
pub enum Spoilt {
    Dump(spoilt_records::Spoil),
    Day(spoilt_days::Spoil),
}

/// A dump or a recorded day, and the list of next hops for it.
pub struct Recording {
    pub of: Of,
    pub bytes: Vec<u8>,
    pub hops: Rc<[u32]>,
    /// Where each record begins that the bytes were made of.
    pub records: Vec<usize>,
    /// Where the one begins that has something wrong about it, and what that is.
    pub spoilt: Option<(usize, Spoilt)>,
}

/// Puts records together, which a function makes that is told which one is to be spoilt. Every other recording has
/// one, and some end inside a record.
pub fn recording(
    random: &mut Random,
    of: Of,
    hops: Rc<[u32]>,
    mut record: impl FnMut(&mut Random, bool) -> (Vec<u8>, Option<Spoilt>),
) -> Recording {
    let count = match random.below(100) {
        0..=2 => 0,
        3..=19 => 1,
        20..=74 => random.within(2, 6) as usize,
        75..=97 => random.within(7, 16) as usize,
        _ => random.within(17, 60) as usize,
    };
    let any = random.below(count + 1);
    let wrong = if random.percent(45) { random.pick(&[any, any, count.saturating_sub(1)]) } else { count };
    let mut recording = Recording { of, bytes: Vec::new(), hops, records: Vec::new(), spoilt: None };
    for number in 0..count {
        let start = recording.bytes.len();
        recording.records.push(start);
        let (bytes, spoilt) = record(random, number == wrong);
        recording.bytes.extend(bytes);
        recording.spoilt = recording.spoilt.or(spoilt.map(|spoilt| (start, spoilt)));
    }
    if random.percent(20) {
        let size = random.below(recording.bytes.len() + 1);
        recording.bytes.truncate(size);
        recording.records.retain(|start| *start < size);
    }
    recording
}

/// Some next hops, and a list in which most of them stand.
pub fn hops_of(random: &mut Random) -> (Vec<u32>, Rc<[u32]>) {
    let known: Vec<u32> = (0..random.within(1, 4)).map(|_| random.word()).collect();
    let mut hops = match random.percent(LONG_LISTS) {
        true => many_hops(random, known[0]),
        false => hops(random, known[0]),
    };
    for hop in &known[1..] {
        if !hops.is_empty() && random.percent(85) {
            let last = hops.len() - 1;
            let at = if random.percent(50) { last } else { random.below(hops.len()) };
            hops[at] = *hop;
        }
    }
    (known, hops.into())
}

/// Figures as a caller may have them before a chunk, most of them small. If one is at a limit, it is that whose turn
/// it is.
pub fn figures<const N: usize>(random: &mut Random, turn: &mut usize) -> [u32; N] {
    let mut figures = match random.below(4) {
        0 => [(); N].map(|_| random.within(0, 1000)),
        _ => [0; N],
    };
    if random.percent(AT_LIMITS) {
        figures[*turn % N] = LIMITS[*turn / N % LIMITS.len()];
        *turn += 1;
        if random.percent(10) {
            figures[random.below(N)] = random.pick(&LIMITS);
        }
    }
    figures
}

/// The header of a record that the calls of this kind read, or seldom one that those of the other kind do.
fn read_header(random: &mut Random, of: Of, size: u32) -> Vec<u8> {
    let kind = match (of, random.percent(90)) {
        (Of::Dump, true) | (Of::Day, false) => READ,
        _ => random.pick(&[READ_AS2, READ_AS4]),
    };
    header(random, kind, size)
}

/// Words that no call need have left, a room, and how many bytes of a recording stand in it as if they had come.
pub fn any_words(random: &mut Random, recording: &Recording) -> ([u32; 3], Vec<u8>, usize) {
    const MOST: u32 = ROOM as u32;
    let word = random.word();
    let in_header = random.within(1, HEADER as u32 - 1);
    let few = random.within(1, 40);
    let in_room = HEADER as u32 + random.within(0, 60);
    let words = match random.below(10) {
        0 => {
            [random.pick(&[1, 2, 13, 15, 18, 20, 65_536, 65_537, 65_549, 1 << 31, u32::MAX, word]), word, few]
        }
        1 => [0, random.pick(&[12, 13, 24, MOST, MOST + 1, u32::MAX, word]), 0],
        2 => [0, in_header, 0],
        3 => [0, random.pick(&[0, in_header]), random.pick(&[few, few, u32::MAX, word])],
        4 => {
            let kept = random.pick(&[in_room, MOST - few, MOST - 1, MOST]);
            [0, kept, MOST + random.pick(&[0, 0, 1, 1, 2]) - kept]
        }
        5 => [
            0,
            random.pick(&[u32::MAX, u32::MAX - few, 1 << 31, MOST]),
            random.pick(&[1, few, 13, 1 << 31, u32::MAX]),
        ],
        6 => [random.pick(&[0, 0, word]), random.word(), random.word()],
        7 => [0, in_room, few],
        // As a record leaves them of which a part has come.
        _ => return under_way(random, recording),
    };
    let mut room = random.bytes(ROOM);
    if random.percent(60) {
        let read = read_header(random, recording.of, few);
        room[..HEADER].copy_from_slice(&read);
        if random.percent(30) {
            room[random.within(4, 7) as usize] ^= 1 << random.within(0, 7);
        }
    }
    (words, room, 0)
}

/// The same in the middle of the first record. The number of bytes that are to come may be off.
fn under_way(random: &mut Random, recording: &Recording) -> ([u32; 3], Vec<u8>, usize) {
    let mut room = random.bytes(ROOM);
    let end = recording.records.get(1).copied().unwrap_or(recording.bytes.len()).min(room.len());
    if end <= HEADER {
        return ([0; 3], room, 0);
    }
    let come = HEADER + random.below(end - HEADER);
    room[..come].copy_from_slice(&recording.bytes[..come]);
    let to_come = (end - come) as u32;
    let to_come = random.pick(&[to_come, to_come, to_come, to_come + 1, to_come - 1]);
    ([0, come as u32, to_come], room, come)
}
