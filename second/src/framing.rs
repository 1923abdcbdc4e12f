//! A stream of records that comes in chunks: what is asked before any byte, where the stream stands between two
//! bytes, and what each byte completes. What is done with a record is told by `imports` and `replays`.
//!
//! Slips are told as in `rules`: the arm `_` is right.

use super::calls::{Call, Lent, Settings, Stream};
use super::rules::answer;
use super::slips::Slip;

/// What a refusal is multiplied by in the number that C gets.
pub const REFUSAL: u64 = 1 << 48;

/// How many bytes a header has.
pub const HEADER: usize = 12;

/// How many bytes a body may have that is read, and a chunk.
pub const MOST: usize = 65_536;

/// The number in some bytes, the first one highest.
pub fn number(bytes: &[u8]) -> u32 {
    bytes.iter().fold(0, |number, byte| number * 256 + *byte as u32)
}

// ---- Before any byte ----

/// The number that ended a stream, if it has ended.
pub fn ended(words: &[u32; 3], slip: Option<Slip>) -> Option<u32> {
    let number = words[0].checked_sub(1)?;
    match slip {
        Some(Slip::StreamNumberLowByte) => Some(number % 256),
        _ => Some(number % 65_536),
    }
}

/// The number 1 or 2, if a single add gives it.
pub fn table_refusal(t: &Settings, lent: Lent, slip: Option<Slip>) -> Option<u32> {
    // Only a slip gives 18.
    add_refusal(t, 0, lent, slip).filter(|number| matches!(number, 1 | 2 | 18))
}

/// The number 15, if a single add for the party gives it.
pub fn party_refusal(t: &Settings, party: u32, lent: Lent, slip: Option<Slip>) -> Option<u32> {
    add_refusal(t, party, lent, slip).filter(|number| *number == 15)
}

/// The number that a single add gives. No memory goes with this one, so it can change none.
fn add_refusal(t: &Settings, party: u32, lent: Lent, slip: Option<Slip>) -> Option<u32> {
    let call = Call::Add { party, prefix: 0, length: 0, hop: 0 };
    let number = answer(t, &mut [], &mut [], lent, call, slip) / REFUSAL;
    Some(number as u32).filter(|number| *number != 0)
}

/// The number that a chunk gets before its party and its bytes are looked at, if it gets one: that which
/// ended the stream, then 19, then 1 or 2.
pub fn before_all(words: &[u32; 3], too_much: bool, of_table: Option<u32>, slip: Option<Slip>) -> Option<u32> {
    let of_end = match (slip, ended(words, slip)) {
        (Some(Slip::StreamGoesOnAfterEnd), Some(0)) => None,
        (_, of_end) => of_end,
    };
    let too_much = if too_much { Some(19) } else { None };
    match slip {
        Some(Slip::StreamEndedAfter19) => too_much.or(of_end).or(of_table),
        Some(Slip::StreamEndedLast) => too_much.or(of_table).or(of_end),
        _ => of_end.or(too_much).or(of_table),
    }
}

// ---- Where a stream stands ----

/// Where a stream that goes on stands.
#[derive(Clone, Copy)]
pub enum Place {
    /// So many bytes of a header have been read.
    Header(usize),
    /// In the body of a record that is read: so many of its bytes stand in the room, so many are to come.
    Read(usize, u32),
    /// In a body that is stepped over: so many bytes are to come.
    SteppedOver(u32),
}

impl Place {
    /// The words that say so.
    fn words(self) -> [u32; 3] {
        match self {
            Place::Header(read) => [0, read as u32, 0],
            Place::Read(read, left) => [0, read as u32, left],
            Place::SteppedOver(left) => [0, 0, left],
        }
    }
}

/// What the words mean, of a stream that goes on; whether the header in the room is of a kind that is read is
/// told by the call.
pub fn place(words: &[u32; 3], of_kind: bool, slip: Option<Slip>) -> Place {
    let [_, read, left] = *words;
    let (room, taken) = (read as usize, read as usize + left as usize);
    if left == 0 {
        return match slip {
            Some(Slip::StreamHeaderAnew) => Place::Header(0),
            _ => Place::Header(if room < HEADER { room } else { 0 }),
        };
    }
    let fits = taken <= HEADER + MOST || slip == Some(Slip::StreamSumUnasked);
    let of_kind = of_kind || slip == Some(Slip::StreamRoomUnasked);
    if room >= HEADER && fits && of_kind {
        Place::Read(room, left)
    } else {
        Place::SteppedOver(left)
    }
}

// ---- Byte by byte ----

/// What a byte completes.
pub enum Step {
    /// Neither a header nor a record: the stream then stands there.
    Within(Place),
    /// A header, which stands in the room.
    Header,
    /// A record that is read: so many bytes of it stand in the room.
    Record(usize),
    /// A record that is stepped over.
    SteppedOver,
}

/// Takes the bytes of a chunk, up to one that ends the stream; gives the number that ended it, or 0, and the
/// words that then hold.
pub fn take_each(
    mut place: Place,
    chunk: &[u8],
    mut take: impl FnMut(Place, u8) -> Result<Place, u32>,
) -> (u32, [u32; 3]) {
    for byte in chunk {
        place = match take(place, *byte) {
            Ok(next) => next,
            Err(number) => return (number, [number + 1, 0, 0]),
        };
    }
    (0, place.words())
}

/// Takes one byte, into the room if it is of a header or of a record that is read.
pub fn step(place: Place, byte: u8, stream: &mut Stream, slip: Option<Slip>) -> Step {
    match place {
        Place::Header(read) => {
            keep(stream, read, byte);
            if read + 1 < HEADER {
                Step::Within(Place::Header(read + 1))
            } else {
                Step::Header
            }
        }
        Place::Read(read, left) => {
            keep(stream, read, byte);
            if left > 1 {
                Step::Within(Place::Read(read + 1, left - 1))
            } else {
                Step::Record(read + 1)
            }
        }
        Place::SteppedOver(left) => {
            if slip == Some(Slip::StreamSkippedKept) {
                let at = HEADER + body_size(stream, slip).wrapping_sub(left) as usize;
                keep(stream, at, byte);
            }
            if left > 1 {
                Step::Within(Place::SteppedOver(left - 1))
            } else {
                Step::SteppedOver
            }
        }
    }
}

/// Writes a byte into the room. Only slips ask for a place behind it.
fn keep(stream: &mut Stream, at: usize, byte: u8) {
    if let Some(place) = stream.room.get_mut(at) {
        *place = byte;
    }
}

/// The type and the subtype in the header in the room.
pub fn kinds(stream: &Stream) -> (u32, u32) {
    (number(&stream.room[4..6]), number(&stream.room[6..8]))
}

/// How many bytes the body has, by the header in the room.
pub fn body_size(stream: &Stream, slip: Option<Slip>) -> u32 {
    let field = number(&stream.room[8..12]);
    match slip {
        Some(Slip::StreamEmptyBodyWaits) => field.max(1),
        _ => field,
    }
}

/// What a whole header leads to, by whether its record is read and how many bytes the body has: into that, or
/// past the record if it is empty.
pub fn after_header(read: bool, size: u32) -> Step {
    match (read, size) {
        (true, 0) => Step::Record(HEADER),
        (true, _) => Step::Within(Place::Read(HEADER, size)),
        (false, 0) => Step::SteppedOver,
        (false, _) => Step::Within(Place::SteppedOver(size)),
    }
}

/// The body of a record of which so many bytes stand in the room, as far as that reaches.
pub fn body(stream: &Stream, read: usize) -> Vec<u8> {
    stream.room[HEADER..read.min(HEADER + MOST)].to_vec()
}
