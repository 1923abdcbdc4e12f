//! A dump that comes in chunks: what C gets, and what table, counts, words and room hold after each call.
//!
//! `framing` takes every byte by itself. `records` says what stands in a body and which hop it gives. Each
//! route is done by a single add of `rules`, which is also asked for refusals 1, 2 and 15. Slips are told as
//! there: the arm `_` and the first value of `or` are right.

use super::calls::{Call, Lent, Settings, Stream};
use super::framing::{self, Place, Step, HEADER, MOST, REFUSAL};
use super::records::{hop, read_with};
use super::rules::answer;
use super::slips::Slip;

pub use super::records::{read_body, Recorded};

/// Takes one chunk, as it crosses from C, and gives its answer as one number.
pub fn import_chunk(
    t: &Settings,
    counters: &mut [u8],
    slots: &mut [u32],
    party: u32,
    lent: Lent,
    hops: &[u32],
    stream: &mut Stream,
    chunk: &[u8],
    slip: Option<Slip>,
) -> u64 {
    let mut import = Import { t, counters, slots, party, lent, hops, stream, slip };
    let number = match import.before_all(chunk) {
        Some(number) => import.refused(number),
        None => import.take_all(chunk),
    };
    number as u64 * REFUSAL
}

/// Ends a stream, and gives its answer as one number.
pub fn end_stream(words: &mut [u32; 3], slip: Option<Slip>) -> u64 {
    let number = match framing::ended(words, slip) {
        Some(number) if slip != Some(Slip::StreamEndAnew) => number,
        _ => end(words, slip),
    };
    number as u64 * REFUSAL
}

/// Ends a stream that goes on: 17 if it stands inside a record.
fn end(words: &mut [u32; 3], slip: Option<Slip>) -> u32 {
    let (in_header, in_body) = ((1..=11).contains(&words[1]), words[2] != 0);
    let inside = match slip {
        Some(Slip::StreamSkippedEndPasses) => in_header || in_body && words[1] >= 12,
        Some(Slip::StreamHeaderEndPasses) => in_body,
        Some(Slip::StreamFullHeaderInside) => words[1] != 0 || in_body,
        _ => in_header || in_body,
    };
    let number = if inside { 17 } else { 0 };
    if slip != Some(Slip::StreamEndUnwritten) {
        *words = [number + 1, 0, 0];
    }
    number
}

/// A stream, with the table and the list of hops that it is for.
struct Import<'a> {
    t: &'a Settings,
    counters: &'a mut [u8],
    slots: &'a mut [u32],
    party: u32,
    lent: Lent,
    hops: &'a [u32],
    stream: &'a mut Stream,
    slip: Option<Slip>,
}

// ---- Before any byte ----

impl Import<'_> {
    fn is(&self, slip: Slip) -> bool {
        self.slip == Some(slip)
    }

    /// The right value, or the wrong one if the slip named is at work.
    fn or<V>(&self, right: V, slip: Slip, wrong: V) -> V {
        if self.is(slip) {
            wrong
        } else {
            right
        }
    }

    /// The number that a chunk gets before its bytes are looked at, if it gets one.
    fn before_all(&self, chunk: &[u8]) -> Option<u32> {
        let of_table = self.table_refusal(chunk);
        let too_much = match self.slip {
            Some(Slip::ImportTableBefore19) => of_table.is_none() && self.too_much(chunk),
            _ => self.too_much(chunk),
        };
        let of_party = framing::party_refusal(self.t, self.party, self.lent, self.rules_slip());
        framing::before_all(&self.stream.words, too_much, of_table, self.slip).or(of_party)
    }

    /// Whether the chunk is too long, or a count too high.
    fn too_much(&self, chunk: &[u8]) -> bool {
        let too_long = match self.slip {
            Some(Slip::ImportChunkTo65535) => chunk.len() >= MOST,
            Some(Slip::ImportChunkUnasked) => false,
            _ => chunk.len() > MOST,
        };
        let above = self.or(4_000_000_000, Slip::ImportCountEdge, 3_999_999_999);
        let asked = self.or(3, Slip::ImportCountFirstOnly, 1);
        too_long || self.stream.counts[..asked].iter().any(|count| *count > above)
    }

    /// The number 1 or 2, if a single add gives it.
    fn table_refusal(&self, chunk: &[u8]) -> Option<u32> {
        if chunk.is_empty() && self.is(Slip::ImportEmptyUnasked) {
            return None;
        }
        framing::table_refusal(self.t, self.lent, self.rules_slip())
    }

    /// The slip for a single add, but none of its 64-bit number: no such number crosses here.
    fn rules_slip(&self) -> Option<Slip> {
        match self.slip {
            Some(Slip::ImportOddPasses) => Some(Slip::OddUnasked),
            slip => slip.filter(|slip| *slip != Slip::RefusalAt40),
        }
    }

    /// Gives a number back; nothing is written, but by a slip.
    fn refused(&mut self, number: u32) -> u32 {
        if self.is(Slip::ImportRefusedEnds) && self.stream.words[0] == 0 && number != 15 {
            self.stream.words = [number + 1, 0, 0];
        }
        number
    }
}

// ---- Byte by byte ----

impl Import<'_> {
    /// Takes the bytes of a chunk, up to one that ends the import; gives the number that ended it, or 0.
    fn take_all(&mut self, chunk: &[u8]) -> u32 {
        if chunk.is_empty() && self.is(Slip::StreamEmptyUntidied) {
            return 0;
        }
        if self.is(Slip::ImportCountsZeroed) {
            self.stream.counts = [0; 3];
        }
        let undoes = self.is(Slip::ImportEndingUndoes);
        let before = undoes.then(|| (self.counters.to_vec(), self.slots.to_vec(), self.stream.counts));
        let from = framing::place(&self.stream.words, self.of_kind(), self.slip);
        let (number, words) = framing::take_each(from, chunk, |place, byte| self.take(place, byte));
        if let Some((counters, slots, counts)) = before.filter(|_| number != 0) {
            self.counters.copy_from_slice(&counters);
            self.slots.copy_from_slice(&slots);
            self.stream.counts = counts;
        }
        self.stream.words = words;
        number
    }

    /// Takes one byte; gives where the stream then stands, or the number that ends it.
    fn take(&mut self, place: Place, byte: u8) -> Result<Place, u32> {
        let step = framing::step(place, byte, self.stream, self.slip);
        let of_length = matches!(place, Place::Read(read, _) if read == HEADER + 4);
        if of_length && byte > 32 && self.is(Slip::StreamFaultEarly) {
            return Err(12);
        }
        self.follow(step)
    }

    /// Goes on from what a byte completed.
    fn follow(&mut self, step: Step) -> Result<Place, u32> {
        match step {
            Step::Within(place) => Ok(place),
            Step::Header => self.header(),
            Step::Record(read) => self.body(read),
            Step::SteppedOver => Ok(Place::Header(0)),
        }
    }
}

// ---- A header ----

impl Import<'_> {
    /// Whether the header in the room is that of a RIB_IPV4_UNICAST record of TABLE_DUMP_V2.
    fn of_kind(&self) -> bool {
        let (kind, subkind) = framing::kinds(self.stream);
        match self.slip {
            Some(Slip::ImportTypeUnasked) => subkind == 2,
            Some(Slip::ImportSubtypeUnasked) => kind == 13,
            _ => kind == 13 && subkind == 2,
        }
    }

    /// How many bytes the body has, by the header in the room.
    fn size(&self) -> u32 {
        let field = framing::body_size(self.stream, self.slip);
        match self.slip {
            Some(Slip::ImportSizeInclusive) => field.saturating_sub(12),
            Some(Slip::ImportSizeLow16Bits) => field % 65_536,
            _ => field,
        }
    }

    /// Goes on from a whole header.
    fn header(&mut self) -> Result<Place, u32> {
        let (of_kind, size) = (self.of_kind(), self.size());
        let most = self.or(MOST, Slip::ImportLargeFrom65536, MOST - 1);
        let large = size as usize > most;
        if large && (of_kind || self.is(Slip::ImportLargeOtherKinds)) {
            if self.is(Slip::ImportLargeStepped) {
                return Ok(Place::SteppedOver(size));
            }
            self.ends(14)?;
        }
        self.follow(framing::after_header(of_kind, size))
    }

    /// Ends the import with a number; nothing of this record is counted, but by a slip.
    fn ends(&mut self, number: u32) -> Result<(), u32> {
        if self.is(Slip::ImportEndingCounted) {
            self.count(1);
        }
        Err(number)
    }
}

// ---- A body ----

impl Import<'_> {
    /// Does the record of which so many bytes stand in the room; the next header follows.
    fn body(&mut self, read: usize) -> Result<Place, u32> {
        let body = framing::body(self.stream, read);
        match (self.slip, read_with(&body, self.hops, self.slip)) {
            (_, Ok(said)) => self.add(said),
            (Some(Slip::ImportFaultStepped), _) => (),
            (Some(Slip::ImportFaultLate), _) => {
                if let Ok(said) = read_with(&body, self.hops, Some(Slip::ImportStopsAtHop)) {
                    self.add(said);
                }
                self.ends(12)?;
            }
            _ => self.ends(12)?,
        }
        Ok(Place::Header(0))
    }

    /// Adds the route of a record, if it has a hop, and counts the record.
    fn add(&mut self, said: Recorded) {
        let Recorded { prefix, length, next_hops } = said;
        let Some(hop) = hop(self.hops, &next_hops, self.slip) else {
            return match self.slip {
                Some(Slip::ImportNoneUncounted) => (),
                Some(Slip::ImportNoneRefused) => self.count(1),
                _ => self.count(2),
            };
        };
        let party = self.or(self.party, Slip::StreamParty0, 0);
        let call = Call::Add { party, prefix, length, hop };
        let slip = self.rules_slip();
        match answer(self.t, self.counters, self.slots, self.lent, call, slip) / REFUSAL {
            0 => self.count(0),
            11 if self.is(Slip::ImportOddUncounted) => (),
            _ if self.is(Slip::ImportRefusedUncounted) => (),
            _ => self.count(1),
        }
    }

    /// One more in a count. Only a slip lets it pass the top.
    fn count(&mut self, which: usize) {
        self.stream.counts[which] = self.stream.counts[which].wrapping_add(1);
    }
}
