//! A recorded day that comes in chunks: what C gets, and what table, tally, words and room hold after each
//! call.
//!
//! `framing` takes every byte by itself, and `reading` says what stands in an UPDATE. Each route is done by a
//! single call of `rules`, which is also asked for refusals 1, 2 and 15. Slips are told as there: the arm `_`
//! and the first value of `or` are right.

use super::calls::{Call, Lent, Settings, Stream};
use super::framing::{self, number, Place, Step, HEADER, MOST, REFUSAL};
use super::reading::{read, Said};
use super::records::hop;
use super::rules::answer;
use super::slips::Slip;

/// Where the figures stand in the tally: those of refused routes from the last of these on, by their number.
const SEEN: usize = 0;
const APPLIED: usize = 1;
const ACCEPTED: usize = 2;
const REFUSED: usize = 3;

/// How many bytes the header of a message has, and where its type stands.
const MESSAGE_HEADER: usize = 19;
const MESSAGE_TYPE: usize = 18;

/// Takes one chunk of a recorded day, as it crosses from C, and gives its answer as one number.
pub fn replay_chunk(
    t: &Settings,
    counters: &mut [u8],
    slots: &mut [u32],
    party: u32,
    lent: Lent,
    hops: &[u32],
    stream: &mut Stream,
    chunk: &[u8],
    slip: Option<Slip>,
) -> u64 {
    let mut replay = Replay { t, counters, slots, party, lent, hops, stream, slip };
    let number = match replay.before_all(chunk) {
        Some(number) => number,
        None => replay.take_all(chunk),
    };
    number as u64 * REFUSAL
}

// ---- What a record holds ----

/// The UPDATE in the body of a record that is read, as its bytes; none where the record is only seen; an error
/// where 12 is given before any UPDATE is read.
pub fn held(subtype: u32, body: &[u8]) -> Result<Option<&[u8]>, ()> {
    held_with(subtype, body, None)
}

fn held_with(subtype: u32, body: &[u8], slip: Option<Slip>) -> Result<Option<&[u8]>, ()> {
    let addresses = addresses_at(subtype, slip);
    if body.len() < addresses {
        return match slip {
            Some(Slip::ReplayShortFamilySeen) => Ok(None),
            _ => Err(()),
        };
    }
    let family = family_before(addresses, body, slip);
    if family != 1 {
        return match slip {
            Some(Slip::ReplayFamiliesEnd) => Err(()),
            Some(Slip::ReplayIpv6Asked) if family == 2 && body.len() < addresses + 32 + MESSAGE_HEADER => {
                Err(())
            }
            _ => Ok(None),
        };
    }
    if body.len() < addresses + 8 + MESSAGE_HEADER {
        return match slip {
            Some(Slip::ReplayShortMessageSeen) => Ok(None),
            _ => Err(()),
        };
    }
    of_message(&body[addresses + 8..], slip)
}

/// Where the addresses begin in a body: after two AS numbers, the interface index and the address family.
fn addresses_at(subtype: u32, slip: Option<Slip>) -> usize {
    let of_number = match (slip, subtype) {
        (Some(Slip::ReplayNumbersFourBytes), _) => 4,
        // Only slips read subtype 6.
        (_, 1 | 6) => 2,
        _ => 4,
    };
    2 * of_number + 2 + 2
}

/// The address family, which stands before the addresses.
fn family_before(addresses: usize, body: &[u8], slip: Option<Slip>) -> u32 {
    let family = number(&body[addresses - 2..addresses]);
    match slip {
        Some(Slip::ReplayFamilyLowByte) => family % 256,
        _ => family,
    }
}

/// A message that has a header, if it is an UPDATE. Of any other only the type is asked.
fn of_message(message: &[u8], slip: Option<Slip>) -> Result<Option<&[u8]>, ()> {
    let marked = message[..16].iter().all(|byte| *byte == 255);
    match (slip, message[MESSAGE_TYPE]) {
        (Some(Slip::ReplayBytesAfter), 2) => {
            let said = number(&message[16..18]) as usize;
            Ok(Some(&message[..said.min(message.len())]))
        }
        (_, 2) => Ok(Some(message)),
        (Some(Slip::ReplayOtherTypesMarker), _) if !marked => Err(()),
        _ => Ok(None),
    }
}

// ---- Before any byte ----

/// A stream, with the table and the list of hops that it is for.
struct Replay<'a> {
    t: &'a Settings,
    counters: &'a mut [u8],
    slots: &'a mut [u32],
    party: u32,
    lent: Lent,
    hops: &'a [u32],
    stream: &'a mut Stream,
    slip: Option<Slip>,
}

impl Replay<'_> {
    fn is(&self, slip: Slip) -> bool {
        self.slip == Some(slip)
    }

    /// The right value, or the wrong one if the slip named is at work.
    fn or<V>(&self, right: V, slip: Slip, wrong: V) -> V {
        if self.is(slip) {
            wrong
        } else {
            right
        }
    }

    /// The number that a chunk gets before its bytes are looked at, if it gets one.
    fn before_all(&self, chunk: &[u8]) -> Option<u32> {
        let of_table = framing::table_refusal(self.t, self.lent, self.rules_slip());
        let of_party = framing::party_refusal(self.t, self.party, self.lent, self.rules_slip());
        framing::before_all(&self.stream.words, self.too_much(chunk), of_table, self.slip).or(of_party)
    }

    /// Whether the chunk is too long, or a figure of the tally too high.
    fn too_much(&self, chunk: &[u8]) -> bool {
        let above = self.or(4_000_000_000, Slip::ReplayFigureEdge, 3_999_999_999);
        let asked = match self.slip {
            Some(Slip::ReplayFiguresFirstOnly) => REFUSED,
            Some(Slip::ReplayFigureLastUnasked) => REFUSED + 19,
            _ => REFUSED + 20,
        };
        chunk.len() > MOST || self.stream.tally[..asked].iter().any(|figure| *figure > above)
    }

    /// The slip for a single call, but none of its 64-bit number: no such number crosses here.
    fn rules_slip(&self) -> Option<Slip> {
        self.slip.filter(|slip| *slip != Slip::RefusalAt40)
    }
}

// ---- Byte by byte ----

impl Replay<'_> {
    /// Takes the bytes of a chunk, up to one that ends the replay; gives the number that ended it, or 0.
    fn take_all(&mut self, chunk: &[u8]) -> u32 {
        if chunk.is_empty() && self.is(Slip::StreamEmptyUntidied) {
            return 0;
        }
        if self.is(Slip::ReplayTallyZeroed) {
            self.stream.tally = [0; 23];
        }
        let before = self.stream.tally;
        let from = framing::place(&self.stream.words, self.of_kind(), self.slip);
        let (number, words) = framing::take_each(from, chunk, |place, byte| self.take(place, byte));
        if number != 0 && self.is(Slip::ReplayEndingLosesFigures) {
            self.stream.tally = before;
        }
        self.stream.words = words;
        number
    }

    /// Takes one byte; gives where the stream then stands, or the number that ends it.
    fn take(&mut self, place: Place, byte: u8) -> Result<Place, u32> {
        let step = framing::step(place, byte, self.stream, self.slip);
        self.follow(step)
    }

    /// Goes on from what a byte completed.
    fn follow(&mut self, step: Step) -> Result<Place, u32> {
        match step {
            Step::Within(Place::Read(read, left)) if self.is(Slip::ReplayLargeIpv4Only) => {
                self.large(read, left)
            }
            Step::Within(place) => Ok(place),
            Step::Header => self.header(),
            Step::Record(read) => self.body(read),
            Step::SteppedOver => {
                if !self.is(Slip::ReplaySteppedSeenEarly) {
                    self.count(SEEN);
                }
                Ok(Place::Header(0))
            }
        }
    }

    /// One more in a figure of the tally. Only slips let it pass the top.
    fn count(&mut self, which: usize) {
        self.stream.tally[which] = self.stream.tally[which].wrapping_add(1);
    }

    /// Gives the number that ends the replay; nothing of this record is counted, but by a slip.
    fn ends(&mut self, number: u32) -> u32 {
        if self.is(Slip::ReplayEndingSeen) {
            self.count(SEEN);
        }
        number
    }
}

// ---- A header ----

impl Replay<'_> {
    /// Whether the header in the room is that of a BGP4MP record which holds a message.
    fn of_kind(&self) -> bool {
        let kinds = framing::kinds(self.stream);
        match self.slip {
            Some(Slip::ReplayType17Read) => matches!(kinds, (16 | 17, 1 | 4)),
            Some(Slip::ReplayLocalRead) => matches!(kinds, (16, 1 | 4 | 6 | 7)),
            _ => matches!(kinds, (16, 1 | 4)),
        }
    }

    /// Goes on from a whole header.
    fn header(&mut self) -> Result<Place, u32> {
        let (of_kind, size) = (self.of_kind(), framing::body_size(self.stream, self.slip));
        if !of_kind && self.is(Slip::ReplaySteppedSeenEarly) {
            self.count(SEEN);
        }
        let large = of_kind && size as usize > MOST;
        if large && !self.is(Slip::ReplayLargeIpv4Only) {
            return Err(self.ends(14));
        }
        self.follow(framing::after_header(of_kind, size))
    }

    /// Slips only: asks for the family of a body that is too large, once so many bytes of the record have been
    /// read and so many are to come.
    fn large(&self, read: usize, left: u32) -> Result<Place, u32> {
        let addresses = addresses_at(framing::kinds(self.stream).1, self.slip);
        let fits = read + left as usize <= HEADER + MOST;
        if fits || read < HEADER + addresses {
            return Ok(Place::Read(read, left));
        }
        match family_before(addresses, &self.stream.room[HEADER..], self.slip) {
            1 => Err(14),
            _ => Ok(Place::SteppedOver(left)),
        }
    }
}

// ---- A body ----

impl Replay<'_> {
    /// Does the record of which so many bytes stand in the room; the next header follows.
    fn body(&mut self, read: usize) -> Result<Place, u32> {
        let (body, (_, subtype)) = (framing::body(self.stream, read), framing::kinds(self.stream));
        match held_with(subtype, &body, self.slip) {
            Err(()) => return Err(self.ends(12)),
            Ok(None) => (),
            Ok(Some(message)) => self.update(message)?,
        }
        self.count(SEEN);
        Ok(Place::Header(0))
    }

    /// Does an UPDATE, or leaves it out if it announces routes and gives no hop for them.
    fn update(&mut self, message: &[u8]) -> Result<(), u32> {
        let Ok(said) = read(message) else {
            return match self.slip {
                Some(Slip::ReplayFaultSeen) => Ok(()),
                _ => Err(self.ends(12)),
            };
        };
        match hop(self.hops, &[said.next_hop], None) {
            Some(hop) => self.apply(&said, hop),
            // Nothing is announced, so that no hop is asked.
            None if said.announced.is_empty() => self.apply(&said, 0),
            None => self.leave_out(&said),
        }
        Ok(())
    }

    /// Slips only: what is done of an UPDATE that gives no hop.
    fn leave_out(&mut self, said: &Said) {
        match self.slip {
            Some(Slip::ReplayHopApplied) => self.count(APPLIED),
            Some(Slip::ReplayHopWithdraws) => {
                self.routes(self.withdrawals(said));
            }
            Some(Slip::ReplayHopCounted) => said.announced.iter().for_each(|_| self.count(REFUSED + 13)),
            _ => (),
        }
    }

    /// Does every route of an UPDATE, the withdrawn ones first, and counts it as applied.
    fn apply(&mut self, said: &Said, hop: u32) {
        let mut parts = [self.withdrawals(said), self.adds(said, hop)];
        if self.is(Slip::ReplayAnnouncedFirst) {
            parts.reverse();
        }
        let calls = parts.concat();
        let empty = calls.is_empty();
        let refused = self.routes(calls);
        let unapplied = match self.slip {
            Some(Slip::ReplayEmptyUnapplied) => empty,
            Some(Slip::ReplayRefusedUnapplied) => refused,
            _ => false,
        };
        if !unapplied {
            self.count(APPLIED);
        }
    }

    /// Does some routes in their order, each as a single call, and counts each answer; gives whether one was
    /// refused, which only slips ask for.
    fn routes(&mut self, calls: Vec<Call>) -> bool {
        let mut refused = false;
        for call in calls {
            let slip = self.rules_slip();
            let number = answer(self.t, self.counters, self.slots, self.lent, call, slip) / REFUSAL;
            refused |= number != 0;
            self.count(match (self.slip, number as usize) {
                (Some(Slip::ReplaySevenAsEight), 7) => REFUSED + 8,
                (_, 0) => ACCEPTED,
                (_, number) => REFUSED + number,
            });
        }
        refused
    }

    fn withdrawals(&self, said: &Said) -> Vec<Call> {
        let party = self.or(self.party, Slip::StreamParty0, 0);
        said.withdrawn.iter().map(|&(prefix, length)| Call::Withdraw { party, prefix, length }).collect()
    }

    fn adds(&self, said: &Said, hop: u32) -> Vec<Call> {
        let party = self.or(self.party, Slip::StreamParty0, 0);
        said.announced.iter().map(|&(prefix, length)| Call::Add { party, prefix, length, hop }).collect()
    }
}
