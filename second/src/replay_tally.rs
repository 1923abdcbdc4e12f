//! What a run has seen of replays.

use crate::calls::{Chunk, Stream, FIGURES};
use crate::day_draft::{ADDRESSES, IPV4, IPV6, MESSAGE_HEADER, READ_AS2, READ_AS4};
use crate::draft::{LENGTH_AT, TYPE_AT, UPDATE};
use crate::messages::read;
use crate::paper_days::{ACCEPTED, APPLIED, REFUSED, SEEN};
use crate::paper_streams::kind;
use crate::record_draft::{HEADER, MOST_BODY, READ};
use crate::recordings::MOST_COUNTED;
use crate::spoilt_days::{Spoil, SPOILS};
use crate::stream_tally::{add, each, never, StreamTally};
use crate::streams::figure;
use std::fmt;

/// What a record can be that is stepped over.
const STEPPED_OVER: [&str; 11] = [
    "a change of state of subtype 0",
    "a change of state of subtype 5",
    "a local form of subtype 6",
    "a local form of subtype 7",
    "of type 17 and subtype 1",
    "of type 17 and subtype 4",
    "a dump's table of neighbours",
    "a dump's route",
    "of another kind",
    "without a body",
    "with a body above 65,536 bytes",
];

/// What a record can be that is read and does not end the replay, in each of the two subtypes.
const READ_BY_SUBTYPE: [&str; 15] = [
    "with an UPDATE that is applied",
    "with an end-of-RIB",
    "with an UPDATE that announces without NEXT_HOP",
    "with an UPDATE whose NEXT_HOP is not in the list",
    "with an OPEN",
    "with a NOTIFICATION",
    "with a KEEPALIVE",
    "with a ROUTE-REFRESH",
    "with a message of another type",
    "with no UPDATE and a bad marker",
    "with no UPDATE and another length than it says",
    "of IPv6 that IPv4's parts would fit in",
    "of IPv6 that is too short for them",
    "of another address family",
    "of an address family with the low byte of IPv4",
];
const SUBTYPES: [(u16, u16); 2] = [READ_AS2, READ_AS4];

/// What such a record can be, in any subtype.
const READ_BY_ANY: [&str; 6] = [
    "with an UPDATE that withdraws and announces",
    "with an UPDATE left out that withdraws",
    "with an UPDATE whose NEXT_HOP is past place 65,535",
    "with an UPDATE whose NEXT_HOP is at place 65,535",
    "with an UPDATE of 4,096 bytes",
    "with a body of 65,536 bytes",
];

/// The numbers under which routes can be refused. Number 10 is met over damaged memory alone.
const NUMBERS: [usize; 5] = [7, 8, 9, 10, 11];

#[derive(Default)]
pub struct ReplayTally {
    pub streams: StreamTally,
    stepped_over: [u64; STEPPED_OVER.len()],
    by_subtype: [[u64; READ_BY_SUBTYPE.len()]; SUBTYPES.len()],
    by_any: [u64; READ_BY_ANY.len()],
    /// By how much each figure has grown.
    counted: [u64; FIGURES],
    /// How many stored routes were announced, as far as it is known which are.
    replaced: u64,
    /// Chunks accepted with this figure at 4,000,000,000, and refused since it alone is 4,000,000,001.
    at_limit: [u64; FIGURES],
    above_limit: [u64; FIGURES],
    /// What was wrong about the records that ended a stream.
    spoilt: [u64; SPOILS.len()],
}

impl ReplayTally {
    /// Counts a chunk by what the stream holds after it, and how many stored routes were announced in it.
    pub fn count(&mut self, chunk: &Chunk, wrong: bool, answer: u64, after: &Stream, replaced: u32) {
        self.streams.count(chunk, wrong, answer, after);
        let number = answer >> 48;
        if chunk.words[0] != 0 || matches!(number, 1 | 2 | 15) {
            return;
        }
        if number == 19 {
            let high: Vec<usize> = (0..FIGURES).filter(|which| chunk.tally[*which] > MOST_COUNTED).collect();
            if let ([only], true) = (&high[..], chunk.bytes.len() <= MOST_BODY) {
                self.above_limit[*only] += u64::from(chunk.tally[*only] == MOST_COUNTED + 1);
            }
            return;
        }
        self.replaced += u64::from(replaced);
        for which in 0..FIGURES {
            self.counted[which] += u64::from(after.tally[which] - chunk.tally[which]);
            self.at_limit[which] += u64::from(chunk.tally[which] == MOST_COUNTED);
        }
    }

    /// Counts a record that was seen.
    pub fn count_record(&mut self, record: &[u8], hops: &[u32]) {
        match SUBTYPES.iter().position(|known| *known == kind(record)) {
            None => add(&mut self.stepped_over, &stepped_over_met(record)),
            Some(subtype) => {
                let (by_subtype, by_any) = read_met(subtype, &record[HEADER..], hops);
                add(&mut self.by_subtype[subtype], &by_subtype);
                add(&mut self.by_any, &by_any);
            }
        }
    }

    /// Counts a record that has ended a stream since this was wrong about it.
    pub fn count_spoilt(&mut self, spoil: Spoil) {
        let which = SPOILS.iter().position(|(known, _)| *known == spoil);
        self.spoilt[which.expect("all of them are listed")] += 1;
    }

    /// The first thing that a long run should have met and did not.
    pub fn missing(&self) -> Option<String> {
        if let Some(missed) = never(&self.stepped_over, &STEPPED_OVER) {
            return Some(format!("no record of a day was seen that is stepped over, {missed}"));
        }
        for (times, (_, subtype)) in self.by_subtype.iter().zip(SUBTYPES) {
            if let Some(missed) = never(times, &READ_BY_SUBTYPE) {
                return Some(format!("no record of subtype {subtype} was seen {missed}"));
            }
        }
        if let Some(missed) = never(&self.by_any, &READ_BY_ANY) {
            return Some(format!("no record of a day was seen {missed}"));
        }
        let counted = [SEEN, APPLIED, ACCEPTED].into_iter().chain(NUMBERS.map(|number| REFUSED + number));
        if let Some(which) = counted.into_iter().find(|which| self.counted[*which] == 0) {
            return Some(format!("no replay counted {}", figure(which)));
        }
        if self.replaced == 0 {
            return Some("no replay announced a stored route".to_string());
        }
        for (times, what) in [(self.at_limit, "accepted at"), (self.above_limit, "refused above")] {
            if let Some(which) = times.iter().position(|times| *times == 0) {
                return Some(format!("no chunk of a day was {what} the limit of {}", figure(which)));
            }
        }
        if let Some(missed) = never(&self.spoilt, &SPOILS.map(|(_, told)| told)) {
            return Some(format!("no replay ended since {missed}"));
        }
        self.streams.missing().map(|missing| format!("of replays {missing}"))
    }
}

fn stepped_over_met(record: &[u8]) -> [bool; STEPPED_OVER.len()] {
    let known = [(16, 0), (16, 5), (16, 6), (16, 7), (17, 1), (17, 4), (13, 1), READ];
    let mut met = [false; STEPPED_OVER.len()];
    let which = known.iter().position(|known| *known == kind(record));
    met[which.unwrap_or(known.len())] = true;
    met[known.len() + 1] = record.len() == HEADER;
    met[known.len() + 2] = record.len() > HEADER + MOST_BODY;
    met
}

/// What the body is of a record that is read, with AS numbers of two bytes or of four.
fn read_met(
    subtype: usize,
    body: &[u8],
    hops: &[u32],
) -> ([bool; READ_BY_SUBTYPE.len()], [bool; READ_BY_ANY.len()]) {
    let addresses = [8, 12][subtype];
    let family = u16::from_be_bytes([body[addresses - 2], body[addresses - 1]]);
    let room = body.len() >= addresses + ADDRESSES + MESSAGE_HEADER;
    let mut by_subtype = [false; READ_BY_SUBTYPE.len()];
    let mut by_any = [false; READ_BY_ANY.len()];
    by_any[5] = body.len() == MOST_BODY;
    match family {
        IPV4 => of_message(&body[addresses + ADDRESSES..], hops, &mut by_subtype, &mut by_any),
        IPV6 if room => by_subtype[11] = true,
        IPV6 => by_subtype[12] = true,
        _ if family & 0xff == IPV4 => by_subtype[14] = true,
        _ => by_subtype[13] = true,
    }
    (by_subtype, by_any)
}

/// The same of a message.
fn of_message(message: &[u8], hops: &[u32], by_subtype: &mut [bool], by_any: &mut [bool]) {
    let kind = message[TYPE_AT];
    if kind != UPDATE {
        let said = usize::from(u16::from_be_bytes([message[LENGTH_AT], message[LENGTH_AT + 1]]));
        by_subtype[match kind {
            1 => 4,
            3 => 5,
            4 => 6,
            5 => 7,
            _ => 8,
        }] = true;
        by_subtype[9] = message[..LENGTH_AT] != [255; LENGTH_AT];
        by_subtype[10] = said != message.len();
        return;
    }
    let Ok(said) = read(message) else {
        return;
    };
    let (withdraws, announces) = (!said.withdrawn.is_empty(), !said.announced.is_empty());
    let place = (0..).zip(hops).find(|(_, hop)| Some(**hop) == said.next_hop).map(|(place, _)| place);
    let left_out = announces && place.is_none_or(|place| place > 65_535);
    by_subtype[0] = !left_out;
    by_subtype[1] = message.len() == 23;
    by_subtype[2] = left_out && said.next_hop.is_none();
    by_subtype[3] = left_out && said.next_hop.is_some() && place.is_none();
    by_any[0] = !left_out && withdraws && announces;
    by_any[1] = left_out && withdraws;
    by_any[2] = left_out && place.is_some();
    by_any[3] = !left_out && announces && place == Some(65_535);
    by_any[4] = !left_out && message.len() == 4096;
}

impl fmt::Display for ReplayTally {
    fn fmt(&self, f: &mut fmt::Formatter) -> fmt::Result {
        let [seen, applied, accepted] = [SEEN, APPLIED, ACCEPTED].map(|which| self.counted[which]);
        write!(
            f,
            "  records of days: seen {seen}, UPDATEs applied {applied}; their routes: accepted {accepted}"
        )?;
        for number in NUMBERS {
            write!(f, ", refused as {number}: {}", self.counted[REFUSED + number])?;
        }
        writeln!(f, ", announced again {}", self.replaced)?;
        writeln!(f, "    stepped over: {}", each(STEPPED_OVER, &self.stepped_over))?;
        for (times, (_, subtype)) in self.by_subtype.iter().zip(SUBTYPES) {
            writeln!(f, "    of subtype {subtype}: {}", each(READ_BY_SUBTYPE, times))?;
        }
        writeln!(f, "    of either: {}", each(READ_BY_ANY, &self.by_any))?;
        let least = |times: &[u64]| times.iter().min().copied().unwrap_or(0);
        writeln!(
            f,
            "    chunks accepted with a figure at its limit: each at least {} times, refused above it: {}",
            least(&self.at_limit),
            least(&self.above_limit)
        )?;
        writeln!(f, "{}", self.streams)?;
        write!(f, "    ended by a record: {}", each(SPOILS.map(|(_, told)| told), &self.spoilt))
    }
}
