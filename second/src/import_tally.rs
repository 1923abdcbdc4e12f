//! What a run has seen of imports.

use crate::calls::{Chunk, Stream};
use crate::recordings::MOST_COUNTED;
use crate::spoilt_records::{Spoil, SPOILS};
use crate::stream_tally::{add, each, never, StreamTally};
use std::fmt;

/// What a chunk can be that is given 0.
const TAKEN: [&str; 4] = [
    "with a route accepted",
    "with a route refused",
    "with a record without a hop",
    "with a count of 4,000,000,000",
];

#[derive(Default)]
pub struct ImportTally {
    pub streams: StreamTally,
    taken: [u64; TAKEN.len()],
    /// Chunks that were refused since a count was 4,000,000,001.
    too_high: u64,
    /// Routes accepted, routes refused, and records without a hop.
    records: [u64; 3],
    /// What was wrong about the records that ended a stream.
    spoilt: [u64; SPOILS.len()],
}

impl ImportTally {
    /// Counts a chunk of a stream that goes on by what that holds after it.
    pub fn count(&mut self, chunk: &Chunk, wrong: bool, answer: u64, after: &Stream) {
        self.streams.count(chunk, wrong, answer, after);
        let (number, most) = (answer >> 48, chunk.counts.iter().max().copied().unwrap_or(0));
        if chunk.words[0] != 0 || matches!(number, 1 | 2 | 15) {
            return;
        }
        if number == 19 {
            self.too_high += u64::from(most == MOST_COUNTED + 1);
            return;
        }
        let more = [0, 1, 2].map(|which| u64::from(after.counts[which] - chunk.counts[which]));
        for (times, more) in self.records.iter_mut().zip(more) {
            *times += more;
        }
        if number == 0 {
            let [accepted, refused, none] = more.map(|more| more > 0);
            add(&mut self.taken, &[accepted, refused, none, most == MOST_COUNTED]);
        }
    }

    /// Counts a record that has ended a stream since this was wrong about it.
    pub fn count_spoilt(&mut self, spoil: Spoil) {
        let which = SPOILS.iter().position(|(known, _)| *known == spoil);
        self.spoilt[which.expect("all of them are listed")] += 1;
    }

    /// The first thing that a long run should have met and did not.
    pub fn missing(&self) -> Option<String> {
        if let Some(missed) = never(&self.taken, &TAKEN) {
            return Some(format!("no chunk of a dump was accepted {missed}"));
        }
        if self.too_high == 0 {
            return Some("no chunk of a dump was refused with a count of 4,000,000,001".to_string());
        }
        if let Some(missed) = never(&self.spoilt, &SPOILS.map(|(_, told)| told)) {
            return Some(format!("no import ended since {missed}"));
        }
        self.streams.missing().map(|missing| format!("of imports {missing}"))
    }
}

impl fmt::Display for ImportTally {
    fn fmt(&self, f: &mut fmt::Formatter) -> fmt::Result {
        let [accepted, refused, none] = self.records;
        writeln!(
            f,
            "  routes of dumps: accepted {accepted}, refused {refused}, records without a hop {none}"
        )?;
        writeln!(f, "    chunks accepted: {}", each(TAKEN, &self.taken))?;
        writeln!(f, "    chunks refused with a count of 4,000,000,001: {}", self.too_high)?;
        writeln!(f, "{}", self.streams)?;
        write!(f, "    ended by a record: {}", each(SPOILS.map(|(_, told)| told), &self.spoilt))
    }
}
