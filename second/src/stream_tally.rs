//! What a run has seen of streams, those of imports and those of replays apart, and of their ends.

use crate::calls::{Chunk, End, Of, Stream};
use crate::cutting::MOST_TAKEN;
use crate::library::ROOM;
use crate::paper_streams::is_read;
use crate::record_draft::HEADER;
use crate::recordings::MOST_COUNTED;
use std::fmt;

/// Where a chunk can be cut off from the next one.
const CUTS: [&str; 7] = [
    "between two records",
    "inside a header",
    "between a header and its body",
    "inside a body that is read",
    "before the last byte of such a body",
    "inside a body that is stepped over",
    "before the last byte of such a body",
];

/// What a chunk can be that is given 0.
const TAKEN: [&str; 5] = [
    "of no bytes",
    "of one byte",
    "of 65,536 bytes",
    "of several records",
    "with a figure above 4,000,000,000 that is not its own",
];

/// What a chunk can be that is given 19.
const REFUSED: [&str; 4] =
    ["of 65,537 bytes", "with a figure of 2^32 - 1", "with wrong settings or sizes", "inside a record"];

/// The numbers that can have ended a stream of which a chunk or another end comes, and any other.
const ENDED_BY: [u32; 4] = [0, 12, 14, 17];
const AGAIN: usize = ENDED_BY.len() + 1;

/// What a chunk of a stream that has ended can be beside that.
const AFTER: [&str; 3] =
    ["with wrong settings or sizes", "of 65,537 bytes", "with a figure above 4,000,000,000"];

/// Where a stream can be when it ends.
const ENDS: [&str; 4] = [
    "between two records",
    "inside a header",
    "inside a body that is read",
    "inside a body that is stepped over",
];

/// What words can say that no call leaves.
const WORDS: [&str; 5] = [
    "of 12 or more bytes of a header",
    "of a body with part of a header in the room",
    "of a body that the room does not hold",
    "of a body after a header of another kind",
    "of a body that fills the room",
];

#[derive(Default)]
pub struct StreamTally {
    cuts: [u64; CUTS.len()],
    taken: [u64; TAKEN.len()],
    refused: [u64; REFUSED.len()],
    again: [u64; AGAIN],
    after: [u64; AFTER.len()],
    words: [u64; WORDS.len()],
    /// Recordings that were cut in two ways, and of these how many ended by which number.
    two_ways: [u64; AGAIN],
    most_records: u64,
}

/// Adds what was met to how often it was.
pub fn add(times: &mut [u64], met: &[bool]) {
    for (times, met) in times.iter_mut().zip(met) {
        *times += u64::from(*met);
    }
}

/// The first name of what was never met.
pub fn never<'a>(times: &[u64], names: &[&'a str]) -> Option<&'a str> {
    times.iter().position(|times| *times == 0).map(|missed| names[missed])
}

/// Names with how often each was met.
pub fn each<'a>(names: impl IntoIterator<Item = &'a str>, times: &[u64]) -> String {
    let told: Vec<String> =
        names.into_iter().zip(times).map(|(name, times)| format!("{name}: {times}")).collect();
    told.join(", ")
}

/// Which of the numbers that end a stream.
fn by(number: u64) -> usize {
    ENDED_BY.iter().position(|known| u64::from(*known) == number).unwrap_or(ENDED_BY.len())
}

fn ended_by(which: usize) -> String {
    ENDED_BY.get(which).map_or("another number".to_string(), u32::to_string)
}

/// Names of the numbers that end a stream, with how often each was met.
fn each_number(times: &[u64]) -> String {
    let names: Vec<String> = (0..times.len()).map(ended_by).collect();
    each(names.iter().map(String::as_str), times)
}

/// The figures that a chunk's own call counts, and those of the other.
fn figures(chunk: &Chunk) -> (&[u32], &[u32]) {
    match chunk.of {
        Of::Dump => (&chunk.counts, &chunk.tally),
        Of::Day => (&chunk.tally, &chunk.counts),
    }
}

/// The records that a chunk has counted, as far as they are: of a dump those that are read.
fn records(chunk: &Chunk, after: &Stream) -> u64 {
    let more = |before: &[u32], after: &[u32]| -> u64 {
        after.iter().zip(before).map(|(after, before)| u64::from(after - before)).sum()
    };
    match chunk.of {
        Of::Dump => more(&chunk.counts, &after.counts),
        Of::Day => more(&chunk.tally[..1], &after.tally[..1]),
    }
}

impl StreamTally {
    /// Counts a chunk by what the stream holds after it; settings or sizes may be wrong.
    pub fn count(&mut self, chunk: &Chunk, wrong: bool, answer: u64, after: &Stream) {
        let (Chunk { bytes, words, .. }, number) = (chunk, answer >> 48);
        let (own, other) = figures(chunk);
        let too_long = bytes.len() == MOST_TAKEN + 1;
        let most = own.iter().max().copied().unwrap_or(0);
        if words[0] != 0 {
            self.again[by(number)] += 1;
            return add(&mut self.after, &[wrong, too_long, most > MOST_COUNTED]);
        }
        let inside = words[1] != 0 || words[2] != 0;
        match number {
            1 | 2 | 15 => return,
            19 => return add(&mut self.refused, &[too_long, most == u32::MAX, wrong, inside]),
            _ => add(&mut self.words, &words_met(chunk)),
        }
        let records = records(chunk, after);
        self.most_records = self.most_records.max(records);
        if number != 0 {
            return;
        }
        let [_, kept, to_come] = after.words;
        let (header, read) = (HEADER as u32, kept > 0);
        let cuts = [
            kept == 0 && to_come == 0,
            read && to_come == 0,
            kept == header && to_come > 0,
            kept > header && to_come > 1,
            read && to_come == 1,
            !read && to_come > 1,
            !read && to_come == 1,
        ];
        add(&mut self.cuts, &cuts);
        let size = bytes.len();
        let others = other.iter().any(|figure| *figure > MOST_COUNTED);
        add(&mut self.taken, &[size == 0, size == 1, size == MOST_TAKEN, records > 1, others]);
    }

    /// Counts a recording that was cut in two ways, by its final number.
    pub fn count_two_ways(&mut self, answer: u64) {
        self.two_ways[by(answer >> 48)] += 1;
    }

    /// The first thing that a long run should have met and did not.
    pub fn missing(&self) -> Option<String> {
        let met: [(&[u64], &[&str], &str); 5] = [
            (&self.cuts, &CUTS, "chunk was cut off"),
            (&self.taken, &TAKEN, "chunk was accepted"),
            (&self.refused, &REFUSED, "chunk was refused as 19"),
            (&self.after, &AFTER, "chunk came after the end of its stream"),
            (&self.words, &WORDS, "chunk was taken with words"),
        ];
        let numbers: [(&[u64], &str); 2] = [
            (&self.again, "chunk came to a stream that had ended by"),
            (&self.two_ways[..ENDED_BY.len()], "stream that was cut in two ways ended by"),
        ];
        let met = met
            .iter()
            .find_map(|(times, names, what)| never(times, names).map(|missed| format!("no {what} {missed}")));
        let numbers = || {
            numbers.iter().find_map(|(times, what)| {
                let missed = times.iter().position(|times| *times == 0)?;
                Some(format!("no {what} {}", ended_by(missed)))
            })
        };
        met.or_else(numbers)
    }
}

/// Which words a chunk comes with that no call leaves.
fn words_met(chunk: &Chunk) -> [bool; WORDS.len()] {
    let [_, kept, to_come] = chunk.words.map(|word| word as usize);
    let fits = kept + to_come <= ROOM;
    let read = is_read(chunk.of, &chunk.header);
    [
        kept >= HEADER && to_come == 0,
        (1..HEADER).contains(&kept) && to_come > 0,
        kept >= HEADER && to_come > 0 && !fits,
        kept >= HEADER && to_come > 0 && fits && !read,
        kept >= HEADER && to_come > 0 && kept + to_come == ROOM && read,
    ]
}

impl fmt::Display for StreamTally {
    fn fmt(&self, f: &mut fmt::Formatter) -> fmt::Result {
        let met: [(&str, &[u64], &[&str]); 5] = [
            ("chunks cut off", &self.cuts, &CUTS),
            ("chunks accepted", &self.taken, &TAKEN),
            ("chunks refused as 19", &self.refused, &REFUSED),
            ("chunks after the end", &self.after, &AFTER),
            ("chunks taken with words", &self.words, &WORDS),
        ];
        for (what, times, names) in met {
            writeln!(f, "    {what}: {}", each(names.iter().copied(), times))?;
        }
        writeln!(f, "    chunks after an end by {}", each_number(&self.again))?;
        writeln!(f, "    cut in two ways, and ended by {}", each_number(&self.two_ways))?;
        write!(f, "    at most {} records in a chunk", self.most_records)
    }
}

/// The ends of streams.
#[derive(Default)]
pub struct EndTally {
    ends: [u64; ENDS.len()],
    again: [u64; AGAIN],
}

impl EndTally {
    pub fn count(&mut self, end: &End, answer: u64) {
        let [ended, kept, to_come] = end.words;
        if ended != 0 {
            self.again[by(answer >> 48)] += 1;
            return;
        }
        let met = [
            kept == 0 && to_come == 0,
            kept > 0 && to_come == 0,
            kept >= HEADER as u32 && to_come > 0,
            kept == 0 && to_come > 0,
        ];
        add(&mut self.ends, &met);
    }

    /// The first thing that a long run should have met and did not.
    pub fn missing(&self) -> Option<String> {
        if let Some(missed) = never(&self.ends, &ENDS) {
            return Some(format!("no stream ended {missed}"));
        }
        let missed = self.again.iter().position(|times| *times == 0)?;
        Some(format!("no second end came to a stream that had ended by {}", ended_by(missed)))
    }
}

impl fmt::Display for EndTally {
    fn fmt(&self, f: &mut fmt::Formatter) -> fmt::Result {
        writeln!(f, "  streams ended: {}", each(ENDS, &self.ends))?;
        write!(f, "  ends after an end by {}", each_number(&self.again))
    }
}
