//! What a run has seen of the two parties.

use crate::calls::{AnyCall, Chunk, Of};
use crate::parties::{EDGES, PARTIES};
use crate::record_draft::HEADER;
use crate::sharing::{Met, MEETS, PLACES, READERS};
use crate::stream_tally::{add, each, never};
use crate::tally::{row, CALLS, GIVES, REFUSALS};
use crate::two_histories::PromiseTally;
use std::fmt;

/// Where a stream can be when another party goes on with it, by an import and then by a replay.
const WENT_ON: [&str; 6] = [
    "import between two records",
    "import inside a header",
    "import inside a body that is read",
    "replay between two records",
    "replay inside a header",
    "replay inside a body that is read",
];

#[derive(Default)]
pub struct PartyTally {
    /// What each party's calls were given.
    given: [[[u64; REFUSALS]; CALLS.len()]; PARTIES],
    /// What a call of a party was given, where the same call of a party that there is not was given 15 just before
    /// it, or a number that is asked before 15.
    beside: [[u64; REFUSALS]; CALLS.len()],
    /// Chunks of a party that there is not, to streams that have ended.
    after_end: [u64; 2],
    meets: [[u64; MEETS.len()]; PARTIES],
    /// Marks at which something changes, by the place, the party that reads and its call.
    edges: [[[[u64; EDGES.len()]; PLACES.len()]; READERS.len()]; PARTIES],
    /// The same of a mark of the other party in a party's own default word.
    strange_defaults: [[u64; READERS.len()]; PARTIES],
    went_on: [u64; WENT_ON.len()],
    pub promise: PromiseTally,
}

/// The numbers of the calls that name a party.
fn rows() -> impl Iterator<Item = usize> {
    (0..CALLS.len()).filter(|row| GIVES[*row].contains(&15))
}

/// The numbers that a call gives to a party that there is.
fn numbers(row: usize) -> impl Iterator<Item = usize> {
    GIVES[row].iter().copied().filter(|number| *number != 15)
}

impl PartyTally {
    /// Counts an answer to a call of one of the parties.
    pub fn count(&mut self, call: AnyCall, refusal: usize) {
        if let Some(given) = call.party().and_then(|party| self.given.get_mut(party as usize)) {
            given[row(call)][refusal] += 1;
        }
    }

    /// Counts a call that a party that there is not made just before, with the number that this was given.
    pub fn count_stranger(&mut self, call: AnyCall, stranger: u64, answer: u64) {
        match call {
            AnyCall::Chunk(chunk) if chunk.words[0] != 0 => {
                self.after_end[usize::from(chunk.of == Of::Day)] += 1;
            }
            _ if stranger >> 48 == 15 => self.beside[row(call)][(answer >> 48) as usize] += 1,
            _ => self.beside[row(call)][(stranger >> 48) as usize] += 1,
        }
    }

    pub fn count_met(&mut self, met: &Met) {
        add(&mut self.meets[met.party], &met.meets);
        for (times, met) in self.edges[met.party][met.reader].iter_mut().zip(&met.edges) {
            add(times, met);
        }
        self.strange_defaults[met.party][met.reader] += u64::from(met.strange_default);
    }

    /// Counts a chunk of another party than the one before it.
    pub fn count_went_on(&mut self, chunk: &Chunk) {
        let [_, kept, to_come] = chunk.words;
        let met = [kept == 0 && to_come == 0, kept > 0 && to_come == 0, kept >= HEADER as u32 && to_come > 0];
        let first = if chunk.of == Of::Dump { 0 } else { met.len() };
        add(&mut self.went_on[first..], &met);
    }

    /// How often that was met which each party's calls, each with each number, met most seldom; the same of 15 beside
    /// other numbers, and of marks.
    fn least(&self) -> [u64; 3] {
        let given = rows()
            .flat_map(|row| numbers(row).map(move |number| (row, number)))
            .flat_map(|(row, number)| self.given.iter().map(move |given| given[row][number]));
        let beside = rows()
            .flat_map(|row| numbers(row).map(move |number| (row, number)))
            .map(|(row, n)| self.beside[row][n]);
        let edges = self.edges.iter().flatten().flatten().flatten().copied();
        [given.min(), beside.min(), edges.min()].map(|least| least.unwrap_or(0))
    }

    /// The first thing that a long run should have met and did not.
    pub fn missing(&self) -> Option<String> {
        for row in rows() {
            for number in numbers(row) {
                if let Some(party) = self.given.iter().position(|given| given[row][number] == 0) {
                    return Some(format!("no {} of party {party} gave {number}", CALLS[row]));
                }
                if self.beside[row][number] == 0 {
                    return Some(format!("no {} of party 2 or above stood beside {number}", CALLS[row]));
                }
            }
        }
        if let Some(missed) = never(&self.after_end, &["import", "replay"]) {
            return Some(format!("no {missed} of party 2 or above came after the end of its stream"));
        }
        for (party, times) in self.meets.iter().enumerate() {
            if let Some(missed) = never(times, &MEETS) {
                return Some(format!("party {party} made no {missed}"));
            }
        }
        let went_on = || {
            never(&self.went_on, &WENT_ON)
                .map(|missed| format!("no other party went on with a stream: {missed}"))
        };
        self.missing_mark().or_else(went_on).or_else(|| self.promise.missing())
    }

    fn missing_mark(&self) -> Option<String> {
        for (party, readers) in self.edges.iter().enumerate() {
            for (reader, places) in READERS.iter().zip(readers) {
                for (place, times) in PLACES.iter().zip(places) {
                    if let Some(missed) = times.iter().position(|times| *times == 0) {
                        let mark = EDGES[missed];
                        return Some(format!("no {reader} of party {party} met the mark {mark} in {place}"));
                    }
                }
            }
            if let Some(missed) = never(&self.strange_defaults[party], &READERS) {
                return Some(format!(
                    "no {missed} of party {party} met the other's mark in its default word"
                ));
            }
        }
        None
    }
}

impl fmt::Display for PartyTally {
    fn fmt(&self, f: &mut fmt::Formatter) -> fmt::Result {
        let [given, beside, edges] = self.least();
        let strangers: u64 = rows().map(|row| self.beside[row].iter().sum::<u64>()).sum();
        writeln!(
            f,
            "  parties: each number by each call of either at least {given} times; {strangers} calls of a party that \
             there is not just before, beside each number at least {beside} times"
        )?;
        writeln!(
            f,
            "    marks at the edges: {}, by each call of either in a slot and in both default words at least {edges} \
             times; the other's mark in a party's own default word at least {} times",
            EDGES.map(|mark| mark.to_string()).join(", "),
            self.strange_defaults.iter().flatten().min().unwrap_or(&0)
        )?;
        for (party, times) in self.meets.iter().enumerate() {
            writeln!(f, "    by party {party}: {}", each(MEETS, times))?;
        }
        writeln!(f, "    streams that another party went on with: {}", each(WENT_ON, &self.went_on))?;
        writeln!(
            f,
            "    chunks of a party that there is not, after the end: imports {}, replays {}",
            self.after_end[0], self.after_end[1]
        )?;
        write!(f, "{}", self.promise)
    }
}
