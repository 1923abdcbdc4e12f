//! What a run has seen. A run that never met a refusal or a kind of answer has compared nothing there.

use crate::calls::{AnyCall, Call, Chunk, Of, Sizes};
use crate::comparison_tally::ComparisonTally;
use crate::import_tally::ImportTally;
use crate::message_tally::MessageTally;
use crate::other_sizes::KINDS;
use crate::pair::Difference;
use crate::paper_streams::is_read;
use crate::party_tally::PartyTally;
use crate::record_draft::HEADER;
use crate::replacing::{MEETS, MEETS_UNDAMAGED};
use crate::replay_tally::ReplayTally;
use crate::stream_tally::{add, each, never, EndTally, StreamTally};
use crate::streams::StreamPair;
use std::fmt;

pub const CALLS: [&str; 13] = [
    "clear",
    "add",
    "withdraw",
    "change",
    "match vector",
    "lookup",
    "list",
    "message",
    "import",
    "replay",
    "comparison",
    "written withdrawal",
    "end of a stream",
];

/// The refusals that each call can give.
pub const GIVES: [&[usize]; CALLS.len()] = [
    &[0, 1, 2],
    &[0, 1, 2, 3, 4, 5, 8, 9, 11, 15],
    &[0, 1, 2, 3, 4, 7, 10, 15],
    &[0, 1, 2, 3, 4, 5, 7, 15],
    &[0, 1, 2],
    &[0, 1, 2, 15],
    &[0, 1, 2, 15, 18],
    &[0, 1, 2, 12, 13, 15],
    &[0, 1, 2, 12, 14, 15, 19],
    &[0, 1, 2, 12, 14, 15, 19],
    &[0, 1, 2, 15, 18],
    &[0, 3, 4, 18],
    &[0, 17],
];

/// So many of the calls, the first, have the settings of one table.
pub const WITH_SETTINGS: usize = 10;

/// Room for every refusal that a call can give.
pub const REFUSALS: usize = 20;

/// Where adds of stored prefixes are counted apart, and how much of what they can meet is met there.
const REPLACING: [(&str, usize); 2] =
    [("after a clear", MEETS_UNDAMAGED), ("over damaged memory", MEETS.len())];

/// Where a chunk can be taken by the calls of the other kind than the one before it: imports after replays, and then
/// replays after imports.
const MIXED: [&str; 6] = [
    "import went on in a header",
    "import went on in a body that a replay read",
    "import went on in a body that a replay stepped over",
    "replay went on in a header",
    "replay went on in a body that an import read",
    "replay went on in a body that an import stepped over",
];

#[derive(Default)]
pub struct Tally {
    pub histories: u64,
    given: [[u64; REFUSALS]; CALLS.len()],
    none: u64,
    default: u64,
    longer: u64,
    most_probes: u64,
    /// Accepted lists of no address, of one, and of more.
    empty: u64,
    single: u64,
    many: u64,
    most_addresses: usize,
    /// Accepted adds of stored prefixes, and what they met.
    replaced: [u64; REPLACING.len()],
    met: [[u64; MEETS.len()]; REPLACING.len()],
    messages: MessageTally,
    pub imports: ImportTally,
    pub replays: ReplayTally,
    pub ends: EndTally,
    pub parties: PartyTally,
    pub comparisons: ComparisonTally,
    mixed: [u64; MIXED.len()],
    /// Calls to streams that have ended, which give again the number that ended them, any number.
    again: u64,
    /// Calls with other sizes than their table's.
    other_sizes: [[u64; KINDS.len()]; WITH_SETTINGS],
    /// Histories whose filters are all of one size, the others, and those of the others in which a route of each
    /// length from 1 to 32 was added after the clear.
    equal: u64,
    unequal: u64,
    every_length: u64,
}

/// Which of the calls one is.
pub fn row(call: AnyCall) -> usize {
    match call {
        AnyCall::One(Call::Clear) => 0,
        AnyCall::One(Call::Add { .. }) => 1,
        AnyCall::One(Call::Withdraw { .. }) => 2,
        AnyCall::One(Call::Change { .. }) => 3,
        AnyCall::One(Call::Vector { .. }) => 4,
        AnyCall::One(Call::Lookup { .. }) => 5,
        AnyCall::List(_) => 6,
        AnyCall::Message(_) => 7,
        AnyCall::Chunk(Chunk { of: Of::Dump, .. }) => 8,
        AnyCall::Chunk(Chunk { of: Of::Day, .. }) => 9,
        AnyCall::Comparison(_) => 10,
        AnyCall::Writing(_) => 11,
        AnyCall::End(_) => 12,
    }
}

impl Tally {
    /// Counts an answer to a call whose sizes are of some of these kinds, unless its refusal is one that the call
    /// never gives.
    pub fn count(
        &mut self,
        call: AnyCall,
        kinds: [bool; KINDS.len()],
        answer: u64,
    ) -> Result<(), Difference> {
        let row = row(call);
        let ended = match call {
            AnyCall::Chunk(chunk) => chunk.words[0] != 0,
            AnyCall::End(end) => end.words[0] != 0,
            _ => false,
        };
        if ended {
            self.again += 1;
            return Ok(());
        }
        let refusal = (answer >> 48) as usize;
        if !GIVES[row].contains(&refusal) {
            return Err(Difference(format!("both give refusal {refusal}, which no {} gives", CALLS[row])));
        }
        self.given[row][refusal] += 1;
        self.parties.count(call, refusal);
        if row < WITH_SETTINGS {
            for (times, met) in self.other_sizes[row].iter_mut().zip(kinds) {
                *times += u64::from(met);
            }
        }
        match (call, refusal) {
            (AnyCall::One(Call::Lookup { .. }), 0) => self.count_lookup(answer),
            (AnyCall::List(list), 0) => self.count_list(list.addresses.len() / 4),
            (AnyCall::Message(message), 0 | 12 | 13) => self.messages.count(message, answer)?,
            _ => {}
        }
        Ok(())
    }

    /// Counts a chunk after which its stream is this one; settings or sizes may be wrong.
    pub fn count_chunk(&mut self, chunk: &Chunk, wrong: bool, answer: u64, after: &StreamPair) {
        match chunk.of {
            Of::Dump => self.imports.count(chunk, wrong, answer, after.held()),
            Of::Day => self.replays.count(chunk, wrong, answer, after.held(), after.replaced),
        }
    }

    /// Counts a chunk that calls of the other kind take than the one before it.
    pub fn count_mixed(&mut self, chunk: &Chunk) {
        let [_, kept, to_come] = chunk.words;
        let before = match chunk.of {
            Of::Dump => Of::Day,
            Of::Day => Of::Dump,
        };
        let read = kept >= HEADER as u32 && is_read(before, &chunk.header);
        let met = [kept > 0 && to_come == 0, to_come > 0 && read, to_come > 0 && kept == 0];
        let row = if chunk.of == Of::Dump { 0 } else { met.len() };
        add(&mut self.mixed[row..], &met);
    }

    /// What was seen of the streams of imports or of replays.
    pub fn streams_of(&mut self, of: Of) -> &mut StreamTally {
        match of {
            Of::Dump => &mut self.imports.streams,
            Of::Day => &mut self.replays.streams,
        }
    }

    /// Counts an accepted add of a stored prefix.
    pub fn count_replacing(&mut self, met: [bool; MEETS.len()], damaged: bool) {
        let row = usize::from(damaged);
        self.replaced[row] += 1;
        for (times, met) in self.met[row].iter_mut().zip(met) {
            *times += u64::from(met);
        }
    }

    /// Counts a history that has ended, with the lengths of which a route was added after its clear.
    pub fn count_history(&mut self, sizes: &Sizes, lengths: u32) {
        if sizes.values().windows(2).all(|two| two[0] == two[1]) {
            self.equal += 1;
        } else {
            self.unequal += 1;
            self.every_length += u64::from(lengths == u32::MAX);
        }
    }

    fn count_lookup(&mut self, answer: u64) {
        match (answer >> 40 & 1, answer >> 8 & 0xff) {
            (0, _) => self.none += 1,
            (_, 0) => self.default += 1,
            _ => self.longer += 1,
        }
        self.most_probes = self.most_probes.max(answer & 0xff);
    }

    fn count_list(&mut self, addresses: usize) {
        match addresses {
            0 => self.empty += 1,
            1 => self.single += 1,
            _ => self.many += 1,
        }
        self.most_addresses = self.most_addresses.max(addresses);
    }

    pub fn calls(&self) -> u64 {
        self.given.iter().flatten().sum::<u64>() + self.again
    }

    /// The first thing that a long run should have met and did not.
    pub fn missing(&self) -> Option<String> {
        for (row, gives) in GIVES.iter().enumerate() {
            if let Some(refusal) = gives.iter().find(|refusal| self.given[row][**refusal] == 0) {
                return Some(format!("no {} gave {refusal}", CALLS[row]));
            }
        }
        let met = [
            (self.none, "lookup answered none"),
            (self.default, "lookup answered the default"),
            (self.longer, "lookup answered a route"),
            (self.empty, "list of no address was accepted"),
            (self.single, "list of one address was accepted"),
            (self.many, "list of more addresses was accepted"),
            (self.equal, "history had filters all of one size"),
            (self.every_length, "history with unequal filters added a route of each length"),
        ];
        if let Some((_, what)) = met.iter().find(|(times, _)| *times == 0) {
            return Some(format!("no {what}"));
        }
        for ((when, meets), met) in REPLACING.iter().zip(self.met) {
            if let Some(missed) = met[..*meets].iter().position(|times| *times == 0) {
                return Some(format!("no add of a stored prefix {} was accepted {when}", MEETS[missed]));
            }
        }
        for (row, times) in self.other_sizes.iter().enumerate() {
            if let Some(missed) = times.iter().position(|times| *times == 0) {
                return Some(format!("no {} had {}", CALLS[row], KINDS[missed]));
            }
        }
        if let Some(missed) = never(&self.mixed, &MIXED) {
            return Some(format!("no {missed}"));
        }
        let streams =
            || self.imports.missing().or_else(|| self.replays.missing()).or_else(|| self.ends.missing());
        let tables = || self.parties.missing().or_else(|| self.comparisons.missing());
        self.messages.missing().or_else(streams).or_else(tables)
    }
}

impl fmt::Display for Tally {
    fn fmt(&self, f: &mut fmt::Formatter) -> fmt::Result {
        for (row, gives) in GIVES.iter().enumerate() {
            write!(f, "  {}:", CALLS[row])?;
            for refusal in *gives {
                write!(
                    f,
                    " {}",
                    match refusal {
                        0 => format!("accepted {}", self.given[row][0]),
                        _ => format!("refused {refusal}: {}", self.given[row][*refusal]),
                    }
                )?;
                if Some(refusal) != gives.last() {
                    write!(f, ",")?;
                }
            }
            writeln!(f)?;
        }
        writeln!(
            f,
            "  lookups: a route {}, the default {}, none {}, at most {} probes",
            self.longer, self.default, self.none, self.most_probes
        )?;
        write!(
            f,
            "  lists: of no address {}, of one {}, of more {}, at most {} addresses",
            self.empty, self.single, self.many, self.most_addresses
        )?;
        for (row, (when, meets)) in REPLACING.iter().enumerate() {
            write!(f, "\n  accepted adds of stored prefixes {when}: {}", self.replaced[row])?;
            for (meets, times) in MEETS[..*meets].iter().zip(self.met[row]) {
                write!(f, ", {meets}: {times}")?;
            }
        }
        write!(
            f,
            "\n  histories: with filters all of one size {}, others {}, and {} of these with a route of each length",
            self.equal, self.unequal, self.every_length
        )?;
        let least = self.other_sizes.iter().flatten().min();
        write!(f, "\n  calls with other sizes, each by every call at least {} times:", least.unwrap_or(&0))?;
        for (number, kind) in KINDS.iter().enumerate() {
            let times: u64 = self.other_sizes.iter().map(|row| row[number]).sum();
            write!(f, "{} {kind}: {times}", if number == 0 { "" } else { "," })?;
        }
        write!(f, "\n{}\n{}\n{}\n{}\n", self.messages, self.imports, self.replays, self.ends)?;
        write!(f, "{}\n{}", self.parties, self.comparisons)?;
        write!(f, "\n  streams that went on by the other calls: {}", each(MIXED, &self.mixed))
    }
}
