//! A dump or a recorded day that is fed to the library chunk by chunk: how its stream begins, which bytes come next,
//! and what a history does with it.

use crate::calls::{Chunk, Lent, Of, Settings, Stream};
use crate::cutting::{Cut, MOST_TAKEN};
use crate::history::{source, Failure, History, STRANGERS_FIRST, STRANGERS_FIRST_OF_WRONG};
use crate::library::{Area, Library, MOST_CHUNK, ROOM};
use crate::pair::{Difference, Pair};
use crate::paper_days::SEEN;
use crate::paper_streams::first_record;
use crate::parties;
use crate::random::Random;
use crate::random_days::day;
use crate::random_dumps::dump;
use crate::record_draft::HEADER;
use crate::recordings::{any_words, figures, Recording, Spoilt, MOST_COUNTED};
use crate::streams::StreamPair;
use crate::tally::Tally;
use std::rc::Rc;

/// So many streams of a hundred begin with any words, and so many are fed to a second table too, which is the same,
/// cut in another way.
const ANY_WORDS: usize = 25;
const TWO_WAYS: usize = 15;

/// So many chunks of a hundred are taken by the calls that the stream is not for.
const MIXED: usize = 2;

/// So many chunks of a hundred name the other party than the one whose recording it is, and so many the other or one
/// that there is not.
const OTHER_PARTY: usize = 5;
const OTHER_OR_STRANGER: usize = 8;

/// What comes in turn, so that a run meets it all: the figures that are at a limit, and what is wrong about a day.
pub struct Turns {
    pub counts: usize,
    pub figures: usize,
    pub spoils: usize,
}

pub struct Feeding {
    recording: Recording,
    /// The party whose recording it is, and the one that the last chunk named that was taken.
    party: u32,
    last_party: u32,
    cut: Cut,
    /// How many bytes have come, and how many of them had before the stream began.
    at: usize,
    start: usize,
    /// Whether the stream began with words that are zero.
    from_start: bool,
    /// Which calls took the last chunk, and whether all chunks were taken by those that the stream is for.
    last: Of,
    alone: bool,
    /// Where the first record begins that was not seen.
    unseen: usize,
}

impl Feeding {
    /// A recording whose stream begins. Its words are zero, or any if that is asked.
    pub fn begin(
        random: &mut Random,
        library: &mut Library,
        pair: &mut Pair,
        party: u32,
        recording: Recording,
        any: bool,
    ) -> Feeding {
        let cut = Cut::random(random, &recording);
        let (words, room, start) = if any {
            let (words, room, start) = any_words(random, &recording);
            (words, Some(room), start)
        } else {
            ([0; 3], random.percent(20).then(|| random.bytes(ROOM)), 0)
        };
        pair.stream.begin(library, pair.area, random.below(64), words, room);
        let (last, from_start) = (recording.of, words == [0; 3]);
        let last_party = party;
        Feeding {
            recording,
            party,
            last_party,
            cut,
            at: start,
            start,
            from_start,
            last,
            alone: true,
            unseen: 0,
        }
    }

    /// The same recording from its start, cut in another way.
    pub fn again(self, random: &mut Random) -> Feeding {
        let cut = Cut::random(random, &self.recording);
        let (last, last_party) = (self.recording.of, self.party);
        Feeding { last_party, cut, at: self.start, last, alone: true, unseen: 0, ..self }
    }

    /// What the stream is for.
    pub fn of(&self) -> Of {
        self.recording.of
    }

    /// Whether all bytes have come.
    pub fn done(&self) -> bool {
        self.at == self.recording.bytes.len()
    }

    /// The next chunk.
    pub fn chunk(&self, random: &mut Random) -> Vec<u8> {
        let size = self.cut.size(random, &self.recording, self.at);
        self.recording.bytes[self.at..self.at + size].to_vec()
    }

    /// The next bytes as a chunk that is too long, with others after them if there are not so many.
    fn long_chunk(&self, random: &mut Random) -> Vec<u8> {
        let size = random.pick(&[MOST_TAKEN + 1, MOST_TAKEN + 1, MOST_TAKEN + 2, 70_000, MOST_CHUNK]);
        let mut chunk = self.recording.bytes[self.at..].to_vec();
        let more = size.saturating_sub(chunk.len());
        chunk.extend(random.bytes(more));
        chunk.truncate(size);
        chunk
    }

    /// Whether so many bytes more come to the record that has something wrong about it, or end it.
    fn comes_to_wrong(&self, size: usize) -> bool {
        let Recording { bytes, records, spoilt, .. } = &self.recording;
        spoilt.is_some_and(|(start, _)| {
            let end = records.iter().copied().find(|other| *other > start).unwrap_or(bytes.len());
            [start + HEADER, end].iter().any(|place| (self.at + 1..=self.at + size).contains(place))
        })
    }

    /// So many bytes more have come, be they taken or not.
    fn went(&mut self, size: usize) {
        self.at = (self.at + size).min(self.recording.bytes.len());
    }

    /// Counts what a chunk has met that was taken, by its number and by what the stream holds after it.
    fn count(&mut self, tally: &mut Tally, chunk: &Chunk, number: u64, after: &Stream) {
        if chunk.of != self.last {
            tally.count_mixed(chunk);
        }
        if chunk.party != self.last_party {
            tally.parties.count_went_on(chunk);
        }
        (self.last, self.last_party) = (chunk.of, chunk.party);
        self.alone &= chunk.of == self.of();
        if !self.from_start || !self.alone {
            return;
        }
        if chunk.of == Of::Day {
            for _ in chunk.tally[SEEN]..after.tally[SEEN] {
                let Some((record, _)) = first_record(&self.recording.bytes[self.unseen..]) else {
                    break;
                };
                self.unseen += record.len();
                tally.replays.count_record(record, &chunk.hops);
            }
        }
        match (number, self.recording.spoilt) {
            (12 | 14, Some((_, Spoilt::Dump(spoil)))) => tally.imports.count_spoilt(spoil),
            (12 | 14, Some((at, Spoilt::Day(spoil)))) if at == self.unseen => {
                tally.replays.count_spoilt(spoil)
            }
            _ => {}
        }
    }
}

/// Whether the stream has ended.
pub fn ended(stream: &StreamPair) -> bool {
    stream.held().words[0] != 0
}

/// Whether a figure stands in the way of the next chunk.
fn counted_full(stream: &StreamPair) -> bool {
    let Stream { counts, tally, .. } = stream.held();
    counts.iter().chain(tally).any(|figure| *figure > MOST_COUNTED)
}

impl History<'_> {
    /// Goes on with a dump or a day by a chunk or a few; begins one where none is under way.
    pub fn go_on(&mut self, pair: &mut Pair, damaged: bool) -> Result<(), Failure> {
        let again = if ended(&pair.stream) { 50 } else { 1 };
        if self.feeding.is_none() || self.random.percent(again) {
            let any_words = self.random.percent(ANY_WORDS);
            let of = if self.random.below(self.imports + self.replays) < self.imports {
                Of::Dump
            } else {
                Of::Day
            };
            self.begin_feeding(pair, of, any_words);
            if any_words && self.random.percent(10) {
                return self.end_stream(pair).map(|_| ());
            }
            if self.random.percent(TWO_WAYS) {
                return self.cut_in_two_ways(pair);
            }
        }
        for _ in 0..self.random.pick(&[1, 1, 1, 2, 6]) {
            self.chunk_or_end(pair, damaged)?;
        }
        Ok(())
    }

    pub fn begin_feeding(&mut self, pair: &mut Pair, of: Of, any_words: bool) {
        let party = self.known_party();
        let source = source(&self.pool, pair, party);
        let recording = match of {
            Of::Dump => dump(&mut self.random, &source),
            Of::Day => day(&mut self.random, &source, &mut self.turns.spoils),
        };
        let feeding = Feeding::begin(&mut self.random, self.library, pair, party, recording, any_words);
        self.feeding = Some(feeding);
        self.begin_figures(pair);
    }

    /// Begins counts and tally anew.
    fn begin_figures(&mut self, pair: &mut Pair) {
        let counts = figures(&mut self.random, &mut self.turns.counts);
        let tally = figures(&mut self.random, &mut self.turns.figures);
        pair.stream.set_counts(self.library, counts);
        pair.stream.set_tally(self.library, tally);
    }

    /// The next chunk, now and then with something wrong about it, or the end of the stream.
    fn chunk_or_end(&mut self, pair: &mut Pair, damaged: bool) -> Result<(), Failure> {
        if counted_full(&pair.stream) && self.random.percent(25) || self.random.percent(1) {
            self.begin_figures(pair);
        }
        let Some(feeding) = &self.feeding else {
            return Ok(());
        };
        if self.random.percent(if feeding.done() { 50 } else { 1 }) {
            return self.end_stream(pair).map(|_| ());
        }
        let bytes = match self.random.percent(2) {
            true => feeding.long_chunk(&mut self.random),
            false => feeding.chunk(&mut self.random),
        };
        let of = match (feeding.of(), self.random.percent(MIXED)) {
            (Of::Dump, false) | (Of::Day, true) => Of::Dump,
            _ => Of::Day,
        };
        let party = match self.random.below(100) {
            0..OTHER_PARTY => 1 - feeding.party,
            OTHER_PARTY..OTHER_OR_STRANGER => parties::stranger(&mut self.random),
            _ => feeding.party,
        };
        let chunk = self.chunk(pair, party, of, bytes);
        let right = pair.lent(&chunk);
        let (mut t, mut lent) = (self.t, right);
        if self.random.percent(5) {
            for _ in 0..self.random.within(1, 3) {
                self.spoil_table(right, &mut t, &mut lent);
            }
        } else if damaged && self.random.percent(3) {
            t = self.other_settings();
        }
        let first = match self.feeding.as_ref().is_some_and(|fed| fed.comes_to_wrong(chunk.bytes.len())) {
            true => STRANGERS_FIRST_OF_WRONG,
            false => STRANGERS_FIRST,
        };
        self.take(pair, &t, lent, &chunk, first)
    }

    /// A chunk of what is fed, for calls of this party and kind.
    pub fn chunk(&mut self, pair: &Pair, party: u32, of: Of, bytes: Vec<u8>) -> Chunk {
        let hops: Rc<[u32]> = self.feeding.as_ref().map_or([].into(), |fed| fed.recording.hops.clone());
        pair.stream.chunk(party, of, bytes, self.random.below(4), hops, self.random.below(4))
    }

    /// Takes a chunk of what is fed, so many times of a hundred after a party that there is not, and counts what it
    /// has met.
    pub fn take(
        &mut self,
        pair: &mut Pair,
        t: &Settings,
        lent: Lent,
        chunk: &Chunk,
        strangers: usize,
    ) -> Result<(), Failure> {
        let number = self.call_after(strangers, pair, t, lent, chunk.into())? >> 48;
        let ended = chunk.words[0] != 0;
        // A chunk that was not looked at comes again.
        let Some(feeding) = self.feeding.as_mut().filter(|_| ended || !matches!(number, 1 | 2 | 15 | 19))
        else {
            return Ok(());
        };
        feeding.went(chunk.bytes.len());
        if !ended {
            feeding.count(self.tally, chunk, number, pair.stream.held());
        }
        Ok(())
    }

    fn end_stream(&mut self, pair: &mut Pair) -> Result<u64, Failure> {
        let (t, end) = (self.t, pair.stream.end());
        let lent = pair.lent(&end);
        self.call_with(pair, &t, lent, &end)
    }

    /// Feeds a recording that has begun to its table and to another one that is the same, cut in two ways, for one
    /// party throughout: both end by the same number, and both tables and streams are the same then. No figure comes
    /// near its limit, since only where a chunk begins is it asked.
    fn cut_in_two_ways(&mut self, one: &mut Pair) -> Result<(), Failure> {
        let Stream { counts, tally, .. } = one.stream.held();
        let (counts, tally) = (
            counts.map(|count| count.min(MOST_COUNTED / 2)),
            tally.map(|figure| figure.min(MOST_COUNTED / 2)),
        );
        one.stream.set_counts(self.library, counts);
        one.stream.set_tally(self.library, tally);
        let mut other = one.copy(self.library, Area::New);
        let number = self.feed(one)?;
        self.feeding = self.feeding.take().map(|feeding| feeding.again(&mut self.random));
        let other_number = self.feed(&mut other)?;
        if let Some(feeding) = &self.feeding {
            self.tally.streams_of(feeding.of()).count_two_ways(number);
        }
        let differs = if number != other_number {
            format!("the final numbers are {} and {}", number >> 48, other_number >> 48)
        } else if one.memory() != other.memory() {
            "the tables are not the same".to_string()
        } else if one.stream.held() != other.stream.held() {
            "counts, tallies, words or rooms are not the same".to_string()
        } else {
            return Ok(());
        };
        let end = one.stream.end();
        let difference = Difference(format!("a stream was cut in two ways, and {differs}"));
        Err(self.failure(&self.t, one.lent(&end), &end, difference))
    }

    /// Feeds the rest of a recording, and ends its stream.
    fn feed(&mut self, pair: &mut Pair) -> Result<u64, Failure> {
        while let Some(feeding) = self.feeding.as_ref().filter(|feeding| !feeding.done()) {
            let (party, of, bytes) = (feeding.party, feeding.of(), feeding.chunk(&mut self.random));
            let chunk = self.chunk(pair, party, of, bytes);
            let (t, lent) = (self.t, pair.lent(&chunk));
            self.take(pair, &t, lent, &chunk, STRANGERS_FIRST)?;
        }
        self.end_stream(pair)
    }
}
