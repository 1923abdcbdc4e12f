//! Two histories of the library on tables of one kind, each begun by a clear: the one party makes its calls in both,
//! and the other makes others. As long as both tables accept the same updates of the first, they must tell it the same
//! of every address, but for the probes.

use crate::calls::{AnyCall, Call, Of, Settings, Sizes, FIGURES};
use crate::comparison_tally::Promise;
use crate::comparisons::Both;
use crate::cutting::{Cut, MOST_TAKEN};
use crate::history::{random_address, source, Failure, History};
use crate::library::Area;
use crate::pair::{Difference, Pair};
use crate::parties::PARTIES;
use crate::places::places;
use crate::random::Random;
use crate::random_days::day;
use crate::random_dumps::dump;
use crate::random_lists;
use crate::random_messages;
use crate::recordings::Recording;
use crate::stream_tally::{each, never};
use crate::told::Parts;
use std::fmt;
use std::ops::Range;

/// So many calls of the party a pair of histories has, at least and at most, and so many chunks of a recording at
/// most.
const LEAST_STEPS: u32 = 10;
const MOST_STEPS: u32 = 80;
const MOST_CHUNKS: usize = 30;

/// So many pairs of a hundred have a table with more room, since a full one accepts an update in one alone before
/// long.
const ROOMY: usize = 75;

/// What the other party's calls are in the second history.
const OTHERS: [&str; 2] = ["left out", "others"];

/// How a lookup can be answered in both.
const ANSWERS: [&str; 3] = ["none", "the default", "a route"];

/// How an update can be answered in both.
const UPDATES: [&str; 2] = ["accepted", "refused"];

/// By which calls the party's routes come.
const ROUTES: [&str; 4] = ["updates", "messages", "imports", "replays"];

/// What a run has seen of two histories.
#[derive(Default)]
pub struct PromiseTally {
    /// Pairs of histories to whose ends each update was answered alike in both, by the party whose calls are the same
    /// and by what the other's were, and pairs that came to an update that was accepted in one alone.
    alike: [[u64; OTHERS.len()]; PARTIES],
    broken: [u64; PARTIES],
    /// Lookups compared before that, and those of them whose probes differ.
    lookups: [u64; ANSWERS.len()],
    probes: [u64; ANSWERS.len()],
    listed: u64,
    /// Updates before that, by their answers and by the calls that they came by.
    updates: [u64; UPDATES.len()],
    routes: [u64; ROUTES.len()],
}

impl PromiseTally {
    fn count_lookup(&mut self, one: Parts, two: Parts) {
        let Parts([found, _, length, _]) = one;
        let which = if found == 0 { 0 } else { 1 + usize::from(length > 0) };
        self.lookups[which] += 1;
        self.probes[which] += u64::from(one.0[3] != two.0[3]);
    }

    /// The first thing that a long run should have met and did not.
    pub fn missing(&self) -> Option<String> {
        for (party, times) in self.alike.iter().enumerate() {
            if let Some(missed) = never(times, &OTHERS) {
                return Some(format!(
                    "no two histories answered party {party} alike to their ends, the other's calls {missed}"
                ));
            }
            if self.broken[party] == 0 {
                return Some(format!("no two histories differed in an update of party {party}"));
            }
        }
        let met: [(&[u64], &[&str], &str); 4] = [
            (&self.lookups, &ANSWERS, "lookup was compared that answers"),
            (&self.probes, &ANSWERS, "lookup had other probes that answers"),
            (&self.updates, &UPDATES, "update of both was"),
            (&self.routes, &ROUTES, "route of both came by"),
        ];
        let met = met.iter().find_map(|(times, names, what)| Some((what, never(times, names)?)));
        met.map(|(what, missed)| format!("in two histories no {what} {missed}"))
            .or((self.listed == 0).then(|| "in two histories no list was compared".to_string()))
    }
}

impl fmt::Display for PromiseTally {
    fn fmt(&self, f: &mut fmt::Formatter) -> fmt::Result {
        let [alike, broken] = [self.alike.iter().flatten().sum::<u64>(), self.broken.iter().sum()];
        let by: Vec<u64> =
            (0..OTHERS.len()).map(|which| self.alike.iter().map(|by| by[which]).sum()).collect();
        writeln!(
            f,
            "    two histories with one party's calls the same: answered alike to the end {alike} (the other's calls \
             {}), an update accepted in one alone {broken}",
            each(OTHERS, &by)
        )?;
        writeln!(
            f,
            "      lookups compared: {}, of these in lists {}; with other probes: {}",
            each(ANSWERS, &self.lookups),
            self.listed,
            each(ANSWERS, &self.probes)
        )?;
        write!(
            f,
            "      updates in both: {}; their routes came by {}",
            each(UPDATES, &self.updates),
            each(ROUTES, &self.routes)
        )
    }
}

/// The two histories, and the party whose calls are the same in both.
struct Two {
    party: u32,
    one: Pair,
    two: Pair,
    left_out: bool,
    /// Whether each update of the party was accepted in both or refused in both.
    alike: bool,
}

/// The settings of a table with more room.
pub fn with_room(random: &mut Random, t: Settings) -> Settings {
    let d = Sizes::equal(random.within(6, 10) as u8);
    let (k, e) = (random.within(1, 4), random.within(1, 5));
    Settings { k, d, e, s: 8, ..t }
}

impl History<'_> {
    pub fn two_histories(&mut self) -> Result<(), Failure> {
        let (party, left_out) = ((self.number % 2) as u32, self.number / 2 % 2 == 0);
        if self.random.percent(ROOMY) {
            self.make_room();
        }
        let (one, two) = (self.cleared(Area::Old)?, self.cleared(Area::New)?);
        let mut both = Two { party, one, two, left_out, alike: true };
        for _ in 0..self.random.within(LEAST_STEPS, MOST_STEPS) {
            self.others(&mut both)?;
            if self.random.percent(3) {
                self.feed_one(&mut both.one, 1 - party)?;
            }
            self.step(&mut both)?;
            if !both.alike {
                break;
            }
        }
        let tally = &mut self.tally.parties.promise;
        match both.alike {
            true => tally.alike[party as usize][usize::from(!left_out)] += 1,
            false => tally.broken[party as usize] += 1,
        }
        self.compare_left(&both)
    }

    /// Compares the tables that the two histories leave. Where each update of the party was accepted in both or
    /// refused in both, they have no difference for it.
    fn compare_left(&mut self, both: &Two) -> Result<(), Failure> {
        let left = Both::of(&both.one, &both.two);
        for party in [0, 1] {
            let listed = self.compare_both(left, party)?;
            if both.alike && party == both.party {
                self.promised(left, party, Promise::SameUpdates, &listed, &[])?;
            }
        }
        Ok(())
    }

    /// Settings with more room, and fewer routes to be about, the default among them.
    fn make_room(&mut self) {
        self.t = with_room(&mut self.random, self.t);
        let routes = self.random.pick(&[4, 10, 25, 60]);
        self.pool.truncate(routes);
        self.pool.push((0, 0));
    }

    /// A few calls of the other party in each history, which are not the same.
    fn others(&mut self, both: &mut Two) -> Result<(), Failure> {
        let other = 1 - both.party;
        for _ in 0..self.random.below(4) {
            self.any_call(&mut both.one, other)?;
        }
        for _ in 0..if both.left_out { 0 } else { self.random.below(4) } {
            self.any_call(&mut both.two, other)?;
        }
        Ok(())
    }

    /// Any call of a party but a chunk.
    fn any_call(&mut self, pair: &mut Pair, party: u32) -> Result<(), Failure> {
        let (t, chance) = (self.t, self.random.below(100));
        if chance < 6 {
            let message = random_messages::message(&mut self.random, &source(&self.pool, pair, party), false);
            return self.call_with(pair, &t, pair.lent(&message), &message).map(|_| ());
        }
        let call = match chance {
            6..=75 => self.random_update(pair, Some(party)),
            _ => Call::Lookup { party, address: self.random_address() },
        };
        self.call_with(pair, &t, pair.lent(call), call).map(|_| ())
    }

    /// One call of the party in both histories, or all chunks of one recording.
    fn step(&mut self, both: &mut Two) -> Result<(), Failure> {
        let party = both.party;
        match self.random.below(100) {
            0..=45 => {
                let call = self.random_update(&both.one, Some(party));
                self.in_both(both, call)?;
                self.answered(both, 0);
                Ok(())
            }
            46..=86 => {
                let call = Call::Lookup { party, address: self.random_address() };
                let (one, two) = self.in_both(both, call)?;
                self.looked_up(both, call.into(), Parts::of_number(one), Parts::of_number(two))
            }
            87..=91 => self.list_in_both(both),
            92..=96 => {
                let source = source(&self.pool, &both.one, party);
                let message = random_messages::message(&mut self.random, &source, false);
                self.in_both(both, &message)?;
                self.answered(both, 1);
                Ok(())
            }
            _ => self.feed_both(both),
        }
    }

    fn in_both<'a>(&mut self, both: &mut Two, call: impl Into<AnyCall<'a>>) -> Result<(u64, u64), Failure> {
        let (t, call) = (self.t, call.into());
        let lent = both.one.lent(call);
        let one = self.call_with(&mut both.one, &t, lent, call)?;
        Ok((one, self.call_with(&mut both.two, &t, lent, call)?))
    }

    /// Notes what the updates of a call were answered in both, route by route.
    fn answered(&mut self, both: &mut Two, by: usize) {
        let (one, two) = (&both.one.answered, &both.two.answered);
        let accepted = |numbers: &[u64]| numbers.iter().map(|number| *number == 0).collect::<Vec<bool>>();
        both.alike &= accepted(one) == accepted(two);
        if !both.alike {
            return;
        }
        let tally = &mut self.tally.parties.promise;
        for number in one {
            tally.updates[usize::from(*number != 0)] += 1;
        }
        tally.routes[by] += one.len() as u64;
    }

    /// Holds two answers to an address to one another, but for their probes.
    fn looked_up(&mut self, both: &Two, call: AnyCall, one: Parts, two: Parts) -> Result<(), Failure> {
        if one.0[..3] == two.0[..3] {
            self.tally.parties.promise.count_lookup(one, two);
            return Ok(());
        }
        let difference =
            Difference(format!("in two histories with the party's calls the same: {one}; {two}"));
        Err(self.failure(&self.t, both.one.lent(call), call, difference))
    }

    /// The same list in both.
    fn list_in_both(&mut self, both: &mut Two) -> Result<(), Failure> {
        let pool = &self.pool;
        let list = random_lists::list(&mut self.random, both.party, |random| random_address(random, pool));
        let results = |history: &mut Self, pair: &mut Pair| -> Result<Vec<Parts>, Failure> {
            let (t, lent) = (history.t, pair.lent(&list));
            history.call_with(pair, &t, lent, &list)?;
            let results = history.library.results(&list);
            Ok(places(&list, results).iter().map(|place| place.parts).collect())
        };
        let (one, two) = (results(self, &mut both.one)?, results(self, &mut both.two)?);
        self.tally.parties.promise.listed += one.len() as u64;
        for (one, two) in one.into_iter().zip(two) {
            self.looked_up(both, (&list).into(), one, two)?;
        }
        Ok(())
    }

    /// A dump or a day of a party.
    fn recording(&mut self, pair: &Pair, party: u32) -> Recording {
        let from = source(&self.pool, pair, party);
        match self.random.percent(50) {
            true => dump(&mut self.random, &from),
            false => day(&mut self.random, &from, &mut self.turns.spoils),
        }
    }

    /// Begins a stream, with figures that are zero.
    fn begin_stream(&mut self, pair: &mut Pair) {
        pair.stream.begin(self.library, pair.area, 0, [0; 3], None);
        pair.stream.set_counts(self.library, [0; 3]);
        pair.stream.set_tally(self.library, [0; FIGURES]);
    }

    /// A chunk of a recording.
    fn chunk_of(
        &mut self,
        pair: &mut Pair,
        party: u32,
        recording: &Recording,
        bytes: Range<usize>,
    ) -> Result<(), Failure> {
        let (bytes, hops) = (recording.bytes[bytes].to_vec(), recording.hops.clone());
        let chunk = pair.stream.chunk(party, recording.of, bytes, 0, hops, 0);
        let (t, lent) = (self.t, pair.lent(&chunk));
        self.call_with(pair, &t, lent, &chunk).map(|_| ())
    }

    /// A dump or a day of a party in one history, as far as one chunk goes.
    fn feed_one(&mut self, pair: &mut Pair, party: u32) -> Result<(), Failure> {
        let recording = self.recording(pair, party);
        self.begin_stream(pair);
        let size = recording.bytes.len().min(MOST_TAKEN);
        self.chunk_of(pair, party, &recording, 0..size)
    }

    /// The same chunks of a dump or of a day in both, up to the first update that is accepted in one alone.
    fn feed_both(&mut self, both: &mut Two) -> Result<(), Failure> {
        let recording = self.recording(&both.one, both.party);
        let (of, cut) = (recording.of, Cut::random(&mut self.random, &recording));
        self.begin_stream(&mut both.one);
        self.begin_stream(&mut both.two);
        let mut at = 0;
        for _ in 0..MOST_CHUNKS {
            if !both.alike || at == recording.bytes.len() {
                break;
            }
            let size = cut.size(&mut self.random, &recording, at);
            for pair in [&mut both.one, &mut both.two] {
                self.chunk_of(pair, both.party, &recording, at..at + size)?;
            }
            self.answered(both, if of == Of::Dump { 2 } else { 3 });
            at += size;
            if self.random.percent(20) {
                self.others(both)?;
            }
        }
        Ok(())
    }
}
