//! What a run has seen of comparisons.

use crate::calls::Comparison;
use crate::comparing::{Compared, Words, BYTES};
use crate::comparison_met::{Found, DAMAGES};
use crate::library::Area;
use crate::other_sizes::{self, KINDS};
use crate::pair::Pair;
use crate::parties::{EDGES, PARTIES};
use crate::rules::table_refusal;
use crate::sharing::PLACES;
use crate::stream_tally::{add, each, never};
use std::fmt;

/// The two tables, and what each can be given alone.
const TABLES: [&str; 2] = ["the first", "the second"];
const GIVEN: [&str; 3] = ["nothing wrong", "1", "2"];

/// Which tables can be compared, both right in settings and sizes.
const COMPARED: [&str; 8] = [
    "two histories under the same settings",
    "two histories under other settings of the same sizes",
    "two histories under settings of other sizes",
    "damaged tables",
    "a table with itself",
    "one memory under two settings",
    "with the first one's slots on no boundary",
    "with the second one's slots on no boundary",
];

/// How a prefix can differ that is a default, and then one that is none.
const LISTED: [&str; 6] = [
    "a default only in the first",
    "a default only in the second",
    "a default with another hop",
    "a route only in the first",
    "a route only in the second",
    "a route with another hop",
];

/// So many differences a long list has.
const LONG: usize = 1000;

/// What a list can be, beside what the differences need.
const LISTS: [&str; 8] = [
    "exactly enough",
    "a byte short",
    "a word short",
    "of no bytes for some",
    "of no bytes for none",
    "longer by whole differences",
    "longer by whole words",
    "longer by bytes that are no word",
];

/// What is promised of comparisons.
#[derive(Clone, Copy)]
pub enum Promise {
    Exchanged,
    SecondCleared,
    FirstCleared,
    EqualRoutes,
    SameUpdates,
}

const PROMISES: [&str; 5] = [
    "exchanged tables exchange the marks",
    "a cleared second table lists the routes of the first",
    "a cleared first table lists the routes of the second",
    "equal routes under other settings list nothing",
    "the same accepted updates list nothing",
];

#[derive(Default)]
pub struct ComparisonTally {
    /// What the two tables would be given alone.
    given: [[u64; GIVEN.len()]; GIVEN.len()],
    /// Sizes that are other than those of the first table, or of the second, where nothing else is wrong.
    other_sizes: [[u64; KINDS.len()]; TABLES.len()],
    compared: [u64; COMPARED.len()],
    listed: [[u64; LISTED.len()]; PARTIES],
    most: usize,
    lists: [u64; LISTS.len()],
    /// Accepted lists, by how many bytes they begin after a word's address.
    offsets: [u64; 4],
    promises: [u64; PROMISES.len()],
    damages: [[u64; DAMAGES.len()]; TABLES.len()],
    /// Marks at which something changes, by the party that compares, the table and the place in it.
    edges: [[[[u64; EDGES.len()]; PLACES.len()]; TABLES.len()]; PARTIES],
}

impl ComparisonTally {
    /// Counts any comparison.
    pub fn count(&mut self, pairs: [&Pair; 2], comparison: &Comparison, compared: &Compared) {
        let tables = comparison.tables();
        let [first, second] = tables.map(|table| table_refusal(&table.t, table.lent, None) as usize);
        self.given[first][second] += 1;
        for (at, beside) in [(0, second), (1, first)] {
            let (table, right) = (tables[at], pairs[at].lent(comparison));
            if beside == 0 {
                let kinds = other_sizes::met(pairs[at].settings(), right, &table.t, table.lent);
                add(&mut self.other_sizes[at], &kinds);
            }
        }
        if compared.refusal() == 0 {
            self.offsets[comparison.offset % 4] += 1;
            self.most = self.most.max(compared.count());
            add(&mut self.compared, &compared_tables(pairs, comparison));
        }
    }

    /// Counts the differences of a list.
    pub fn count_listed(&mut self, party: u32, differences: &[Words]) {
        for [length, _, first, second] in differences {
            let kind = if *second == 0 { 0 } else { 1 + usize::from(*first != 0) };
            self.listed[party as usize][if *length == 0 { kind } else { 3 + kind }] += 1;
        }
    }

    /// Counts a list of so many bytes, where so many differences are to be listed.
    pub fn count_list(&mut self, lent: usize, count: usize) {
        let needed = BYTES * count;
        let more = lent.saturating_sub(needed);
        let met = [
            lent == needed && count > 0,
            lent + 1 == needed,
            lent + 4 == needed,
            lent == 0 && count > 0,
            lent == 0 && count == 0,
            more > 0 && more % BYTES == 0,
            more % BYTES != 0 && more % 4 == 0,
            more % 4 != 0,
        ];
        add(&mut self.lists, &met);
    }

    pub fn count_promise(&mut self, promise: Promise) {
        self.promises[promise as usize] += 1;
    }

    /// Counts what a party's comparison has found in one of the tables.
    pub fn count_found(&mut self, party: u32, table: usize, found: &Found) {
        add(&mut self.damages[table], &found.damages);
        for (times, met) in self.edges[party as usize][table].iter_mut().zip(&found.edges) {
            add(times, met);
        }
    }

    /// The first thing that a long run should have met and did not.
    pub fn missing(&self) -> Option<String> {
        for (first, times) in self.given.iter().enumerate() {
            if let Some(missed) = never(times, &GIVEN) {
                let first = GIVEN[first];
                return Some(format!(
                    "no comparison had {first} of the first table and {missed} of the second"
                ));
            }
        }
        for (table, times) in TABLES.iter().zip(&self.other_sizes) {
            if let Some(missed) = times.iter().position(|times| *times == 0) {
                return Some(format!("no comparison had {} of {table} table", KINDS[missed]));
            }
        }
        for (party, times) in self.listed.iter().enumerate() {
            if let Some(missed) = never(times, &LISTED) {
                return Some(format!("no comparison of party {party} listed {missed}"));
            }
        }
        if self.most < LONG {
            return Some(format!("no comparison listed {LONG} differences"));
        }
        for (table, times) in TABLES.iter().zip(&self.damages) {
            if let Some(missed) = never(times, &DAMAGES) {
                return Some(format!("no comparison met {missed} in {table} table"));
            }
        }
        let met: [(&[u64], &[&str], &str); 3] = [
            (&self.compared, &COMPARED, "comparison was of"),
            (&self.lists, &LISTS, "list of differences was"),
            (&self.promises, &PROMISES, "comparison has shown that"),
        ];
        let met = met.iter().find_map(|(times, names, what)| Some((what, never(times, names)?)));
        let offset = || {
            let missed = self.offsets.iter().position(|times| *times == 0)?;
            Some(format!("no list of differences began {missed} bytes after a word's address"))
        };
        met.map(|(what, missed)| format!("no {what} {missed}"))
            .or_else(offset)
            .or_else(|| self.missing_mark())
    }

    fn missing_mark(&self) -> Option<String> {
        for (party, tables) in self.edges.iter().enumerate() {
            for (table, places) in TABLES.iter().zip(tables) {
                for (place, times) in PLACES.iter().zip(places) {
                    if let Some(missed) = times.iter().position(|times| *times == 0) {
                        let mark = EDGES[missed];
                        return Some(format!(
                            "no comparison of party {party} met the mark {mark} in {place} of {table} table"
                        ));
                    }
                }
            }
        }
        None
    }
}

/// Which tables an accepted comparison is of.
fn compared_tables(pairs: [&Pair; 2], comparison: &Comparison) -> [bool; COMPARED.len()] {
    let [first, second] = comparison.tables();
    let own = pairs.iter().zip(comparison.tables()).all(|(pair, table)| *pair.settings() == table.t);
    let one_memory = pairs[0].area == pairs[1].area;
    let sound = own && !one_memory && pairs.iter().all(|pair| pair.routes.is_some());
    let (same, sizes) = (first.t == second.t, first.lent.slots == second.lent.slots);
    [
        sound && same,
        sound && !same && sizes,
        sound && !sizes,
        pairs.iter().all(|pair| pair.routes.is_none()),
        one_memory && same,
        one_memory && !same,
        first.area == Area::Unaligned,
        second.area == Area::Unaligned,
    ]
}

impl fmt::Display for ComparisonTally {
    fn fmt(&self, f: &mut fmt::Formatter) -> fmt::Result {
        let given: Vec<String> = GIVEN
            .iter()
            .zip(&self.given)
            .map(|(first, times)| format!("{first} beside {}", each(GIVEN, times)))
            .collect();
        let [sizes, edges] =
            [self.other_sizes.iter().flatten().min(), self.edges.iter().flatten().flatten().flatten().min()]
                .map(|least| least.unwrap_or(&0));
        writeln!(
            f,
            "  comparisons: at most {} differences; of {}",
            self.most,
            each(COMPARED, &self.compared)
        )?;
        writeln!(f, "    of the first table and of the second: {}", given.join("; "))?;
        writeln!(f, "    each kind of other sizes of either table at least {sizes} times")?;
        for (party, times) in self.listed.iter().enumerate() {
            writeln!(f, "    listed for party {party}: {}", each(LISTED, times))?;
        }
        let offsets: Vec<String> = self.offsets.iter().map(u64::to_string).collect();
        writeln!(
            f,
            "    lists {}; 0 to 3 bytes after a word's address: {}",
            each(LISTS, &self.lists),
            offsets.join(", ")
        )?;
        for (table, times) in TABLES.iter().zip(&self.damages) {
            writeln!(f, "    in {table} table: {}", each(DAMAGES, times))?;
        }
        writeln!(
            f,
            "    marks at the edges, by either party, in each place of either table at least {edges} times"
        )?;
        write!(f, "    shown: {}", each(PROMISES, &self.promises))
    }
}
