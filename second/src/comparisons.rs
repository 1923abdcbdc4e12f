//! Comparisons in a history: of the table that it leaves with one that takes its routes, of two tables whose routes
//! change, damaged in the end, and of what is wrong about them.

use crate::calls::{Call, Comparison, Lending, Lent, Settings};
use crate::comparing::{compare, held_to_routes, same_differences, Compared, Words, BYTES};
use crate::comparison_met;
use crate::comparison_tally::Promise;
use crate::history::{settings, Failure, History, STRANGERS_FIRST, STRANGERS_FIRST_OF_WRONG};
use crate::library::{Area, Offsets, MOST_DIFFERENCES};
use crate::other_sizes::{self, KINDS};
use crate::pair::{Difference, Pair};
use crate::parties::{self, owner, EDGES};
use crate::routes::{Route, Routes};
use crate::rules::{counter_at, default_word, first_slot, mark, positions, prefix, slot_words};
use crate::sharing::PLACES;
use crate::two_histories::with_room;

/// Tables are large with more words than these, and have all the fewer comparisons.
const FEW_WORDS: usize = 4000;
const MANY_WORDS: usize = 80_000;

/// So many times two tables change before they are compared again, fewer if they are large, and after so many of them
/// they are damaged as well in so many histories of a hundred.
const STEPS: usize = 8;
const SOUND_STEPS: usize = 3;
const DAMAGED: usize = 80;

/// So many updates two tables begin with, at most, and so many they have between two comparisons.
const FIRST_UPDATES: usize = 25;
const UPDATES: usize = 6;

/// So many routes at most a new table takes of the one that a history leaves.
const MOST_TAKEN_OVER: usize = 60;

/// One history of so many compares large tables, with so many routes, which this multiplier spreads over the buckets.
const LARGE: u64 = 40;
const MANY_ROUTES: usize = 3000;
const SPREADS: u32 = 0x9e37_79b1;

/// So many comparisons of a hundred are followed by one with something wrong about a table, so many of a hundred of
/// these with other sizes, and by one with the tables exchanged.
const WRONG: usize = 60;
const OTHER_SIZES: usize = 70;
const EXCHANGED: usize = 30;

/// So many ways there are to damage a table, beside the marks at which something changes. Over the histories each way
/// comes with each place of a mark, in either table, and either table has each kind of other sizes, in turn.
const WAYS: usize = 6;
pub const DAMAGE_TURNS: usize = 2 * PLACES.len() * EDGES.len() * WAYS;
pub const WRONG_TURNS: usize = 2 * KINDS.len();

/// So many of them one history is thought to meet, so that the next one goes on after it.
pub const DAMAGES_MET: usize = 8;
pub const WRONGS_MET: usize = 8;

/// Routes at the ends of the addresses, beside those of the pool.
const ENDS: [(u32, u32); 8] =
    [(0, 0), (0, 0), (0, 1), (1 << 31, 1), (0, 32), (1, 32), (u32::MAX - 1, 31), (u32::MAX, 32)];

/// Two tables that are compared, and the settings that each is read by: its own, or others of the same sizes.
#[derive(Clone, Copy)]
pub struct Both<'p> {
    pairs: [&'p Pair; 2],
    settings: [Settings; 2],
}

impl<'p> Both<'p> {
    /// Both are read by their own settings.
    pub fn of(first: &'p Pair, second: &'p Pair) -> Both<'p> {
        Both { pairs: [first, second], settings: [*first.settings(), *second.settings()] }
    }

    fn exchanged(self) -> Both<'p> {
        let ([first, second], [t, u]) = (self.pairs, self.settings);
        Both { pairs: [second, first], settings: [u, t] }
    }

    /// How many words of slots they have together.
    fn words(&self) -> usize {
        self.settings.iter().map(slot_words).sum()
    }

    /// Whether both are read by their own settings.
    fn own(&self) -> bool {
        self.pairs.iter().zip(&self.settings).all(|(pair, t)| pair.settings() == t)
    }
}

/// Differences of which the marks are exchanged.
pub fn exchanged(differences: &[Words]) -> Vec<Words> {
    differences.iter().map(|[length, prefix, first, second]| [*length, *prefix, *second, *first]).collect()
}

impl History<'_> {
    /// The comparisons of a history that has left this table.
    pub fn comparisons(&mut self, left: &Pair) -> Result<(), Failure> {
        let first = left.copy(self.library, Area::Old);
        self.t = *first.settings();
        match &first.routes {
            Some(routes) => self.take_over(&first, routes)?,
            None => self.compare_copy(&first)?,
        }
        if self.number % LARGE == LARGE - 1 {
            self.compare_large()?;
        }
        self.compare_changing()
    }

    /// Two large tables with many routes, which are put there as damage is.
    fn compare_large(&mut self) -> Result<(), Failure> {
        let [t, u] = [5, 6].map(|e| Settings { e, c: SPREADS, ..with_room(&mut self.random, self.t) });
        let (mut first, mut second) = (self.cleared_under(Area::Old, t)?, self.cleared_under(Area::New, u)?);
        (first.routes, second.routes) = (None, None);
        for _ in 0..MANY_ROUTES {
            let length = self.random.within(17, 32);
            let (party, prefix) = (self.known_party(), prefix(length, self.random.word()));
            for pair in [&mut first, &mut second] {
                let hop = self.random.below(4) as u32;
                let slot = first_slot(pair.settings(), length, prefix) + self.random.below(8);
                pair.damage_slot(self.library, slot, prefix, mark(party, hop));
            }
        }
        for party in [0, 1] {
            self.compare_both(Both::of(&first, &second), party)?;
        }
        Ok(())
    }

    /// A new table under other settings takes the routes of the one that a history leaves.
    fn take_over(&mut self, first: &Pair, routes: &Routes) -> Result<(), Failure> {
        let t = self.second_settings();
        let mut second = self.cleared_under(Area::New, t)?;
        self.compare_with_cleared(first, &second)?;
        let mut all = routes.list().len() <= MOST_TAKEN_OVER;
        for route in routes.list().iter().take(MOST_TAKEN_OVER) {
            let Route { party, prefix, length, hop, .. } = *route;
            all &= self.call(&mut second, Call::Add { party, prefix, length, hop })? == 0;
        }
        let both = Both::of(first, &second);
        for party in [0, 1] {
            let listed = self.compare_both(both, party)?;
            if all {
                self.promised(both, party, Promise::EqualRoutes, &listed, &[])?;
            }
        }
        Ok(())
    }

    /// Against a cleared table the routes are listed.
    fn compare_with_cleared(&mut self, first: &Pair, cleared: &Pair) -> Result<(), Failure> {
        let routes = first.routes.as_ref().map_or(&[][..], |routes| routes.list());
        for party in [0, 1] {
            let own = routes.iter().filter(|route| route.party == party);
            let mut only: Vec<Words> = own.map(|r| [r.length, r.prefix, mark(0, r.hop), 0]).collect();
            only.sort();
            let both = Both::of(first, cleared);
            let listed = self.compare_both(both, party)?;
            self.promised(both, party, Promise::SecondCleared, &listed, &only)?;
            let both = both.exchanged();
            let listed = self.compare_enough(both, party)?.differences();
            self.promised(both, party, Promise::FirstCleared, &listed, &exchanged(&only))?;
        }
        Ok(())
    }

    /// A damaged table beside a copy of it, which is damaged further, under the same settings and under others of the
    /// same sizes.
    fn compare_copy(&mut self, first: &Pair) -> Result<(), Failure> {
        let mut second = first.copy(self.library, Area::New);
        for _ in 0..self.random.below(10) {
            self.damage(&mut second);
        }
        let mut both = Both::of(first, &second);
        if self.random.percent(50) {
            both.settings[self.random.below(2)] = self.other_settings();
        }
        for party in [0, 1] {
            self.compare_both(both, party)?;
        }
        Ok(())
    }

    /// Two tables whose routes change, and which are damaged in the end.
    fn compare_changing(&mut self) -> Result<(), Failure> {
        let few = [0, 8, self.random.within(1, 32)];
        self.t = settings(&mut self.random, false, &few);
        let u = self.second_settings();
        let routes = self.random.pick(&[4, 10, 25]);
        self.pool.truncate(routes);
        self.pool.extend(ENDS);
        let (mut first, mut second) = (self.cleared(Area::Old)?, self.cleared_under(Area::New, u)?);
        for _ in 0..self.random.below(FIRST_UPDATES) {
            self.change_routes(&mut first, &mut second)?;
        }
        let words = Both::of(&first, &second).words();
        let damaged = self.random.percent(DAMAGED);
        for step in 0..(MANY_WORDS / words).clamp(SOUND_STEPS + 1, STEPS) {
            for _ in 0..self.random.below(UPDATES) {
                self.change_routes(&mut first, &mut second)?;
            }
            if damaged && step >= SOUND_STEPS {
                (first.routes, second.routes) = (None, None);
                self.damage_in_turn(&mut first);
                self.damage_in_turn(&mut second);
            }
            for party in [0, 1] {
                self.compare_both(Both::of(&first, &second), party)?;
            }
            if self.random.percent(20) {
                self.compare_with_itself(&first)?;
            }
        }
        Ok(())
    }

    /// Settings for a second table: those of the first, others of the same sizes, some with more room, or any.
    fn second_settings(&mut self) -> Settings {
        let few = [0, 8, self.random.within(1, 32)];
        match self.random.below(10) {
            0 | 1 => self.t,
            2 | 3 => self.other_settings(),
            4..=6 => with_room(&mut self.random, self.t),
            _ => settings(&mut self.random, false, &few),
        }
    }

    /// An update in both tables, in one of them, or in both with another hop.
    fn change_routes(&mut self, first: &mut Pair, second: &mut Pair) -> Result<(), Failure> {
        let party = self.known_party();
        let about = if self.random.percent(70) { &*first } else { &*second };
        let call = self.random_update(about, Some(party));
        let (in_first, in_second) = match self.random.below(10) {
            0..=5 => (true, true),
            6 | 7 => (true, false),
            _ => (false, true),
        };
        let mut other = call;
        if let (true, Call::Add { hop, .. } | Call::Change { hop, .. }) =
            (self.random.percent(20), &mut other)
        {
            *hop ^= 1 << self.random.below(16);
        }
        if in_first {
            self.call(first, call)?;
        }
        if in_second {
            self.call(second, other)?;
        }
        Ok(())
    }

    /// One memory as both tables, by its own settings and by others of the same sizes.
    fn compare_with_itself(&mut self, pair: &Pair) -> Result<(), Failure> {
        let mut both = Both::of(pair, pair);
        if self.random.percent(50) {
            both.settings[self.random.below(2)] = self.other_settings();
        }
        let party = self.known_party();
        self.compare_both(both, party).map(|_| ())
    }
}

// ---- Damage ----

impl History<'_> {
    /// Puts a mark at which something changes into a table, and damages it in another way as well, each way in its
    /// turn. The tables take turns.
    fn damage_in_turn(&mut self, pair: &mut Pair) {
        let turn = self.damage_turn / 2;
        self.damage_turn += 1;
        let (place, mark) = (turn % PLACES.len(), EDGES[turn / PLACES.len() % EDGES.len()]);
        // The next turns go through the ways from the next one on, so that each comes with each place.
        self.damage_one(pair, (turn + turn / WAYS) % WAYS);
        let (prefix, length) = self.longer_than_0();
        match place {
            0 => self.put_mark(pair, prefix, length, mark),
            _ => pair.damage_word(self.library, default_word(pair.settings(), place as u32 - 1), mark),
        }
    }

    fn damage_one(&mut self, pair: &mut Pair, way: usize) {
        let t = *pair.settings();
        let (party, (prefix, length)) = (self.known_party(), self.longer_than_0());
        let hop = self.random.word() & 0xffff;
        let (slots, other_hop) = (t.s as usize, hop ^ 1 << self.random.below(16));
        match way {
            0 => {
                // Any bucket of the length, be it its own or not.
                let row = slots << t.e;
                let slot = (length as usize - 1) * row + self.random.below(row);
                pair.damage_slot(self.library, slot, prefix, mark(party, hop));
            }
            1 => {
                let loose = prefix | 1 << self.random.within(0, 31u32.saturating_sub(length));
                let slot = first_slot(&t, length, loose) + self.random.below(slots);
                pair.damage_slot(self.library, slot, loose, mark(party, hop));
            }
            2 => {
                let first = first_slot(&t, length, prefix);
                let any = [(); 2].map(|_| first + self.random.below(slots));
                for (slot, hop) in [(any[0], hop), (any[1], other_hop)] {
                    pair.damage_slot(self.library, slot, prefix, mark(party, hop));
                }
            }
            3 => {
                let slot = first_slot(&t, length, prefix);
                let step = self.random.below(t.k as usize);
                let at = counter_at(&t, length, positions(&t, length, prefix)[step]);
                pair.damage_slot(self.library, slot, prefix, mark(party, hop));
                pair.damage_counter(self.library, at, 0);
            }
            4 => pair.damage_word(self.library, default_word(&t, party), mark(1 - party, hop)),
            _ => self.damage(pair),
        }
    }
}

// ---- Comparisons ----

impl History<'_> {
    /// Compares two tables for a party, with room enough, and then, seldom if they are large, with lists of other
    /// sizes. Now and then they are exchanged, and something is wrong. Gives the differences.
    pub fn compare_both(&mut self, both: Both, party: u32) -> Result<Vec<Words>, Failure> {
        let compared = self.compare_enough(both, party)?;
        let (count, listed) = (compared.count(), compared.differences());
        if compared.refusal() != 0 {
            return Ok(listed);
        }
        self.tally.comparisons.count_listed(party, &listed);
        if both.pairs.iter().all(|pair| pair.routes.is_none()) {
            for (table, (pair, t)) in both.pairs.iter().zip(&both.settings).enumerate() {
                let found = comparison_met::found(pair, t, party);
                self.tally.comparisons.count_found(party, table, &found);
            }
        }
        if self.random.below(both.words()) >= FEW_WORDS {
            return Ok(listed);
        }
        for _ in 0..2 {
            let size = self.list_size(BYTES * count);
            let comparison = self.comparison(both, party, size);
            self.compare_call(both, &comparison, STRANGERS_FIRST)?;
            self.tally.comparisons.count_list(size, count);
        }
        if self.random.percent(EXCHANGED) {
            let both = both.exchanged();
            let listed_so = self.compare_enough(both, party)?.differences();
            self.promised(both, party, Promise::Exchanged, &listed_so, &exchanged(&listed))?;
        }
        if self.random.percent(WRONG) {
            self.wrong_comparison(both, party)?;
        }
        Ok(listed)
    }

    /// Compares two tables with room enough, and holds what is listed to the stored routes.
    fn compare_enough(&mut self, both: Both, party: u32) -> Result<Compared, Failure> {
        let own = |pair: &Pair, t: &Settings| {
            let marks = (0..slot_words(t)).map(|at| pair.word(at));
            marks.filter(|mark| owner(*mark) == Some(party)).count()
        };
        let most: usize = both.pairs.iter().zip(&both.settings).map(|(pair, t)| own(pair, t)).sum();
        let spare = self.random.pick(&[0, 0, 1, 3, 4, 16, 37]);
        let comparison = self.comparison(both, party, BYTES * most.min(MOST_DIFFERENCES) + spare);
        let compared = self.compare_call(both, &comparison, STRANGERS_FIRST)?;
        if both.own() {
            let held = held_to_routes(both.pairs, &comparison, &compared);
            held.map_err(|difference| self.comparison_failure(&comparison, difference))?;
        }
        Ok(compared)
    }

    /// A comparison of two tables with a list of so many bytes, now and then on slots of one of them that do not begin
    /// at a word's address.
    fn comparison(&mut self, both: Both, party: u32, size: usize) -> Comparison {
        let [first, second] = [0, 1].map(|at| {
            let (pair, t) = (both.pairs[at], both.settings[at]);
            let sizes = self.random.below(4);
            let lent = pair.lent(Call::Lookup { party, address: 0 });
            Lending { t, area: pair.area, offsets: Offsets { slots: 0, sizes }, lent }
        });
        let (list, offset) = (self.random.bytes(size), self.random.below(4));
        let mut comparison = Comparison { party, first, second, list, offset };
        let at = self.random.below(2);
        if self.random.below(slot_words(&both.settings[at])) < 64 {
            let slots = self.random.within(1, 3) as usize;
            both.pairs[at].put_unaligned(self.library, slots);
            let table = if at == 0 { &mut comparison.first } else { &mut comparison.second };
            (table.area, table.offsets.slots) = (Area::Unaligned, slots);
        }
        comparison
    }

    /// How many bytes a list has where so many are needed: as many, or some more or fewer.
    fn list_size(&mut self, needed: usize) -> usize {
        let few = self.random.within(1, 3) as usize;
        match self.random.below(10) {
            0..=2 => needed,
            3 => needed.saturating_sub(1),
            4 => needed.saturating_sub(4),
            5 => 0,
            6 => needed + few,
            7 => needed + 4 * few,
            8 => needed + BYTES * few,
            _ => self.random.below(needed + 1),
        }
    }

    /// A comparison with something wrong about one table, sizes of each kind in their turn, or about both.
    fn wrong_comparison(&mut self, both: Both, party: u32) -> Result<(), Failure> {
        let size = self.random.pick(&[0, 16, 100]);
        let mut comparison = self.comparison(both, party, size);
        let Comparison { first, second, .. } = &mut comparison;
        if self.random.percent(OTHER_SIZES) {
            let table = if self.wrong_turn % 2 == 0 { first } else { second };
            let kind = KINDS[self.wrong_turn / 2 % KINDS.len()];
            self.wrong_turn += 1;
            other_sizes::make(&mut self.random, kind, &mut table.t, &mut table.lent);
        } else {
            let which = self.random.below(5);
            if which != 0 {
                self.spoil_lending(first);
            }
            if which != 1 {
                self.spoil_lending(second);
            }
        }
        self.compare_call(both, &comparison, STRANGERS_FIRST_OF_WRONG).map(|_| ())
    }

    fn spoil_lending(&mut self, table: &mut Lending) {
        let Lent { counters, slots } = table.lent;
        match self.random.below(4) {
            0 | 1 => self.spoil_settings(&mut table.t),
            2 => table.lent.counters = self.spoil_size(counters),
            _ => table.lent.slots = self.spoil_size(slots),
        }
    }

    /// Compares, now and then after a party that there is not has made the same comparison.
    fn compare_call(
        &mut self,
        both: Both,
        comparison: &Comparison,
        strangers: usize,
    ) -> Result<Compared, Failure> {
        if !self.random.percent(strangers) {
            return self.compare_once(both, comparison);
        }
        let party = parties::stranger(&mut self.random);
        let stranger = self.compare_once(both, &Comparison { party, ..comparison.clone() })?;
        let compared = self.compare_once(both, comparison)?;
        self.tally.parties.count_stranger(comparison.into(), stranger.answer, compared.answer);
        Ok(compared)
    }

    fn compare_once(&mut self, both: Both, comparison: &Comparison) -> Result<Compared, Failure> {
        let Lending { t, lent, .. } = comparison.first;
        self.show_call(&t, lent, comparison.into());
        let compared = compare(self.library, both.pairs, comparison);
        let compared = compared.map_err(|difference| self.comparison_failure(comparison, difference))?;
        self.show_answer(comparison.into(), compared.answer);
        let counted = self.tally.count(comparison.into(), [false; KINDS.len()], compared.answer);
        counted.map_err(|difference| self.comparison_failure(comparison, difference))?;
        self.tally.comparisons.count(both.pairs, comparison, &compared);
        self.made += 1;
        Ok(compared)
    }

    fn comparison_failure(&self, comparison: &Comparison, difference: Difference) -> Failure {
        self.failure(&comparison.first.t, comparison.first.lent, comparison, difference)
    }

    /// Holds what was listed to what is promised.
    pub fn promised(
        &mut self,
        both: Both,
        party: u32,
        promise: Promise,
        listed: &[Words],
        promised: &[Words],
    ) -> Result<(), Failure> {
        self.tally.comparisons.count_promise(promise);
        let held = same_differences("promised", listed, promised);
        let comparison = self.comparison(both, party, 0);
        held.map_err(|difference| self.comparison_failure(&comparison, difference))
    }
}
