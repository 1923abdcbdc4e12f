//! The table on paper: a list of both parties' routes and what demands 2 and 3 ask of it. No memory, no
//! counters.
//!
//! As in `rules`, the arm `_` of a `match` on the slip is the right rule.

use super::calls::{Call, Settings};
use super::rules::{bucket, positions, prefix};
use super::slips::Slip;

/// A stored route, with what its settings make of its prefix (nothing for the default).
#[derive(Clone)]
pub struct Route {
    pub party: u32,
    pub prefix: u32,
    pub length: u32,
    pub hop: u32,
    positions: Vec<usize>,
    bucket: usize,
}

impl Route {
    fn hits(&self, position: usize) -> usize {
        self.positions.iter().filter(|j| **j == position).count()
    }
}

/// The routes that a history leaves.
#[derive(Clone)]
pub struct Routes {
    t: Settings,
    slip: Option<Slip>,
    list: Vec<Route>,
    /// Withdrawn routes, which only a slip remembers.
    gone: Vec<Route>,
}

impl Routes {
    pub fn new(t: Settings, slip: Option<Slip>) -> Routes {
        Routes { t, slip, list: Vec::new(), gone: Vec::new() }
    }

    pub fn list(&self) -> &[Route] {
        &self.list
    }

    /// Does a clear or an update that refusals 1 to 5 and 15 let pass; gives its refusal, 0 for none. An add
    /// that gets 11 gets it whatever its hop, since 5 is asked later.
    pub fn update(&mut self, call: Call) -> u64 {
        match call {
            Call::Clear => self.clear(),
            Call::Add { party, prefix, length, hop } => self.add(party, prefix, length, hop),
            Call::Withdraw { party, prefix, length } => self.withdraw(party, prefix, length),
            Call::Change { party, prefix, length, hop } => self.change(party, prefix, length, hop),
            Call::Vector { .. } | Call::Lookup { .. } => 0,
        }
    }

    /// A party's longest matching route and the probes it takes, as a lookup's number.
    pub fn lookup(&self, party: u32, address: u32) -> u64 {
        let own = self.list.iter().filter(|route| route.party == party);
        let matching = own.filter(|route| self.matches(route, address));
        let best = match self.slip {
            Some(Slip::PaperShortest) => matching.min_by_key(|route| route.length),
            Some(Slip::PaperDefaultIgnored) => {
                matching.filter(|route| route.length > 0).max_by_key(|route| route.length)
            }
            _ => matching.max_by_key(|route| route.length),
        };
        let (found, hop, length) = match best {
            Some(route) => (1, route.hop as u64, route.length),
            None => (0, 0, 0),
        };
        let extra = if self.is(Slip::PaperProbesDefault) && found == 1 && length == 0 { 1 } else { 0 };
        let probes = self.probes(party, address, length) + extra;
        found * 2u64.pow(40) + hop * 2u64.pow(16) + length as u64 * 2u64.pow(8) + probes
    }

    /// One bit for each length at which the stored routes cover the address.
    pub fn vector(&self, address: u32) -> u64 {
        let bit = |length: u32| 2u64.pow(if self.is(Slip::PaperVectorBitL) { length } else { length - 1 });
        (1..=32).filter(|length| self.covered(&[0, 1], *length, address)).map(bit).sum()
    }

    /// How a party's routes differ from those that another history left: length, prefix, the mark here and
    /// the mark there (hop + 1, or zero where there is no such route), by rising length and then rising
    /// prefix. No slip bends it.
    pub fn differences(&self, other: &Routes, party: u32) -> Vec<[u32; 4]> {
        let mark = |routes: &Routes, of: &Route| {
            let same = |route: &&Route| route.length == of.length && route.prefix == of.prefix;
            let own = routes.list.iter().filter(|route| route.party == party);
            // Only a slip lists a hop so high that this wraps.
            own.filter(same).map(|route| route.hop.wrapping_add(1)).next().unwrap_or(0)
        };
        let stored = self.list.iter().chain(&other.list).filter(|route| route.party == party);
        let compared = stored.map(|of| [of.length, of.prefix, mark(self, of), mark(other, of)]);
        let mut differences: Vec<[u32; 4]> = compared.filter(|words| words[2] != words[3]).collect();
        // A prefix that both have stands there twice, and equally.
        differences.sort();
        differences.dedup();
        differences
    }

    /// K for each route of a length that has counters.
    pub fn counted(&self, length: u32) -> usize {
        let all = self.is(Slip::PaperCountedAll);
        let counted = self.list.iter().filter(|route| route.length == length || all);
        match self.slip {
            Some(Slip::PaperCountedOnce) => counted.filter(|route| route.length > 0).count(),
            Some(Slip::PaperCountedDistinct) => counted.map(|route| distinct(&route.positions)).sum(),
            _ => counted.map(|route| route.positions.len()).sum(),
        }
    }

    fn is(&self, slip: Slip) -> bool {
        self.slip == Some(slip)
    }

    fn route(&self, party: u32, prefix: u32, length: u32, hop: u32) -> Route {
        if length == 0 {
            return Route { party, prefix, length, hop, positions: Vec::new(), bucket: 0 };
        }
        let positions = self.positions(length, prefix);
        Route { party, prefix, length, hop, positions, bucket: bucket(&self.t, prefix) }
    }

    /// The positions of a prefix in the filter of its length.
    fn positions(&self, length: u32, p: u32) -> Vec<usize> {
        let by = match self.slip {
            Some(Slip::PaperPositionsFirst) => 1,
            Some(Slip::PaperPositionsLast) => 32,
            Some(Slip::PaperPositionsNext) => (length + 1).min(32),
            Some(Slip::PaperPositionsLargest) => {
                (1..=32).max_by_key(|by| self.t.d.values().get(*by as usize - 1)).unwrap_or(length)
            }
            _ => length,
        };
        positions(&self.t, by, p)
    }

    /// Where in the list a party's route stands.
    fn find(&self, party: u32, prefix: u32, length: u32, any_length: Slip) -> Option<usize> {
        let same = |route: &Route| route.length == length || self.is(any_length);
        self.list.iter().position(|route| route.party == party && route.prefix == prefix && same(route))
    }
}

/// How many different positions there are.
fn distinct(positions: &[usize]) -> usize {
    let mut once = positions.to_vec();
    once.sort();
    once.dedup();
    once.len()
}

// ---- Updates ----

impl Routes {
    fn clear(&mut self) -> u64 {
        if !self.is(Slip::PaperClearKeeps) {
            self.list.clear();
            self.gone.clear();
        }
        0
    }

    fn add(&mut self, party: u32, prefix: u32, length: u32, hop: u32) -> u64 {
        match self.slip {
            Some(Slip::PaperOddUnasked) => self.take(party, prefix, length, hop),
            Some(Slip::PaperOddListed) if self.odd(prefix, length) => {
                self.take(party, prefix, length, hop);
                11
            }
            _ if self.odd(prefix, length) => 11,
            _ => self.take(party, prefix, length, hop),
        }
    }

    /// Whether all addresses of a prefix, from its first to its last, have a first octet of 127, or all have
    /// one of 224 to 239.
    fn odd(&self, prefix: u32, length: u32) -> bool {
        let addresses = match self.slip {
            Some(Slip::PaperOddByAddress) => 1,
            _ => 2u64.pow(32u32.saturating_sub(length)),
        };
        let octet = |address: u64| address / 2u64.pow(24);
        let (first, last) = (octet(prefix as u64), octet(prefix as u64 + addresses - 1));
        let both = |from: u64, to: u64| from <= first && last <= to;
        both(127, 127) || both(224, 239)
    }

    /// Lists a route that is not odd, or sets its hop if the party has it listed.
    fn take(&mut self, party: u32, prefix: u32, length: u32, hop: u32) -> u64 {
        let new = self.route(party, prefix, length, hop);
        if let Some(at) = self.find(party, prefix, length, Slip::PaperAddAnyLength) {
            match self.slip {
                Some(Slip::PaperReplaceListsAgain) => (),
                Some(Slip::PaperReplaceRefused) => return 6,
                Some(Slip::PaperDefaultReplaceRefused) if length == 0 => return 6,
                Some(Slip::PaperReplaceAsksRoom) if self.room(&new) != 0 => return self.room(&new),
                Some(Slip::PaperReplaceKeeps) => return 0,
                _ => {
                    self.list[at].hop = hop;
                    return 0;
                }
            }
        }
        let refusal = self.room(&new);
        if refusal == 0 || self.is(Slip::PaperRefusedListed) {
            self.list.push(new);
        }
        refusal
    }

    /// 8 or 9 if the table has no place for a new route, else 0.
    fn room(&self, new: &Route) -> u64 {
        let full = new.length >= 1 && self.full(new);
        let over = new.length >= 1 && self.over(new);
        match self.slip {
            Some(Slip::PaperRoomBeforeFull) if over => 9,
            _ if full => 8,
            _ if over => 9,
            _ => 0,
        }
    }

    /// Whether as many routes as a bucket has slots, whoever's, share length and bucket with the new one.
    fn full(&self, new: &Route) -> bool {
        let most = match self.slip {
            Some(Slip::PaperFullEarly) => self.t.s as usize - 1,
            Some(Slip::PaperFullLate) => self.t.s as usize + 1,
            _ => self.t.s as usize,
        };
        let same = |route: &&Route| {
            let beside = route.bucket == new.bucket || self.is(Slip::PaperFullByLength);
            route.length == new.length && beside
        };
        let freed = if self.is(Slip::PaperFreedTaken) { self.gone.iter().filter(same).count() } else { 0 };
        self.list.iter().filter(same).count() + freed >= most
    }

    /// Whether some position of the new route, with all hits there already, would have more than 15.
    fn over(&self, new: &Route) -> bool {
        let most = match self.slip {
            Some(Slip::PaperRoomTo14) => 14,
            Some(Slip::PaperRoomTo16) => 16,
            _ => 15,
        };
        let hits = |route: &Route, j: usize| match self.slip {
            Some(Slip::PaperRoomOnce) => route.hits(j).min(1),
            _ => route.hits(j),
        };
        let any_length = self.is(Slip::PaperRoomAnyLength);
        let of_length = |route: &&Route| route.length == new.length || any_length;
        let fills = |route: &&Route| route.party == new.party || !self.is(Slip::PaperRoomOwnOnly);
        let beside = || self.list.iter().filter(of_length).filter(fills);
        let sum = |j: usize| beside().map(|route| hits(route, j)).sum::<usize>() + hits(new, j);
        new.positions.iter().any(|j| sum(*j) > most)
    }

    fn withdraw(&mut self, party: u32, prefix: u32, length: u32) -> u64 {
        match self.find(party, prefix, length, Slip::PaperWithdrawAnyLength) {
            Some(_) if self.is(Slip::PaperWithdrawKeeps) => 0,
            Some(at) => {
                let route = self.list.remove(at);
                if self.is(Slip::PaperFreedTaken) {
                    self.gone.push(route);
                }
                0
            }
            None if self.is(Slip::PaperSevenUnasked) => 0,
            None => 7,
        }
    }

    fn change(&mut self, party: u32, prefix: u32, length: u32, hop: u32) -> u64 {
        match self.find(party, prefix, length, Slip::PaperWithdrawAnyLength) {
            Some(_) if self.is(Slip::PaperChangeKeeps) => 0,
            Some(at) => {
                self.list[at].hop = hop;
                0
            }
            None if self.is(Slip::PaperSevenUnasked) => 0,
            None => 7,
        }
    }
}

// ---- Questions ----

impl Routes {
    fn matches(&self, route: &Route, address: u32) -> bool {
        let compared = match self.slip {
            Some(Slip::PaperBitFewer) => route.length.saturating_sub(1),
            _ => route.length,
        };
        prefix(compared, address) == prefix(compared, route.prefix)
    }

    /// How many lengths, from 32 down to the answer's (or to 1), are covered.
    fn probes(&self, party: u32, address: u32, length: u32) -> u64 {
        let last = match self.slip {
            Some(Slip::PaperProbesToOne) => 1,
            Some(Slip::PaperProbesAbove) => length + 1,
            _ => length.max(1),
        };
        let parties = match self.slip {
            Some(Slip::PaperProbesOwnOnly) => vec![party],
            _ => vec![0, 1],
        };
        (last..=32).filter(|length| self.covered(&parties, *length, address)).count() as u64
    }

    /// Whether each position of the address at a length belongs to some stored route of that length, one of
    /// these parties'.
    fn covered(&self, parties: &[u32], length: u32, address: u32) -> bool {
        let p = prefix(length, address);
        let any_length = self.is(Slip::PaperProbesAnyLength);
        let of_length = |route: &&Route| route.length == length || any_length;
        let stored = || self.list.iter().filter(of_length).filter(|route| parties.contains(&route.party));
        let asked = match self.slip {
            Some(Slip::PaperAskedFirst) => positions(&self.t, 1, p),
            _ => self.positions(length, p),
        };
        let owned = |j: &usize| stored().any(|route| route.positions.contains(j));
        match self.slip {
            Some(Slip::PaperProbesInUse) => stored().count() > 0,
            Some(Slip::PaperProbesStored) => stored().any(|route| route.prefix == p),
            Some(Slip::PaperProbesFirst) => asked.iter().take(1).all(owned),
            Some(Slip::PaperProbesOneRoute) => {
                stored().any(|route| asked.iter().all(|j| route.positions.contains(j)))
            }
            _ => asked.iter().all(owned),
        }
    }
}
