//! Random histories. A seed and a number fix a history, so that a failing one can be replayed.

use crate::calls::{AnyCall, Call, Chunk, Lent, List, Message, Of, Settings, Sizes};
use crate::comparisons::{DAMAGES_MET, DAMAGE_TURNS, WRONGS_MET, WRONG_TURNS};
use crate::feeding::{ended, Feeding, Turns};
use crate::library::{Area, Library, MARGIN};
use crate::other_sizes::{self, Kind, KINDS};
use crate::pair::{Difference, Pair};
use crate::parties::{self, EDGES, PARTIES};
use crate::random::Random;
use crate::random_lists;
use crate::random_messages::{self, Source};
use crate::random_sizes;
use crate::replacing;
use crate::routes::{Route, Routes};
use crate::rules;
use crate::sharing::{self, PLACES, PROBED, READERS};
use crate::slips::Slip;
use crate::tally::{Tally, WITH_SETTINGS};
use crate::told::{told, Answer};
use std::fmt;

/// A call at which the library and this program differ.
pub struct Failure {
    number: u64,
    what: String,
    difference: String,
}

impl fmt::Display for Failure {
    fn fmt(&self, f: &mut fmt::Formatter) -> fmt::Result {
        write!(f, "call {}: {}\n  {}", self.number, self.what, self.difference)
    }
}

/// Hops and marks at which something changes.
const HOPS: [u32; 6] = [0, 1, 7, 255, 65_534, 65_535];
const HIGH_HOPS: [u32; 5] = [65_536, 65_537, 131_071, 1 << 31, u32::MAX];
const MARKS: [u32; 12] =
    [0, 1, 2, 65_535, 65_536, 65_537, 65_538, 131_071, 131_072, 131_073, 1 << 31, u32::MAX];
const COUNTS: [u8; 11] = [0, 0, 1, 2, 7, 13, 14, 15, 16, 254, 255];

/// The routes of the histories that fill their tables.
const MOST_ROUTES: usize = 4000;

/// So many histories of a hundred bring counters to 15 and keep them there.
const CROWDED: usize = 12;

/// So many calls of a thousand have a list of addresses, have a message, write a withdrawal, or go on with a dump or
/// with a recorded day.
const LISTS: usize = 15;
const MESSAGES: usize = 10;
const WRITINGS: usize = 5;
const IMPORTS: usize = 6;
const REPLAYS: usize = 6;

/// One history of so many, the first of all among them, has more messages and withdrawals, so many; one, the second
/// of all among them, goes on with a dump oftener, and one, the third, with a day.
const TALKATIVE: u64 = 8;
const TALKATIVE_MESSAGES: usize = 500;
const TALKATIVE_WRITINGS: usize = 100;
const TALKATIVE_IMPORTS: usize = 450;
const TALKATIVE_REPLAYS: usize = 450;

/// So many of what comes in turn a talkative history is thought to meet, so that the next one goes on after it.
const TURNS: usize = 20;

/// So many calls of a history have a list of sizes, or counters, that are others than its table's. Over the
/// histories each of the calls has each kind of them in turn.
const OTHER_SIZES: usize = 16;

/// So many histories of a hundred begin with a route of each length.
const EVERY_LENGTH: usize = 40;

/// So many calls of a hundred name a party that there is not. So many calls of a party are made by such a one first,
/// and so many of those that have something wrong about them, which are seldom.
const STRANGERS: usize = 2;
pub const STRANGERS_FIRST: usize = 4;
pub const STRANGERS_FIRST_OF_WRONG: usize = 50;

/// So many calls of a hundred over damaged memory are about a mark at which something changes. Over the histories
/// each such mark stands in each place, and each call reads it for each party, in turn.
const EDGE_CALLS: usize = 6;
const EDGE_TURNS: usize = EDGES.len() * PLACES.len() * READERS.len() * PARTIES;

/// So many of them one history is thought to meet, so that the next one goes on after it.
const EDGES_MET: usize = 25;

/// How the history runs: what is got wrong on purpose, and whether each call is shown.
#[derive(Clone, Copy)]
pub struct Manner {
    pub slip: Option<Slip>,
    pub show: bool,
}

pub struct History<'a> {
    pub library: &'a mut Library,
    pub random: Random,
    manner: Manner,
    pub tally: &'a mut Tally,
    pub t: Settings,
    pub pool: Vec<(u32, u32)>,
    adds: usize,
    /// So many calls of a hundred that name one of the parties name party 1.
    lean: usize,
    messages: usize,
    writings: usize,
    pub imports: usize,
    pub replays: usize,
    /// The dump or the day whose stream the table has, if one has begun.
    pub feeding: Option<Feeding>,
    pub turns: Turns,
    /// Which of the calls with other sizes is next, and which of those about marks.
    other_sizes: usize,
    edges: usize,
    /// Which of the histories this is.
    pub number: u64,
    /// The lengths of which a route was added after the clear, the lowest bit for length 1.
    lengths: u32,
    pub made: u64,
    /// Which damage of two tables that are compared is next, and what is wrong about one.
    pub damage_turn: usize,
    pub wrong_turn: usize,
}

/// Runs one history to its end or to the first difference.
pub fn run(
    library: &mut Library,
    seed: u64,
    history: u64,
    manner: Manner,
    tally: &mut Tally,
) -> Result<(), Failure> {
    let mut random = Random::new(seed, history);
    let crowded = random.percent(CROWDED);
    let few = [random.within(0, 32), random.within(1, 32), random.pick(&[1, 8, 24, 32])];
    let t = settings(&mut random, crowded, &few);
    let pool = pool(&mut random, crowded, &few);
    let adds = random.pick(&[35, 50, 65, 80]);
    let lean = random.pick(&[50, 50, 50, 20, 80]);
    let (messages, writings, imports, replays) = match history % TALKATIVE {
        0 => (TALKATIVE_MESSAGES, TALKATIVE_WRITINGS, IMPORTS, REPLAYS),
        1 => (MESSAGES, WRITINGS, TALKATIVE_IMPORTS, 0),
        2 => (MESSAGES, WRITINGS, 0, TALKATIVE_REPLAYS),
        _ => (MESSAGES, WRITINGS, IMPORTS, REPLAYS),
    };
    let turn = (history / TALKATIVE) as usize * TURNS;
    tally.histories += 1;
    let history = History {
        library,
        random,
        manner,
        tally,
        t,
        pool,
        adds,
        lean,
        messages,
        writings,
        imports,
        replays,
        feeding: None,
        turns: Turns { counts: turn, figures: turn, spoils: turn },
        other_sizes: history as usize % (WITH_SETTINGS * KINDS.len()) * OTHER_SIZES,
        edges: history as usize % EDGE_TURNS * EDGES_MET,
        number: history,
        lengths: 0,
        made: 0,
        damage_turn: history as usize % DAMAGE_TURNS * DAMAGES_MET,
        wrong_turn: history as usize % WRONG_TURNS * WRONGS_MET,
    };
    history.run()
}

/// Settings over their whole ranges, the small tables oftener.
pub fn settings(random: &mut Random, crowded: bool, few: &[u32]) -> Settings {
    let mut t = most_settings(random, few);
    if random.percent(2) {
        (t.d, t.e, t.s) = (Sizes::equal(11), 8, 8);
    }
    if crowded {
        // Every step lands on position 0: five routes of a length, or three, bring its counter to 15.
        (t.k, t.s, t.a, t.b) = (random.pick(&[3, 5]), random.within(5, 8), 0, 0);
    }
    t
}

fn most_settings(random: &mut Random, few: &[u32]) -> Settings {
    let k = if random.percent(40) { random.pick(&[1, 8]) } else { random.within(1, 8) };
    let d = random_sizes::sizes(random, few);
    let e = match random.below(100) {
        0..=34 => 0,
        35..=79 => random.within(1, 3),
        80..=95 => random.within(4, 7),
        _ => 8,
    };
    let s = if random.percent(45) { random.pick(&[1, 8]) } else { random.within(1, 8) };
    let [a, b, c] = if random.percent(8) { [0; 3] } else { [(); 3].map(|_| multiplier(random)) };
    Settings { k, d, e, s, a, b, c }
}

fn multiplier(random: &mut Random) -> u32 {
    match random.below(10) {
        0 | 1 => 0,
        2 => random.within(1, 4),
        3 => 1 << random.within(0, 31),
        4 | 5 => random.word() << random.within(1, 16),
        6 => random.pick(&[u32::MAX, 1 << 31, 0x9e37_79b1]),
        _ => random.word(),
    }
}

/// Prefixes that lie in 127.0.0.0/8 or 224.0.0.0/4, just beside them or around them.
const ODD: [(u32, u32); 18] = [
    (0x7f00_0000, 8),
    (0x7f00_0000, 9),
    (0x7f00_0001, 32),
    (0x7fff_ffff, 32),
    (0xe000_0000, 4),
    (0xe000_0000, 8),
    (0xe100_0000, 8),
    (0xefff_ffff, 32),
    (0x7e00_0000, 7),
    (0x7eff_ffff, 32),
    (0x8000_0000, 8),
    (0x8000_0000, 1),
    (0xe000_0000, 3),
    (0xdfff_ffff, 32),
    (0xf000_0000, 4),
    (0xf000_0000, 8),
    (0xffff_ffff, 32),
    (0x7000_0000, 4),
];

/// So many prefixes of a hundred are drawn from these.
const ODD_OFTEN: usize = 4;

/// The routes that a history is about: prefixes with their lengths, some within others.
fn pool(random: &mut Random, crowded: bool, few: &[u32]) -> Vec<(u32, u32)> {
    let every = !crowded && random.percent(50);
    let narrow = random.percent(35);
    let many = if random.percent(2) { MOST_ROUTES } else { random.pick(&[3, 8, 20, 60, 200, 1000]) };
    let mut pool: Vec<(u32, u32)> = Vec::with_capacity(many);
    for _ in 0..many {
        if random.percent(ODD_OFTEN) {
            pool.push(random.pick(&ODD));
            continue;
        }
        let length = if every { random.within(0, 32) } else { random.pick(few) };
        let address = if narrow {
            random.word() & 0xe000_0007
        } else if !pool.is_empty() && random.percent(60) {
            let shift = random.within(0, 31);
            random.pick(&pool).0 ^ random.word() >> shift
        } else {
            random.word()
        };
        pool.push((rules::prefix(length, address), length));
    }
    pool
}

/// What the routes of a party's message are drawn from.
pub fn source<'a>(pool: &'a [(u32, u32)], pair: &'a Pair, party: u32) -> Source<'a> {
    Source { party, pool, stored: pair.routes.as_ref().map_or(&[], |routes| routes.list()) }
}

/// An address that a route of the pool matches, or nearly.
pub fn random_address(random: &mut Random, pool: &[(u32, u32)]) -> u32 {
    let (prefix, length) = random.pick(pool);
    match random.below(10) {
        0 => random.word(),
        1 => prefix,
        2 => prefix ^ 1 << random.within(0, 31),
        _ if length == 32 => prefix,
        _ => prefix | random.word() >> length,
    }
}

impl History<'_> {
    fn run(mut self) -> Result<(), Failure> {
        let size = rules::counter_bytes(&self.t) + 4 * rules::slot_words(&self.t);
        let calls = match self.pool.len() {
            MOST_ROUTES => 2 * MOST_ROUTES,
            _ => (40_000_000 / size).clamp(300, 1500),
        };
        let damaged_from = match self.random.below(10) {
            0..=5 => calls,
            6..=7 => self.random.below(calls),
            _ => 0,
        };
        let mut pair = match damaged_from {
            0 => self.random_memory(Area::Old, self.t),
            _ => self.cleared(Area::Old)?,
        };
        if damaged_from > 0 && self.random.percent(EVERY_LENGTH) {
            self.add_every_length(&mut pair)?;
        }
        for made in 0..calls {
            if made == damaged_from {
                pair.routes = None;
                self.damage_much(&mut pair);
            } else if made > damaged_from && self.random.percent(4) {
                self.damage(&mut pair);
            }
            if made > damaged_from && self.random.percent(EDGE_CALLS) {
                self.edge_call(&mut pair)?;
            }
            let damaged = made > damaged_from;
            if made % (calls / OTHER_SIZES) == 0 {
                self.other_sizes_calls(&mut pair, damaged)?;
            }
            let chance = self.random.below(1000);
            if chance < LISTS + self.messages + self.writings + self.imports + self.replays {
                match chance {
                    0..LISTS => self.list_call(&mut pair, damaged)?,
                    _ if chance < LISTS + self.messages => self.message_call(&mut pair, damaged)?,
                    _ if chance < LISTS + self.messages + self.writings => self.write(&mut pair)?,
                    _ => self.go_on(&mut pair, damaged)?,
                }
                continue;
            }
            let call = self.random_call(&pair);
            if self.random.percent(9) {
                self.spoilt_call(&mut pair, call)?;
            } else if damaged && self.random.percent(5) {
                let t = self.other_settings();
                let lent = pair.lent(call);
                self.call_with(&mut pair, &t, lent, call)?;
            } else {
                self.call(&mut pair, call)?;
            }
            if call.units() == 4 && self.random.below(size) < 64 {
                self.ask_unaligned(&mut pair, call)?;
            }
        }
        if damaged_from == calls {
            self.rebuild(&mut pair)?;
        }
        self.tally.count_history(&self.t.d, self.lengths);
        self.two_histories()?;
        self.comparisons(&pair)
    }

    /// A table that holds nothing one could count on.
    fn random_memory(&mut self, area: Area, t: Settings) -> Pair {
        let (mut bytes, mut words) = (Random::new(self.random.next(), 0), Random::new(self.random.next(), 1));
        let counts = self.random.below(4);
        let marks = self.random.below(3);
        let byte = move || match counts {
            0 => bytes.word() as u8,
            1 => bytes.pick(&COUNTS),
            2 => 0,
            _ => 1 + bytes.below(15) as u8,
        };
        let word = move || match marks {
            0 => words.word(),
            1 => words.pick(&MARKS),
            _ => 0,
        };
        Pair::new(self.library, area, t, self.manner.slip, byte, word)
    }

    /// A table that has been cleared, whose stored routes are known from then on.
    pub fn cleared(&mut self, area: Area) -> Result<Pair, Failure> {
        self.cleared_under(area, self.t)
    }

    /// The same under these settings.
    pub fn cleared_under(&mut self, area: Area, t: Settings) -> Result<Pair, Failure> {
        let mut pair = self.random_memory(area, t);
        self.call(&mut pair, Call::Clear)?;
        pair.routes = Some(Routes::new(t, self.manner.slip));
        Ok(pair)
    }

    /// One of the parties.
    pub fn known_party(&mut self) -> u32 {
        u32::from(self.random.percent(self.lean))
    }

    /// One of the parties, or now and then one that there is not.
    fn party(&mut self) -> u32 {
        match self.random.percent(STRANGERS) {
            true => parties::stranger(&mut self.random),
            false => self.known_party(),
        }
    }

    pub fn call(&mut self, pair: &mut Pair, call: Call) -> Result<u64, Failure> {
        let (t, lent) = (*pair.settings(), pair.lent(call));
        self.call_with(pair, &t, lent, call)
    }

    /// Makes a call, now and then after a party that there is not has made the same one.
    pub fn call_with<'a>(
        &mut self,
        pair: &mut Pair,
        t: &Settings,
        lent: Lent,
        call: impl Into<AnyCall<'a>>,
    ) -> Result<u64, Failure> {
        self.call_after(STRANGERS_FIRST, pair, t, lent, call.into())
    }

    /// The same so many times of a hundred.
    pub fn call_after(
        &mut self,
        strangers: usize,
        pair: &mut Pair,
        t: &Settings,
        lent: Lent,
        call: AnyCall,
    ) -> Result<u64, Failure> {
        if call.party().is_none_or(|party| party > 1) || !self.random.percent(strangers) {
            return self.call_once(pair, t, lent, call);
        }
        let stranger = self.call_by_stranger(pair, t, lent, call)?;
        let answer = self.call_once(pair, t, lent, call)?;
        self.tally.parties.count_stranger(call, stranger, answer);
        Ok(answer)
    }

    fn call_by_stranger(
        &mut self,
        pair: &mut Pair,
        t: &Settings,
        lent: Lent,
        call: AnyCall,
    ) -> Result<u64, Failure> {
        let party = parties::stranger(&mut self.random);
        match call {
            AnyCall::One(call) => self.call_once(pair, t, lent, call.by(party).into()),
            AnyCall::List(list) => self.call_once(pair, t, lent, (&List { party, ..list.clone() }).into()),
            AnyCall::Message(message) => {
                self.call_once(pair, t, lent, (&Message { party, ..message.clone() }).into())
            }
            AnyCall::Chunk(chunk) => {
                self.call_once(pair, t, lent, (&Chunk { party, ..chunk.clone() }).into())
            }
            AnyCall::Writing(_) | AnyCall::End(_) => unreachable!("these name no party"),
            AnyCall::Comparison(_) => unreachable!("this has two tables"),
        }
    }

    pub fn show_call(&self, t: &Settings, lent: Lent, call: AnyCall) {
        if self.manner.show {
            say!("call {}: {}", self.made, told(t, lent, call));
        }
    }

    pub fn show_answer(&self, call: AnyCall, answer: u64) {
        if self.manner.show {
            say!("  {}", Answer::to(call, answer));
        }
    }

    fn call_once(
        &mut self,
        pair: &mut Pair,
        t: &Settings,
        lent: Lent,
        call: AnyCall,
    ) -> Result<u64, Failure> {
        self.show_call(t, lent, call);
        let own = t == pair.settings();
        let (met, held) = match call {
            AnyCall::One(call) if own => (replacing::met(pair, t, call), Some(sharing::held(pair, t, call))),
            _ => (None, None),
        };
        let answered = match call {
            AnyCall::One(call) => pair.call(self.library, t, lent, call),
            AnyCall::List(list) => pair.call_list(self.library, t, lent, list).map(|listed| listed.answer),
            AnyCall::Message(message) => pair.call_message(self.library, t, lent, message),
            AnyCall::Writing(writing) => pair.write(self.library, writing),
            AnyCall::Chunk(chunk) => pair.call_chunk(self.library, t, lent, chunk),
            AnyCall::End(end) => pair.end_stream(self.library, end),
            AnyCall::Comparison(_) => unreachable!("this has two tables"),
        };
        let answer = answered.map_err(|difference| self.failure(t, lent, call, difference))?;
        self.show_answer(call, answer);
        let kinds = other_sizes::met(pair.settings(), pair.lent(call), t, lent);
        let counted = self.tally.count(call, kinds, answer);
        counted.map_err(|difference| self.failure(t, lent, call, difference))?;
        match call {
            AnyCall::Chunk(chunk) => {
                let right = pair.lent(call);
                let wrong = !own || lent.counters != right.counters || lent.slots != right.slots;
                self.tally.count_chunk(chunk, wrong, answer, &pair.stream);
            }
            AnyCall::End(end) => self.tally.ends.count(end, answer),
            _ => {}
        }
        if let (AnyCall::One(call), Some(held)) = (call, held) {
            let probed = self.random.below(PROBED) == 0;
            if let Some(met) = sharing::met(pair, t, &held, call, answer, probed) {
                self.tally.parties.count_met(&met);
            }
        }
        if let (AnyCall::One(Call::Add { length: length @ 1.., .. }), 0, true) =
            (call, answer, pair.routes.is_some())
        {
            self.lengths |= 1 << (length - 1);
        }
        if let (0, Some(met)) = (answer, met) {
            self.tally.count_replacing(met, pair.routes.is_none());
        }
        self.made += 1;
        Ok(answer)
    }

    /// Asks again, on slots that do not begin at a word's address.
    fn ask_unaligned<'a>(&mut self, pair: &mut Pair, call: impl Into<AnyCall<'a>>) -> Result<(), Failure> {
        let (call, offset) = (call.into(), self.random.within(1, 3) as usize);
        let asked = pair.ask_unaligned(self.library, call, offset);
        asked.map_err(|difference| self.failure(&self.t, pair.lent(call), call, difference))
    }

    pub fn failure<'a>(
        &self,
        t: &Settings,
        lent: Lent,
        call: impl Into<AnyCall<'a>>,
        difference: Difference,
    ) -> Failure {
        Failure { number: self.made, what: told(t, lent, call), difference: difference.0 }
    }

    /// Adds a route of each length, each within the one before it or anywhere.
    fn add_every_length(&mut self, pair: &mut Pair) -> Result<(), Failure> {
        let (mut address, within) = (self.random_address(), self.random.percent(50));
        let party = self.known_party();
        for length in 1..=32 {
            if !within {
                address = self.random.word();
            }
            let prefix = rules::prefix(length, address);
            self.call(pair, Call::Add { party, prefix, length, hop: length })?;
        }
        Ok(())
    }

    fn random_call(&mut self, pair: &Pair) -> Call {
        match self.random.below(1000) {
            0..=2 => Call::Clear,
            3..=529 => self.random_update(pair, None),
            530..=899 => Call::Lookup { party: self.party(), address: self.random_address() },
            _ => Call::Vector { address: self.random_address() },
        }
    }

    /// An update of this party, or of any. One that withdraws or changes a stored route is most often that party's
    /// whose it is.
    pub fn random_update(&mut self, pair: &Pair, party: Option<u32>) -> Call {
        let any = self.party();
        let hop = match self.random.percent(30) {
            true => self.random.pick(&HOPS),
            false => self.random.word() & 0xffff,
        };
        if self.random.percent(self.adds) {
            let (prefix, length) = match self.random.below(100) {
                0..=69 => self.random.pick(&self.pool),
                70..=84 => self.stored_or_of_pool(pair, None).1,
                _ => {
                    let length = self.random.within(0, 32);
                    (rules::prefix(length, self.random.word()), length)
                }
            };
            return Call::Add { party: party.unwrap_or(any), prefix, length, hop };
        }
        let (owner, (prefix, length)) = match self.random.percent(75) {
            true => self.stored_or_of_pool(pair, party),
            false => (any, self.random.pick(&self.pool)),
        };
        let party = party.unwrap_or(if self.random.percent(75) { owner } else { any });
        if self.random.percent(70) {
            Call::Withdraw { party, prefix, length }
        } else {
            Call::Change { party, prefix, length, hop }
        }
    }

    /// A stored route and whose it is, where it is known which are, or else one of the pool and a party. If a party
    /// is told, its own are taken oftener.
    fn stored_or_of_pool(&mut self, pair: &Pair, party: Option<u32>) -> (u32, (u32, u32)) {
        match pair.routes.as_ref().map_or(&[][..], |routes| routes.list()) {
            [] => (self.party(), self.random.pick(&self.pool)),
            stored => {
                let two = [(); 2].map(|_| &stored[self.random.below(stored.len())]);
                let route = two.iter().find(|route| Some(route.party) == party).unwrap_or(&two[0]);
                (route.party, (route.prefix, route.length))
            }
        }
    }

    pub fn random_address(&mut self) -> u32 {
        random_address(&mut self.random, &self.pool)
    }

    /// A call with something wrong about it; never one that other settings would accept.
    fn spoilt_call(&mut self, pair: &mut Pair, mut call: Call) -> Result<u64, Failure> {
        let right = pair.lent(call);
        let (mut t, mut lent) = (self.t, right);
        let route_only = self.random.percent(30);
        for _ in 0..self.random.within(1, 3) {
            if self.random.percent(10) {
                call = call.by(parties::stranger(&mut self.random));
            } else if route_only || !self.spoil_table(right, &mut t, &mut lent) {
                self.spoil_route(&mut call);
            }
        }
        self.call_after(STRANGERS_FIRST_OF_WRONG, pair, &t, lent, call.into())
    }

    /// A call with a list of addresses; every third has something wrong about it.
    fn list_call(&mut self, pair: &mut Pair, damaged: bool) -> Result<(), Failure> {
        let (party, pool) = (self.party(), &self.pool);
        let mut list = random_lists::list(&mut self.random, party, |random| random_address(random, pool));
        let right = pair.lent(&list);
        let (mut t, mut lent) = (self.t, right);
        if self.random.percent(35) {
            random_lists::spoil(&mut self.random, &mut list);
            for _ in 0..self.random.below(3) {
                self.spoil_table(right, &mut t, &mut lent);
            }
        } else if damaged && self.random.percent(5) {
            t = self.other_settings();
        }
        self.call_with(pair, &t, lent, &list)?;
        if self.random.percent(6) {
            self.ask_unaligned(pair, &list)?;
        }
        Ok(())
    }

    /// A message of a neighbour; every other one has something wrong about it.
    fn message_call(&mut self, pair: &mut Pair, damaged: bool) -> Result<(), Failure> {
        let (party, spoilt) = (self.party(), self.random.percent(50));
        let source = source(&self.pool, pair, party);
        let message = random_messages::message(&mut self.random, &source, spoilt);
        let right = pair.lent(&message);
        let (mut t, mut lent) = (self.t, right);
        if self.random.percent(7) {
            for _ in 0..self.random.within(1, 3) {
                self.spoil_table(right, &mut t, &mut lent);
            }
        } else if damaged && self.random.percent(5) {
            t = self.other_settings();
        }
        self.call_with(pair, &t, lent, &message)?;
        Ok(())
    }

    /// A call whose list of sizes, or whose counters, are others than the table's own. Only a damaged table sees
    /// another list that passes.
    fn other_sizes_calls(&mut self, pair: &mut Pair, damaged: bool) -> Result<(), Failure> {
        let call = self.other_sizes % WITH_SETTINGS;
        let kind = KINDS[self.other_sizes / WITH_SETTINGS % KINDS.len()];
        self.other_sizes += 1;
        if kind != Kind::SameSum {
            self.other_sizes_call(pair, call, kind)?;
        }
        if damaged {
            self.other_sizes_call(pair, call, Kind::SameSum)?;
        }
        Ok(())
    }

    /// One of the calls that have settings, by its number.
    fn other_sizes_call(&mut self, pair: &mut Pair, call: usize, kind: Kind) -> Result<(), Failure> {
        let (party, (prefix, length)) = self.stored_or_of_pool(pair, None);
        let (address, hop) = (self.random_address(), self.random.pick(&HOPS));
        let list = random_lists::list(&mut self.random, party, |_| address);
        let message = random_messages::message(&mut self.random, &source(&self.pool, pair, party), false);
        let of = if call == 8 { Of::Dump } else { Of::Day };
        let under_way = self.feeding.as_ref().is_some_and(|feeding| feeding.of() == of);
        if call >= 8 && (!under_way || ended(&pair.stream)) {
            self.begin_feeding(pair, of, false);
        }
        let bytes = self.feeding.as_ref().map_or(Vec::new(), |feeding| feeding.chunk(&mut self.random));
        let chunk = self.chunk(pair, party, of, bytes);
        let call = match call {
            0 => AnyCall::One(Call::Clear),
            1 => AnyCall::One(Call::Add { party, prefix, length, hop }),
            2 => AnyCall::One(Call::Withdraw { party, prefix, length }),
            3 => AnyCall::One(Call::Change { party, prefix, length, hop }),
            4 => AnyCall::One(Call::Vector { address }),
            5 => AnyCall::One(Call::Lookup { party, address }),
            6 => AnyCall::List(&list),
            7 => AnyCall::Message(&message),
            _ => AnyCall::Chunk(&chunk),
        };
        let (mut t, mut lent) = (self.t, pair.lent(call));
        other_sizes::make(&mut self.random, kind, &mut t, &mut lent);
        match call {
            AnyCall::Chunk(chunk) => self.take(pair, &t, lent, chunk, STRANGERS_FIRST),
            _ => self.call_with(pair, &t, lent, call).map(|_| ()),
        }
    }

    /// The message that withdraws a route; what was written is then a message too.
    fn write(&mut self, pair: &mut Pair) -> Result<(), Failure> {
        let party = self.party();
        let writing = random_messages::writing(&mut self.random, &source(&self.pool, pair, party));
        let lent = pair.lent(&writing);
        let t = self.t;
        if self.call_with(pair, &t, lent, &writing)? != 0 {
            return Ok(());
        }
        let bytes = self.library.room(&writing).to_vec();
        let message = Message { party, bytes, offset: writing.offset, hops: Vec::new(), hops_offset: 0 };
        self.call_with(pair, &t, lent, &message)?;
        Ok(())
    }

    /// Spoils the settings or what is lent of the table; false if it leaves both.
    pub fn spoil_table(&mut self, right: Lent, t: &mut Settings, lent: &mut Lent) -> bool {
        match self.random.below(5) {
            0 => self.spoil_settings(t),
            1 => lent.counters = self.spoil_counters(right.counters),
            2 => lent.slots = self.spoil_size(right.slots),
            _ => return false,
        }
        true
    }

    pub fn spoil_settings(&mut self, t: &mut Settings) {
        match self.random.below(4) {
            0 => t.k = self.random.pick(&[0, 9, 257, u32::MAX]),
            1 => other_sizes::spoil(&mut self.random, t),
            2 => t.e = self.random.pick(&[9, 32, 33, 64, u32::MAX]),
            _ => t.s = self.random.pick(&[0, 9, 256, u32::MAX]),
        }
    }

    /// As below, or by as many as one of the filters has.
    fn spoil_counters(&mut self, size: usize) -> usize {
        let filter = 1 << self.random.pick(self.t.d.values());
        match self.random.below(10) {
            0 => size + filter,
            1 => size - filter,
            _ => self.spoil_size(size),
        }
    }

    /// One more and one less above all; never more than there is with its margin.
    pub fn spoil_size(&mut self, size: usize) -> usize {
        match self.random.below(10) {
            0..=2 => size + 1,
            3..=5 => size - 1,
            6 => size + self.random.below(MARGIN),
            7 => size / self.random.pick(&[2, 4, size]),
            8 => self.random.below(size),
            _ => 0,
        }
    }

    fn spoil_route(&mut self, call: &mut Call) {
        let which = self.random.below(3);
        if let Call::Add { prefix, length, .. }
        | Call::Withdraw { prefix, length, .. }
        | Call::Change { prefix, length, .. } = call
        {
            match which {
                0 => *length = self.random.pick(&[33, 32, 64, 256, u32::MAX]).saturating_add(*length % 33),
                1 => *prefix |= 1 << self.random.within(0, 31u32.saturating_sub(*length)),
                _ => {}
            }
        }
        if let (2, Call::Add { hop, .. } | Call::Change { hop, .. }) = (which, call) {
            *hop = self.random.pick(&HIGH_HOPS);
        }
    }

    /// Other settings that ask for the same memory. Only damaged tables see them.
    pub fn other_settings(&mut self) -> Settings {
        let mut t = self.t;
        match self.random.below(5) {
            0 => t.k = self.random.within(1, 8),
            1 => t.a = multiplier(&mut self.random),
            2 => t.c = multiplier(&mut self.random),
            3 => t.d = other_sizes::same_sum(&mut self.random, &t.d),
            _ if t.s & 1 == 0 && t.e < 8 => (t.e, t.s) = (t.e + 1, t.s / 2),
            _ if t.s < 5 && t.e > 0 => (t.e, t.s) = (t.e - 1, t.s * 2),
            _ => t.b = multiplier(&mut self.random),
        }
        t
    }

    /// Damages about half of the slots and counters that the pool's routes use.
    fn damage_much(&mut self, pair: &mut Pair) {
        for _ in 0..2 * self.pool.len() {
            self.damage(pair);
        }
    }

    /// Writes a mark at which something changes into a slot of a route or into a default word, and makes a call that
    /// reads it.
    fn edge_call(&mut self, pair: &mut Pair) -> Result<(), Failure> {
        let turn = self.edges;
        self.edges += 1;
        let (party, turn) = ((turn % PARTIES) as u32, turn / PARTIES);
        let (reader, turn) = (turn % READERS.len(), turn / READERS.len());
        let (place, turn) = (turn % PLACES.len(), turn / PLACES.len());
        let mark = EDGES[turn % EDGES.len()];
        let (prefix, length) = match place {
            0 => self.longer_than_0(),
            _ => (0, 0),
        };
        match place {
            0 => self.put_mark(pair, prefix, length, mark),
            _ => pair.damage_word(self.library, rules::default_word(&self.t, place as u32 - 1), mark),
        }
        let hop = self.random.pick(&HOPS);
        let call = match reader {
            0 if place == 0 => Call::Lookup { party, address: prefix },
            0 => Call::Lookup { party, address: self.random.word() },
            1 => Call::Add { party, prefix, length, hop },
            2 => Call::Withdraw { party, prefix, length },
            _ => Call::Change { party, prefix, length, hop },
        };
        self.call(pair, call).map(|_| ())
    }

    /// A route of the pool that is no default, if one is found.
    pub fn longer_than_0(&mut self) -> (u32, u32) {
        let some = [(); 8].map(|_| self.random.pick(&self.pool));
        some.into_iter().find(|(_, length)| *length > 0).unwrap_or((0, 1))
    }

    /// Puts a prefix under a mark into a slot of its bucket, the first one oftenest, and lets its filter claim it.
    pub fn put_mark(&mut self, pair: &mut Pair, prefix: u32, length: u32, mark: u32) {
        let t = *pair.settings();
        let any = self.random.below(t.s as usize);
        let slot = rules::first_slot(&t, length, prefix) + self.random.pick(&[0, 0, any]);
        pair.damage_slot(self.library, slot, prefix, mark);
        for position in rules::positions(&t, length, prefix) {
            let at = rules::counter_at(&t, length, position);
            if pair.counter(at) == 0 {
                pair.damage_counter(self.library, at, self.random.pick(&[1, 2, 8]));
            }
        }
    }

    /// Damages one counter or slot of a route of the pool, or a default.
    pub fn damage(&mut self, pair: &mut Pair) {
        let t = *pair.settings();
        let (prefix, length) = self.random.pick(&self.pool);
        let mark = match self.random.percent(50) {
            true => self.random.pick(&MARKS),
            false => self.random.within(1, 131_072),
        };
        if length == 0 || self.random.percent(2) {
            let word = rules::default_word(&t, self.random.below(PARTIES) as u32);
            return pair.damage_word(self.library, word, mark);
        }
        if self.random.percent(50) {
            let step = self.random.below(t.k as usize);
            let position = rules::positions(&t, length, prefix)[step];
            return pair.damage_counter(
                self.library,
                rules::counter_at(&t, length, position),
                self.random.pick(&COUNTS),
            );
        }
        let slot = rules::first_slot(&t, length, prefix) + self.random.below(t.s as usize);
        let held = if self.random.percent(75) { prefix } else { self.random.pick(&self.pool).0 };
        pair.damage_slot(self.library, slot, held, mark);
    }

    /// What is stored at the end goes into a new table, in another order: it is accepted, and the new
    /// table answers as the old one.
    fn rebuild(&mut self, old: &mut Pair) -> Result<(), Failure> {
        let ended = old.compare_sums();
        ended.map_err(|difference| self.failure(&self.t, old.lent(Call::Clear), Call::Clear, difference))?;
        let mut routes = old.routes.as_ref().map_or(Vec::new(), |routes| routes.list().to_vec());
        for i in (1..routes.len()).rev() {
            routes.swap(i, self.random.below(i + 1));
        }
        let mut new = self.cleared(Area::New)?;
        for route in routes {
            let Route { party, prefix, length, hop, .. } = route;
            let add = Call::Add { party, prefix, length, hop };
            let refusal = self.call(&mut new, add)?;
            self.agree(&new, add, refusal, 0)?;
        }
        for number in 0..12 {
            let call = Call::Lookup { party: number % 2, address: self.random_address() };
            let (before, after) = (self.call(old, call)?, self.call(&mut new, call)?);
            self.agree(&new, call, after, before)?;
        }
        Ok(())
    }

    fn agree(&self, pair: &Pair, call: Call, new: u64, old: u64) -> Result<(), Failure> {
        if new == old {
            return Ok(());
        }
        let (new, old) = (Answer::to(call, new), Answer::to(call, old));
        let difference = Difference(format!("in a rebuilt table: answer {new}, before it {old}"));
        Err(self.failure(&self.t, pair.lent(call), call, difference))
    }
}
