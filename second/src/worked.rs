//! The worked cases of docs/TABLE.md, with the answers that it states: they hold both the library and this
//! program's own rules.

use crate::calls::{AnyCall, Call, Lent, List, Settings, Sizes};
use crate::library::{Area, Library};
use crate::pair::Pair;
use crate::places::{bytes_of, places};
use crate::routes::Routes;
use crate::rules::{bucket, counter_at, first_slot, positions, walk_agrees, T};
use crate::told::{told, Answer};
use crate::{worked_days, worked_differences, worked_imports, worked_messages, worked_parties, worked_sizes};

pub fn address(a: u8, b: u8, c: u8, d: u8) -> u32 {
    u32::from_be_bytes([a, b, c, d])
}

pub fn refused(number: u64) -> u64 {
    number << 48
}

pub fn found(hop: u64, length: u64, probes: u64) -> u64 {
    (1 << 40) + (hop << 16) + (length << 8) + probes
}

/// Settings with every multiplier zero, so that all steps of a route hit one counter.
pub fn zero(k: u32, s: u32) -> Settings {
    Settings { k, d: Sizes::equal(4), e: 0, s, a: 0, b: 0, c: 0 }
}

/// Sizes that are wrong by one.
pub fn one_off(Lent { counters, slots }: Lent) -> [Lent; 4] {
    [(counters + 1, slots), (counters - 1, slots), (counters, slots + 1), (counters, slots - 1)]
        .map(|(counters, slots)| Lent { counters, slots })
}

/// A list whose results hold something before the call.
pub fn list_of(addresses: Vec<u8>, results: usize) -> List {
    List { party: 0, addresses, addresses_offset: 0, results: vec![7; results], results_offset: 0 }
}

/// One case: a table that begins cleared.
pub struct Case<'a> {
    name: &'static str,
    pub t: Settings,
    /// The party that is named where a call of the case does not name one itself.
    pub party: u32,
    pub library: &'a mut Library,
    pub pair: Pair,
}

impl<'a> Case<'a> {
    pub fn new(library: &'a mut Library, name: &'static str, t: Settings) -> Result<Case<'a>, String> {
        let pair = Pair::new(library, Area::Old, t, None, || 7, || 7);
        let mut case = Case { name, t, party: 0, library, pair };
        case.gives(Call::Clear, 0)?;
        case.pair.routes = Some(Routes::new(t, None));
        Ok(case)
    }

    /// A call gives an answer.
    pub fn gives(&mut self, call: Call, answer: u64) -> Result<(), String> {
        self.gives_lent(self.pair.lent(call), call, answer)
    }

    pub fn gives_lent(&mut self, lent: Lent, call: Call, answer: u64) -> Result<(), String> {
        let given = self.pair.call(self.library, &self.t, lent, call);
        let given = given.map_err(|difference| self.wrong(lent, call, difference.0))?;
        self.documented(lent, call, given, answer)
    }

    /// An answer is that of the document.
    pub fn documented<'c>(
        &self,
        lent: Lent,
        call: impl Into<AnyCall<'c>>,
        given: u64,
        answer: u64,
    ) -> Result<(), String> {
        if given == answer {
            return Ok(());
        }
        let call = call.into();
        let (given, answer) = (Answer::to(call, given), Answer::to(call, answer));
        Err(self.wrong(lent, call, format!("answer: {given}, in the document {answer}")))
    }

    pub fn wrong<'c>(&self, lent: Lent, call: impl Into<AnyCall<'c>>, what: String) -> String {
        format!("{}: {}\n  {what}", self.name, told(&self.t, lent, call))
    }

    pub fn add(&mut self, prefix: u32, length: u32, hop: u32, refusal: u64) -> Result<(), String> {
        self.gives(Call::Add { party: self.party, prefix, length, hop }, refused(refusal))
    }

    /// An add is accepted, and leaves this mark in this word and all else as it was.
    fn replaces(&mut self, prefix: u32, length: u32, hop: u32, at: usize, mark: u32) -> Result<(), String> {
        let (counters, mut slots) = self.pair.memory();
        slots[at] = mark;
        self.add(prefix, length, hop, 0)?;
        self.holds(self.pair.memory() == (counters, slots), &format!("word {at} alone gets {mark}"))
    }

    pub fn lookup(&mut self, address: u32, answer: u64) -> Result<(), String> {
        self.gives(Call::Lookup { party: self.party, address }, answer)
    }

    pub fn vector(&mut self, address: u32, vector: u64) -> Result<(), String> {
        self.gives(Call::Vector { address }, vector)
    }

    /// A list of addresses gives these answers.
    pub fn list(&mut self, addresses: &[u32], answers: &[[u32; 4]]) -> Result<(), String> {
        let results = bytes_of(&answers.concat());
        let list = List { party: self.party, ..list_of(bytes_of(addresses), results.len()) };
        self.list_gives(self.pair.lent(&list), &list, 0, &results)
    }

    /// A list of these bytes and so many of results is refused with 18, and leaves its results.
    fn list_refused(&mut self, addresses: &[u8], results: usize) -> Result<(), String> {
        let list = list_of(addresses.to_vec(), results);
        self.list_gives(self.pair.lent(&list), &list, refused(18), &list.results)
    }

    pub fn list_gives(&mut self, lent: Lent, list: &List, answer: u64, results: &[u8]) -> Result<(), String> {
        let given = self.pair.call_list(self.library, &self.t, lent, list);
        let given = given.map_err(|difference| self.wrong(lent, list, difference.0))?;
        self.documented(lent, list, given.answer, answer)?;
        for (given, document) in places(list, &given.results).iter().zip(places(list, results)) {
            let same = given.same("the document", document.parts);
            same.map_err(|difference| self.wrong(lent, list, difference.0))?;
        }
        self.holds(given.results == results, "the results of a list")
    }

    pub fn holds(&self, right: bool, what: &str) -> Result<(), String> {
        if right {
            Ok(())
        } else {
            Err(format!("{}: not so: {what}", self.name))
        }
    }

    pub fn hashes(&self, p: u32, length: u32, at: [usize; 2], home: usize) -> Result<(), String> {
        let right = positions(&self.t, length, p) == at && bucket(&self.t, p) == home;
        self.holds(right, "positions and bucket")
    }
}

pub fn run(library: &mut Library) -> Result<(), String> {
    let ten = address(10, 0, 0, 0);

    let case = Case::new(library, "P1 and P2", T)?;
    case.hashes(ten, 8, [0, 1], 0)?;
    case.hashes(address(192, 0, 0, 0), 8, [12, 4], 1)?;

    let mut case = Case::new(library, "P3", T)?;
    case.hashes(0, 8, [0, 0], 0)?;
    case.add(0, 8, 0, 0)?;
    case.holds(case.pair.counter(counter_at(&T, 8, 0)) == 2, "the add raises the counter by 2")?;

    let mut case = Case::new(library, "P4 to P7", T)?;
    case.add(ten, 8, 7, 0)?;
    case.lookup(address(8, 1, 2, 3), 1)?;
    case.vector(address(8, 1, 2, 3), 128)?;
    case.add(address(10, 1, 0, 0), 16, 9, 0)?;
    case.lookup(address(10, 1, 2, 3), found(9, 16, 1))?;
    case.lookup(address(10, 2, 2, 3), found(7, 8, 2))?;
    case.vector(address(10, 2, 2, 3), 32_896)?;
    case.lookup(address(11, 0, 0, 1), 0)?;
    case.add(0, 0, 3, 0)?;
    case.lookup(address(11, 0, 0, 1), found(3, 0, 0))?;

    let mut case = Case::new(library, "P4 to P7 as lists", T)?;
    let four = [address(8, 1, 2, 3), address(10, 1, 2, 3), address(10, 2, 2, 3), address(11, 0, 0, 1)];
    case.add(ten, 8, 7, 0)?;
    case.list(&four[..1], &[[0, 0, 0, 1]])?;
    case.add(address(10, 1, 0, 0), 16, 9, 0)?;
    case.list(&four, &[[0, 0, 0, 2], [1, 9, 16, 1], [1, 7, 8, 2], [0, 0, 0, 0]])?;
    case.add(0, 0, 3, 0)?;
    case.list(&four, &[[1, 3, 0, 2], [1, 9, 16, 1], [1, 7, 8, 2], [1, 3, 0, 0]])?;
    case.list(&[], &[])?;
    let bytes = bytes_of(&four);
    for results in [0, 48, 60, 63, 65, 68, 80] {
        case.list_refused(&bytes, results)?;
    }
    for (addresses, results) in [(15, 60), (15, 48), (15, 0), (1, 4), (1, 0), (0, 1), (0, 16)] {
        case.list_refused(&bytes[..addresses], results)?;
    }

    let mut case = Case::new(library, "P8", T)?;
    let (eight, nine) = (address(8, 0, 0, 0), address(9, 0, 0, 0));
    case.add(ten, 8, 7, 0)?;
    case.add(eight, 8, 7, 0)?;
    case.add(nine, 8, 7, 8)?;
    case.gives(Call::Withdraw { party: 0, prefix: eight, length: 8 }, 0)?;
    case.lookup(ten, found(7, 8, 1))?;
    case.add(nine, 8, 7, 0)?;
    case.holds(case.pair.word(2 * (first_slot(&T, 8, nine) + 1)) == nine, "9/8 lies in slot 1")?;

    let mut case = Case::new(library, "P9", zero(5, 4))?;
    for prefix in 1..=3 {
        case.add(prefix, 32, 7, 0)?;
    }
    case.holds(case.pair.counter(counter_at(&case.t, 32, 0)) == 15, "the counter is 15")?;
    case.add(4, 32, 7, 9)?;

    for (s, refusal) in [(2, 9), (1, 8)] {
        let mut case = Case::new(library, "P10", zero(8, s))?;
        case.add(1, 32, 7, 0)?;
        case.add(2, 32, 7, refusal)?;
    }

    let mut case = Case::new(library, "the cases to run", T)?;
    let host = address(10, 0, 0, 1);
    case.add(ten, 32, 7, 0)?;
    case.add(ten, 33, 7, 3)?;
    case.add(host, 33, 7, 3)?;
    case.add(host, 8, 7, 4)?;
    case.add(host, 32, 7, 0)?;
    case.add(1, 0, 7, 4)?;
    case.add(ten, 8, 65_536, 5)?;
    case.add(ten, 8, 65_535, 0)?;
    for call in [Call::Clear, Call::Vector { address: ten }, Call::Lookup { party: 0, address: ten }] {
        for lent in one_off(case.pair.lent(call)) {
            case.gives_lent(lent, call, refused(2))?;
        }
    }
    for results in [16, 17] {
        let list = list_of(bytes_of(&[ten]), results);
        for lent in one_off(case.pair.lent(&list)) {
            case.list_gives(lent, &list, refused(2), &list.results)?;
        }
    }
    stored_again(library)?;
    downwards(library)?;
    worked_sizes::run(library)?;
    worked_messages::run(library)?;
    worked_imports::run(library)?;
    worked_days::run(library)?;
    worked_parties::run(library)?;
    worked_differences::run(library)
}

/// Stored prefixes that are added again.
fn stored_again(library: &mut Library) -> Result<(), String> {
    let (ten, eight, nine) = (address(10, 0, 0, 0), address(8, 0, 0, 0), address(9, 0, 0, 0));

    let mut case = Case::new(library, "W7", T)?;
    case.add(ten, 8, 7, 0)?;
    case.replaces(ten, 8, 8, 57, 9)?;
    case.replaces(ten, 8, 8, 57, 9)?;
    case.lookup(address(10, 2, 2, 3), found(8, 8, 1))?;
    case.vector(address(10, 2, 2, 3), 128)?;
    case.add(ten, 8, 65_536, 5)?;
    case.replaces(ten, 8, 65_535, 57, 65_536)?;
    case.replaces(ten, 8, 0, 57, 1)?;
    case.lookup(ten, found(0, 8, 1))?;
    case.gives(Call::Withdraw { party: 0, prefix: ten, length: 8 }, 0)?;
    case.lookup(ten, 0)?;
    case.gives(Call::Withdraw { party: 0, prefix: ten, length: 8 }, refused(7))?;

    let mut case = Case::new(library, "W7 in a full bucket", T)?;
    case.add(ten, 8, 7, 0)?;
    case.add(eight, 8, 5, 0)?;
    case.replaces(eight, 8, 6, 59, 7)?;
    case.lookup(address(8, 1, 2, 3), found(6, 8, 1))?;
    case.replaces(ten, 8, 1, 57, 2)?;
    case.add(nine, 8, 6, 8)?;
    case.gives(Call::Withdraw { party: 0, prefix: ten, length: 8 }, 0)?;
    case.replaces(eight, 8, 4, 59, 5)?;
    case.add(nine, 8, 6, 0)?;
    case.holds(case.pair.word(56) == nine, "9/8 lies in slot 0, which was free")?;

    for (s, mark_of_two, refusal) in [(4, 251, 9), (3, 189, 8)] {
        let mut case = Case::new(library, "W7 with a counter of 15", zero(5, s))?;
        for prefix in 1..=3 {
            case.add(prefix, 32, 1, 0)?;
        }
        case.replaces(2, 32, 4, mark_of_two, 5)?;
        case.lookup(2, found(4, 32, 1))?;
        case.add(4, 32, 1, refusal)?;
    }
    for (s, mark, refusal) in [(2, 125, 9), (1, 63, 8)] {
        let mut case = Case::new(library, "W7 without room for its hits", zero(8, s))?;
        case.add(1, 32, 1, 0)?;
        case.replaces(1, 32, 4, mark, 5)?;
        case.add(2, 32, 1, refusal)?;
    }

    let mut case = Case::new(library, "W7 with the default", T)?;
    case.add(0, 0, 3, 0)?;
    case.replaces(0, 0, 4, 256, 5)?;
    case.lookup(address(11, 0, 0, 1), found(4, 0, 0))?;

    let mut case = Case::new(library, "W8", T)?;
    case.add(ten, 8, 7, 0)?;
    case.pair.routes = None;
    case.pair.damage_word(case.library, 58, ten);
    case.pair.damage_word(case.library, 59, 6);
    case.pair.damage_counter(case.library, 112, 0);
    case.pair.damage_counter(case.library, 113, 0);
    case.replaces(ten, 8, 8, 57, 9)?;
    case.lookup(ten, 0)?;
    case.pair.damage_word(case.library, 57, 131_073);
    case.replaces(ten, 8, 3, 59, 4)?;
    case.pair.damage_word(case.library, 59, 131_073);
    case.add(ten, 8, 3, 0)?;
    case.holds(case.pair.word(57) == 4 && case.pair.word(59) == 131_073, "10/8 is added to slot 0")?;
    case.holds(case.pair.counter(112) == 1 && case.pair.counter(113) == 1, "its counters are raised")
}

/// From length 32 down to length 1.
fn downwards(library: &mut Library) -> Result<(), String> {
    let (three, two, zero) = (address(10, 1, 2, 3), address(10, 1, 2, 2), address(10, 1, 2, 0));
    let mut case = Case::new(library, "W9", T)?;
    case.add(three, 32, 1, 0)?;
    case.add(two, 31, 2, 0)?;
    case.add(0, 1, 3, 0)?;
    case.vector(three, 3_221_225_473)?;
    case.vector(two, 3_221_225_473)?;
    case.vector(address(127, 255, 255, 255), 1)?;
    case.vector(address(128, 0, 0, 0), 0)?;
    case.lookup(three, found(1, 32, 1))?;
    case.lookup(two, found(2, 31, 2))?;
    case.lookup(zero, found(3, 1, 3))?;
    case.list(&[zero, two, three], &[[1, 3, 1, 3], [1, 2, 31, 2], [1, 1, 32, 1]])?;

    let one_bit = (0..32).map(|bit| 1 << bit);
    let spread = (0..100_000).map(|n: u32| n.wrapping_mul(0x9e37_79b1));
    for address in one_bit.clone().chain(one_bit.map(|bit| !bit)).chain(spread) {
        case.holds(walk_agrees(address), &format!("the walk from {address:#x} comes to its prefixes"))?;
    }
    Ok(())
}
