//! One table twice: the library's memory and this program's own. Each call is done in both, and the
//! answers and all of the memory are compared after it.

use crate::calls::{AnyCall, Call, Lent, List, Message, Settings, Writing};
use crate::library::{Area, Beside, Library, Offsets, MARGIN};
use crate::lists::answer_list;
use crate::messages::{read, read_message, write_withdrawal, Said};
use crate::paper_days::single_calls;
use crate::places::{bytes_of, places, Place};
use crate::routes::Routes;
use crate::rules::{self, counter_bytes, slot_words};
use crate::slips::Slip;
use crate::streams::StreamPair;
use crate::told::{dotted, Answer, Parts};
use std::collections::HashMap;
use std::{fmt, io};

pub struct Pair {
    t: Settings,
    pub area: Area,
    /// This program's own memory, with its margins.
    pub counters: Vec<u8>,
    pub slots: Vec<u32>,
    /// How many bytes after a word's address the list of sizes begins; each call has another one.
    sizes_offset: usize,
    /// The stored routes, where the history began with a clear.
    pub routes: Option<Routes>,
    /// What the imports into this table and the replays over it are lent beside it.
    pub stream: StreamPair,
    /// What the updates of the last call were answered, route by route, where the stored routes are known.
    pub answered: Vec<u64>,
    pub slip: Option<Slip>,
}

/// What differs after a call, in words.
pub struct Difference(pub String);

impl From<io::Error> for Difference {
    fn from(error: io::Error) -> Difference {
        Difference(error.to_string())
    }
}

/// What a list is answered, and the results that it leaves.
pub struct Listed {
    pub answer: u64,
    pub results: Vec<u8>,
}

impl Pair {
    /// A table of these settings, whose memory holds what the two functions say.
    pub fn new(
        library: &mut Library,
        area: Area,
        t: Settings,
        slip: Option<Slip>,
        mut byte: impl FnMut() -> u8,
        mut word: impl FnMut() -> u32,
    ) -> Pair {
        let counters: Vec<u8> = (0..counter_bytes(&t) + 2 * MARGIN).map(|_| byte()).collect();
        let slots: Vec<u32> = (0..slot_words(&t) + 2 * MARGIN).map(|_| word()).collect();
        library.counters(area, counters.len()).copy_from_slice(&counters);
        library.slots(area, slots.len()).copy_from_slice(&slots);
        let stream = StreamPair::new(library, area);
        Pair { t, area, counters, slots, sizes_offset: 0, routes: None, stream, answered: Vec::new(), slip }
    }

    /// Another table that holds the same, and so does what its imports and replays are lent.
    pub fn copy(&self, library: &mut Library, area: Area) -> Pair {
        library.counters(area, self.counters.len()).copy_from_slice(&self.counters);
        library.slots(area, self.slots.len()).copy_from_slice(&self.slots);
        Pair {
            t: self.t,
            area,
            counters: self.counters.clone(),
            slots: self.slots.clone(),
            sizes_offset: 0,
            routes: self.routes.clone(),
            stream: self.stream.copy(library, area),
            answered: Vec::new(),
            slip: self.slip,
        }
    }

    pub fn settings(&self) -> &Settings {
        &self.t
    }

    /// What this table's calls lend.
    pub fn lent<'a>(&self, call: impl Into<AnyCall<'a>>) -> Lent {
        Lent { counters: counter_bytes(&self.t), slots: call.into().units() * slot_words(&self.t) }
    }

    /// A counter; it is the same in both memories after a call.
    pub fn counter(&self, at: usize) -> u8 {
        self.counters[MARGIN + at]
    }

    /// A word of the slots; it is the same in both memories after a call.
    pub fn word(&self, at: usize) -> u32 {
        self.slots[MARGIN + at]
    }

    /// All counters, and all words of the slots; they are the same in both memories after a call.
    pub fn memory(&self) -> (Vec<u8>, Vec<u32>) {
        let counters = &self.counters[MARGIN..MARGIN + counter_bytes(&self.t)];
        let slots = &self.slots[MARGIN..MARGIN + slot_words(&self.t)];
        (counters.to_vec(), slots.to_vec())
    }

    /// Writes a counter in both memories, as damage.
    pub fn damage_counter(&mut self, library: &mut Library, at: usize, value: u8) {
        self.counters[MARGIN + at] = value;
        library.counters(self.area, self.counters.len())[MARGIN + at] = value;
    }

    /// Writes a word of the slots in both memories, as damage.
    pub fn damage_word(&mut self, library: &mut Library, at: usize, value: u32) {
        self.slots[MARGIN + at] = value;
        library.slots(self.area, self.slots.len())[MARGIN + at] = value;
    }

    /// Writes prefix and mark of a slot in both memories, as damage.
    pub fn damage_slot(&mut self, library: &mut Library, slot: usize, prefix: u32, mark: u32) {
        self.damage_word(library, 2 * slot, prefix);
        self.damage_word(library, 2 * slot + 1, mark);
    }

    /// Does a call in both and compares. The settings and what is lent may be wrong.
    pub fn call(
        &mut self,
        library: &mut Library,
        t: &Settings,
        lent: Lent,
        call: Call,
    ) -> Result<u64, Difference> {
        let theirs = self.call_in(library, self.area, 0, t, lent, call)?;
        self.compare_memory(library)?;
        self.compare_routes(call, theirs)?;
        Ok(theirs)
    }

    /// The same with a list of addresses, whose sizes may be wrong too.
    pub fn call_list(
        &mut self,
        library: &mut Library,
        t: &Settings,
        lent: Lent,
        list: &List,
    ) -> Result<Listed, Difference> {
        let listed = self.list_in(library, self.area, 0, t, lent, list)?;
        self.compare_memory(library)?;
        if listed.answer == 0 {
            let places = places(list, &listed.results);
            self.compare_places(list.party, &places)?;
            self.compare_lookups(library, t, lent, list.party, &places)?;
        }
        Ok(listed)
    }

    /// The same with a message, of any bytes, and any list of next hops.
    pub fn call_message(
        &mut self,
        library: &mut Library,
        t: &Settings,
        lent: Lent,
        message: &Message,
    ) -> Result<u64, Difference> {
        let (bytes, hops) = (with_margins(&message.bytes), with_margins(&bytes_of(&message.hops)));
        let hops_offset = 4 * message.hops_offset;
        library.beside(Beside::Message, message.offset, bytes.len()).copy_from_slice(&bytes);
        library.beside(Beside::Hops, hops_offset, hops.len()).copy_from_slice(&hops);
        let theirs = self.call_library(library, self.area, 0, t, lent, message)?;
        let (counters, slots) = (&mut self.counters[MARGIN..], &mut self.slots[MARGIN..]);
        let Message { party, bytes: said, hops: known, .. } = message;
        let ours = read_message(t, counters, slots, *party, lent, said, known, self.slip);
        same("answer", Answer::to(message, theirs), Answer::to(message, ours))?;
        let lent_bytes = &*library.beside(Beside::Message, message.offset, bytes.len());
        compare_lent("message byte", lent_bytes, &bytes)?;
        compare_lent("next hop byte", library.beside(Beside::Hops, hops_offset, hops.len()), &hops)?;
        self.compare_memory(library)?;
        self.compare_single_calls(message, theirs)?;
        Ok(theirs)
    }

    /// Writes the message that withdraws a route in both, and compares. What is written must be read as that
    /// one withdrawal.
    pub fn write(&mut self, library: &mut Library, writing: &Writing) -> Result<u64, Difference> {
        let Writing { prefix, length, room, offset } = writing;
        let lent_room = MARGIN..MARGIN + room.len();
        let mut room = with_margins(room);
        library.beside(Beside::Room, *offset, room.len()).copy_from_slice(&room);
        let (t, lent) = (self.t, self.lent(writing));
        let theirs = self.call_library(library, self.area, 0, &t, lent, writing)?;
        let ours = write_withdrawal(*prefix, *length, &mut room[lent_room], self.slip);
        same("answer", Answer::to(writing, theirs), Answer::to(writing, ours))?;
        compare_lent("room byte", library.beside(Beside::Room, *offset, room.len()), &room)?;
        let read_back = |said: Said| {
            said.withdrawn == [(*prefix, *length)] && said.announced.is_empty() && said.next_hop.is_none()
        };
        if theirs == 0 && !read(library.room(writing)).is_ok_and(read_back) {
            return Err(Difference("what is written is not read as that one withdrawal".to_string()));
        }
        Ok(theirs)
    }

    /// Does a call in the library, on slots that begin so many bytes after their place. The list of sizes is
    /// lent with it, and must stay as it is.
    pub fn call_library<'a>(
        &mut self,
        library: &mut Library,
        area: Area,
        offset: usize,
        t: &Settings,
        lent: Lent,
        call: impl Into<AnyCall<'a>>,
    ) -> Result<u64, Difference> {
        self.sizes_offset = (self.sizes_offset + 1) % 4;
        let sizes = with_margins(t.d.values());
        library.beside(Beside::Sizes, self.sizes_offset, sizes.len()).copy_from_slice(&sizes);
        let offsets = Offsets { slots: offset, sizes: self.sizes_offset };
        let answer = library.call(area, offsets, t, lent, call)?;
        compare_lent("value of D", library.beside(Beside::Sizes, self.sizes_offset, sizes.len()), &sizes)?;
        Ok(answer)
    }

    /// Does a call in an area whose slots begin so many bytes after their place, and in this program's own
    /// memory, and compares the answers.
    fn call_in(
        &mut self,
        library: &mut Library,
        area: Area,
        offset: usize,
        t: &Settings,
        lent: Lent,
        call: Call,
    ) -> Result<u64, Difference> {
        let theirs = self.call_library(library, area, offset, t, lent, call)?;
        let (counters, slots) = (&mut self.counters[MARGIN..], &mut self.slots[MARGIN..]);
        let ours = rules::answer(t, counters, slots, lent, call, self.slip);
        same("answer", Answer::to(call, theirs), Answer::to(call, ours))?;
        Ok(theirs)
    }

    /// The same with a list of addresses; the addresses and the results are compared as well.
    fn list_in(
        &mut self,
        library: &mut Library,
        area: Area,
        offset: usize,
        t: &Settings,
        lent: Lent,
        list: &List,
    ) -> Result<Listed, Difference> {
        let (addresses, mut results) = (with_margins(&list.addresses), with_margins(&list.results));
        let (addresses_offset, results_offset) = (list.addresses_offset, list.results_offset);
        library.beside(Beside::Addresses, addresses_offset, addresses.len()).copy_from_slice(&addresses);
        library.beside(Beside::Results, results_offset, results.len()).copy_from_slice(&results);
        let answer = self.call_library(library, area, offset, t, lent, list)?;
        let (counters, slots) = (&mut self.counters[MARGIN..], &mut self.slots[MARGIN..]);
        let lent_results = MARGIN..MARGIN + list.results.len();
        let own = &mut results[lent_results.clone()];
        let ours = answer_list(t, counters, slots, list.party, lent, &list.addresses, own, self.slip);
        same("answer", Answer::to(list, answer), Answer::to(list, ours))?;
        let lent_addresses = &*library.beside(Beside::Addresses, addresses_offset, addresses.len());
        compare_lent("address byte", lent_addresses, &addresses)?;
        let theirs = &*library.beside(Beside::Results, results_offset, results.len());
        if answer == 0 {
            let ours = places(list, &results[lent_results.clone()]);
            for (theirs, ours) in places(list, &theirs[lent_results.clone()]).iter().zip(ours) {
                theirs.same("own", ours.parts)?;
            }
        }
        compare_lent("result byte", theirs, &results)?;
        Ok(Listed { answer, results: results[lent_results].to_vec() })
    }

    /// Puts a copy of the table where its slots begin so many bytes after a word's address.
    pub fn put_unaligned(&self, library: &mut Library, offset: usize) {
        library.counters(Area::Unaligned, self.counters.len()).copy_from_slice(&self.counters);
        let slots = &self.slots[..MARGIN + slot_words(&self.t)];
        let bytes = library.slot_bytes(Area::Unaligned, offset + 4 * slots.len());
        for (bytes, word) in bytes[offset..].chunks_exact_mut(4).zip(slots) {
            bytes.copy_from_slice(&word.to_le_bytes());
        }
    }

    /// Asks a question on a copy of the table whose slots do not begin at a word's address.
    pub fn ask_unaligned(
        &mut self,
        library: &mut Library,
        call: AnyCall,
        offset: usize,
    ) -> Result<(), Difference> {
        self.put_unaligned(library, offset);
        let (t, lent) = (self.t, self.lent(call));
        let asked = match call {
            AnyCall::One(call) => self.call_in(library, Area::Unaligned, offset, &t, lent, call).err(),
            AnyCall::List(list) => self.list_in(library, Area::Unaligned, offset, &t, lent, list).err(),
            _ => unreachable!("these are no questions"),
        };
        asked.map_or(Ok(()), |Difference(what)| Err(Difference(format!("on unaligned slots, {what}"))))
    }

    pub fn compare_memory(&self, library: &mut Library) -> Result<(), Difference> {
        compare_lent("counter byte", library.counters(self.area, self.counters.len()), &self.counters)?;
        compare_lent("slot word", library.slots(self.area, self.slots.len()), &self.slots)
    }

    /// Holds a call of well-formed input to the list of stored routes.
    fn compare_routes(&mut self, call: Call, theirs: u64) -> Result<(), Difference> {
        let Some(routes) = &mut self.routes else {
            return Ok(());
        };
        let refusal = theirs >> 48;
        self.answered = vec![refusal];
        if matches!(refusal, 1..=5 | 15) {
            return Ok(());
        }
        let listed = match call {
            Call::Lookup { party, address } => routes.lookup(party, address),
            Call::Vector { address } => routes.vector(address),
            update => routes.update(update) << 48,
        };
        same("answer, held to the list of stored routes", Answer::to(call, theirs), Answer::to(call, listed))
    }

    /// Holds an accepted message to the list of stored routes, in which its routes are single updates.
    fn compare_single_calls(&mut self, message: &Message, theirs: u64) -> Result<(), Difference> {
        self.answered.clear();
        let Some(routes) = self.routes.as_mut().filter(|_| theirs >> 48 == 0) else {
            return Ok(());
        };
        let said = read(&message.bytes).ok();
        let Some(calls) = said.and_then(|said| single_calls(message.party, said, &message.hops)) else {
            return Err(Difference("a message is accepted that cannot be read".to_string()));
        };
        self.answered = calls.into_iter().map(|call| routes.update(call)).collect();
        let accepted = self.answered.iter().filter(|number| **number == 0).count();
        let listed = ((self.answered.len() - accepted) << 12 | accepted) as u64;
        let (theirs, listed) = (Answer::to(message, theirs), Answer::to(message, listed));
        same("answer, held to the list of stored routes", theirs, listed)
    }

    /// Holds each answer of a list to the list of stored routes.
    fn compare_places(&self, party: u32, places: &[Place]) -> Result<(), Difference> {
        let Some(routes) = &self.routes else {
            return Ok(());
        };
        let mut known = HashMap::new();
        for place in places {
            let listed =
                known.entry(place.address).or_insert_with_key(|address| routes.lookup(party, *address));
            place.same("the stored routes", Parts::of_number(*listed))?;
        }
        Ok(())
    }

    /// Holds the first, the middle and the last answer of a list to lookups of the library.
    fn compare_lookups(
        &mut self,
        library: &mut Library,
        t: &Settings,
        lent: Lent,
        party: u32,
        places: &[Place],
    ) -> Result<(), Difference> {
        let mut some = vec![0, places.len() / 2, places.len().saturating_sub(1)];
        some.dedup();
        for place in some.into_iter().filter_map(|at| places.get(at)) {
            let call = Call::Lookup { party, address: place.address };
            let number = self.call_library(library, self.area, 0, t, lent, call)?;
            same(&format!("refusal of a lookup of {}", dotted(place.address)), number >> 48, 0)?;
            place.same("a lookup", Parts::of_number(number))?;
        }
        Ok(())
    }

    /// Holds the counters of each length to the list: they sum to K for each stored route of either party.
    pub fn compare_sums(&self) -> Result<(), Difference> {
        let Some(routes) = &self.routes else {
            return Ok(());
        };
        let mut counters = &self.counters[MARGIN..MARGIN + counter_bytes(&self.t)];
        for (length, d) in (1..).zip(self.t.d.values()) {
            let (filter, after) = counters.split_at(1 << d);
            counters = after;
            let sum = filter.iter().map(|counter| usize::from(*counter)).sum::<usize>();
            same(&format!("sum of the counters of length {length}"), sum, routes.counted(length))?;
        }
        Ok(())
    }
}

/// Bytes with margins whose content no call writes: a word of the results has zeros in its high bytes.
pub fn with_margins(bytes: &[u8]) -> Vec<u8> {
    let margin = || (0..MARGIN).map(|at| 0x80 + at as u8);
    margin().chain(bytes.iter().copied()).chain(margin()).collect()
}

/// Compares what both have of something lent, with its margins.
pub fn compare_lent<T: PartialEq + fmt::Display>(
    what: &str,
    theirs: &[T],
    ours: &[T],
) -> Result<(), Difference> {
    if *theirs == *ours {
        return Ok(());
    }
    let at = theirs.iter().zip(ours).position(|(a, b)| a != b).expect("they differ");
    same(&place(what, at, ours.len() - 2 * MARGIN), &theirs[at], &ours[at])
}

/// The name of a place in memory that has margins.
fn place(what: &str, at: usize, size: usize) -> String {
    if at < MARGIN {
        format!("{what} {} before the lent memory", MARGIN - at)
    } else if at >= MARGIN + size {
        format!("{what} {} after the lent memory", at - MARGIN - size + 1)
    } else {
        format!("{what} {}", at - MARGIN)
    }
}

pub fn same<T: PartialEq + fmt::Display>(what: &str, theirs: T, ours: T) -> Result<(), Difference> {
    if theirs == ours {
        return Ok(());
    }
    Err(Difference(format!("{what}: library {theirs}, own {ours}")))
}
