//! One call with a list of addresses, as it crosses from C: what C gets and what lies in the results.
//!
//! Each address is asked by a single lookup of `rules`, and so are refusals 1, 2 and 15; what is the list's
//! own stands here. Slips are told as there: the arm `_` and the first value of `or` are right.

use super::calls::{Call, Lent, Settings};
use super::rules::answer;
use super::slips::Slip;

/// What a refusal is multiplied by in the number that C gets.
const REFUSAL: u64 = 1 << 48;

/// Found, hop, length and probes, in the order in which they lie in the results.
type Words = [u32; 4];

/// Does one call with a list of addresses, as it crosses from C, and gives its answer as one number.
pub fn answer_list(
    t: &Settings,
    counters: &mut [u8],
    slots: &mut [u32],
    party: u32,
    lent: Lent,
    addresses: &[u8],
    results: &mut [u8],
    slip: Option<Slip>,
) -> u64 {
    let mut queue = Queue { t, counters, slots, party, lent, addresses, results, slip };
    let refusal = queue.refusal();
    if refusal != 0 {
        queue.begun(refusal);
        return queue.or(refusal * REFUSAL, Slip::ListRefusalBare, refusal);
    }
    queue.answer_all();
    queue.or(0, Slip::ListGivesCount, queue.count() as u64)
}

/// The two lists, and the table that is asked.
struct Queue<'a> {
    t: &'a Settings,
    counters: &'a mut [u8],
    slots: &'a mut [u32],
    party: u32,
    lent: Lent,
    addresses: &'a [u8],
    results: &'a mut [u8],
    slip: Option<Slip>,
}

// ---- Refusals ----

impl Queue<'_> {
    fn is(&self, slip: Slip) -> bool {
        self.slip == Some(slip)
    }

    /// The right value, or the wrong one if the slip named is at work.
    fn or<V>(&self, right: V, slip: Slip, wrong: V) -> V {
        if self.is(slip) {
            wrong
        } else {
            right
        }
    }

    /// The first refusal whose condition holds, in the order 1, 2, 15, 18; 0 if none does.
    fn refusal(&mut self) -> u64 {
        let of_table = self.table_refusal();
        let of_lists = self.lists_refusal();
        match (self.slip, of_table, of_lists) {
            (Some(Slip::ListBeforeSettings), _, 1..) => of_lists,
            (Some(Slip::ListBeforeSize), 2 | 15, 1..) => of_lists,
            (_, 1.., _) => of_table,
            _ => of_lists,
        }
    }

    /// The number 1, 2 or 15, if a single lookup gives it; which address it asks about is all the same.
    fn table_refusal(&mut self) -> u64 {
        let number = self.lookup(self.party, 0);
        // A refusal has zeros beside it. Only a slip gives a hop that reaches this far up.
        let refusal = if number % REFUSAL == 0 { number / REFUSAL } else { 0 };
        match (self.slip, refusal) {
            (Some(Slip::ListEmptyUnasked), 1 | 2) if self.addresses.is_empty() => 0,
            _ => refusal,
        }
    }

    /// The number 18, if the lists are not of sizes that go together.
    fn lists_refusal(&self) -> u64 {
        let (lent, room) = (self.addresses.len(), self.results.len());
        let asked = lent.saturating_mul(4);
        let odd = lent % 4 != 0;
        let wrong = match self.slip {
            Some(Slip::ListResultsLonger) => odd || room < asked,
            Some(Slip::ListResultsShorter) => odd || room > asked,
            Some(Slip::ListResultsRounded) => odd || room / 4 != lent,
            Some(Slip::ListOddPasses) => room != asked,
            Some(Slip::ListOddCutOff) => room != self.count().saturating_mul(16),
            Some(Slip::ListEmptyRefused) => odd || room != asked || lent == 0,
            _ => odd || room != asked,
        };
        match self.slip {
            _ if !wrong => 0,
            Some(Slip::ListOddGivesTwo) if odd => 2,
            _ => 18,
        }
    }

    /// Slips only: what a call had written before it was refused.
    fn begun(&mut self, refusal: u64) {
        match (self.slip, refusal) {
            (Some(Slip::ListRefusedZeroed), _) => self.results.fill(0),
            (Some(Slip::ListLate), 18) => self.answer_all(),
            _ => (),
        }
    }
}

// ---- Addresses and results ----

impl Queue<'_> {
    /// How many whole addresses are lent.
    fn count(&self) -> usize {
        self.addresses.len() / 4
    }

    /// Address n of the list, from 0.
    fn address(&self, n: usize) -> u32 {
        let bytes = [0, 1, 2, 3].map(|byte| self.addresses[4 * n + byte]);
        self.or(u32::from_le_bytes(bytes), Slip::ListAddressesHighFirst, u32::from_be_bytes(bytes))
    }

    /// Writes one word of address n's result, as far as the results reach (a slip may ask for more).
    fn set_word(&mut self, n: usize, which: usize, word: u32) {
        let at = self.or(4 * n + which, Slip::ListColumns, self.count() * which + n);
        let bytes = self.or(word.to_le_bytes(), Slip::ListResultsHighFirst, word.to_be_bytes());
        let written = self.or(4, Slip::ListHighBytesLeft, 2);
        for (place, byte) in self.results.iter_mut().skip(4 * at).zip(&bytes[..written]) {
            *place = *byte;
        }
    }

    fn set_words(&mut self, n: usize, words: Words) {
        for (which, word) in words.into_iter().enumerate() {
            let of_none = words[0] == 0 && (which == 1 || which == 2);
            if !(of_none && self.is(Slip::ListNoneRouteLeft)) {
                self.set_word(n, which, word);
            }
        }
    }
}

// ---- Answers ----

impl Queue<'_> {
    /// What a single lookup gives. Slips of its 64-bit number are left out: no such number crosses here.
    fn lookup(&mut self, party: u32, address: u32) -> u64 {
        let slip = self.slip.filter(|slip| {
            !matches!(
                slip,
                Slip::RefusalAt40
                    | Slip::FoundAt32
                    | Slip::HopAt24
                    | Slip::LengthProbesSwapped
                    | Slip::RefusedWithOne
            )
        });
        answer(self.t, self.counters, self.slots, self.lent, Call::Lookup { party, address }, slip)
    }

    /// The four words of address n; those of the address before it are asked only by slips.
    fn words(&mut self, n: usize, before: Words) -> Words {
        let asked = self.or(n, Slip::ListOneBehind, n.saturating_sub(1));
        let party = self.or(self.party, Slip::ListParty0, 0);
        let number = self.lookup(party, self.address(asked));
        let part = |from: u32, bits: u32| (number >> from) as u32 & ((1 << bits) - 1);
        let (found, hop, length, probes) = (part(40, 8), part(16, 24), part(8, 8), part(0, 8));
        match self.slip {
            Some(Slip::ListProbesBeforeLength) => [found, hop, probes, length],
            Some(Slip::ListProbesRunOn) => [found, hop, length, probes.wrapping_add(before[3])],
            Some(Slip::ListNoneKeepsRoute) if found == 0 => [found, before[1], before[2], probes],
            _ => [found, hop, length, probes],
        }
    }

    /// Answers every address of the list, in its own place of the results.
    fn answer_all(&mut self) {
        let count = self.or(self.count(), Slip::ListLastMissed, self.count().saturating_sub(1));
        let mut before = [0; 4];
        for n in 0..count {
            let words = self.words(n, before);
            self.set_words(n, words);
            if words[0] == 0 && self.is(Slip::ListStopsAtNone) {
                break;
            }
            before = words;
        }
    }
}
