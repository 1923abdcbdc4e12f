//! One UPDATE message on lent memory: what C gets, and what the table holds afterwards.
//!
//! `reading` says what stands in the message. Each route is done by a single call of `rules`, which is also
//! asked for refusals 1, 2 and 15. Slips are told as there: the arm `_` is right.

use std::collections::BTreeSet;

use super::calls::{Call, Lent, Settings};
use super::reading::read_with;
use super::rules::{answer, odd};
use super::slips::Slip;

pub use super::reading::{read, Fault, Said, FAULTS};
pub use super::writing::write_withdrawal;

/// What a refusal is multiplied by in the number that C gets.
const REFUSAL: u64 = 1 << 48;

/// Does one message, as it crosses from C, and gives its answer as one number.
pub fn read_message(
    t: &Settings,
    counters: &mut [u8],
    slots: &mut [u32],
    party: u32,
    lent: Lent,
    message: &[u8],
    hops: &[u32],
    slip: Option<Slip>,
) -> u64 {
    let (said, fault) = read_with(message, slip);
    let mut update = Update { t, counters, slots, party, lent, hops, said, fault, slip };
    let refusal = update.refusal();
    if refusal != 0 {
        update.begun(refusal);
        return update.refused(refusal);
    }
    update.done()
}

/// What a message says, with the table and the list of hops that it is for.
struct Update<'a> {
    t: &'a Settings,
    counters: &'a mut [u8],
    slots: &'a mut [u32],
    party: u32,
    lent: Lent,
    hops: &'a [u32],
    /// All that was read before the fault.
    said: Said,
    fault: Option<Fault>,
    slip: Option<Slip>,
}

// ---- Refusals ----

impl Update<'_> {
    fn is(&self, slip: Slip) -> bool {
        self.slip == Some(slip)
    }

    /// The first refusal whose condition holds, in the order 1, 2, 15, 12, 13; 0 if none does.
    fn refusal(&self) -> u64 {
        let (of_table, of_message, of_hops) =
            (self.table_refusal(), self.message_refusal(), self.hops_refusal());
        match (self.slip, of_table, of_message, of_hops) {
            (Some(Slip::MessageBeforeSettings), 1.., 1.., _) => of_message,
            (Some(Slip::MessageBeforeSize), 2 | 15, 1.., _) => of_message,
            (Some(Slip::MessageBeforeParty), 15, 1.., _) => of_message,
            (Some(Slip::MessageHopBeforeSettings), 1.., 0, 1..) => of_hops,
            (Some(Slip::MessageHopBeforeSize), 2 | 15, 0, 1..) => of_hops,
            (Some(Slip::MessageHopBeforeAnnounced), 0, 1.., _) if self.announced_faulty() => {
                self.hop().map_or(13, |_| of_message)
            }
            (_, 1.., _, _) => of_table,
            (_, _, 1.., _) => of_message,
            _ => of_hops,
        }
    }

    /// The number 1, 2 or 15, if single updates give it. No memory goes with this one, so it can change none.
    fn table_refusal(&self) -> u64 {
        let no_route = self.said.withdrawn.is_empty() && self.said.announced.is_empty();
        let call = Call::Add { party: self.party, prefix: 0, length: 0, hop: 0 };
        let number = answer(self.t, &mut [], &mut [], self.lent, call, self.rules_slip()) / REFUSAL;
        match (self.slip, number) {
            (_, 15) => 15,
            (Some(Slip::MessageTableUnasked), _) => 0,
            (Some(Slip::MessageEmptyUnasked), _) if no_route => 0,
            // Only a slip gives 18.
            (_, 1 | 2 | 18) => number,
            _ => 0,
        }
    }

    /// The number 12, if the message cannot be read.
    fn message_refusal(&self) -> u64 {
        match (self.slip, self.fault) {
            (_, None) => 0,
            (Some(Slip::MessageTypeIgnored), Some(Fault::Type)) => 0,
            _ => 12,
        }
    }

    /// The number 13, if routes are announced and no hop number goes with their next hop.
    fn hops_refusal(&self) -> u64 {
        let (missing, unlisted) = (self.said.next_hop.is_none(), self.hop().is_none());
        let announced = !self.said.announced.is_empty();
        let wrong = match self.slip {
            Some(Slip::MessageMissingAlwaysAsked) => unlisted && (announced || missing),
            Some(Slip::MessageUnlistedAlwaysAsked) => unlisted && (announced || !missing),
            Some(Slip::MessageEmptyListRefused) => unlisted && (announced || self.hops.is_empty()),
            Some(Slip::MessageMissingCounted) => announced && unlisted && !missing,
            Some(Slip::MessageUnlistedCounted) => announced && missing,
            _ => announced && unlisted,
        };
        if wrong {
            13
        } else {
            0
        }
    }

    fn announced_faulty(&self) -> bool {
        matches!(self.fault, Some(Fault::AnnouncedTooLong | Fault::AnnouncedPrefixOverrun))
    }

    /// Slips only: what a call had written before it was refused.
    fn begun(&mut self, refusal: u64) {
        let (withdrawals, announcements) = (self.withdrawals(), self.announcements());
        match (self.slip, refusal) {
            (Some(Slip::MessageWithdrawnEarly), 12) | (Some(Slip::MessageHopLate), 13) => {
                self.do_each(withdrawals);
            }
            (Some(Slip::MessageAnnouncedEarly), 12) if self.announced_faulty() => {
                self.do_each(withdrawals);
                self.do_each(announcements);
            }
            _ => (),
        }
    }

    /// A refusal as one number, nothing beside it.
    fn refused(&self, refusal: u64) -> u64 {
        match self.slip {
            Some(Slip::MessageRefusalBare) => refusal,
            Some(Slip::MessageRefusalAt40) => refusal << 40,
            Some(Slip::MessageRefusedWithCounts) => {
                let routes = self.said.withdrawn.len() + self.said.announced.len();
                refusal * REFUSAL + routes as u64 * 4_096
            }
            _ => refusal * REFUSAL,
        }
    }
}

// ---- The list of hops ----

impl Update<'_> {
    /// The hop number of the announced routes, if there is one for them.
    fn hop(&self) -> Option<u32> {
        let address = match (self.slip, self.said.next_hop) {
            (Some(Slip::MessageMissingHopZero), None) => return Some(0),
            (Some(Slip::MessageMissingIsZero), None) => 0,
            (_, next_hop) => next_hop?,
        };
        let place = match (self.slip, self.place(address)) {
            (Some(Slip::MessageUnlistedHopZero), None) => return Some(0),
            (Some(Slip::MessageHopFromOne), place) => place? + 1,
            (Some(Slip::MessageHopLow16Bits), place) => place? % 65_536,
            (_, place) => place?,
        };
        let most = match self.slip {
            Some(Slip::MessageHopTo65534) => 65_534,
            Some(Slip::MessageHopTo65536) => 65_536,
            Some(Slip::MessageHopUnbounded) => u32::MAX as usize,
            Some(Slip::MessageListLongRefused) if self.hops.len() > 65_536 => return None,
            _ => 65_535,
        };
        if place <= most {
            Some(place as u32)
        } else {
            None
        }
    }

    /// The lowest place of an address in the list, from 0.
    fn place(&self, address: u32) -> Option<usize> {
        let mut places = self.hops.iter().enumerate().filter(|(_, hop)| **hop == address).map(|(n, _)| n);
        match self.slip {
            Some(Slip::MessageHopHighest) => places.last(),
            Some(Slip::MessageListFirstMissed) => places.find(|n| *n > 0),
            Some(Slip::MessageListLastMissed) => places.find(|n| n + 1 < self.hops.len()),
            Some(Slip::MessageListEndsAtZero) => {
                places.next().filter(|place| self.hops.iter().take(*place).all(|hop| *hop != 0))
            }
            Some(Slip::MessageListDistinct) => {
                let place = places.next()?;
                Some(self.hops.iter().take(place).collect::<BTreeSet<_>>().len())
            }
            Some(Slip::MessageListSorted) => self.hops.binary_search(&address).ok(),
            _ => places.next(),
        }
    }
}

// ---- The routes ----

/// How many routes the table took and how many it did not.
#[derive(Default)]
struct Counts {
    accepted: u64,
    refused: u64,
    /// The first refusal that a route got, which only slips ask for.
    first: u64,
}

impl Update<'_> {
    fn withdrawals(&self) -> Vec<Call> {
        let party = match self.slip {
            Some(Slip::MessageWithdrawnParty0) => 0,
            _ => self.party,
        };
        let call = |(prefix, length)| Call::Withdraw { party, prefix, length };
        let mut routes = self.said.withdrawn.clone();
        match self.slip {
            Some(Slip::MessageWithdrawnReversed) => routes.reverse(),
            Some(Slip::MessageRepeatSkipped) => routes = once(routes),
            Some(Slip::MessageAnnouncedUnwithdrawn) => {
                routes.retain(|route| !self.said.announced.contains(route));
            }
            _ => (),
        }
        routes.into_iter().map(call).collect()
    }

    fn announcements(&self) -> Vec<Call> {
        // Only slips announce without a hop number: each add then gives 5, or 11 for an odd prefix.
        let (party, hop) = (self.party, self.hop().unwrap_or(u32::MAX));
        let call = |(prefix, length)| match self.slip {
            Some(Slip::MessageAnnouncedChanged) => Call::Change { party, prefix, length, hop },
            _ => Call::Add { party, prefix, length, hop },
        };
        let mut routes = self.said.announced.clone();
        match self.slip {
            Some(Slip::MessageAnnouncedReversed) => routes.reverse(),
            Some(Slip::MessageRepeatSkipped) => routes = once(routes),
            Some(Slip::MessageFirstAnnouncedOnly) => routes.truncate(1),
            _ => (),
        }
        routes.into_iter().map(call).collect()
    }

    /// Does every route, the withdrawn ones first, and gives the counts as one number.
    fn done(&mut self) -> u64 {
        let mut parts = [self.withdrawals(), self.announcements()];
        if self.is(Slip::MessageAnnouncedFirst) {
            parts.reverse();
        }
        let [first, second] = parts;
        let undoes = self.is(Slip::MessageAllOrNothing) || self.is(Slip::MessageWritesNothing);
        let before = undoes.then(|| (self.counters.to_vec(), self.slots.to_vec()));
        let one = self.do_each(first);
        let other = match self.slip {
            Some(
                Slip::MessageRefusedWithdrawalEnds | Slip::MessageStopsAtRefused | Slip::MessageRefusedGiven,
            ) if one.first != 0 => Counts::default(),
            _ => self.do_each(second),
        };
        if let Some((counters, slots)) = before {
            if one.refused + other.refused > 0 || self.is(Slip::MessageWritesNothing) {
                self.counters.copy_from_slice(&counters);
                self.slots.copy_from_slice(&slots);
            }
        }
        self.counted(one, other)
    }

    /// Does some routes in their order, each as a single call.
    fn do_each(&mut self, calls: Vec<Call>) -> Counts {
        let mut counts = Counts::default();
        for call in calls {
            if self.is(Slip::MessageReplacedUncounted) && self.replaced(call) {
                continue;
            }
            let refusal = self.single(call) / REFUSAL;
            let of_withdrawal = matches!(call, Call::Withdraw { .. });
            match (self.slip, refusal) {
                (Some(Slip::MessageWithdrawnUncounted), _) if of_withdrawal => (),
                (Some(Slip::MessageAnnouncedUncounted), _) if !of_withdrawal => (),
                (Some(Slip::MessageUnstoredUncounted), 7) => (),
                (Some(Slip::MessageOddUncounted), 11) => (),
                (Some(Slip::MessageUnstoredAccepted), 7) => counts.accepted += 1,
                (_, 0) => counts.accepted += 1,
                _ => counts.refused += 1,
            }
            if refusal != 0 && counts.first == 0 {
                counts.first = refusal;
                if self.is(Slip::MessageStopsAtRefused) || self.is(Slip::MessageRefusedGiven) {
                    break;
                }
            }
        }
        counts
    }

    /// What a single call gives.
    fn single(&mut self, call: Call) -> u64 {
        let slip = self.rules_slip();
        answer(self.t, self.counters, self.slots, self.lent, call, slip)
    }

    /// The slip for a single call, but none of its 64-bit number: no such number crosses here.
    fn rules_slip(&self) -> Option<Slip> {
        match self.slip {
            Some(Slip::MessageOddPasses) => Some(Slip::OddUnasked),
            slip => slip.filter(|slip| *slip != Slip::RefusalAt40),
        }
    }

    /// Slips only: does an announcement of a stored prefix, unless that is odd, as a change, and says whether
    /// it was one.
    fn replaced(&mut self, call: Call) -> bool {
        match call {
            Call::Add { party, prefix, length, hop } if !odd(length, prefix) => {
                self.single(Call::Change { party, prefix, length, hop }) == 0
            }
            _ => false,
        }
    }

    /// The counts of both lists of routes as one number.
    fn counted(&self, one: Counts, other: Counts) -> u64 {
        let (accepted, refused) = (one.accepted + other.accepted, one.refused + other.refused);
        let first = if one.first != 0 { one.first } else { other.first };
        match self.slip {
            Some(Slip::MessageRefusedGiven) if first != 0 => first * REFUSAL,
            Some(Slip::MessageCountsSwapped) => accepted * 4_096 + refused,
            Some(Slip::MessageCountsBytes) => refused % 256 * 4_096 + accepted % 256,
            Some(Slip::MessageRefusedAt16) => (refused << 16) + accepted,
            Some(Slip::MessageRefusedAt24) => (refused << 24) + accepted,
            Some(Slip::MessageRefusedUncounted) => accepted,
            Some(Slip::MessageAcceptedAll) => refused * 4_096 + accepted + refused,
            _ => refused * 4_096 + accepted,
        }
    }
}

/// Slips only: each route where it first stands.
fn once(routes: Vec<(u32, u32)>) -> Vec<(u32, u32)> {
    let mut kept = Vec::new();
    for route in routes {
        if !kept.contains(&route) {
            kept.push(route);
        }
    }
    kept
}
