//! What a run has seen of messages.

use crate::calls::Message;
use crate::messages::{read, FAULTS};
use crate::pair::Difference;
use std::fmt;

/// What an accepted message can be.
const ACCEPTED: [&str; 8] = [
    "of 23 bytes",
    "of 4,096 bytes",
    "with no route refused",
    "with routes refused",
    "with routes withdrawn and announced",
    "with a next hop at place 65,535",
    "with a next hop at several places",
    "without a route announced, whose next hop is not in the list",
];

#[derive(Default)]
pub struct MessageTally {
    accepted: [u64; ACCEPTED.len()],
    routes_accepted: u64,
    routes_refused: u64,
    most_routes: u64,
    /// What was wrong about those refused as 12.
    faults: [u64; FAULTS.len()],
    /// Those refused as 13 whose next hop is in the list, past place 65,535.
    too_far: u64,
}

impl MessageTally {
    /// Counts a message that was given neither 1 nor 2, unless it is read otherwise.
    pub fn count(&mut self, message: &Message, answer: u64) -> Result<(), Difference> {
        let said = match (read(&message.bytes), answer >> 48) {
            (Err(fault), 12) => {
                let which = FAULTS.iter().position(|(known, _)| *known == fault);
                self.faults[which.expect("every fault is listed")] += 1;
                return Ok(());
            }
            (Ok(said), 0 | 13) => said,
            (_, refusal) => return Err(Difference(format!("both give {refusal}, and it is read otherwise"))),
        };
        let places = || (0..).zip(&message.hops).filter(|(_, hop)| Some(**hop) == said.next_hop);
        let place = places().next().map(|(place, _)| place);
        if answer >> 48 == 13 {
            self.too_far += u64::from(place.is_some_and(|place| place > 65_535));
            return Ok(());
        }
        let (refused, accepted) = (answer >> 12, answer & 0xfff);
        let announces = !said.announced.is_empty();
        let met = [
            message.bytes.len() == 23,
            message.bytes.len() == 4096,
            refused == 0 && accepted > 0,
            refused > 0,
            announces && !said.withdrawn.is_empty(),
            announces && place == Some(65_535),
            announces && places().count() > 1,
            !announces && said.next_hop.is_some() && place.is_none(),
        ];
        for (times, met) in self.accepted.iter_mut().zip(met) {
            *times += u64::from(met);
        }
        self.routes_accepted += accepted;
        self.routes_refused += refused;
        self.most_routes = self.most_routes.max(accepted + refused);
        Ok(())
    }

    /// The first thing that a long run should have met and did not.
    pub fn missing(&self) -> Option<String> {
        let accepted = ACCEPTED.iter().zip(self.accepted).find(|(_, times)| *times == 0);
        let accepted = accepted.map(|(kind, _)| format!("no message {kind} was accepted"));
        let fault = FAULTS.iter().zip(self.faults).find(|(_, times)| *times == 0);
        let fault = fault.map(|((_, fault), _)| format!("no message was refused since {fault}"));
        let too_far = "no message was refused with its next hop past place 65,535";
        accepted.or(fault).or((self.too_far == 0).then(|| too_far.to_string()))
    }
}

impl fmt::Display for MessageTally {
    fn fmt(&self, f: &mut fmt::Formatter) -> fmt::Result {
        let MessageTally { routes_accepted, routes_refused, most_routes, too_far, .. } = self;
        write!(f, "  routes of messages: accepted {routes_accepted}, refused {routes_refused}, ")?;
        write!(f, "at most {most_routes} in one\n  accepted messages:")?;
        for (number, (kind, times)) in ACCEPTED.iter().zip(self.accepted).enumerate() {
            write!(f, "{} {kind}: {times}", if number == 0 { "" } else { "," })?;
        }
        write!(f, "\n  messages refused as 13 with a next hop past place 65,535: {too_far}\n  as 12:")?;
        for (number, ((_, fault), times)) in FAULTS.iter().zip(self.faults).enumerate() {
            write!(f, "{} {fault}: {times}", if number == 0 { "" } else { "," })?;
        }
        Ok(())
    }
}
