//! What a record of a day does on paper: an UPDATE is so many single updates of the list of stored routes, and each
//! of their answers is counted.

use crate::calls::Call;
use crate::messages::{read, Said};
use crate::paper_streams::More;
use crate::replays::held;
use crate::routes::Routes;

/// Where the figures of a tally stand; the last is the place of number 0, after which the other numbers follow.
pub const SEEN: usize = 0;
pub const APPLIED: usize = 1;
pub const ACCEPTED: usize = 2;
pub const REFUSED: usize = 3;

/// Does a record that is read, and counts it. An error ends the replay.
pub fn replay(
    routes: &mut Routes,
    party: u32,
    hops: &[u32],
    subtype: u32,
    body: &[u8],
    more: &mut More,
) -> Result<(), ()> {
    if let Some(message) = held(subtype, body)? {
        let said = read(message).map_err(drop)?;
        if let Some(calls) = single_calls(party, said, hops) {
            more.tally[APPLIED] += 1;
            for call in calls {
                more.replaced += u32::from(announces_stored(routes, call));
                let number = routes.update(call);
                match number {
                    0 => more.tally[ACCEPTED] += 1,
                    number => more.tally[REFUSED + number as usize] += 1,
                }
                more.answered.push(number);
            }
        }
    }
    more.tally[SEEN] += 1;
    Ok(())
}

/// The single updates that a good message stands for, in their order, if there is a hop for the routes that it
/// announces.
pub fn single_calls(party: u32, said: Said, hops: &[u32]) -> Option<Vec<Call>> {
    let withdraw = |(prefix, length): (u32, u32)| Call::Withdraw { party, prefix, length };
    let mut calls: Vec<Call> = said.withdrawn.into_iter().map(withdraw).collect();
    if !said.announced.is_empty() {
        let (hop, _) = (0..=65_535).zip(hops).find(|(_, hop)| Some(**hop) == said.next_hop)?;
        let add = |(prefix, length): (u32, u32)| Call::Add { party, prefix, length, hop };
        calls.extend(said.announced.into_iter().map(add));
    }
    Some(calls)
}

fn announces_stored(routes: &Routes, call: Call) -> bool {
    let Call::Add { party, prefix, length, .. } = call else {
        return false;
    };
    let asked = (party, prefix, length);
    routes.list().iter().any(|route| (route.party, route.prefix, route.length) == asked)
}
