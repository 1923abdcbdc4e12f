//! The two parties: which one a call names, and whose a mark is.

use crate::calls::{AnyCall, Call};
use crate::random::Random;

/// How many parties there are.
pub const PARTIES: usize = 2;

/// The marks at which something changes.
pub const EDGES: [u32; 7] = [0, 1, 65_536, 65_537, 131_072, 131_073, u32::MAX];

/// Numbers of parties that there are not, which calls name now and then.
const STRANGERS: [u32; 9] = [2, 2, 2, 3, 256, 65_536, 1 << 31, u32::MAX, u32::MAX];

/// The party whose a mark is; a slot of any other mark is free.
pub fn owner(mark: u32) -> Option<u32> {
    match mark {
        1..=65_536 => Some(0),
        65_537..=131_072 => Some(1),
        _ => None,
    }
}

/// A party that there is not.
pub fn stranger(random: &mut Random) -> u32 {
    random.pick(&STRANGERS)
}

impl Call {
    /// The party that the call names, if it names one.
    pub fn party(&self) -> Option<u32> {
        match self {
            Call::Clear | Call::Vector { .. } => None,
            Call::Add { party, .. }
            | Call::Withdraw { party, .. }
            | Call::Change { party, .. }
            | Call::Lookup { party, .. } => Some(*party),
        }
    }

    /// The same call, naming this party if it names one.
    pub fn by(mut self, named: u32) -> Call {
        match &mut self {
            Call::Clear | Call::Vector { .. } => {}
            Call::Add { party, .. }
            | Call::Withdraw { party, .. }
            | Call::Change { party, .. }
            | Call::Lookup { party, .. } => *party = named,
        }
        self
    }
}

impl AnyCall<'_> {
    /// The party that the call names, if it names one.
    pub fn party(&self) -> Option<u32> {
        match self {
            AnyCall::One(call) => call.party(),
            AnyCall::List(list) => Some(list.party),
            AnyCall::Comparison(comparison) => Some(comparison.party),
            AnyCall::Message(message) => Some(message.party),
            AnyCall::Chunk(chunk) => Some(chunk.party),
            AnyCall::Writing(_) | AnyCall::End(_) => None,
        }
    }
}
