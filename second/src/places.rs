//! The places of a list: each address with the four words that answer it.

use crate::calls::List;
use crate::pair::Difference;
use crate::told::{dotted, Parts};

/// One address of so many, and its answer.
pub struct Place {
    number: usize,
    count: usize,
    pub address: u32,
    pub parts: Parts,
}

/// The places of a list with these results.
pub fn places(list: &List, results: &[u8]) -> Vec<Place> {
    let addresses = words_of(&list.addresses);
    let count = addresses.len();
    let answers = words_of(results);
    let place = |((number, address), words): ((usize, u32), &[u32])| Place {
        number,
        count,
        address,
        parts: Parts([words[0], words[1], words[2], words[3]]),
    };
    (1..).zip(addresses).zip(answers.chunks_exact(4)).map(place).collect()
}

impl Place {
    /// Holds the library's answer to somebody else's.
    pub fn same(&self, whose: &str, other: Parts) -> Result<(), Difference> {
        if self.parts == other {
            return Ok(());
        }
        let Place { number, count, address, parts } = self;
        let address = dotted(*address);
        Err(Difference(format!(
            "address {number} of {count}, {address}: library ({parts}), {whose} ({other})"
        )))
    }
}

/// Words as they cross from C, each with its low byte first.
pub fn bytes_of(words: &[u32]) -> Vec<u8> {
    words.iter().flat_map(|word| word.to_le_bytes()).collect()
}

/// The whole words of such bytes.
fn words_of(bytes: &[u8]) -> Vec<u32> {
    bytes.chunks_exact(4).map(|word| u32::from_le_bytes([word[0], word[1], word[2], word[3]])).collect()
}
