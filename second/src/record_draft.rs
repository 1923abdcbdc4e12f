//! Records of a dump as they are put together from their parts.

use crate::random::Random;

/// The bytes of a record's header.
pub const HEADER: usize = 12;

/// Type and subtype of the records of a dump that are read, and the most bytes that bodies have which are read.
pub const READ: (u16, u16) = (13, 2);
pub const MOST_BODY: usize = 65_536;

/// Where in a body the prefix stands.
pub const PREFIX_AT: usize = 4;

/// What one neighbour says of a route: its number and a time, which mean nothing, and the attributes.
pub struct Entry {
    pub origin: [u8; 6],
    pub attributes: Vec<Vec<u8>>,
}

impl Entry {
    pub fn new(random: &mut Random, attributes: Vec<Vec<u8>>) -> Entry {
        let [a, b, c, d] = random.word().to_be_bytes();
        Entry { origin: [0, random.below(4) as u8, a, b, c, d], attributes }
    }

    fn bytes(&self) -> Vec<u8> {
        let attributes = self.attributes.concat();
        let size = (attributes.len() as u16).to_be_bytes();
        [&self.origin[..], &size, &attributes].concat()
    }
}

/// The body of a record that is read.
pub struct Body {
    pub number: [u8; 4],
    /// As it is written: its length and as many bytes as hold it.
    pub prefix: Vec<u8>,
    pub entries: Vec<Entry>,
}

impl Body {
    /// The bytes of the body, every length among them as it should be.
    pub fn bytes(&self) -> Vec<u8> {
        let count = (self.entries.len() as u16).to_be_bytes();
        let entries: Vec<Vec<u8>> = self.entries.iter().map(Entry::bytes).collect();
        [&self.number[..], &self.prefix, &count, &entries.concat()].concat()
    }

    /// Where the number of entries stands.
    pub fn count_at(&self) -> usize {
        PREFIX_AT + self.prefix.len()
    }

    /// Where each entry begins, and where the last one ends.
    pub fn entries_at(&self) -> Vec<usize> {
        let mut places = vec![self.count_at() + 2];
        for entry in &self.entries {
            places.push(places[places.len() - 1] + entry.bytes().len());
        }
        places
    }
}

/// A header, with any time, for a body of so many bytes.
pub fn header(random: &mut Random, kind: (u16, u16), size: u32) -> Vec<u8> {
    let time = random.word().to_be_bytes();
    [&time[..], &kind.0.to_be_bytes(), &kind.1.to_be_bytes(), &size.to_be_bytes()].concat()
}

/// A record whose header is right.
pub fn record(random: &mut Random, kind: (u16, u16), body: &[u8]) -> Vec<u8> {
    [header(random, kind, body.len() as u32), body.to_vec()].concat()
}
