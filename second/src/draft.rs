//! Messages as they are put together from their parts.

use crate::random::Random;

/// The type of an UPDATE, and that of the attribute NEXT_HOP.
pub const UPDATE: u8 = 2;
const NEXT_HOP: u8 = 3;

/// The flag of an attribute whose length has two bytes.
pub const EXTENDED: u8 = 0x10;

/// Where the length of a message stands, and where its type, the length of its withdrawn routes and the
/// routes themselves do.
pub const LENGTH_AT: usize = 16;
pub const TYPE_AT: usize = 18;
pub const WITHDRAWN_AT: usize = 19;
const ROUTES_AT: usize = 21;

/// A prefix as it is written: its length and as many bytes as hold it.
pub fn prefix_bytes(prefix: u32, length: u32) -> Vec<u8> {
    let mut bytes = vec![length as u8];
    bytes.extend(&prefix.to_be_bytes()[..length.div_ceil(8) as usize]);
    bytes
}

/// A path attribute with any flags.
pub fn attribute(random: &mut Random, kind: u8, value: &[u8]) -> Vec<u8> {
    if value.len() > 255 || random.percent(30) {
        return long_attribute(random, kind, value);
    }
    let mut bytes = vec![flags(random) & !EXTENDED, kind, value.len() as u8];
    bytes.extend(value);
    bytes
}

/// A path attribute whose length has two bytes.
pub fn long_attribute(random: &mut Random, kind: u8, value: &[u8]) -> Vec<u8> {
    let mut bytes = vec![flags(random) | EXTENDED, kind];
    bytes.extend((value.len() as u16).to_be_bytes());
    bytes.extend(value);
    bytes
}

fn flags(random: &mut Random) -> u8 {
    match random.percent(50) {
        true => random.pick(&[0x40, 0x80, 0xc0]),
        false => random.word() as u8,
    }
}

pub fn next_hop(random: &mut Random, value: &[u8]) -> Vec<u8> {
    attribute(random, NEXT_HOP, value)
}

/// A message's routes and attributes, each as it is written.
pub struct Draft {
    pub withdrawn: Vec<Vec<u8>>,
    pub attributes: Vec<Vec<u8>>,
    pub announced: Vec<Vec<u8>>,
}

/// Where in the bytes of a message things begin.
pub struct Layout {
    /// The length of the attributes.
    pub attributes: usize,
    pub every_attribute: Vec<usize>,
    /// The announced routes, after the last attribute.
    pub announced: usize,
    pub every_prefix: Vec<usize>,
}

impl Draft {
    pub fn size(&self) -> usize {
        let parts = [&self.withdrawn, &self.attributes, &self.announced];
        ROUTES_AT + 2 + parts.map(|part| part.concat().len()).iter().sum::<usize>()
    }

    /// The bytes of the message, every length among them as it should be.
    pub fn bytes(&self) -> Vec<u8> {
        let (withdrawn, attributes) = (self.withdrawn.concat(), self.attributes.concat());
        let mut bytes = vec![255; LENGTH_AT];
        bytes.extend((self.size() as u16).to_be_bytes());
        bytes.push(UPDATE);
        bytes.extend((withdrawn.len() as u16).to_be_bytes());
        bytes.extend(withdrawn);
        bytes.extend((attributes.len() as u16).to_be_bytes());
        bytes.extend(attributes);
        bytes.extend(self.announced.concat());
        bytes
    }

    pub fn layout(&self) -> Layout {
        let (mut every_prefix, attributes) = starts(&self.withdrawn, ROUTES_AT);
        let (every_attribute, announced) = starts(&self.attributes, attributes + 2);
        every_prefix.extend(starts(&self.announced, announced).0);
        Layout { attributes, every_attribute, announced, every_prefix }
    }
}

/// Where each item of a part begins that begins here, and where the part ends.
fn starts(part: &[Vec<u8>], mut at: usize) -> (Vec<usize>, usize) {
    let mut starts = Vec::new();
    for item in part {
        starts.push(at);
        at += item.len();
    }
    (starts, at)
}
