//! Records of a recorded day as they are put together from their parts.

use crate::draft::LENGTH_AT;
use crate::random::Random;

/// Type and subtype of the records that are read: messages with AS numbers of two bytes, and of four.
pub const READ_AS2: (u16, u16) = (16, 1);
pub const READ_AS4: (u16, u16) = (16, 4);

/// The address families that have a name here.
pub const IPV4: u16 = 1;
pub const IPV6: u16 = 2;

/// The bytes of two addresses of IPv4, and those of a message's header.
pub const ADDRESSES: usize = 8;
pub const MESSAGE_HEADER: usize = 19;

/// Between whom a message went, and the message.
pub struct Heard {
    /// The AS numbers of both.
    pub numbers: Vec<u8>,
    pub interface: [u8; 2],
    pub family: u16,
    /// The addresses of both.
    pub addresses: Vec<u8>,
    pub message: Vec<u8>,
}

impl Heard {
    /// A message in a record of such a kind, with numbers and addresses of their right sizes. Now and then they read
    /// as an address family where numbers of the other size would have it.
    pub fn new(random: &mut Random, kind: (u16, u16), family: u16, message: Vec<u8>) -> Heard {
        let mut numbers = random.bytes(if matches!(kind.1, 1 | 6) { 4 } else { 8 });
        let mut addresses = random.bytes(if family == IPV6 { 32 } else { ADDRESSES });
        if random.percent(30) {
            let (last, two) = (numbers.len() - 2, IPV4.to_be_bytes());
            numbers[last..].copy_from_slice(&two);
            addresses[2..4].copy_from_slice(&two);
        }
        Heard { numbers, interface: [0, random.below(3) as u8], family, addresses, message }
    }

    pub fn body(&self) -> Vec<u8> {
        let family = self.family.to_be_bytes();
        [&self.numbers[..], &self.interface, &family, &self.addresses, &self.message].concat()
    }

    /// Where the addresses begin.
    pub fn addresses_at(&self) -> usize {
        self.numbers.len() + 4
    }
}

/// A message of any type with these bytes after its header.
pub fn message(kind: u8, rest: &[u8]) -> Vec<u8> {
    let size = (MESSAGE_HEADER + rest.len()) as u16;
    [&[255; LENGTH_AT][..], &size.to_be_bytes(), &[kind], rest].concat()
}
