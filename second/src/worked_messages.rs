//! Messages with the answers that follow from their bytes, worked out by hand.

use crate::calls::{Lent, Message, Settings, Writing};
use crate::library::Library;
use crate::rules::T;
use crate::worked::{address, found, one_off, refused, Case};

/// Withdraws 10.1.0.0/16; announces 192.0.2.0/24 and 0.0.0.0/0 with NEXT_HOP 10.9.9.1, after an ORIGIN and an
/// empty AS_PATH.
pub const MESSAGE: [u8; 45] = [
    255, 255, 255, 255, 255, 255, 255, 255, 255, 255, 255, 255, 255, 255, 255, 255, // marker
    0x00, 0x2d, 0x02, // 45 bytes, an UPDATE
    0x00, 0x03, 0x10, 0x0a, 0x01, // 3 bytes of withdrawn routes: 10.1.0.0/16
    0x00, 0x0e, // 14 bytes of attributes
    0x40, 0x01, 0x01, 0x00, // ORIGIN, 1 byte
    0x40, 0x02, 0x00, // AS_PATH, 0 bytes
    0x40, 0x03, 0x04, 0x0a, 0x09, 0x09, 0x01, // NEXT_HOP 10.9.9.1
    0x18, 0xc0, 0x00, 0x02, // 192.0.2.0/24
    0x00, // 0.0.0.0/0
];

/// Where in it the attributes begin, and where the announced routes do.
const ATTRIBUTES: usize = 26;
const ANNOUNCED: usize = 40;

pub const NEXT_HOP: u32 = 0x0a09_0901;

pub fn with_hops(bytes: &[u8], hops: &[u32]) -> Message {
    Message { party: 0, bytes: bytes.to_vec(), offset: 0, hops: hops.to_vec(), hops_offset: 0 }
}

/// The number of so many routes accepted and refused.
pub fn routes(accepted: u64, refused: u64) -> u64 {
    (refused << 12) + accepted
}

/// The worked message with these bytes from a place on in place of as many.
fn with(at: usize, bytes: &[u8]) -> Vec<u8> {
    let mut message = MESSAGE.to_vec();
    message[at..at + bytes.len()].copy_from_slice(bytes);
    message
}

/// A message of these bytes after the header, which says its length.
pub fn update(body: &[u8]) -> Vec<u8> {
    let mut bytes = MESSAGE[..19].to_vec();
    bytes.extend(body);
    let length = bytes.len() as u16;
    bytes[16..18].copy_from_slice(&length.to_be_bytes());
    bytes
}

/// The first bytes of the worked message, so many, and these after them, with the length put right.
fn cut(size: usize, more: &[u8]) -> Vec<u8> {
    update(&[&MESSAGE[19..size], more].concat())
}

impl Case<'_> {
    pub fn message_gives(&mut self, message: &Message, answer: u64) -> Result<(), String> {
        let (t, lent) = (self.t, self.pair.lent(message));
        self.message_gives_with(&t, lent, message, answer)
    }

    pub fn message_gives_with(
        &mut self,
        t: &Settings,
        lent: Lent,
        message: &Message,
        answer: u64,
    ) -> Result<(), String> {
        let before = self.pair.memory();
        let given = self.pair.call_message(self.library, t, lent, message);
        let given = given.map_err(|difference| self.wrong(lent, message, difference.0))?;
        self.documented(lent, message, given, answer)?;
        let kept = answer >> 48 == 0 || self.pair.memory() == before;
        self.holds(kept, "a refused message leaves the table")
    }

    /// These bytes are a bad message.
    fn bad(&mut self, bytes: &[u8]) -> Result<(), String> {
        self.message_gives(&with_hops(bytes, &[NEXT_HOP]), refused(12))
    }

    fn write(&mut self, prefix: u32, length: u32, room: usize, refusal: u64) -> Result<Vec<u8>, String> {
        let writing = Writing { prefix, length, room: vec![7; room], offset: 0 };
        let lent = self.pair.lent(&writing);
        let given = self.pair.write(self.library, &writing);
        let given = given.map_err(|difference| self.wrong(lent, &writing, difference.0))?;
        self.documented(lent, &writing, given, refused(refusal))?;
        let room = self.library.room(&writing).to_vec();
        self.holds(refusal == 0 || room == writing.room, "a refused withdrawal leaves its room")?;
        Ok(room)
    }
}

pub fn run(library: &mut Library) -> Result<(), String> {
    good(library)?;
    damaged(library)?;
    next_hops(library)?;
    sizes(library)?;
    written(library)
}

/// A table of settings T with 10.0.0.0/8 to hop 7 and 10.1.0.0/16 to hop 9.
fn two_routes<'a>(library: &'a mut Library, name: &'static str) -> Result<Case<'a>, String> {
    let mut case = Case::new(library, name, T)?;
    case.add(address(10, 0, 0, 0), 8, 7, 0)?;
    case.add(address(10, 1, 0, 0), 16, 9, 0)?;
    Ok(case)
}

fn good(library: &mut Library) -> Result<(), String> {
    let mut case = two_routes(library, "a message")?;
    let message = with_hops(&MESSAGE, &[7, NEXT_HOP, NEXT_HOP]);
    case.message_gives(&message, routes(3, 0))?;
    case.lookup(address(10, 1, 2, 3), found(7, 8, 1))?;
    case.lookup(address(192, 0, 2, 9), found(1, 24, 1))?;
    case.lookup(address(11, 0, 0, 1), found(1, 0, 0))?;
    // Now 10.1.0.0/16 is not stored, and the two others get their hop anew.
    case.message_gives(&message, routes(2, 1))?;
    case.message_gives(&with_hops(&MESSAGE, &[NEXT_HOP]), routes(2, 1))?;
    case.lookup(address(192, 0, 2, 9), found(0, 24, 1))?;

    for lent in one_off(case.pair.lent(&message)) {
        case.message_gives_with(&T, lent, &message, refused(2))?;
        case.message_gives_with(&T, lent, &with_hops(&[], &[]), refused(2))?;
        case.message_gives_with(&Settings { k: 9, ..T }, lent, &message, refused(1))?;
    }

    // All of 10.0.0.0/8 has bucket 0 and positions 0 and 1: at length 16, where 10.1.0.0/16 has gone, two routes
    // fit and the third is skipped.
    let mut case = two_routes(library, "a message to a full bucket")?;
    let announced = [16, 10, 2, 16, 10, 3, 16, 10, 1, 24, 10, 3, 3];
    case.message_gives(&with_hops(&cut(ANNOUNCED, &announced), &[NEXT_HOP]), routes(4, 1))?;
    case.lookup(address(10, 1, 2, 3), found(7, 8, 3))?;
    case.lookup(address(10, 2, 2, 3), found(0, 16, 2))?;
    case.lookup(address(10, 3, 3, 3), found(0, 24, 1))?;

    let mut case = two_routes(library, "bits after the length")?;
    let bytes = update(&[0, 5, 16, 10, 1, 7, 11, 0, 7, 64, 3, 4, 10, 9, 9, 1, 9, 10, 255, 7, 10]);
    case.message_gives(&with_hops(&bytes, &[NEXT_HOP]), routes(3, 1))?;
    case.lookup(address(10, 200, 0, 1), found(0, 9, 1))
}

fn damaged(library: &mut Library) -> Result<(), String> {
    let mut case = two_routes(library, "a damaged message")?;
    // Marker, length, type.
    for (at, byte) in [(0, 254), (15, 254), (15, 0), (16, 1), (17, 44), (17, 46), (18, 1), (18, 3), (18, 4)] {
        case.bad(&with(at, &[byte]))?;
    }
    // The withdrawn routes have 2 bytes or 4, end two bytes before the message, one before it, with it or after
    // it; their prefix has the length 17 or 33.
    for size in [2u16, 4, 22, 23, 24, 25, 65_535] {
        case.bad(&with(19, &size.to_be_bytes()))?;
    }
    case.bad(&with(21, &[17]))?;
    case.bad(&with(21, &[33]))?;
    // The attributes have 13 bytes, 15, 19 up to the message's end, or 20.
    for size in [13, 15, 19, 20] {
        case.bad(&with(25, &[size]))?;
    }
    // ORIGIN has 2 bytes, AS_PATH has 1 or 8, NEXT_HOP has 3, 5 or, with two bytes of length, 1,034.
    for (at, byte) in [(28, 2), (32, 1), (32, 8), (35, 3), (35, 5), (33, 0x50)] {
        case.bad(&with(at, &[byte]))?;
    }
    // ORIGIN and AS_PATH as NEXT_HOPs of 1 byte and of none.
    case.bad(&with(27, &[3]))?;
    case.bad(&with(31, &[3]))?;
    // The announced routes have lengths of 33 and 255, or end within a prefix.
    case.bad(&with(ANNOUNCED, &[33]))?;
    case.bad(&with(44, &[255]))?;
    case.bad(&with(44, &[1]))?;
    for size in 20..ANNOUNCED {
        case.bad(&cut(size, &[]))?;
    }
    for size in [41, 42, 43] {
        case.bad(&cut(size, &[]))?;
    }
    // The header alone, less of it, and bytes before or after a whole message.
    for size in 0..45 {
        case.bad(&MESSAGE[..size])?;
    }
    case.bad(&[&MESSAGE[..], &[0]].concat())?;
    case.bad(&[&[255], &MESSAGE[..]].concat())?;
    case.bad(&[MESSAGE, MESSAGE].concat())?;
    // With its length put right the shorter message is good, and so is the longer one.
    let hops = [NEXT_HOP];
    case.message_gives(&with_hops(&cut(ANNOUNCED, &[]), &[]), routes(1, 0))?;
    case.message_gives(&with_hops(&cut(44, &[]), &hops), routes(1, 1))?;
    case.message_gives(&with_hops(&cut(45, &[0]), &hops), routes(3, 1))?;
    case.message_gives(&with_hops(&with(ANNOUNCED, &[32]), &hops), routes(1, 1))?;
    case.lookup(address(192, 0, 2, 0), found(0, 32, 1))
}

/// NEXT_HOP, and the list in which it stands.
fn next_hops(library: &mut Library) -> Result<(), String> {
    let mut case = two_routes(library, "the next hop of a message")?;
    let announced = &MESSAGE[ANNOUNCED..];
    let hops = [NEXT_HOP, address(10, 9, 9, 2)];
    let attributes = |attributes: &[u8], announced: &[u8]| {
        update(&[&[0, 0, 0, attributes.len() as u8], attributes, announced].concat())
    };
    let origin = &MESSAGE[ATTRIBUTES..ATTRIBUTES + 4];
    let next_hop = &MESSAGE[33..ANNOUNCED];
    let extended = [0xff, 3, 0, 4, 10, 9, 9, 1];
    for (parts, answer) in [
        (vec![], refused(13)),
        (vec![origin], refused(13)),
        (vec![next_hop], routes(2, 0)),
        (vec![&extended[..]], routes(2, 0)),
        (vec![next_hop, origin, origin], routes(2, 0)),
        (vec![next_hop, next_hop], refused(12)),
        (vec![&extended[..], origin, next_hop], refused(12)),
    ] {
        let all = parts.concat();
        case.message_gives(&with_hops(&attributes(&all, announced), &hops), answer)?;
        // Nothing announced asks for no next hop, but two of them are refused all the same.
        let alone = if answer == refused(12) { answer } else { 0 };
        case.message_gives(&with_hops(&attributes(&all, &[]), &[]), alone)?;
    }
    case.message_gives(&with_hops(&MESSAGE, &[]), refused(13))?;
    case.message_gives(&with_hops(&MESSAGE, &[NEXT_HOP.swap_bytes(), NEXT_HOP + 1]), refused(13))?;
    case.lookup(address(10, 1, 2, 3), found(9, 16, 1))?;

    let mut many = vec![address(10, 9, 9, 2); 65_536];
    many.push(NEXT_HOP);
    case.message_gives(&with_hops(&MESSAGE, &many), refused(13))?;
    many.swap(65_535, 65_536);
    case.message_gives(&with_hops(&MESSAGE, &many), routes(3, 0))?;
    case.lookup(address(192, 0, 2, 9), found(65_535, 24, 1))
}

/// The shortest messages and the longest.
fn sizes(library: &mut Library) -> Result<(), String> {
    let mut case = two_routes(library, "the size of a message")?;
    case.message_gives(&with_hops(&update(&[0, 0, 0, 0]), &[]), 0)?;
    case.bad(&update(&[0, 0, 0]))?;
    case.add(0, 0, 3, 0)?;
    case.message_gives(&with_hops(&update(&[0, 1, 0, 0, 0]), &[]), routes(1, 0))?;
    case.message_gives(&with_hops(&update(&[0, 0, 0, 0, 0]), &[NEXT_HOP]), refused(13))?;

    // An attribute of 4,069 bytes after its header of 4, 0xfe9 with it, and one of a byte more.
    let long = |value: usize| {
        let [high, low] = (value as u16).to_be_bytes();
        let [high_with, low_with] = (value as u16 + 4).to_be_bytes();
        update(&[&[0, 0, high_with, low_with, 0x90, 99, high, low], &vec![3; value][..]].concat())
    };
    case.message_gives(&with_hops(&long(4069), &[]), 0)?;
    case.bad(&long(4070))?;
    // 4,073 default routes are withdrawn, of which one is stored; or 4,066 are announced.
    case.add(0, 0, 3, 0)?;
    let [high, low] = 4073u16.to_be_bytes();
    let defaults = update(&[&[high, low], &vec![0; 4073][..], &[0, 0]].concat());
    case.message_gives(&with_hops(&defaults, &[]), routes(1, 4072))?;
    let announced = update(&[&[0, 0, 0, 7], &MESSAGE[33..ANNOUNCED], &vec![0; 4066][..]].concat());
    case.message_gives(&with_hops(&announced, &[NEXT_HOP]), routes(4066, 0))?;
    // 65,536 bytes more, which a length of two bytes does not tell.
    case.bad(&[&MESSAGE[..], &vec![0; 65_536][..]].concat())
}

fn written(library: &mut Library) -> Result<(), String> {
    let mut case = two_routes(library, "a written withdrawal")?;
    let ten = address(10, 0, 0, 0);
    for (prefix, length, body) in [
        (ten, 8, &[0, 25, 2, 0, 2, 8, 10, 0, 0][..]),
        (0, 0, &[0, 24, 2, 0, 1, 0, 0, 0]),
        (address(10, 1, 0, 0), 16, &[0, 26, 2, 0, 3, 16, 10, 1, 0, 0]),
        (address(10, 128, 0, 0), 9, &[0, 26, 2, 0, 3, 9, 10, 128, 0, 0]),
        (address(192, 0, 2, 128), 25, &[0, 28, 2, 0, 5, 25, 192, 0, 2, 128, 0, 0]),
        (address(10, 1, 2, 3), 32, &[0, 28, 2, 0, 5, 32, 10, 1, 2, 3, 0, 0]),
    ] {
        let size = 16 + body.len();
        let room = case.write(prefix, length, size, 0)?;
        case.holds(room == [&[255; 16], body].concat(), "the bytes of a withdrawal")?;
        for other in [0, size - 1, size + 1, 4096] {
            case.write(prefix, length, other, 18)?;
        }
    }
    case.write(ten, 33, 28, 3)?;
    case.write(ten + 1, 33, 29, 3)?;
    case.write(ten, 264, 25, 3)?;
    case.write(ten + 1, 8, 25, 4)?;
    case.write(ten + 1, 8, 24, 4)?;
    case.write(1, 0, 24, 4)?;

    let room = case.write(ten, 8, 25, 0)?;
    case.message_gives(&with_hops(&room, &[]), routes(1, 0))?;
    case.lookup(address(10, 2, 2, 3), 1)?;
    case.message_gives(&with_hops(&room, &[]), routes(0, 1))
}
