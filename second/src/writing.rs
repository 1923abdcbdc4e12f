//! The message that withdraws one route: what C gets, and what lies in the room lent for it.
//!
//! Slips are told as in `rules`: the arm `_` and the first value of `or` are right.

use super::rules::prefix;
use super::slips::Slip;

/// What a refusal is multiplied by in the number that C gets.
const REFUSAL: u64 = 1 << 48;

/// Writes the withdrawal message of one route into room, and gives its answer as one number.
pub fn write_withdrawal(prefix: u32, length: u32, room: &mut [u8], slip: Option<Slip>) -> u64 {
    let mut writer = Writer::of(prefix, length, room, slip);
    let refusal = writer.refusal();
    if refusal != 0 {
        writer.begun(refusal);
        return writer.refused(refusal);
    }
    writer.write();
    writer.or(0, Slip::WrittenGivesSize, writer.size() as u64)
}

/// One route and the room for its message.
struct Writer<'a> {
    p: u32,
    length: u32,
    room: &'a mut [u8],
    slip: Option<Slip>,
}

// ---- Refusals ----

impl<'a> Writer<'a> {
    fn of(p: u32, length: u32, room: &'a mut [u8], slip: Option<Slip>) -> Writer<'a> {
        match slip {
            Some(Slip::WrittenLengthLowByte) => Writer { p, length: length % 256, room, slip },
            Some(Slip::WrittenBitsDropped) if length <= 32 => {
                Writer { p: prefix(length, p), length, room, slip }
            }
            _ => Writer { p, length, room, slip },
        }
    }

    fn is(&self, slip: Slip) -> bool {
        self.slip == Some(slip)
    }

    /// The right value, or the wrong one if the slip named is at work.
    fn or<V>(&self, right: V, slip: Slip, wrong: V) -> V {
        if self.is(slip) {
            wrong
        } else {
            right
        }
    }

    /// The first refusal whose condition holds, in the order 3, 4, 18; 0 if none does.
    fn refusal(&self) -> u64 {
        let order = match self.slip {
            Some(Slip::WrittenBitBeforeLength) => [4, 3, 18],
            Some(Slip::WrittenRoomBeforeLength) => [18, 3, 4],
            Some(Slip::WrittenRoomBeforeBit) => [3, 18, 4],
            _ => [3, 4, 18],
        };
        let given = |number: &u64| match number {
            3 => self.too_long(),
            4 => self.bit_after(),
            _ => self.room_wrong(),
        };
        match order.into_iter().find(given) {
            Some(18) => self.or(18, Slip::WrittenRoomGives2, 2),
            number => number.unwrap_or(0),
        }
    }

    fn too_long(&self) -> bool {
        match self.slip {
            Some(Slip::WrittenLengthTo31) => self.length > 31,
            Some(Slip::WrittenLengthTo33) => self.length > 33,
            Some(Slip::WrittenDefaultRefused) => self.length > 32 || self.length == 0,
            _ => self.length > 32,
        }
    }

    fn bit_after(&self) -> bool {
        let Writer { p, length, .. } = *self;
        match self.slip {
            Some(Slip::WrittenBitsKept) => false,
            Some(Slip::WrittenLengthTo33) if length == 33 => false,
            Some(Slip::WrittenBitFirstOnly) if length < 32 => prefix(length, p) != prefix(length + 1, p),
            Some(Slip::WrittenBitLastByte) => prefix(length, p) != prefix(length.div_ceil(8) * 8, p),
            Some(Slip::WrittenBitLength0) if length == 0 => false,
            Some(Slip::WrittenBitLength32) if length == 32 => p != 0,
            _ => prefix(length, p) != p,
        }
    }

    fn room_wrong(&self) -> bool {
        let (room, asked) = (self.room.len(), self.size());
        match self.slip {
            Some(Slip::WrittenRoomLonger) => room < asked,
            Some(Slip::WrittenRoomShorter) => room > asked,
            Some(Slip::WrittenRoomLargest) => room != 28,
            _ => room != asked,
        }
    }

    /// Slips only: what a call had written before it was refused.
    fn begun(&mut self, refusal: u64) {
        match (self.slip, refusal) {
            (Some(Slip::WrittenRefusedZeroed), _) => self.room.fill(0),
            (Some(Slip::WrittenMarkerEarly), _) => self.room.iter_mut().take(16).for_each(|byte| *byte = 255),
            (Some(Slip::WrittenLate), 18) => self.write(),
            _ => (),
        }
    }

    fn refused(&self, refusal: u64) -> u64 {
        match self.slip {
            Some(Slip::WrittenRefusalBare) => refusal,
            Some(Slip::WrittenRefusalAt40) => refusal << 40,
            _ => refusal * REFUSAL,
        }
    }
}

// ---- The message ----

impl Writer<'_> {
    /// How many bytes of the prefix are written.
    fn octets(&self) -> usize {
        let bits = self.length as usize;
        match self.slip {
            Some(Slip::WrittenBytesRoundedDown) => bits / 8,
            Some(Slip::WrittenBytesOneMore) => bits / 8 + 1,
            Some(Slip::WrittenBytesFour) => 4,
            Some(Slip::WrittenBytesDefaultOne) => bits.div_ceil(8).max(1),
            _ => bits.div_ceil(8),
        }
    }

    /// How many bytes the message has.
    fn size(&self) -> usize {
        match self.slip {
            Some(Slip::WrittenDefaultEmpty) if self.length == 0 => 23,
            Some(Slip::WrittenAttributesMissing) => 22 + self.octets(),
            _ => 24 + self.octets(),
        }
    }

    fn message(&self) -> Vec<u8> {
        let route = self.route();
        let size = match self.slip {
            Some(Slip::WrittenSizeHeaderless) => self.size() - 19,
            Some(Slip::WrittenSizeFixed) => 25,
            _ => self.size(),
        };
        let withdrawn = match self.slip {
            Some(Slip::WrittenWithdrawnSizeFixed) => 2,
            Some(Slip::WrittenWithdrawnSizeRoutes) => 1,
            Some(Slip::WrittenWithdrawnSizeOctets) => self.octets(),
            _ => route.len(),
        };
        let mut bytes = vec![255; 16];
        bytes.extend(self.number(size, Slip::WrittenSizeLowFirst));
        bytes.push(self.or(2, Slip::WrittenType4, 4));
        if self.is(Slip::WrittenAnnounced) {
            bytes.extend([0; 4]);
            bytes.extend(route);
            return bytes;
        }
        bytes.extend(self.number(withdrawn, Slip::WrittenWithdrawnSizeLowFirst));
        bytes.extend(route);
        bytes.extend([0; 2]);
        bytes
    }

    /// A number in two bytes, the first one highest.
    fn number(&self, number: usize, low_first: Slip) -> [u8; 2] {
        let bytes = (number as u16).to_be_bytes();
        self.or(bytes, low_first, [bytes[1], bytes[0]])
    }

    /// The length in bits, then the first bytes of the prefix. Only slips write more than four.
    fn route(&self) -> Vec<u8> {
        let size = self.octets();
        let p = match self.slip {
            Some(Slip::WrittenPrefixLowFirst) => self.p.swap_bytes(),
            Some(Slip::WrittenPrefixLowEnd) => self.p.rotate_right(8 * size as u32 % 32),
            _ => self.p,
        };
        let mut octets = p.to_be_bytes().to_vec();
        octets.resize(size, 0);
        let length = self.or(self.length as u8, Slip::WrittenLengthInBytes, size as u8);
        match self.slip {
            Some(Slip::WrittenDefaultEmpty) if self.length == 0 => return Vec::new(),
            Some(Slip::WrittenLengthLast) => octets.push(length),
            _ => octets.insert(0, length),
        }
        octets
    }

    /// Writes the message, as far as the room reaches (a slip may lend less).
    fn write(&mut self) {
        let message = self.message();
        let last = message.len() - 2;
        for (at, byte) in message.into_iter().enumerate() {
            let left = match self.slip {
                Some(Slip::WrittenMarkerLeft) => at < 16,
                Some(Slip::WrittenMarkerLastLeft) => at == 15,
                Some(Slip::WrittenAttributesSizeLeft) => at >= last,
                Some(Slip::WrittenNothing) => true,
                _ => false,
            };
            if let Some(place) = self.room.get_mut(at).filter(|_| !left) {
                *place = byte;
            }
        }
    }
}
