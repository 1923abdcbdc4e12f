//! What the body of one RIB_IPV4_UNICAST record says, or that it cannot be read; and which hop it gives.
//!
//! Each part is taken from the front of what is left of the part around it. Slips are told as in `rules`: the
//! arm `_` and the first value of `or` are right.

use super::rules::prefix;
use super::slips::Slip;

/// The type of the attribute that holds the next hop's address.
const NEXT_HOP: usize = 3;

/// What a good body says: its route, and the NEXT_HOP of each entry, where it has one.
#[derive(Clone, Debug, PartialEq, Eq)]
pub struct Recorded {
    pub prefix: u32,
    pub length: u32,
    pub next_hops: Vec<Option<u32>>,
}

/// What a record's whole body says; an error where it is refused as 12.
pub fn read_body(body: &[u8]) -> Result<Recorded, ()> {
    read_with(body, &[], None)
}

/// As above; the list of hops is asked only by slips.
pub fn read_with(body: &[u8], hops: &[u32], slip: Option<Slip>) -> Result<Recorded, ()> {
    let mut body = Part { left: body, slip };
    body.take(4)?; // sequence number
    let (prefix, length) = body.route()?;
    let count = body.number(2)?;
    let mut next_hops = Vec::new();
    for _ in 0..count {
        if body.left.is_empty() && body.is(Slip::ImportEntriesMissing) {
            break;
        }
        let next_hop = body.entry()?;
        next_hops.push(next_hop);
        if body.is(Slip::ImportStopsAtHop) && hop_of(hops, next_hop, slip).is_some() {
            return Ok(Recorded { prefix, length, next_hops });
        }
    }
    body.finished(&next_hops)?;
    Ok(Recorded { prefix, length, next_hops })
}

/// Bytes as an address, the first one highest, zeros after them.
fn address(octets: &[u8]) -> u32 {
    (0..4).fold(0, |address, n| address * 256 + octets.get(n).map_or(0, |octet| *octet as u32))
}

/// What is left to be read of a part.
struct Part<'a> {
    left: &'a [u8],
    slip: Option<Slip>,
}

impl<'a> Part<'a> {
    fn is(&self, slip: Slip) -> bool {
        self.slip == Some(slip)
    }

    /// The right value, or the wrong one if the slip named is at work.
    fn or<V>(&self, right: V, slip: Slip, wrong: V) -> V {
        if self.is(slip) {
            wrong
        } else {
            right
        }
    }

    /// The next bytes, if there are as many.
    fn take(&mut self, count: usize) -> Result<&'a [u8], ()> {
        if count > self.left.len() {
            return Err(());
        }
        let (taken, left) = self.left.split_at(count);
        self.left = left;
        Ok(taken)
    }

    /// The number in the next bytes, the first one highest.
    fn number(&mut self, size: usize) -> Result<usize, ()> {
        Ok(self.take(size)?.iter().fold(0, |number, byte| number * 256 + *byte as usize))
    }
}

// ---- The parts of a body ----

impl Part<'_> {
    /// The prefix, without the bits after its length, and the length.
    fn route(&mut self) -> Result<(u32, u32), ()> {
        let length = self.number(1)? as u32;
        let most = match self.slip {
            Some(Slip::ImportPrefixTo31) => 31,
            Some(Slip::ImportLongPrefixCounted) => 255,
            _ => 32,
        };
        if length > most {
            return Err(());
        }
        let uncut = address(self.take(length.div_ceil(8) as usize)?);
        Ok((self.or(prefix(length, uncut), Slip::ImportBitsKept, uncut), length))
    }

    /// The NEXT_HOP of the next entry, if it has one.
    fn entry(&mut self) -> Result<Option<u32>, ()> {
        self.take(6)?; // peer index and time
        let size = self.number(2)?;
        let there = size.min(self.left.len());
        let attributes = self.take(self.or(size, Slip::ImportEntryOverrun, there))?;
        if size > 4_096 && self.is(Slip::ImportAttributesTo4096) {
            return Err(());
        }
        Part { left: attributes, slip: self.slip }.next_hop()
    }

    /// Asks that nothing is left of the body; slips ask more, or less.
    fn finished(&self, next_hops: &[Option<u32>]) -> Result<(), ()> {
        let given = next_hops.iter().flatten().count();
        let wrong = match self.slip {
            Some(Slip::ImportBytesAfter) => false,
            Some(Slip::ImportNextHopsAcross) if given > 1 => true,
            Some(Slip::ImportNextHopAsked) if given < next_hops.len() => true,
            Some(Slip::ImportNoEntriesRefused) if next_hops.is_empty() => true,
            _ => !self.left.is_empty(),
        };
        if wrong {
            return Err(());
        }
        Ok(())
    }
}

// ---- The attributes of an entry ----

impl<'a> Part<'a> {
    /// The one NEXT_HOP among the attributes that are left, of four bytes, or none.
    fn next_hop(&mut self) -> Result<Option<u32>, ()> {
        let mut found = None;
        while !self.left.is_empty() {
            let (kind, value) = match self.attribute() {
                Err(()) if self.is(Slip::ImportAttributeOverrun) => break,
                read => read?,
            };
            match (self.slip, value.len()) {
                _ if kind != NEXT_HOP => (),
                (_, 4) if found.is_none() => found = Some(address(value)),
                (Some(Slip::ImportNextHopTwice), 4) => (),
                (Some(Slip::ImportNextHopSizeSkipped), size) if size != 4 => (),
                _ => return Err(()),
            }
        }
        Ok(found)
    }

    /// The type and the value of the next attribute.
    fn attribute(&mut self) -> Result<(usize, &'a [u8]), ()> {
        let flags = self.number(1)?;
        let kind = self.number(1)?;
        let extended = flags / 16 % 2 == 1 && !self.is(Slip::ImportExtendedIgnored);
        let size = self.number(if extended { 2 } else { 1 })?;
        Ok((kind, self.take(size)?))
    }
}

// ---- The hop ----

/// The hop number that the entries of a record give: that of the first one that has one.
pub fn hop(hops: &[u32], next_hops: &[Option<u32>], slip: Option<Slip>) -> Option<u32> {
    let mut each = next_hops.iter().map(|next_hop| hop_of(hops, *next_hop, slip));
    match slip {
        Some(Slip::ImportLastHop) => each.flatten().last(),
        Some(Slip::ImportFirstEntryOnly) => each.next().flatten(),
        Some(Slip::ImportHighPlaceEnds) => {
            let listed = next_hops.iter().find(|next_hop| next_hop.is_some_and(|hop| hops.contains(&hop)));
            listed.and_then(|next_hop| hop_of(hops, *next_hop, slip))
        }
        Some(Slip::ImportNoneHopZero) => Some(each.flatten().next().unwrap_or(0)),
        _ => each.flatten().next(),
    }
}

/// The hop number of one entry: the lowest place of its NEXT_HOP in the list, if that is not too high.
fn hop_of(hops: &[u32], next_hop: Option<u32>, slip: Option<Slip>) -> Option<u32> {
    let address = next_hop?;
    let place = match slip {
        Some(Slip::ImportHopHighest) => hops.iter().rposition(|hop| *hop == address),
        _ => hops.iter().position(|hop| *hop == address),
    };
    let most = match slip {
        Some(Slip::ImportHopTo65534) => 65_534,
        Some(Slip::ImportHopUnbounded) => usize::MAX,
        _ => 65_535,
    };
    place.filter(|place| *place <= most).map(|place| place as u32)
}
