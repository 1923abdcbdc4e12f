//! The path attributes of one UPDATE message: all are stepped over but NEXT_HOP.
//!
//! Slips are told as in `reading`.

use super::reading::{Fault, Reader};
use super::slips::Slip;

/// The type of the attribute that holds the next hop's address.
const NEXT_HOP: usize = 3;

impl Reader<'_> {
    /// Reads the attributes, whose length stands at a place; gives where they end.
    pub fn attributes(&mut self, at: usize) -> Result<usize, Fault> {
        let (low_first, low_only) = (Slip::MessageAttributesSizeLowFirst, Slip::MessageAttributesSizeLowByte);
        let size = self.number(at, low_first, low_only);
        let from = at + 2;
        let to = match self.slip {
            Some(Slip::MessageAttributesSizeInclusive) => from + size.saturating_sub(2),
            Some(Slip::MessageAttributesEndWraps) => (from + size) % 65_536,
            Some(Slip::MessageAttributesCut) => (from + size).min(self.end),
            _ => from + size,
        };
        let overrun = self.or(to > self.end, Slip::MessageAttributesEdge, to >= self.end);
        if overrun {
            return Err(Fault::AttributesOverrun);
        }
        let mut next = self.or(from, Slip::MessageAttributesUnread, if to < self.end { from } else { to });
        while next < to {
            next = self.attribute(next, to)?;
        }
        Ok(to)
    }

    /// Reads one attribute, as far as it matters; gives where the next one starts.
    fn attribute(&mut self, at: usize, to: usize) -> Result<usize, Fault> {
        let (first, second) = (self.byte(at), self.byte(at + 1));
        let (flags, kind) = self.or((first, second), Slip::MessageFlagsAfterType, (second, first));
        let extended = self.extended(flags);
        let value = at + if extended { 4 } else { 3 };
        if value > to {
            return self.or(Err(Fault::AttributeHeaderOverrun), Slip::MessageAttributeHeaderCut, Ok(to));
        }
        let (low_first, low_only) = (Slip::MessageExtendedLowFirst, Slip::MessageExtendedLowByte);
        let field = if extended { self.number(at + 2, low_first, low_only) } else { self.byte(at + 2) };
        let inclusive = field.saturating_sub(value - at);
        let size = self.or(field, Slip::MessageAttributeSizeInclusive, inclusive);
        let next = value + size;
        let overrun = match self.slip {
            Some(Slip::MessageAttributeEdge) => next >= to,
            Some(Slip::MessageAttributeOverrunsPart) => next > self.end,
            _ => next > to,
        };
        if overrun {
            return self.or(Err(Fault::AttributeValueOverrun), Slip::MessageAttributeOverrunDropped, Ok(to));
        }
        self.met(flags, kind)?;
        if kind == self.or(NEXT_HOP, Slip::MessageNextHopAtType4, 4) {
            self.next_hop(flags, value, size, to < self.end)?;
            return Ok(self.or(next, Slip::MessageStopsAtNextHop, to));
        }
        Ok(next)
    }

    /// Whether an attribute's length has two bytes.
    fn extended(&self, flags: usize) -> bool {
        match self.slip {
            Some(Slip::MessageExtendedIgnored) => false,
            Some(Slip::MessageExtendedAlways) => true,
            Some(Slip::MessageExtendedTurned) => flags / 16 % 2 == 0,
            Some(Slip::MessageExtendedAtPartial) => flags / 32 % 2 == 1,
            Some(Slip::MessageExtendedLowBits) => flags % 32 != 0,
            Some(Slip::MessageExtendedExact) => flags == 0x50 || flags == 0x90,
            _ => flags / 16 % 2 == 1,
        }
    }

    /// Slips only: what is asked of each attribute.
    fn met(&mut self, flags: usize, kind: usize) -> Result<(), Fault> {
        let wrong = match self.slip {
            Some(Slip::MessageUnknownRefused) => flags < 128 && !matches!(kind, 1..=8 | 14 | 15),
            Some(Slip::MessageAttributeTwiceRefused) => self.types.contains(&kind),
            Some(Slip::MessageOtherFamiliesRefused) => matches!(kind, 14 | 15),
            _ => false,
        };
        self.types.push(kind);
        if wrong {
            return Err(Fault::AttributeHeaderOverrun);
        }
        Ok(())
    }

    /// Reads a NEXT_HOP of so many bytes at a place; whether routes are announced is asked only by slips.
    fn next_hop(&mut self, flags: usize, at: usize, size: usize, announced: bool) -> Result<(), Fault> {
        let well_known = flags / 64 == 1;
        match self.slip {
            Some(Slip::MessageNextHopFlagsIgnored) if !well_known => return Ok(()),
            Some(Slip::MessageNextHopFlagsRefused) if !well_known => return Err(Fault::NextHopSize),
            Some(Slip::MessageNextHopSizeSkipped) if size != 4 => return Ok(()),
            _ => (),
        }
        let size_wrong = match self.slip {
            Some(Slip::MessageNextHopLonger) => size < 4,
            Some(Slip::MessageNextHopShorter) => size > 4,
            Some(Slip::MessageNextHopSizeUnannounced) => announced && size != 4,
            _ => size != 4,
        };
        if size_wrong {
            return Err(Fault::NextHopSize);
        }
        let read = self.octets(at, size, self.end);
        let address = self.or(read, Slip::MessageNextHopLowFirst, read.swap_bytes());
        if self.is(Slip::MessageNextHopZeroMissing) && address == 0 {
            return Ok(());
        }
        let Some(before) = self.said.next_hop else {
            self.said.next_hop = Some(address);
            return Ok(());
        };
        match self.slip {
            Some(Slip::MessageNextHopFirst) => Ok(()),
            Some(Slip::MessageNextHopLast) => {
                self.said.next_hop = Some(address);
                Ok(())
            }
            Some(Slip::MessageNextHopTwiceEqual) if before == address => Ok(()),
            Some(Slip::MessageNextHopTwiceUnannounced) if !announced => Ok(()),
            _ => Err(Fault::NextHopTwice),
        }
    }
}
