//! What the bytes of one UPDATE message say, or what is wrong with them.
//!
//! Slips are told as in `rules`: the arm `_` and the first value of `or` are right. A byte that is not there
//! reads zero, which only slips meet. Where a slip finds a fault that is none, it names the nearest one.

use super::rules::prefix;
use super::slips::Slip;

/// Marker, length and type.
const HEADER: usize = 19;

/// What a good message says: routes as prefix and length, in their order.
#[derive(Clone, Debug, Default, PartialEq, Eq)]
pub struct Said {
    pub withdrawn: Vec<(u32, u32)>,
    pub announced: Vec<(u32, u32)>,
    pub next_hop: Option<u32>,
}

/// Writes the enum and its list from one table of names and texts.
macro_rules! faults {
    ($($name:ident: $text:literal,)*) => {
        /// One cause of refusal 12.
        #[derive(Clone, Copy, Debug, PartialEq, Eq)]
        pub enum Fault {
            $($name,)*
        }
        /// Every cause of refusal 12, in words.
        pub const FAULTS: [(Fault, &str); [$($text),*].len()] = [$((Fault::$name, $text)),*];
    };
}

faults! {
    HeaderCut: "the message ends inside its header",
    Marker: "the marker is not all ones",
    SizeNotLent: "the length field is not the lent length",
    SizeBelow23: "the message has 19 to 22 bytes, as it says",
    SizeAbove4096: "the message has more than 4,096 bytes, as it says",
    Type: "the type is not 2",
    WithdrawnOverrun: "the withdrawn routes go past the message's end",
    AttributesSizeCut: "the withdrawn routes leave no room for the attributes' length",
    WithdrawnTooLong: "a withdrawn prefix has a length above 32",
    WithdrawnPrefixOverrun: "a withdrawn prefix goes past the end of the withdrawn routes",
    AttributesOverrun: "the attributes go past the message's end",
    AttributeHeaderOverrun: "an attribute's header goes past the end of the attributes",
    AttributeValueOverrun: "an attribute's value goes past the end of the attributes",
    NextHopSize: "a NEXT_HOP has not four bytes",
    NextHopTwice: "there is a second NEXT_HOP",
    AnnouncedTooLong: "an announced prefix has a length above 32",
    AnnouncedPrefixOverrun: "an announced prefix goes past the message's end",
}

/// What a good message says, or what is wrong with it; of several faults, the first one met.
pub fn read(message: &[u8]) -> Result<Said, Fault> {
    let (said, fault) = read_with(message, None);
    fault.map_or(Ok(said), Err)
}

/// The fault that ends the reading, if there is one, and all that was read before it.
pub fn read_with(message: &[u8], slip: Option<Slip>) -> (Said, Option<Fault>) {
    let mut reader = Reader { message, end: message.len(), said: Said::default(), types: Vec::new(), slip };
    let fault = reader.whole().err();
    (reader.said, fault)
}

/// The two lists of routes in a message.
#[derive(Clone, Copy, PartialEq, Eq)]
enum Part {
    Withdrawn,
    Announced,
}

impl Part {
    fn too_long(self) -> Fault {
        match self {
            Part::Withdrawn => Fault::WithdrawnTooLong,
            Part::Announced => Fault::AnnouncedTooLong,
        }
    }

    fn overrun(self) -> Fault {
        match self {
            Part::Withdrawn => Fault::WithdrawnPrefixOverrun,
            Part::Announced => Fault::AnnouncedPrefixOverrun,
        }
    }
}

/// A message and what has been read of it.
pub struct Reader<'a> {
    message: &'a [u8],
    /// Where the message ends.
    pub end: usize,
    pub said: Said,
    /// The types of attributes met so far, which only slips ask for.
    pub types: Vec<usize>,
    pub slip: Option<Slip>,
}

// ---- The whole and its header ----

impl Reader<'_> {
    pub fn is(&self, slip: Slip) -> bool {
        self.slip == Some(slip)
    }

    /// The right value, or the wrong one if the slip named is at work.
    pub fn or<V>(&self, right: V, slip: Slip, wrong: V) -> V {
        if self.is(slip) {
            wrong
        } else {
            right
        }
    }

    pub fn byte(&self, at: usize) -> usize {
        self.message.get(at).map_or(0, |byte| *byte as usize)
    }

    /// The number in two bytes, the first one highest.
    pub fn number(&self, at: usize, low_first: Slip, low_only: Slip) -> usize {
        let (first, second) = (self.byte(at), self.byte(at + 1));
        match self.slip {
            Some(slip) if slip == low_first => second * 256 + first,
            Some(slip) if slip == low_only => second,
            _ => first * 256 + second,
        }
    }

    /// Reads from the header to the last byte.
    fn whole(&mut self) -> Result<(), Fault> {
        if self.is(Slip::MessageNoBytesPass) && self.message.is_empty() {
            return Ok(());
        }
        self.header()?;
        let withdrawn_end = self.withdrawn()?;
        let attributes_end = self.attributes(withdrawn_end)?;
        let from = attributes_end + self.or(0, Slip::MessageAnnouncedSized, 2);
        self.routes(Part::Announced, from, self.end)?;
        self.finished()
    }

    fn header(&mut self) -> Result<(), Fault> {
        if self.message.len() < HEADER {
            return Err(Fault::HeaderCut);
        }
        if self.marker_wrong() {
            return Err(Fault::Marker);
        }
        self.size()?;
        let kind = self.byte(18);
        let wrong = match self.slip {
            Some(Slip::MessageTypeUnasked) => false,
            Some(Slip::MessageTypeFrom2) => kind < 2,
            _ => kind != 2,
        };
        if wrong {
            return Err(Fault::Type);
        }
        Ok(())
    }

    fn marker_wrong(&self) -> bool {
        let ones = |at: usize| self.byte(at) == 255;
        match self.slip {
            Some(Slip::MessageMarkerUnasked) => false,
            Some(Slip::MessageMarkerFirstOnly) => !ones(0),
            Some(Slip::MessageMarkerLastMissed) => !(0..15).all(ones),
            Some(Slip::MessageMarkerOneEnough) => !(0..16).any(ones),
            _ => !(0..16).all(ones),
        }
    }

    /// Asks the length field, and how long the message may be.
    fn size(&mut self) -> Result<(), Fault> {
        let field = self.number(16, Slip::MessageSizeLowFirst, Slip::MessageSizeLowByte);
        let said = field + self.or(0, Slip::MessageSizeHeaderless, HEADER);
        let lent = self.message.len();
        let same = match self.slip {
            Some(Slip::MessageSizeUnasked) => true,
            Some(Slip::MessageSizeShorter) => said <= lent,
            Some(Slip::MessageSizeLonger) => said >= lent,
            Some(Slip::MessageSizeModulo) => said == lent % 65_536,
            _ => said == lent,
        };
        if !same {
            return Err(Fault::SizeNotLent);
        }
        if self.is(Slip::MessageSizeShorter) || self.is(Slip::MessageSizeModulo) {
            self.end = said;
        }
        let least = match self.slip {
            Some(Slip::MessageSizeFrom19) => 19,
            Some(Slip::MessageSizeFrom24) => 24,
            _ => 23,
        };
        let most = match self.slip {
            Some(Slip::MessageSizeTo4095) => 4_095,
            Some(Slip::MessageSizeTo4097) => 4_097,
            Some(Slip::MessageSizeUnbounded) => usize::MAX,
            _ => 4_096,
        };
        if self.end < least {
            return Err(Fault::SizeBelow23);
        }
        if self.end > most {
            return Err(Fault::SizeAbove4096);
        }
        if self.is(Slip::MessageSizeFrom19) {
            self.end = self.end.max(23);
        }
        Ok(())
    }

    /// Slips only: what is asked of a message that is good.
    fn finished(&self) -> Result<(), Fault> {
        let Said { withdrawn, announced, .. } = &self.said;
        let without = |kind: usize| !self.types.contains(&kind);
        match self.slip {
            Some(Slip::MessageEmptyRefused) if withdrawn.is_empty() && announced.is_empty() => {
                Err(Fault::SizeBelow23)
            }
            Some(Slip::MessageMandatoryAsked) if !announced.is_empty() && (without(1) || without(2)) => {
                Err(Fault::AttributeHeaderOverrun)
            }
            _ => Ok(()),
        }
    }
}

// ---- Routes ----

impl Reader<'_> {
    /// Reads the withdrawn routes; gives where they end.
    fn withdrawn(&mut self) -> Result<usize, Fault> {
        let (low_first, low_only) = (Slip::MessageWithdrawnSizeLowFirst, Slip::MessageWithdrawnSizeLowByte);
        let size = self.number(HEADER, low_first, low_only);
        let from = HEADER + 2;
        let to = match self.slip {
            Some(Slip::MessageWithdrawnSizeInclusive) => from + size.saturating_sub(2),
            Some(Slip::MessageWithdrawnSizeRoutes) => self.stepped(from, size),
            Some(Slip::MessageWithdrawnEndWraps) => (from + size) % 65_536,
            Some(Slip::MessageWithdrawnCut) => (from + size).min(self.end - 2),
            _ => from + size,
        };
        if to > self.end {
            return Err(Fault::WithdrawnOverrun);
        }
        if self.is(Slip::MessageAttributesSizeMissing) {
            self.end = self.end.max(to + 2);
        }
        let cut = self.or(to + 2 > self.end, Slip::MessageWithdrawnEdge, to + 2 >= self.end);
        if cut {
            return Err(Fault::AttributesSizeCut);
        }
        self.routes(Part::Withdrawn, from, to)?;
        Ok(to)
    }

    /// Slips only: where so many prefixes from a place on end, as far as the message goes.
    fn stepped(&self, from: usize, count: usize) -> usize {
        let mut at = from;
        for _ in 0..count {
            if at < self.end {
                at += 1 + self.byte(at).div_ceil(8);
            }
        }
        at
    }

    /// Reads one prefix after the other up to the end of their part.
    fn routes(&mut self, part: Part, from: usize, to: usize) -> Result<(), Fault> {
        let mut at = from;
        while at + self.or(0, Slip::MessageLastByteMissed, 1) < to {
            let (route, next) = match self.prefix_at(part, at, to) {
                Err(fault) if fault == part.overrun() && self.is(Slip::MessagePrefixOverrunDropped) => break,
                read => read?,
            };
            let default = route.1 == 0;
            if default && self.is(Slip::MessageDefaultEnds) {
                break;
            }
            if !(default && self.is(Slip::MessageDefaultSkipped)) {
                self.list(part).push(route);
            }
            at = next;
        }
        if self.is(Slip::MessageLastMissed) {
            self.list(part).pop();
        }
        Ok(())
    }

    fn list(&mut self, part: Part) -> &mut Vec<(u32, u32)> {
        match part {
            Part::Withdrawn => &mut self.said.withdrawn,
            Part::Announced => &mut self.said.announced,
        }
    }

    /// The prefix at a place of its part, with its length, and where the next one starts.
    fn prefix_at(&self, part: Part, at: usize, to: usize) -> Result<((u32, u32), usize), Fault> {
        let length = self.or(self.byte(at), Slip::MessageLongPrefixCapped, self.byte(at).min(32)) as u32;
        if self.too_long(part, length) {
            return Err(part.too_long());
        }
        let size = self.bytes_of(length);
        let next = at + 1 + size;
        let overrun = match self.slip {
            Some(Slip::MessagePrefixEdge) => next >= to,
            Some(Slip::MessagePrefixOverrunsPart) => next > self.end,
            Some(Slip::MessagePrefixOverrunFilled) => false,
            _ => next > to,
        };
        if overrun {
            return Err(part.overrun());
        }
        let before = self.or(self.end, Slip::MessagePrefixOverrunFilled, to);
        let uncut = self.octets(at + 1, size, before);
        let p = match self.slip {
            Some(Slip::MessagePrefixLowFirst) => uncut.swap_bytes(),
            Some(Slip::MessagePrefixLowEnd) => uncut.rotate_left(8 * size as u32 % 32),
            _ => uncut,
        };
        let route = (self.cut(part, length, p), length);
        if self.is(Slip::MessageBitsRefused) && route.0 != p {
            return Err(part.too_long());
        }
        Ok((route, next))
    }

    fn too_long(&self, part: Part, length: u32) -> bool {
        match self.slip {
            Some(Slip::MessagePrefixTo31) => length > 31,
            Some(Slip::MessagePrefixTo33) => length > 33,
            Some(Slip::MessageLongPrefixCounted) => false,
            Some(Slip::MessageLongWithdrawnCounted) => length > 32 && part == Part::Announced,
            _ => length > 32,
        }
    }

    /// How many bytes hold so many bits.
    fn bytes_of(&self, length: u32) -> usize {
        let bits = length as usize;
        match self.slip {
            Some(Slip::MessageBytesRoundedDown) => bits / 8,
            Some(Slip::MessageBytesOneMore) => bits / 8 + 1,
            Some(Slip::MessageBytesFour) => 4,
            Some(Slip::MessageBytesDefaultOne) => bits.div_ceil(8).max(1),
            _ => bits.div_ceil(8),
        }
    }

    /// Up to four bytes as an address, the first one highest, zeros after them.
    pub fn octets(&self, at: usize, size: usize, before: usize) -> u32 {
        let octet = |n: usize| if n < size && at + n < before { self.byte(at + n) as u32 } else { 0 };
        (0..4).fold(0, |address, n| address * 256 + octet(n))
    }

    /// A prefix without the bits after its length.
    fn cut(&self, part: Part, length: u32, p: u32) -> u32 {
        match self.slip {
            Some(Slip::MessageBitsKept) => p,
            Some(Slip::MessageWithdrawnBitsKept) if part == Part::Withdrawn => p,
            Some(Slip::MessageBitMoreCleared) => prefix(length.saturating_sub(1), p),
            Some(Slip::MessageBitFewerCleared) if length < 32 => prefix(length + 1, p),
            _ => prefix(length, p),
        }
    }
}
