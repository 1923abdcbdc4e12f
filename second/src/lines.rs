//! The text program: one answer to each line, over a table of settings T that starts cleared. It is party 0.
//!
//! As in `rules`, what stands under `_`, or when no slip is named, is the right rule.

use super::calls::{Call, Lent, Settings};
use super::line_slips::LineSlip;
use super::rules::{answer, counter_bytes, default_word, mark, slot_words, T};
use super::slips::Slip;

/// The party that every line is for.
const PARTY: u32 = 0;

/// The longest line that is read, without its byte 10.
const LONGEST: usize = 64;

/// The lines of an input, without the byte 10 that ends them.
pub fn lines(input: &[u8]) -> Vec<&[u8]> {
    let mut parts: Vec<&[u8]> = input.split(|byte| *byte == 10).collect();
    // Nothing after the last byte 10, or in the whole input, is no line.
    if parts.last().is_some_and(|last| last.is_empty()) {
        parts.pop();
    }
    parts
}

/// The answers to all lines of an input, in order.
pub fn answers(input: &[u8], slip: Option<LineSlip>) -> Vec<String> {
    let mut reader = Reader::new(slip);
    let mut written: Vec<String> = cut(input, slip).into_iter().map(|line| reader.answer(line)).collect();
    match slip {
        Some(LineSlip::HeaderFirst) => written.insert(0, "hop length probes\n".to_string()),
        Some(LineSlip::LastByteMissing) => {
            written.last_mut().map(String::pop);
        }
        Some(LineSlip::UnreadableStops) => {
            let stop = written.iter().position(|text| text == "unreadable\n");
            written.truncate(stop.map_or(written.len(), |at| at + 1));
        }
        _ => (),
    }
    written
}

/// The lines to be answered: those of the input, unless a slip takes them otherwise.
fn cut(input: &[u8], slip: Option<LineSlip>) -> Vec<&[u8]> {
    let mut right = lines(input);
    match slip {
        Some(LineSlip::LastLineLost) if !input.ends_with(&[10]) => {
            right.pop();
        }
        Some(LineSlip::FurtherLine) if input.ends_with(&[10]) => right.push(&[]),
        Some(LineSlip::EmptyInputLine) if input.is_empty() => right.push(&[]),
        Some(LineSlip::EmptyLineSkipped) => right.retain(|line| !line.is_empty()),
        Some(LineSlip::LongLineSkipped) => right.retain(|line| line.len() <= LONGEST),
        Some(LineSlip::LongLineSplit) => right = right.into_iter().flat_map(pieces).collect(),
        Some(LineSlip::ReturnEndsLine) => {
            right = right.into_iter().flat_map(|line| line.split(|byte| *byte == 13)).collect();
        }
        _ => (),
    }
    right
}

/// A slip's: a line in pieces of the longest size.
fn pieces(line: &[u8]) -> Vec<&[u8]> {
    if line.len() <= LONGEST {
        vec![line]
    } else {
        line.chunks(LONGEST).collect()
    }
}

/// The text program between two lines: its table.
pub struct Reader {
    t: Settings,
    counters: Vec<u8>,
    slots: Vec<u32>,
    slip: Option<LineSlip>,
}

impl Reader {
    pub fn new(slip: Option<LineSlip>) -> Reader {
        let t = match slip {
            Some(LineSlip::OtherSettings) => Settings { k: 1, ..T },
            _ => T,
        };
        let mut slots = vec![0; slot_words(&t)];
        if slip == Some(LineSlip::StartsWithDefault) {
            slots[default_word(&t, PARTY)] = mark(PARTY, 0);
        }
        Reader { t, counters: vec![0; counter_bytes(&t)], slots, slip }
    }

    /// Does what one line says and gives what is written for it.
    pub fn answer(&mut self, line: &[u8]) -> String {
        if self.is(LineSlip::TableForgotten) {
            self.call(Call::Clear);
        }
        match self.read(line) {
            Some(call) => {
                let number = self.call(call);
                self.written(call, number) + "\n"
            }
            None if self.is(LineSlip::UnreadableSilent) => String::new(),
            None => "unreadable\n".to_string(),
        }
    }

    fn is(&self, slip: LineSlip) -> bool {
        self.slip == Some(slip)
    }

    fn call(&mut self, call: Call) -> u64 {
        let lent = Lent { counters: self.counters.len(), slots: self.slots.len() * call.units() };
        let slip = if self.is(LineSlip::OddPasses) { Some(Slip::OddUnasked) } else { None };
        answer(&self.t, &mut self.counters, &mut self.slots, lent, call, slip)
    }

    /// The words written for a call's answer.
    fn written(&self, call: Call, number: u64) -> String {
        let refusal = number / 2u64.pow(48);
        if refusal > 0 {
            return match self.slip {
                Some(LineSlip::RefusedUnreadable) => "unreadable".to_string(),
                Some(LineSlip::RefusedNumberless) => "refused".to_string(),
                Some(LineSlip::RefusedOk) => "ok".to_string(),
                Some(LineSlip::RefusedOneDigit) => format!("refused {}", refusal % 10),
                _ => format!("refused {refusal}"),
            };
        }
        let Call::Lookup { .. } = call else { return "ok".to_string() };
        let found = number / 2u64.pow(40) % 2u64.pow(8) == 1;
        let hop = number / 2u64.pow(16) % 2u64.pow(24);
        let length = number / 2u64.pow(8) % 2u64.pow(8);
        let probes = number % 2u64.pow(8);
        match self.slip {
            Some(LineSlip::LengthBeforeHop) if found => format!("{length} {hop} {probes}"),
            Some(LineSlip::ProbesLeftOut) if found => format!("{hop} {length}"),
            Some(LineSlip::NoneProbesLeftOut) if !found => "none".to_string(),
            Some(LineSlip::NoneAsZeros) if !found => format!("0 0 {probes}"),
            Some(LineSlip::DefaultAsNone) if length == 0 => format!("none {probes}"),
            _ if found => format!("{hop} {length} {probes}"),
            _ => format!("none {probes}"),
        }
    }
}

// ---- Reading a line ----

impl Reader {
    /// The call that a line asks for; nothing if the line is unreadable.
    fn read(&self, line: &[u8]) -> Option<Call> {
        if line.len() > LONGEST {
            return None;
        }
        let words = self.words(line);
        let (verb, rest) = words.split_first()?;
        let verb = if self.is(LineSlip::AnyCase) { verb.to_ascii_lowercase() } else { verb.to_vec() };
        match (verb.as_slice(), rest) {
            (b"add", [prefix, hop]) => self.add(prefix, hop),
            (b"add", [prefix]) if self.is(LineSlip::HopLeftOut) => self.add(prefix, b"0"),
            (b"drop", [prefix]) => {
                let (prefix, length) = self.prefix(prefix)?;
                Some(Call::Withdraw { party: PARTY, prefix, length })
            }
            (b"move", [prefix, hop]) if self.is(LineSlip::MoveAdds) => self.add(prefix, hop),
            (b"move", [prefix, hop]) => {
                let (prefix, length) = self.prefix(prefix)?;
                Some(Call::Change { party: PARTY, prefix, length, hop: self.hop(hop)? })
            }
            (b"find", [prefix]) if self.is(LineSlip::FindWithLength) && prefix.contains(&b'/') => {
                Some(Call::Lookup { party: PARTY, address: self.prefix(prefix)?.0 })
            }
            (b"find", [address]) => Some(Call::Lookup { party: PARTY, address: self.address(address)? }),
            _ => None,
        }
    }

    fn add(&self, prefix: &[u8], hop: &[u8]) -> Option<Call> {
        let (prefix, length) = self.prefix(prefix)?;
        Some(Call::Add { party: PARTY, prefix, length, hop: self.hop(hop)? })
    }

    /// What stands between the spaces of a line: an empty word where two spaces meet.
    fn words<'l>(&self, line: &'l [u8]) -> Vec<&'l [u8]> {
        let parts = |byte: &u8| *byte == b' ' || *byte == b'\t' && self.is(LineSlip::TabParts);
        let mut words: Vec<&[u8]> = line.split(parts).collect();
        match self.slip {
            Some(LineSlip::ReturnDropped) => {
                words = line.strip_suffix(b"\r").unwrap_or(line).split(parts).collect()
            }
            Some(LineSlip::SpacesMany) => words.retain(|word| !word.is_empty()),
            Some(LineSlip::SpaceLeading) if words[0].is_empty() => {
                words.remove(0);
            }
            Some(LineSlip::SpaceTrailing) if line.ends_with(b" ") => {
                words.pop();
            }
            Some(LineSlip::WordsLeftOver) => {
                words.truncate(if words[0] == b"drop" || words[0] == b"find" { 2 } else { 3 });
            }
            _ => (),
        }
        words
    }

    /// An address, a stroke, a length.
    fn prefix(&self, word: &[u8]) -> Option<(u32, u32)> {
        let parts: Vec<&[u8]> = word.split(|byte| *byte == b'/').collect();
        match parts[..] {
            [address, length] => Some((self.address(address)?, self.length(length)?)),
            [address] if self.is(LineSlip::LengthLeftOut) => Some((self.address(address)?, 32)),
            _ => None,
        }
    }

    /// Four octets with points between them, the first one highest.
    fn address(&self, word: &[u8]) -> Option<u32> {
        let mut octets: Vec<&[u8]> = word.split(|byte| *byte == b'.').collect();
        match self.slip {
            Some(LineSlip::OctetsReversed) => octets.reverse(),
            Some(LineSlip::OctetLeftOut) if octets.len() < 4 => octets.resize(4, b"0"),
            Some(LineSlip::OctetsFive) => octets.truncate(4),
            _ => (),
        }
        if octets.len() != 4 {
            return None;
        }
        let mut address = 0;
        for octet in octets {
            address = address * 256 + self.octet(octet)?;
        }
        Some(address as u32)
    }

    fn octet(&self, word: &[u8]) -> Option<u64> {
        match self.slip {
            Some(LineSlip::OctetTo254) => self.number(word, 254, LineSlip::ZeroLeadingOctet),
            Some(LineSlip::OctetPast255) => Some(self.number(word, 999, LineSlip::ZeroLeadingOctet)? % 256),
            _ => self.number(word, 255, LineSlip::ZeroLeadingOctet),
        }
    }

    fn length(&self, word: &[u8]) -> Option<u32> {
        let (digits, most) = match self.slip {
            Some(LineSlip::LengthTo32) => (2, 32),
            Some(LineSlip::LengthOneDigit) => (1, 9),
            Some(LineSlip::LengthThreeDigits) => (3, 999),
            _ => (2, 99),
        };
        if word.len() > digits {
            return None;
        }
        Some(self.number(word, most, LineSlip::ZeroLeadingLength)? as u32)
    }

    fn hop(&self, word: &[u8]) -> Option<u32> {
        let top = 2u64.pow(32) - 1;
        let read = |most: u64| self.number(word, most, LineSlip::ZeroLeadingHop);
        let hop = match self.slip {
            Some(LineSlip::HopTo16Bits) => read(65_535)?,
            Some(LineSlip::HopTo31Bits) => read(2u64.pow(31) - 1)?,
            Some(LineSlip::HopPast32Bits) => read(u64::MAX)?.min(top),
            Some(LineSlip::HopWraps) => read(u64::MAX)? % 2u64.pow(32),
            _ => read(top)?,
        };
        Some(hop as u32)
    }

    /// A decimal number of at least one digit, without a zero in front, that is not above `most`.
    fn number(&self, word: &[u8], most: u64, zero_leading: LineSlip) -> Option<u64> {
        let digits = match self.slip {
            Some(LineSlip::PlusSign) => word.strip_prefix(b"+").unwrap_or(word),
            Some(LineSlip::EmptyIsZero) if word.is_empty() => b"0",
            Some(LineSlip::ZeroAloneBad) if word == b"0" => b"",
            _ => word,
        };
        let zero_in_front = digits.len() > 1 && digits[0] == b'0' && !self.is(zero_leading);
        if digits.is_empty() || zero_in_front || !digits.iter().all(u8::is_ascii_digit) {
            return None;
        }
        let value = digits.iter().fold(0u64, |value, digit| {
            // More digits than 64 bits hold are above any `most` that is asked.
            value.saturating_mul(10).saturating_add(u64::from(digit - b'0'))
        });
        if value <= most {
            Some(value)
        } else {
            None
        }
    }
}
