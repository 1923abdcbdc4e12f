//! What can be wrong about a record of a day that is read.

use crate::day_draft::{message, Heard, ADDRESSES, IPV4, IPV6, MESSAGE_HEADER, READ_AS2, READ_AS4};
use crate::draft::{long_attribute, next_hop, Draft, EXTENDED, LENGTH_AT, UPDATE, WITHDRAWN_AT};
use crate::random::Random;
use crate::record_draft::{header, record, MOST_BODY};
use crate::spoilt_records::{put_number, spoils};

spoils! {
    NoBytes: "the body has no bytes",
    FamilyCut: "the body ends before the address family does",
    AddressesCut: "the body ends before both addresses do",
    HeaderCut: "the body ends before the message's header does",
    ByteTooLong: "the body has 65,537 bytes",
    TooLong: "the body has more bytes than that",
    Longest: "the body has 2^32 - 1 bytes",
    RecordSize: "the record says that its body is longer or shorter",
    Marker: "an UPDATE's marker is not all ones",
    LengthField: "an UPDATE says another length than it has",
    BytesAfter: "bytes follow an UPDATE",
    MessageCut: "an UPDATE ends before its length",
    ShortMessage: "an UPDATE has 19 to 22 bytes, as it says",
    LongMessage: "an UPDATE has more than 4,096 bytes, as it says",
    WithdrawnSize: "the withdrawn routes go past the message's end",
    WithdrawnToEnd: "the withdrawn routes leave no room for the attributes' length",
    WithdrawnLength: "a withdrawn prefix has a length above 32",
    WithdrawnCut: "a withdrawn prefix goes past the end of the withdrawn routes",
    AttributesSize: "the attributes go past the message's end",
    AttributeHeader: "an attribute's header goes past the end of the attributes",
    AttributeValue: "an attribute's value goes past the end of the attributes",
    NextHopSize: "a NEXT_HOP has not four bytes",
    NextHopTwice: "there is a second NEXT_HOP",
    AnnouncedLength: "an announced prefix has a length above 32",
    AnnouncedCut: "an announced prefix goes past the message's end",
    AnyByte: "one byte is another",
}

/// A record that has this wrong about it, and otherwise holds a good UPDATE. Now and then it comes out right, if one
/// byte is another.
pub fn spoilt_record(random: &mut Random, spoil: Spoil, mut draft: Draft, hop: u32) -> Vec<u8> {
    let kind = random.pick(&[READ_AS2, READ_AS4]);
    spoil_draft(random, spoil, &mut draft, hop);
    let mut update = draft.bytes();
    spoil_update(random, spoil, &draft, &mut update);
    let mut heard = Heard::new(random, kind, IPV4, update);
    let too_long = match spoil {
        Spoil::ByteTooLong => MOST_BODY as u32 + 1,
        Spoil::TooLong => random.pick(&[65_538, 65_548, 65_549, 65_792, 1 << 17, 1 << 24, 1 << 31]),
        Spoil::Longest => u32::MAX,
        _ => return spoilt_body(random, spoil, kind, heard),
    };
    heard.family = random.pick(&[IPV4, IPV4, IPV6, 3]);
    let body = if random.percent(20) { random.bytes(MOST_BODY + 1) } else { heard.body() };
    [header(random, kind, too_long), body].concat()
}

/// The record of a body that is spoilt as a whole or not at all.
fn spoilt_body(random: &mut Random, spoil: Spoil, kind: (u16, u16), mut heard: Heard) -> Vec<u8> {
    let (addresses, message_at) = (heard.addresses_at(), heard.addresses_at() + ADDRESSES);
    if matches!(spoil, Spoil::HeaderCut | Spoil::AddressesCut) && random.percent(30) {
        heard.message = message(4, &[]);
    }
    let mut body = heard.body();
    let size = match spoil {
        Spoil::NoBytes => 0,
        Spoil::FamilyCut => random.within(1, addresses as u32 - 1),
        Spoil::AddressesCut => random.within(addresses as u32, message_at as u32 - 1),
        Spoil::HeaderCut => random.within(message_at as u32, (message_at + MESSAGE_HEADER) as u32 - 1),
        _ => body.len() as u32,
    };
    body.truncate(size as usize);
    let right = body.len() as u32;
    match spoil {
        Spoil::RecordSize => {
            let size = random.pick(&[right - 1, right - 1, right - 4, right + 1, right + 1, right + 12, 12]);
            return [header(random, kind, size), body].concat();
        }
        Spoil::AnyByte => {
            let (any, header) = (random.below(body.len()), message_at + random.below(LENGTH_AT + 2));
            let at = random.pick(&[any, header, header, message_at + WITHDRAWN_AT + 1]);
            body[at] = match random.below(4) {
                0 => body[at].wrapping_add(1),
                1 => body[at].wrapping_sub(1),
                2 => body[at] ^ 1 << random.within(0, 7),
                _ => random.word() as u8,
            };
        }
        _ => {}
    }
    record(random, kind, &body)
}

/// A prefix whose length is above 32, with as many bytes as hold it or four.
fn long_prefix(random: &mut Random) -> Vec<u8> {
    let length: u8 = random.pick(&[33, 33, 33, 34, 40, 41, 64, 255]);
    let bytes = random.pick(&[4, usize::from(length).div_ceil(8)]);
    [vec![length], random.bytes(bytes)].concat()
}

/// A prefix with fewer bytes than hold it.
fn cut_prefix(random: &mut Random) -> Vec<u8> {
    let length = random.within(1, 32) as u8;
    let bytes = random.below(usize::from(length).div_ceil(8));
    [vec![length], random.bytes(bytes)].concat()
}

/// Spoils the routes or the attributes.
fn spoil_draft(random: &mut Random, spoil: Spoil, draft: &mut Draft, hop: u32) {
    let somewhere = random.below(draft.attributes.len() + 1);
    match spoil {
        Spoil::LongMessage => {
            let most = random.pick(&[5000, 40_000, 60_000]);
            let size = random.pick(&[4097, 4097, 4098, most]);
            let value = random.bytes(size_of_rest(draft, size));
            draft.attributes.insert(somewhere, long_attribute(random, 8, &value));
        }
        Spoil::WithdrawnLength => {
            draft.withdrawn.insert(random.below(draft.withdrawn.len() + 1), long_prefix(random));
        }
        Spoil::AnnouncedLength => {
            draft.announced.insert(random.below(draft.announced.len() + 1), long_prefix(random));
        }
        Spoil::WithdrawnCut => draft.withdrawn.push(cut_prefix(random)),
        Spoil::AnnouncedCut => draft.announced.push(cut_prefix(random)),
        Spoil::AttributeHeader => {
            let flags = random.word() as u8;
            let most = if flags & EXTENDED == 0 { 2 } else { 3 };
            let size = random.within(1, most) as usize;
            draft.attributes.push([flags, random.pick(&[1, 3, 8]), 0][..size].to_vec());
        }
        Spoil::AttributeValue => {
            let value = random.below(6);
            let said = (value as u8).saturating_add(random.pick(&[1, 1, 1, 2, 8, 9, 250]));
            let header = [random.word() as u8 & !EXTENDED, random.pick(&[1, 3, 8]), said];
            draft.attributes.push([&header[..], &random.bytes(value)].concat());
        }
        Spoil::NextHopSize => {
            let mut value = hop.to_be_bytes().to_vec();
            value.resize(random.pick(&[0, 1, 3, 3, 5, 5, 8, 16, 260]), 0);
            let only = next_hop(random, &value);
            draft.attributes.retain(|attribute| attribute[1] != only[1]);
            draft.attributes.insert(random.below(draft.attributes.len() + 1), only);
        }
        Spoil::NextHopTwice => {
            let second = if random.percent(50) { hop } else { random.word() };
            for hop in [hop, second] {
                let hop = next_hop(random, &hop.to_be_bytes());
                draft.attributes.insert(random.below(draft.attributes.len() + 1), hop);
            }
        }
        _ => {}
    }
}

/// How many bytes the value of one more attribute has, whose length has two, for a message of so many bytes.
fn size_of_rest(draft: &Draft, size: usize) -> usize {
    size.saturating_sub(draft.size() + 4)
}

/// Spoils the bytes of an UPDATE.
fn spoil_update(random: &mut Random, spoil: Spoil, draft: &Draft, bytes: &mut Vec<u8>) {
    let right = bytes.len();
    match spoil {
        Spoil::Marker => bytes[random.below(LENGTH_AT)] = random.pick(&[0, 127, 254]),
        Spoil::LengthField => {
            let swapped = right.swap_bytes() >> 48;
            let length = random.pick(&[right + 1, right - 1, right + 12, 19, 22, 0, 65_535, swapped, 4096]);
            put_number(bytes, LENGTH_AT, if length == right { right + 1 } else { length });
        }
        Spoil::BytesAfter => {
            let more = random.pick(&[1, 1, 2, 5, 19, 23, 300]);
            let after = random.bytes(more);
            bytes.extend(if random.percent(50) { vec![0; more] } else { after });
        }
        Spoil::MessageCut => {
            let any = random.below(right - MESSAGE_HEADER) + MESSAGE_HEADER;
            bytes.truncate(random.pick(&[right - 1, right - 1, any]));
        }
        Spoil::ShortMessage => {
            let rest = random.below(4);
            *bytes = message(UPDATE, &vec![0; rest]);
        }
        Spoil::WithdrawnSize => {
            let left = right - WITHDRAWN_AT - 2;
            put_number(bytes, WITHDRAWN_AT, random.pick(&[left + 1, left + 1, left + 2, left + 256, 65_535]));
        }
        Spoil::WithdrawnToEnd => {
            let left = right - WITHDRAWN_AT - 2;
            put_number(bytes, WITHDRAWN_AT, random.pick(&[left, left - 1]));
        }
        Spoil::AttributesSize => {
            let at = draft.layout().attributes;
            let left = right - at - 2;
            put_number(bytes, at, random.pick(&[left + 1, left + 1, left + 2, left + 256, 65_535]));
        }
        _ => {}
    }
}
