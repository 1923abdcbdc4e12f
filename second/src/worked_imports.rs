//! Dumps with the answers, counts, words and rooms that follow from their bytes, worked out by hand.

use crate::calls::{Lent, Of, Settings, Stream};
use crate::library::{Library, ROOM};
use crate::rules::T;
use crate::worked::{address, found, one_off, refused, Case};
use std::rc::Rc;

/// A route to 10.0.0.0/8 of which two neighbours tell, with NEXT_HOP 10.9.9.9 and 10.9.9.1.
pub const RECORD: [u8; 50] = [
    0x6a, 0x00, 0x00, 0x00, // a time
    0x00, 0x0d, 0x00, 0x02, // type 13, subtype 2
    0x00, 0x00, 0x00, 0x26, // 38 bytes
    0x00, 0x00, 0x00, 0x01, // a number
    0x08, 0x0a, // 10.0.0.0/8
    0x00, 0x02, // two entries
    0x00, 0x00, 0x6a, 0x00, 0x00, 0x00, // a neighbour's number and a time
    0x00, 0x07, // 7 bytes of attributes
    0x40, 0x03, 0x04, 0x0a, 0x09, 0x09, 0x09, // NEXT_HOP 10.9.9.9
    0x00, 0x01, 0x6a, 0x00, 0x00, 0x00, // another neighbour's
    0x00, 0x07, // 7 bytes of attributes
    0x40, 0x03, 0x04, 0x0a, 0x09, 0x09, 0x01, // NEXT_HOP 10.9.9.1
];

/// Where in it the type and the size stand, the body begins, the prefix stands, the number of entries, the entries and
/// the NEXT_HOP of the first.
const TYPE: usize = 4;
const SIZE: usize = 8;
const BODY: usize = 12;
const PREFIX: usize = 16;
const COUNT: usize = 18;
const ENTRIES: usize = 20;
const FIRST_HOP: usize = 28;

pub const HOPS: [u32; 2] = [7, 0x0a09_0901];

/// The record with these bytes from a place on in place of as many.
fn with(at: usize, bytes: &[u8]) -> Vec<u8> {
    let mut record = RECORD.to_vec();
    record[at..at + bytes.len()].copy_from_slice(bytes);
    record
}

/// A record of the kind that is read with this body.
fn of_body(body: &[u8]) -> Vec<u8> {
    [&RECORD[..SIZE], &(body.len() as u32).to_be_bytes(), body].concat()
}

impl Case<'_> {
    /// Begins a stream, in room whose bytes are 7.
    pub fn begin(&mut self, counts: [u32; 3], words: [u32; 3]) {
        self.pair.stream.begin(self.library, self.pair.area, 0, words, Some(vec![7; ROOM]));
        self.pair.stream.set_counts(self.library, counts);
    }

    pub fn import_with(
        &mut self,
        t: &Settings,
        lent: Option<Lent>,
        chunk: &[u8],
        hops: &[u32],
        number: u64,
    ) -> Result<(), String> {
        let chunk = self.pair.stream.chunk(self.party, Of::Dump, chunk.to_vec(), 0, Rc::from(hops), 0);
        let lent = lent.unwrap_or(self.pair.lent(&chunk));
        let given = self.pair.call_chunk(self.library, t, lent, &chunk);
        let given = given.map_err(|difference| self.wrong(lent, &chunk, difference.0))?;
        self.documented(lent, &chunk, given, refused(number))
    }

    /// A chunk is given a number, and leaves these counts and words.
    pub fn import(
        &mut self,
        chunk: &[u8],
        number: u64,
        counts: [u32; 3],
        words: [u32; 3],
    ) -> Result<(), String> {
        self.import_with(&T, None, chunk, &HOPS, number)?;
        self.left(counts, words)
    }

    pub fn left(&self, counts: [u32; 3], words: [u32; 3]) -> Result<(), String> {
        let Stream { counts: left, words: kept, .. } = self.pair.stream.held();
        let what = format!("counts {counts:?} and words {words:?}, where there are {left:?} and {kept:?}");
        self.holds((*left, *kept) == (counts, words), &what)
    }

    pub fn end_gives(&mut self, number: u64) -> Result<(), String> {
        let end = self.pair.stream.end();
        let lent = self.pair.lent(&end);
        let given = self.pair.end_stream(self.library, &end);
        let given = given.map_err(|difference| self.wrong(lent, &end, difference.0))?;
        self.documented(lent, &end, given, refused(number))
    }

    /// The room begins with these bytes, and no other has changed.
    pub fn kept(&self, bytes: &[u8]) -> Result<(), String> {
        let room = &self.pair.stream.held().room;
        let rest = room[bytes.len()..].iter().all(|byte| *byte == 7);
        self.holds(room.starts_with(bytes) && rest, "what came stands in the room, and nothing else does")
    }

    /// A record ends the import at its last byte with 12, after a good one that stays.
    fn bad_record(&mut self, record: &[u8]) -> Result<(), String> {
        self.begin([0; 3], [0; 3]);
        self.import(&[&RECORD[..], record, &RECORD].concat(), 12, [1, 0, 0], [13, 0, 0])?;
        self.begin([0; 3], [0; 3]);
        self.import(
            &record[..record.len() - 1],
            0,
            [0; 3],
            match record.len() {
                BODY => [0, 11, 0],
                size => [0, size as u32 - 1, 1],
            },
        )?;
        self.import(&record[record.len() - 1..], 12, [0; 3], [13, 0, 0])
    }
}

pub fn run(library: &mut Library) -> Result<(), String> {
    cut(library)?;
    ended(library)?;
    damaged(library)?;
    kinds(library)?;
    refused_chunks(library)?;
    hops(library)?;
    words(library)
}

/// The record cut in two at each place, and its end there.
fn cut(library: &mut Library) -> Result<(), String> {
    for at in 0..=RECORD.len() {
        let mut case = Case::new(library, "a record in two chunks", T)?;
        case.begin([0; 3], [0; 3]);
        let (first, second) = RECORD.split_at(at);
        let words = match at {
            0..BODY => [0, at as u32, 0],
            BODY..50 => [0, at as u32, 50 - at as u32],
            _ => [0; 3],
        };
        let counts = if at == 50 { [1, 0, 0] } else { [0; 3] };
        case.import(first, 0, counts, words)?;
        case.kept(first)?;
        case.import(&[], 0, counts, words)?;
        case.import(second, 0, [1, 0, 0], [0; 3])?;
        case.kept(&RECORD)?;
        case.lookup(address(10, 1, 2, 3), found(1, 8, 1))?;
        case.end_gives(0)?;
        case.left([1, 0, 0], [1, 0, 0])?;

        case.begin([0; 3], [0; 3]);
        case.import(first, 0, counts, words)?;
        let number = if at == 0 || at == 50 { 0 } else { 17 };
        case.end_gives(number)?;
        case.left(counts, [number as u32 + 1, 0, 0])?;
        case.end_gives(number)?;
        case.import(second, number, counts, [number as u32 + 1, 0, 0])?;
    }
    Ok(())
}

/// What has ended takes no more, whatever is wrong with a chunk.
fn ended(library: &mut Library) -> Result<(), String> {
    let mut case = Case::new(library, "a stream that has ended", T)?;
    for number in [0, 12, 14, 17, 300] {
        let words = [number as u32 + 1, 0, 0];
        case.begin([4_000_000_001, 0, 0], words);
        for chunk in [&[][..], &RECORD, &[0; 65_537]] {
            case.import(chunk, number, [4_000_000_001, 0, 0], words)?;
            case.import_with(&Settings { k: 9, ..T }, None, chunk, &HOPS, number)?;
        }
        case.end_gives(number)?;
        case.left([4_000_000_001, 0, 0], words)?;
        case.kept(&[])?;
    }
    // Of a number the low 16 bits count.
    case.begin([0; 3], [65_536 + 13, 9, 9]);
    case.import(&RECORD, 12, [0; 3], [65_536 + 13, 9, 9])?;
    case.end_gives(12)?;
    case.lookup(address(10, 1, 2, 3), 0)
}

/// Bodies that are not well-formed, and some that nearly are not.
fn damaged(library: &mut Library) -> Result<(), String> {
    let mut case = Case::new(library, "a damaged record", T)?;
    // The body cut at each place, its length put right, and with a byte more.
    for size in BODY..RECORD.len() {
        case.bad_record(&of_body(&RECORD[BODY..size]))?;
    }
    case.bad_record(&of_body(&[&RECORD[BODY..], &[0]].concat()))?;
    // The prefix has a length of 33 or 255; or of 9, so that it takes a byte of the count, which is 512 then.
    for length in [33, 255, 9] {
        case.bad_record(&with(PREFIX, &[length]))?;
    }
    // One entry, three, none.
    for count in [1, 3, 0] {
        case.bad_record(&with(COUNT + 1, &[count]))?;
    }
    // The attributes of the first entry have 6 bytes or 8, those of the last have 8.
    for (at, size) in [(ENTRIES + 7, 6), (ENTRIES + 7, 8), (42, 8)] {
        case.bad_record(&with(at, &[size]))?;
    }
    // A NEXT_HOP of 3 bytes or 5, in either entry; of four bytes after a length of two.
    for (at, byte) in [(FIRST_HOP + 2, 3), (FIRST_HOP + 2, 5), (45, 3), (45, 5), (FIRST_HOP, 0x50)] {
        case.bad_record(&with(at, &[byte]))?;
    }
    // Two NEXT_HOPs in one entry.
    let next_hop = &RECORD[43..];
    let twice =
        [&RECORD[BODY..COUNT], &[0, 1], &RECORD[ENTRIES..ENTRIES + 6], &[0, 14], next_hop, next_hop].concat();
    case.bad_record(&of_body(&twice))?;

    // No entry at all, and two without a NEXT_HOP.
    case.begin([0; 3], [0; 3]);
    let none = of_body(&[&RECORD[BODY..COUNT], &[0, 0]].concat());
    case.import(&none, 0, [0, 0, 1], [0; 3])?;
    let other = with(FIRST_HOP + 1, &[99]);
    let both = [&other[..44], &[99], &other[45..]].concat();
    case.import(&both, 0, [0, 0, 2], [0; 3])?;
    // Bits after the length mean nothing.
    case.import(&with(PREFIX, &[7, 0x0b]), 0, [1, 0, 2], [0; 3])?;
    case.lookup(address(11, 0, 0, 1), found(1, 7, 1))
}

/// Other kinds are stepped over, whatever they hold.
fn kinds(library: &mut Library) -> Result<(), String> {
    let mut case = Case::new(library, "a record of another kind", T)?;
    for kind in [[0, 13, 0, 1], [0, 13, 0, 3], [0, 13, 2, 0], [0, 12, 0, 2], [1, 13, 0, 2], [0, 16, 0, 4]] {
        case.begin([0; 3], [0; 3]);
        let other = with(TYPE, &kind);
        case.import(&other[..BODY], 0, [0; 3], [0, 0, 38])?;
        case.kept(&other[..BODY])?;
        case.import(&other[BODY..49], 0, [0; 3], [0, 0, 1])?;
        case.import(&other[49..], 0, [0; 3], [0; 3])?;
        case.kept(&other[..BODY])?;
        // Its body may have no bytes, or 2^32 - 1, of which 38 come.
        case.import(&with(TYPE, &kind)[..SIZE], 0, [0; 3], [0, 8, 0])?;
        case.import(&[0; 4], 0, [0; 3], [0; 3])?;
        let longest = [&other[..SIZE], &[255; 4], &RECORD[BODY..]].concat();
        case.import(&longest, 0, [0; 3], [0, 0, u32::MAX - 38])?;
        case.end_gives(17)?;
    }
    // The kind that is read has up to 65,536 bytes.
    for size in [65_537u32, 65_538, 1 << 31, u32::MAX] {
        case.begin([0; 3], [0; 3]);
        let long = [&RECORD[..], &RECORD[..SIZE], &size.to_be_bytes(), &RECORD].concat();
        case.import(&long[..50 + 11], 0, [1, 0, 0], [0, 11, 0])?;
        case.import(&long[50 + 11..], 14, [1, 0, 0], [15, 0, 0])?;
        case.import(&RECORD, 14, [1, 0, 0], [15, 0, 0])?;
        case.end_gives(14)?;
    }
    // All but 20 bytes are an attribute's value: 4, 2 and 2 stand before the entry, 6 and 2 before its attributes, and 4
    // before the value.
    let value = 65_536 - 20;
    let head = [&RECORD[BODY..COUNT], &[0, 1], &RECORD[ENTRIES..ENTRIES + 6]].concat();
    let attribute = [&[0x90, 99][..], &(value as u16).to_be_bytes(), &vec![3; value]].concat();
    let body = [&head[..], &(attribute.len() as u16).to_be_bytes(), &attribute].concat();
    let longest = of_body(&body);
    case.holds(body.len() == 65_536, "the longest body has 65,536 bytes")?;
    case.begin([0; 3], [0; 3]);
    case.import(&longest[..65_536], 0, [0; 3], [0, 65_536, 12])?;
    case.import(&longest[65_536..], 0, [0, 0, 1], [0; 3])?;
    case.kept(&longest)
}

/// 19, and then 1 and 2. Such a chunk leaves everything.
fn refused_chunks(library: &mut Library) -> Result<(), String> {
    let mut case = Case::new(library, "a chunk that is refused", T)?;
    let other = with(TYPE, &[0, 13, 0, 4, 0, 1, 0, 0]);
    let long = [&other[..], &[0; 65_486]].concat();
    case.begin([0; 3], [0; 3]);
    case.import(&[&long[..], &[0]].concat(), 19, [0; 3], [0; 3])?;
    case.kept(&[])?;
    case.import(&long, 0, [0; 3], [0, 0, 12])?;

    let most = 4_000_000_000;
    for which in 0..3 {
        let mut counts = [5; 3];
        for (count, number) in [(most + 1, 19), (u32::MAX, 19), (most, 0)] {
            counts[which] = count;
            case.begin(counts, [0; 3]);
            let after = if number == 0 { [counts[0] + 1, counts[1], counts[2]] } else { counts };
            case.import(&RECORD, number, after, [0; 3])?;
            case.import(&[], if after.iter().any(|count| *count > most) { 19 } else { 0 }, after, [0; 3])?;
        }
    }

    case.begin([0; 3], [0; 3]);
    case.import(&RECORD[..20], 0, [0; 3], [0, 20, 30])?;
    let lent = case.pair.lent(&case.pair.stream.end());
    for chunk in [&[][..], &RECORD[20..]] {
        for lent in one_off(lent) {
            case.import_with(&T, Some(lent), chunk, &HOPS, 2)?;
            case.import_with(&Settings { k: 9, ..T }, Some(lent), chunk, &HOPS, 1)?;
            case.import_with(&T, Some(lent), &long[..], &HOPS, 2)?;
            case.import_with(&Settings { k: 9, ..T }, Some(lent), &vec![0; 65_537], &HOPS, 19)?;
        }
    }
    case.left([0; 3], [0, 20, 30])?;
    case.import(&RECORD[20..], 0, [1, 0, 0], [0; 3])
}

/// The first entry whose NEXT_HOP has a place up to 65,535 gives the hop, and the table may refuse the route.
fn hops(library: &mut Library) -> Result<(), String> {
    let mut case = Case::new(library, "the hop of a record", T)?;
    let (nine, one) = (address(10, 9, 9, 9), address(10, 9, 9, 1));
    case.begin([0; 3], [0; 3]);
    for (hops, hop) in [(&[one, nine][..], 1), (&[nine, one], 0), (&[5, nine, nine], 1), (&[6, 5, one], 2)] {
        case.import_with(&T, None, &RECORD, hops, 0)?;
        case.lookup(address(10, 1, 2, 3), found(hop, 8, 1))?;
    }
    case.left([4, 0, 0], [0; 3])?;
    case.import_with(&T, None, &RECORD, &[], 0)?;
    case.import_with(&T, None, &RECORD, &[one.swap_bytes(), nine + 1], 0)?;
    case.left([4, 0, 2], [0; 3])?;
    let mut many = vec![0; 65_538];
    (many[65_536], many[65_535]) = (nine, one);
    case.import_with(&T, None, &RECORD, &many, 0)?;
    case.lookup(address(10, 1, 2, 3), found(65_535, 8, 1))?;
    many.swap(65_535, 65_537);
    case.import_with(&T, None, &RECORD, &many, 0)?;
    case.left([5, 0, 3], [0; 3])?;

    // All of 0.0.0.0/1 has bucket 0: at length 8 two routes fit.
    let dump: Vec<u8> = [8, 9, 11, 192, 9].iter().flat_map(|octet| with(PREFIX + 1, &[*octet])).collect();
    case.begin([0; 3], [0; 3]);
    case.import(&dump, 0, [2, 3, 0], [0; 3])?;
    case.lookup(address(8, 1, 2, 3), found(1, 8, 1))
}

/// Words that no call leaves.
fn words(library: &mut Library) -> Result<(), String> {
    let mut case = Case::new(library, "any words", T)?;
    // So many bytes of a header are none.
    for kept in [12, 13, 65_548, u32::MAX] {
        case.begin([0; 3], [0, kept, 0]);
        case.import(&[], 0, [0; 3], [0; 3])?;
        case.begin([0; 3], [0, kept, 0]);
        case.import(&RECORD, 0, [1, 0, 0], [0; 3])?;
        case.begin([0; 3], [0, kept, 0]);
        case.end_gives(0)?;
    }
    // The room holds no header of the kind that is read, or not so much: these are stepped over.
    for (kept, to_come) in [(12, 1), (11, 1), (0, 1), (13, 65_536), (u32::MAX, 1)] {
        case.begin([0; 3], [0, kept, to_come]);
        case.import(&[], 0, [0; 3], [0, 0, to_come])?;
        case.begin([0; 3], [0, kept, to_come]);
        case.end_gives(17)?;
        case.left([0; 3], [18, 0, 0])?;
    }
    // With the header in the room it is read, up to what the room holds. What it says of its size is not asked.
    let mut room = vec![7; ROOM];
    room[..49].copy_from_slice(&with(SIZE, &[9; 4])[..49]);
    for (kept, to_come, counts, words) in [
        (49, 1, [1, 0, 0], [0; 3]),
        (49, 65_499, [0; 3], [0, 50, 65_498]),
        (49, 65_500, [0; 3], [0, 0, 65_499]),
        (11, 1, [0; 3], [0; 3]),
    ] {
        case.begin([0; 3], [0; 3]);
        case.pair.stream.begin(case.library, case.pair.area, 0, [0, kept, to_come], Some(room.clone()));
        case.import(&RECORD[49..], 0, counts, words)?;
    }
    Ok(())
}
