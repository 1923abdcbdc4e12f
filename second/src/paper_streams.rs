//! A stream on paper: its bytes are kept until a record is whole, and the list of stored routes is what records
//! change. Words and room are looked at when the stream begins, and not again.

use crate::calls::{Of, FIGURES};
use crate::day_draft::{READ_AS2, READ_AS4};
use crate::paper_days::{self, SEEN};
use crate::paper_dumps;
use crate::record_draft::{HEADER, MOST_BODY, READ};
use crate::routes::Routes;

#[derive(Clone)]
pub struct PaperStream {
    /// What has come of the record that is not whole. One that is stepped over has a header of no kind.
    come: Vec<u8>,
    /// The number that ended the stream.
    ended: Option<u64>,
}

/// What a chunk adds to the counts or to the tally, how many stored routes were announced again, and what each of
/// its routes was answered.
#[derive(Default)]
pub struct More {
    pub counts: [u32; 3],
    pub tally: [u32; FIGURES],
    pub replaced: u32,
    pub answered: Vec<u64>,
}

impl PaperStream {
    /// What words and room say that has come. A record that is under way gets a header that says how long it is.
    pub fn of(words: [u32; 3], room: &[u8]) -> PaperStream {
        let ended = words[0].checked_sub(1).map(|number| u64::from(number & 0xffff) << 48);
        let [kept, to_come] = [words[1], words[2]].map(|word| word as usize);
        let come = if to_come == 0 {
            room[..if kept < HEADER { kept } else { 0 }].to_vec()
        } else if kept >= HEADER && kept + to_come <= HEADER + MOST_BODY {
            let size = (kept + to_come - HEADER) as u32;
            [&room[..8], &size.to_be_bytes(), &room[HEADER..kept]].concat()
        } else {
            [&[0; 8], &words[2].to_be_bytes()[..]].concat()
        };
        PaperStream { come, ended }
    }

    pub fn ended(&self) -> bool {
        self.ended.is_some()
    }

    /// Takes a chunk: gives its answer, and what it adds. The routes of the records that it ends are the party's that
    /// it names, be it another than the one that began them.
    pub fn take(
        &mut self,
        of: Of,
        routes: &mut Routes,
        party: u32,
        hops: &[u32],
        chunk: &[u8],
    ) -> (u64, More) {
        let mut more = More::default();
        if let Some(ended) = self.ended {
            return (ended, more);
        }
        self.step_over(of);
        self.come.extend(chunk);
        let come = std::mem::take(&mut self.come);
        let mut rest = &come[..];
        while rest.len() >= HEADER {
            let read = is_read(of, rest);
            if read && body_size(rest) > MOST_BODY {
                return (self.end_by(14), more);
            }
            let Some((record, next)) = first_record(rest) else {
                break;
            };
            rest = next;
            let (subtype, body) = (u32::from(record[7]), &record[HEADER..]);
            let done = match (of, read) {
                (Of::Dump, true) => paper_dumps::import(routes, party, hops, body, &mut more),
                (Of::Dump, false) => Ok(()),
                (Of::Day, true) => paper_days::replay(routes, party, hops, subtype, body, &mut more),
                (Of::Day, false) => {
                    more.tally[SEEN] += 1;
                    Ok(())
                }
            };
            if done.is_err() {
                return (self.end_by(12), more);
            }
        }
        self.come = rest.to_vec();
        self.step_over(of);
        (0, more)
    }

    /// Steps over the record under way if its header has come and is of no kind that these calls read; calls that
    /// would read it do so no more.
    fn step_over(&mut self, of: Of) {
        if self.come.len() >= HEADER && !is_read(of, &self.come) {
            self.come[..8].fill(0);
        }
    }

    /// Ends the stream and gives the answer.
    pub fn end(&mut self) -> u64 {
        match self.ended {
            Some(ended) => ended,
            None if self.come.is_empty() => self.end_by(0),
            None => self.end_by(17),
        }
    }

    fn end_by(&mut self, number: u64) -> u64 {
        self.ended = Some(number << 48);
        number << 48
    }
}

/// How many bytes the body has of a record whose header has come.
fn body_size(record: &[u8]) -> usize {
    record[8..HEADER].iter().fold(0, |size, byte| size << 8 | usize::from(*byte))
}

/// The type and the subtype of such a record.
pub fn kind(record: &[u8]) -> (u16, u16) {
    let number = |at: usize| u16::from_be_bytes([record[at], record[at + 1]]);
    (number(4), number(6))
}

/// Whether such a record is of a kind that these calls read.
pub fn is_read(of: Of, record: &[u8]) -> bool {
    match of {
        Of::Dump => kind(record) == READ,
        Of::Day => kind(record) == READ_AS2 || kind(record) == READ_AS4,
    }
}

/// The first of some records, if it is whole, and what follows it.
pub fn first_record(bytes: &[u8]) -> Option<(&[u8], &[u8])> {
    let size = if bytes.len() < HEADER { HEADER } else { HEADER + body_size(bytes) };
    bytes.split_at_checked(size)
}
