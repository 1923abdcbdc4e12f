//! The calls of libgateway.a. A process beside this one, `host`, is linked with it; the two have mapped
//! the same memory, so that what the library writes is seen here, and a call that brings that process
//! down is told as any other difference.

use crate::calls::{
    AnyCall, Call, Chunk, Comparison, End, Lending, Lent, List, Of, Settings, Sizes, Writing,
};
use crate::record_draft::{HEADER, MOST_BODY};
use std::fs::{self, File, OpenOptions};
use std::io::{self, Read, Write};
use std::os::fd::AsRawFd;
use std::path::Path;
use std::process::{Child, ChildStdin, ChildStdout, Command, Stdio};

/// Bytes before and after the counters and all that is lent beside a table, and words before and after the
/// slots, that nothing may touch. They leave room for a call that is told of more memory than its table has.
pub const MARGIN: usize = 64;

/// Room for the counters of more filters than a table has, each of the largest size, and for the slots in words
/// of the largest table.
pub const MOST_LENT_COUNTERS: usize = 40 * (1 << 11);
const MOST_COUNTERS: usize = MOST_LENT_COUNTERS + 2 * MARGIN;
const MOST_SLOTS: usize = 64 * (1 << 8) * 8 + 2 + 2 * MARGIN;

/// One table's counters and then its slots.
const AREA: usize = (MOST_COUNTERS + 4 * MOST_SLOTS).next_multiple_of(4096);
const AREAS: usize = 3;

/// How many addresses the longest list has, how many differences, how many bytes the longest message and the longest
/// chunk, and how many words the longest list of next hops.
pub const MOST_LISTED: usize = 5000;
pub const MOST_DIFFERENCES: usize = 16_000;
pub const MOST_MESSAGE: usize = 65_536 + 4096;
pub const MOST_CHUNK: usize = 2 * 65_536;
pub const MOST_HOPS: usize = 65_536 + 512;

/// The bytes of a stream's room.
pub const ROOM: usize = HEADER + MOST_BODY;

/// What a call is lent beside its table: the list of the filters' sizes, that of the second table's, and what else it
/// has.
#[derive(Clone, Copy)]
pub enum Beside {
    Sizes,
    SecondSizes,
    Addresses,
    Results,
    Differences,
    Message,
    Hops,
    Room,
    Chunk,
    Counts,
    Tally,
    Words,
    StreamRoom,
}

/// Room for the largest of them, with its margins and a few bytes more. A list's results may be twice as many
/// as it needs, and each area has a stream of its own.
const BESIDE: usize = (4 * MOST_HOPS + 3 * MARGIN).next_multiple_of(4096);

/// So many bytes after that of the area before it begins what is lent of an area's stream.
pub const STREAM: usize = (ROOM + 3 * MARGIN).next_multiple_of(4096);

/// Where the memory ends, with the last of them.
const END: usize = AREAS * AREA + (Beside::StreamRoom as usize + 1) * BESIDE;

/// How many numbers a request has, and how many of them a table takes.
const NUMBERS: usize = 33;
const TABLE: usize = 12;

/// Where a table lies in the memory that is lent: an old table, one that is built beside it, or a copy
/// whose slots do not begin at a word's address.
#[derive(Clone, Copy, Debug, PartialEq, Eq)]
pub enum Area {
    Old,
    New,
    Unaligned,
}

/// How many bytes after their place the slots and the list of sizes begin.
#[derive(Clone, Copy, Debug, Default)]
pub struct Offsets {
    pub slots: usize,
    pub sizes: usize,
}

pub struct Library {
    host: Child,
    requests: Option<ChildStdin>,
    answers: ChildStdout,
    memory: *mut u8,
    /// The host has ended, so that no call is compared any more.
    pub ended: bool,
}

extern "C" {
    fn mmap(at: *mut u8, size: usize, access: i32, kind: i32, file: i32, start: i64) -> *mut u8;
}

/// Maps a file of this size, to be read and written by whoever maps it.
fn map(file: &File, size: usize) -> io::Result<*mut u8> {
    const READ_AND_WRITE: i32 = 3;
    const SHARED: i32 = 1;
    let memory = unsafe { mmap(std::ptr::null_mut(), size, READ_AND_WRITE, SHARED, file.as_raw_fd(), 0) };
    if memory.addr() == usize::MAX {
        return Err(io::Error::last_os_error());
    }
    Ok(memory)
}

impl Library {
    /// Starts the process that has the library.
    pub fn start(host: &Path) -> io::Result<Library> {
        let path = std::env::temp_dir().join(format!("second-{}", std::process::id()));
        let file = OpenOptions::new().read(true).write(true).create_new(true).open(&path)?;
        let started = Library::start_on(host, &path, &file);
        fs::remove_file(&path)?;
        started
    }

    fn start_on(host: &Path, path: &Path, file: &File) -> io::Result<Library> {
        file.set_len(END as u64)?;
        let memory = map(file, END)?;
        let mut host = Command::new(host)
            .arg(path)
            .arg(END.to_string())
            .stdin(Stdio::piped())
            .stdout(Stdio::piped())
            .spawn()?;
        let missing = || io::Error::other("the host has no pipe");
        let requests = host.stdin.take().ok_or_else(missing)?;
        let answers = host.stdout.take().ok_or_else(missing)?;
        let mut library = Library { host, requests: Some(requests), answers, memory, ended: false };
        // The first answer shows that the host has mapped the file, whose name can then go.
        let out_of_range = Settings { k: 0, d: Sizes::of(&[]), e: 0, s: 0, a: 0, b: 0, c: 0 };
        let nothing = Lent { counters: 0, slots: 0 };
        let refused = library.call(Area::Old, Offsets::default(), &out_of_range, nothing, Call::Clear)?;
        if refused != 1 << 48 {
            return Err(io::Error::other(format!("a call with K = 0 was answered with {refused:#x}")));
        }
        Ok(library)
    }

    /// So many bytes of an area's counters, from its first margin on.
    pub fn counters(&mut self, area: Area, size: usize) -> &mut [u8] {
        assert!(size <= MOST_COUNTERS);
        // Safe: the host writes only while a call is under way, and no such slice outlives one.
        unsafe { std::slice::from_raw_parts_mut(self.memory.add(area as usize * AREA), size) }
    }

    /// So many words of an area's slots, from its first margin on.
    pub fn slots(&mut self, area: Area, size: usize) -> &mut [u32] {
        assert!(size <= MOST_SLOTS);
        // Safe: as above, and each area and its counters fill whole words.
        unsafe {
            let start = self.memory.add(area as usize * AREA + MOST_COUNTERS);
            std::slice::from_raw_parts_mut(start.cast(), size)
        }
    }

    /// So many bytes of an area's slots, from its first margin on.
    pub fn slot_bytes(&mut self, area: Area, size: usize) -> &mut [u8] {
        let words = self.slots(area, size.div_ceil(4));
        // Safe: these are the bytes of the words.
        unsafe { std::slice::from_raw_parts_mut(words.as_mut_ptr().cast(), size) }
    }

    /// So many bytes of what is lent beside a table, from their first margin on.
    pub fn beside(&mut self, which: Beside, offset: usize, size: usize) -> &mut [u8] {
        assert!(offset + size <= BESIDE);
        // Safe: as above.
        unsafe { std::slice::from_raw_parts_mut(self.memory.add(place(which, offset)), size) }
    }

    /// The room of a withdrawal to be written.
    pub fn room(&mut self, writing: &Writing) -> &[u8] {
        self.beside(Beside::Room, MARGIN + writing.offset, writing.room.len())
    }

    /// The results of a list, after a call.
    pub fn results(&mut self, list: &List) -> &[u8] {
        self.beside(Beside::Results, MARGIN + list.results_offset, list.results.len())
    }

    /// Does a call in the library, on what is lent of an area after its margins.
    pub fn call<'a>(
        &mut self,
        area: Area,
        offsets: Offsets,
        t: &Settings,
        lent: Lent,
        call: impl Into<AnyCall<'a>>,
    ) -> io::Result<u64> {
        let call = call.into();
        let (number, beside) = match call {
            AnyCall::One(call) => numbers(call),
            AnyCall::List(list) => {
                let addresses = place(Beside::Addresses, MARGIN + list.addresses_offset);
                let results = place(Beside::Results, MARGIN + list.results_offset);
                (6, [addresses, list.addresses.len(), results, list.results.len()].map(|n| n as u64))
            }
            AnyCall::Comparison(Comparison { list, offset, .. }) => {
                let place = place(Beside::Differences, MARGIN + offset);
                (12, [place, list.len(), 0, 0].map(|n| n as u64))
            }
            AnyCall::Message(message) => {
                let bytes = place(Beside::Message, MARGIN + message.offset);
                let hops = place(Beside::Hops, MARGIN + 4 * message.hops_offset);
                (7, [bytes, message.bytes.len(), hops, message.hops.len()].map(|n| n as u64))
            }
            AnyCall::Writing(Writing { prefix, length, room, offset }) => {
                let [room, size] = [place(Beside::Room, MARGIN + offset), room.len()].map(|n| n as u64);
                (8, [u64::from(*prefix), u64::from(*length), room, size])
            }
            AnyCall::Chunk(Chunk { of, bytes, offset, hops, hops_offset, .. }) => {
                let number = match of {
                    Of::Dump => 9,
                    Of::Day => 10,
                };
                let chunk = place(Beside::Chunk, MARGIN + offset);
                let words = place(Beside::Hops, MARGIN + 4 * hops_offset);
                (number, [chunk, bytes.len(), words, hops.len()].map(|n| n as u64))
            }
            AnyCall::End(_) => (11, [0; 4]),
        };
        let stream = match call {
            AnyCall::Chunk(Chunk { of, offsets, .. }) => [
                match of {
                    Of::Dump => place(Beside::Counts, MARGIN + offsets.counts),
                    Of::Day => place(Beside::Tally, MARGIN + offsets.tally),
                },
                place(Beside::Words, MARGIN + offsets.words),
                place(Beside::StreamRoom, MARGIN + offsets.room),
            ],
            AnyCall::End(End { offsets, .. }) => [0, place(Beside::Words, MARGIN + offsets.words), 0],
            _ => [0; 3],
        };
        let table = table_numbers(Beside::Sizes, call.units(), &Lending { t: *t, area, offsets, lent });
        let second = match call {
            AnyCall::Comparison(Comparison { second, .. }) => {
                table_numbers(Beside::SecondSizes, call.units(), second)
            }
            _ => [0; TABLE],
        };
        let stream = stream.map(|n| n as u64);
        let party = [u64::from(call.party().unwrap_or(0))];
        let mut request = [0; 8 * NUMBERS];
        let numbers =
            [number].into_iter().chain(table).chain(party).chain(beside).chain(stream).chain(second);
        for (bytes, number) in request.chunks_exact_mut(8).zip(numbers) {
            bytes.copy_from_slice(&number.to_ne_bytes());
        }
        let mut answer = [0; 8];
        let requests = self.requests.as_mut().ok_or(io::ErrorKind::BrokenPipe)?;
        requests.write_all(&request).and_then(|()| self.answers.read_exact(&mut answer)).map_err(
            |error| {
                self.ended = true;
                let ended = self.host.wait().map_or(String::new(), |status| format!(" ({status})"));
                io::Error::new(error.kind(), format!("the library's process ended in this call{ended}"))
            },
        )?;
        Ok(u64::from_ne_bytes(answer))
    }
}

/// A table in a request: its settings, with where the list of sizes lies, and its memory, of whose slots a word is so
/// many units to the call.
fn table_numbers(sizes: Beside, units: usize, table: &Lending) -> [u64; TABLE] {
    let Lending { t, area, offsets, lent } = table;
    assert!(lent.counters <= MOST_LENT_COUNTERS);
    assert!(lent.slots.div_ceil(units) + MARGIN <= MOST_SLOTS);
    let sizes = [place(sizes, MARGIN + offsets.sizes), t.d.values().len()].map(|n| n as u64);
    let counters = *area as usize * AREA + MARGIN;
    let slots = *area as usize * AREA + MOST_COUNTERS + 4 * MARGIN + offsets.slots;
    let [k, e, s, a, b, c] = [t.k, t.e, t.s, t.a, t.b, t.c].map(u64::from);
    let [counters, bytes, slots, units] = [counters, lent.counters, slots, lent.slots].map(|n| n as u64);
    [k, sizes[0], sizes[1], e, s, a, b, c, counters, bytes, slots, units]
}

/// Where in the memory something lies that is lent beside a table.
fn place(which: Beside, offset: usize) -> usize {
    AREAS * AREA + which as usize * BESIDE + offset
}

/// A call's number, and what it is asked.
fn numbers(call: Call) -> (u64, [u64; 4]) {
    let (number, asked, length, hop) = match call {
        Call::Clear => (0, 0, 0, 0),
        Call::Add { prefix, length, hop, .. } => (1, prefix, length, hop),
        Call::Withdraw { prefix, length, .. } => (2, prefix, length, 0),
        Call::Change { prefix, length, hop, .. } => (3, prefix, length, hop),
        Call::Vector { address } => (4, address, 0, 0),
        Call::Lookup { address, .. } => (5, address, 0, 0),
    };
    (number, [asked, length, hop, 0].map(u64::from))
}

impl Drop for Library {
    /// The host ends when there are no more requests.
    fn drop(&mut self) {
        self.requests = None;
        let _ = self.host.wait();
    }
}
