//! One stream twice, as a table is: what imports into a table and replays over it are lent beside it, in the library's
//! memory and in this program's own. Each chunk is taken in both, and answers and memory are compared after it.

use crate::calls::{AnyCall, Chunk, End, Lent, Of, Settings, Stream, StreamOffsets, FIGURES};
use crate::imports::{end_stream, import_chunk};
use crate::library::{Area, Beside, Library, MARGIN, ROOM, STREAM};
use crate::pair::{compare_lent, same, with_margins, Difference, Pair};
use crate::paper_streams::PaperStream;
use crate::places::bytes_of;
use crate::replays::replay_chunk;
use crate::told::Answer;
use std::rc::Rc;

pub struct StreamPair {
    own: Stream,
    offsets: StreamOffsets,
    /// What has come of the stream, where the table's stored routes are known.
    paper: Option<PaperStream>,
    /// How many stored routes the last chunk has announced again, where that is known.
    pub replaced: u32,
}

/// Where the stream of an area lies, by a number that moves each part by other words or bytes.
fn offsets(area: Area, moved: usize) -> StreamOffsets {
    let start = area as usize * STREAM;
    StreamOffsets {
        counts: start + 4 * (moved % 4),
        tally: start + 4 * (moved / 2 % 4),
        words: start + 4 * (moved / 4 % 4),
        room: start + moved / 16 % 4,
    }
}

impl StreamPair {
    /// A stream that begins, with room that holds something.
    pub fn new(library: &mut Library, area: Area) -> StreamPair {
        let own = Stream { counts: [0; 3], tally: [0; FIGURES], words: [0; 3], room: vec![7; ROOM] };
        let paper = Some(PaperStream::of(own.words, &own.room));
        let stream = StreamPair { own, offsets: offsets(area, 0), paper, replaced: 0 };
        stream.write(library);
        stream
    }

    /// A stream of another area that holds the same.
    pub fn copy(&self, library: &mut Library, area: Area) -> StreamPair {
        let (own, paper) = (self.own.clone(), self.paper.clone());
        let stream = StreamPair { own, offsets: offsets(area, 0), paper, replaced: 0 };
        stream.write(library);
        stream
    }

    /// Begins a stream whose words are these, at another place. Room that is not given stays, and so do counts and
    /// tally.
    pub fn begin(
        &mut self,
        library: &mut Library,
        area: Area,
        moved: usize,
        words: [u32; 3],
        room: Option<Vec<u8>>,
    ) {
        let room = room.unwrap_or_else(|| std::mem::take(&mut self.own.room));
        self.paper = Some(PaperStream::of(words, &room));
        (self.own.words, self.own.room) = (words, room);
        self.offsets = offsets(area, moved);
        self.write(library);
    }

    /// Writes the counts in both memories, as a caller may.
    pub fn set_counts(&mut self, library: &mut Library, counts: [u32; 3]) {
        self.own.counts = counts;
        put(library, Beside::Counts, self.offsets.counts, &bytes_of(&counts));
    }

    /// The same of the tally.
    pub fn set_tally(&mut self, library: &mut Library, tally: [u32; FIGURES]) {
        self.own.tally = tally;
        put(library, Beside::Tally, self.offsets.tally, &bytes_of(&tally));
    }

    /// What the stream holds; it is the same in both memories after a call.
    pub fn held(&self) -> &Stream {
        &self.own
    }

    /// A chunk of this stream, and its end.
    pub fn chunk(
        &self,
        party: u32,
        of: Of,
        bytes: Vec<u8>,
        offset: usize,
        hops: Rc<[u32]>,
        hops_offset: usize,
    ) -> Chunk {
        let (Stream { counts, tally, words, room }, offsets) = (&self.own, self.offsets);
        let (counts, tally, words) = (*counts, *tally, *words);
        let header = room[..12].try_into().expect("a room holds a header");
        Chunk { party, of, bytes, offset, hops, hops_offset, counts, tally, words, header, offsets }
    }

    pub fn end(&self) -> End {
        End { words: self.own.words, offsets: self.offsets }
    }

    fn write(&self, library: &mut Library) {
        let StreamOffsets { counts, tally, words, room } = self.offsets;
        put(library, Beside::Counts, counts, &bytes_of(&self.own.counts));
        put(library, Beside::Tally, tally, &bytes_of(&self.own.tally));
        put(library, Beside::Words, words, &bytes_of(&self.own.words));
        put(library, Beside::StreamRoom, room, &self.own.room);
    }

    fn compare(&self, library: &mut Library) -> Result<(), Difference> {
        let StreamOffsets { counts, tally, words, room } = self.offsets;
        compare(library, "byte of the counts", Beside::Counts, counts, &bytes_of(&self.own.counts))?;
        compare(library, "byte of the tally", Beside::Tally, tally, &bytes_of(&self.own.tally))?;
        compare(library, "byte of the words", Beside::Words, words, &bytes_of(&self.own.words))?;
        compare(library, "byte of the stream's room", Beside::StreamRoom, room, &self.own.room)
    }
}

/// Lends bytes with their margins.
fn put(library: &mut Library, which: Beside, offset: usize, bytes: &[u8]) {
    let bytes = with_margins(bytes);
    library.beside(which, offset, bytes.len()).copy_from_slice(&bytes);
}

/// Compares lent bytes and their margins. They are put together only where they differ, since rooms are large.
fn compare(
    library: &mut Library,
    what: &str,
    which: Beside,
    offset: usize,
    ours: &[u8],
) -> Result<(), Difference> {
    let theirs = &*library.beside(which, offset, ours.len() + 2 * MARGIN);
    let margins = with_margins(&[]);
    let (before, after) = margins.split_at(MARGIN);
    if theirs.starts_with(before) && theirs[MARGIN..MARGIN + ours.len()] == *ours && theirs.ends_with(after) {
        return Ok(());
    }
    compare_lent(what, theirs, &with_margins(ours))
}

impl Pair {
    /// Takes a chunk in both and compares. The settings and what is lent may be wrong.
    pub fn call_chunk(
        &mut self,
        library: &mut Library,
        t: &Settings,
        lent: Lent,
        chunk: &Chunk,
    ) -> Result<u64, Difference> {
        let (hops, hops_offset) = (bytes_of(&chunk.hops), 4 * chunk.hops_offset);
        put(library, Beside::Chunk, chunk.offset, &chunk.bytes);
        put(library, Beside::Hops, hops_offset, &hops);
        let theirs = self.call_library(library, self.area, 0, t, lent, chunk)?;
        let (counters, slots) = (&mut self.counters[MARGIN..], &mut self.slots[MARGIN..]);
        let (stream, Chunk { party, bytes, hops: known, .. }) = (&mut self.stream.own, chunk);
        let ours = match chunk.of {
            Of::Dump => import_chunk(t, counters, slots, *party, lent, known, stream, bytes, self.slip),
            Of::Day => replay_chunk(t, counters, slots, *party, lent, known, stream, bytes, self.slip),
        };
        same("answer", Answer::to(chunk, theirs), Answer::to(chunk, ours))?;
        compare(library, "byte of the chunk", Beside::Chunk, chunk.offset, bytes)?;
        compare(library, "next hop byte", Beside::Hops, hops_offset, &hops)?;
        self.compare_figures(library, chunk)?;
        self.stream.compare(library)?;
        self.compare_memory(library)?;
        self.compare_records(chunk, theirs)?;
        Ok(theirs)
    }

    /// Compares the figures of a replay one by one, so that a difference can be told by its name.
    fn compare_figures(&self, library: &mut Library, chunk: &Chunk) -> Result<(), Difference> {
        if chunk.of == Of::Dump {
            return Ok(());
        }
        let ours = self.stream.own.tally;
        let lent = &*library.beside(Beside::Tally, MARGIN + chunk.offsets.tally, 4 * FIGURES);
        for (which, (theirs, ours)) in lent.chunks_exact(4).zip(ours).enumerate() {
            same(&figure(which), u32::from_le_bytes([theirs[0], theirs[1], theirs[2], theirs[3]]), ours)?;
        }
        Ok(())
    }

    /// Ends the stream in both and compares.
    pub fn end_stream(&mut self, library: &mut Library, end: &End) -> Result<u64, Difference> {
        let (t, lent) = (*self.settings(), self.lent(end));
        let theirs = self.call_library(library, self.area, 0, &t, lent, end)?;
        let ours = end_stream(&mut self.stream.own.words, self.slip);
        same("answer", Answer::to(end, theirs), Answer::to(end, ours))?;
        self.stream.compare(library)?;
        let Some(paper) = &mut self.stream.paper else {
            return Ok(theirs);
        };
        on_paper(end, theirs, paper.end())?;
        Ok(theirs)
    }

    /// Holds a chunk to the list of stored routes, in which each route of its records is a single update.
    fn compare_records(&mut self, chunk: &Chunk, theirs: u64) -> Result<(), Difference> {
        self.stream.replaced = 0;
        self.answered.clear();
        let (Some(routes), Some(paper)) = (&mut self.routes, &mut self.stream.paper) else {
            self.stream.paper = None;
            return Ok(());
        };
        let refusal = theirs >> 48;
        if !paper.ended() && matches!(refusal, 1 | 2 | 15 | 19) {
            return Ok(());
        }
        let (listed, more) = paper.take(chunk.of, routes, chunk.party, &chunk.hops, &chunk.bytes);
        on_paper(chunk, theirs, listed)?;
        self.stream.replaced = more.replaced;
        let held = self.stream.held();
        for (which, name) in ["routes accepted", "routes refused", "records without a hop"].iter().enumerate()
        {
            let counted = held.counts[which].wrapping_sub(chunk.counts[which]);
            same(&format!("{name}, held to the list of stored routes"), counted, more.counts[which])?;
        }
        for which in 0..FIGURES {
            let counted = held.tally[which].wrapping_sub(chunk.tally[which]);
            same(
                &format!("{}, held to the list of stored routes", figure(which)),
                counted,
                more.tally[which],
            )?;
        }
        self.answered = more.answered;
        Ok(())
    }
}

/// The name of a figure of a tally.
pub fn figure(which: usize) -> String {
    match which {
        0 => "records seen".to_string(),
        1 => "UPDATEs applied".to_string(),
        2 => "routes accepted".to_string(),
        _ => format!("routes refused as {}", which - 3),
    }
}

fn on_paper<'a>(call: impl Into<AnyCall<'a>>, theirs: u64, listed: u64) -> Result<(), Difference> {
    let call = call.into();
    let (theirs, listed) = (Answer::to(call, theirs), Answer::to(call, listed));
    same("answer, held to the stream on paper", theirs, listed)
}
