//! Ways in which a dump or a recorded day is cut into chunks.

use crate::random::Random;
use crate::record_draft::HEADER;
use crate::recordings::Recording;

/// The most bytes of a chunk that is not refused.
pub const MOST_TAKEN: usize = 65_536;

/// So many chunks of a hundred have no bytes.
const EMPTY: usize = 5;

/// Of a record of which so many bytes are to come, no small chunks are cut.
const FAR: usize = 2000;

#[derive(Clone, Copy)]
pub enum Cut {
    /// As few chunks as can be.
    Whole,
    /// Byte by byte.
    Bytes,
    /// Up to so many bytes.
    Upto(u32),
    /// At the starts of records.
    Records,
    /// At places of a record where something changes.
    Edges,
    /// Any of these, chunk by chunk.
    Mixed,
}

/// Only so small a recording is cut byte by byte, and one with so long a list of next hops in few chunks.
const SMALL: usize = 250;
const LONG_LIST: usize = 1000;

impl Cut {
    pub fn random(random: &mut Random, recording: &Recording) -> Cut {
        if recording.hops.len() > LONG_LIST {
            return random.pick(&[Cut::Whole, Cut::Records, Cut::Upto(2000)]);
        }
        let small = if recording.bytes.len() <= SMALL { Cut::Bytes } else { Cut::Upto(100) };
        let upto = Cut::Upto(random.pick(&[10, 30, 300]) * (1 + recording.bytes.len() as u32 / 1000));
        random.pick(&[Cut::Whole, Cut::Whole, small, upto, upto, Cut::Records, Cut::Edges, Cut::Mixed])
    }

    /// How many bytes the next chunk has, from a place of a recording on.
    pub fn size(self, random: &mut Random, recording: &Recording, at: usize) -> usize {
        let left = recording.bytes.len() - at;
        if left == 0 || random.percent(EMPTY) {
            return 0;
        }
        let start = recording.records.iter().rev().find(|start| **start <= at).copied().unwrap_or(0);
        let end =
            recording.records.iter().find(|start| **start > at).copied().unwrap_or(recording.bytes.len());
        let small = !matches!(self, Cut::Whole | Cut::Records);
        if small && end - at > FAR && at - start >= HEADER {
            // The most that a chunk can have, and up to the record's last bytes.
            return random
                .pick(&[MOST_TAKEN, MOST_TAKEN, end - at - 1, end - at - 20])
                .min(MOST_TAKEN)
                .min(left);
        }
        let size = match self {
            Cut::Whole => left,
            Cut::Bytes => 1,
            Cut::Upto(most) => random.within(1, most) as usize,
            Cut::Records => end - at,
            Cut::Edges => {
                let in_header = start + random.within(1, 11) as usize;
                let edges = [in_header, start + HEADER - 1, start + HEADER, start + HEADER + 1, end - 1, end];
                let edges: Vec<usize> = edges.into_iter().filter(|edge| *edge > at).collect();
                random.pick(&edges) - at
            }
            Cut::Mixed => {
                let one = [Cut::Whole, Cut::Bytes, Cut::Upto(30), Cut::Upto(300), Cut::Records, Cut::Edges];
                return random.pick(&one).size(random, recording, at);
            }
        };
        size.min(left).min(MOST_TAKEN)
    }
}
