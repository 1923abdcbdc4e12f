//! Days that real daemons recorded, each with what bgpdump reads in it: they are replayed here in many cuttings, and
//! tally and table must be those of the UPDATEs that bgpdump tells, done route by route.

use crate::calls::{Call, Of, FIGURES};
use crate::library::{Area, Library};
use crate::pair::{Difference, Pair};
use crate::paper_days::{ACCEPTED, APPLIED, REFUSED, SEEN};
use crate::paper_streams::first_record;
use crate::recorded::{address, prefix, TABLE};
use crate::recorded_dumps::{cleared, end, feed, name, next};
use std::fs;
use std::path::Path;

/// An UPDATE between two addresses of IPv4, as bgpdump tells it: its routes of IPv4, prefix and length.
#[derive(Default)]
struct Told {
    withdrawn: Vec<(u32, u32)>,
    announced: Vec<(u32, u32)>,
    next_hop: Option<u32>,
}

/// A route as a line of `bgpdump -m` tells it: its prefix and length, and the next hop if it is announced.
type Line = (u32, u32, Option<u32>);

/// Sizes of chunks, each for a whole day, and places at which each record is cut, if it is so long, counted from its
/// start or its end.
const SIZES: [usize; 6] = [1, 7, 12, 13, 100, 65_536];
const PLACES: [usize; 12] = [1, 4, 8, 11, 12, 13, 16, 20, 22, 24, 40, 60];
const LAST_PLACES: [usize; 3] = [1, 2, 5];

/// At every so many records the day is cut in two, and ended there as well.
const ENDED_AT: usize = 4;

/// A file and what bgpdump reads in it.
struct Recorded {
    bytes: Vec<u8>,
    /// Where its records begin, and where it ends.
    starts: Vec<usize>,
    told: Vec<Told>,
}

/// What a day of one party leaves: the tally and the table's memory.
struct Left {
    party: u32,
    tally: [u32; FIGURES],
    memory: (Vec<u8>, Vec<u32>),
}

/// Reads the file and the readings beside it, replays it over the library, and says how it went.
pub fn compare(library: &mut Library, file: &str) -> Result<String, String> {
    let wrong = |what: String| format!("{file}: {what}");
    let recorded = read(file).map_err(wrong)?;
    let mut known: Vec<u32> = recorded.told.iter().filter_map(|told| told.next_hop).collect();
    known.sort();
    known.dedup();
    let some: Vec<u32> = known.iter().copied().step_by(3).collect();
    let mut tallies = Vec::new();
    for (party, hops, sizes) in [
        (0, &known[..], &SIZES[..]),
        (1, &some, &SIZES[3..]),
        (0, &[], &SIZES[4..]),
        (1, &known, &SIZES[3..]),
    ] {
        let left = single_calls(library, &recorded, party, hops).map_err(|Difference(what)| wrong(what))?;
        for size in sizes {
            replay(library, &recorded, hops, &left, &|_| *size).map_err(wrong)?;
        }
        tallies.push(left);
    }
    if tallies[0].tally != tallies[3].tally {
        return Err(wrong("the single calls of the two parties are not counted the same".to_string()));
    }
    cut_each_record(library, &recorded, &known, [&tallies[0], &tallies[3]]).map_err(wrong)?;
    for (number, start) in recorded.starts.iter().enumerate().step_by(ENDED_AT) {
        let inside = start + number % 12 + 1;
        for (left, at) in [(&tallies[0], *start), (&tallies[3], inside.min(recorded.bytes.len()))] {
            cut_in_two(library, &recorded, &known, left, at).map_err(wrong)?;
        }
    }
    let [seen, applied, accepted] = [SEEN, APPLIED, ACCEPTED].map(|which| tallies[0].tally[which]);
    Ok(format!(
        "{} bytes of {}: {seen} records seen, {applied} UPDATEs applied, {accepted} routes accepted, {} refused; by a \
         third of the next hops {} UPDATEs applied",
        recorded.bytes.len(),
        name(file),
        tallies[0].tally[REFUSED..].iter().sum::<u32>(),
        tallies[1].tally[APPLIED]
    ))
}

/// Reads a file and both of bgpdump's readings of it, and holds these to one another.
fn read(file: &str) -> Result<Recorded, String> {
    let bytes = fs::read(file).map_err(|error| error.to_string())?;
    let text = |extension: &str| {
        let path = Path::new(file).with_extension(extension);
        fs::read_to_string(&path).map_err(|error| format!("{}: {error}", path.display()))
    };
    let (records, lines) = (text("records")?, text("bgpdump")?);
    let (told, count) = updates(&records).map_err(|line| format!("this cannot be read: '{line}'"))?;
    let lines = routes(&lines).map_err(|line| format!("this cannot be read: '{line}'"))?;
    let by_updates: Vec<Line> = told.iter().flat_map(lines_of).collect();
    if by_updates != lines {
        return Err(format!("bgpdump's two readings are not the same: {by_updates:?} and {lines:?}"));
    }
    let mut starts = vec![0];
    let mut rest = &bytes[..];
    while let Some((_, next)) = first_record(rest) {
        starts.push(bytes.len() - next.len());
        rest = next;
    }
    // bgpdump tells nothing of some records.
    if !rest.is_empty() || count >= starts.len() {
        return Err(format!("{} bytes are no record, and bgpdump tells of {count} records", rest.len()));
    }
    Ok(Recorded { bytes, starts, told })
}

/// The lines that `bgpdump -m` writes of an UPDATE.
fn lines_of(told: &Told) -> Vec<Line> {
    let withdrawn = told.withdrawn.iter().map(|(prefix, length)| (*prefix, *length, None));
    let announced = told.announced.iter().map(|(prefix, length)| (*prefix, *length, told.next_hop));
    withdrawn.chain(announced).collect()
}

/// The UPDATEs of a reading record by record, and how many records it tells of; else a line of it that is none.
fn updates(text: &str) -> Result<(Vec<Told>, usize), &str> {
    let (mut all, mut count): (Vec<Told>, usize) = (Vec::new(), 0);
    // Whether the record is an UPDATE, whether that came over IPv4, and whether its routes are announced.
    let (mut update, mut ours, mut announces) = (false, false, false);
    for line in text.lines() {
        match line.split_once(": ") {
            Some(("TYPE", kind)) => {
                count += 1;
                (update, ours) = (kind == "BGP4MP/MESSAGE/Update", false);
            }
            Some(("FROM", from)) => {
                ours = update && !from.contains(':');
                if ours {
                    all.push(Told::default());
                }
            }
            Some(("NEXT_HOP", hop)) if ours && !hop.contains(':') => {
                let told = all.last_mut().filter(|told| told.next_hop.is_none()).ok_or(line)?;
                told.next_hop = Some(address(hop).ok_or(line)?);
            }
            None if line == "WITHDRAW" || line == "ANNOUNCE" => announces = line == "ANNOUNCE",
            None if ours && !line.contains(':') => {
                let route = line.strip_prefix("  ").and_then(prefix).ok_or(line)?;
                let told = all.last_mut().ok_or(line)?;
                if announces { &mut told.announced } else { &mut told.withdrawn }.push(route);
            }
            _ if ours && !line.contains(':') => return Err(line),
            _ => {}
        }
    }
    Ok((all, count))
}

/// The routes of a reading line by line that are IPv4's and came over it; else a line of it that is none.
fn routes(text: &str) -> Result<Vec<Line>, &str> {
    let mut all = Vec::new();
    for line in text.lines() {
        let fields: Vec<&str> = line.split('|').collect();
        let (route, next_hop) = match fields[..] {
            ["BGP4MP", _, "STATE", ..] => continue,
            ["BGP4MP", _, "A" | "W", from, _, route, ..] if from.contains(':') || route.contains(':') => {
                continue
            }
            ["BGP4MP", _, "W", _, _, route] => (route, None),
            ["BGP4MP", _, "A", _, _, route, _, _, next_hop, ..] => {
                (route, Some(address(next_hop).ok_or(line)?))
            }
            _ => return Err(line),
        };
        let (prefix, length) = prefix(route).ok_or(line)?;
        all.push((prefix, length, next_hop));
    }
    Ok(all)
}

/// Does what bgpdump tells by single calls, and counts their answers: an UPDATE that announces routes is left out if
/// its next hop is not in the list.
fn single_calls(
    library: &mut Library,
    recorded: &Recorded,
    party: u32,
    hops: &[u32],
) -> Result<Left, Difference> {
    let mut pair = cleared(library, Area::New)?;
    let mut tally = [0; FIGURES];
    tally[SEEN] = recorded.starts.len() as u32 - 1;
    for told in &recorded.told {
        let hop = hops.iter().position(|hop| Some(*hop) == told.next_hop);
        let Some(hop) = hop.or(told.announced.is_empty().then_some(0)) else {
            continue;
        };
        tally[APPLIED] += 1;
        let withdraw = |&(prefix, length): &(u32, u32)| Call::Withdraw { party, prefix, length };
        let add = |&(prefix, length): &(u32, u32)| Call::Add { party, prefix, length, hop: hop as u32 };
        for call in told.withdrawn.iter().map(withdraw).chain(told.announced.iter().map(add)) {
            match pair.call(library, &TABLE, pair.lent(call), call)? >> 48 {
                0 => tally[ACCEPTED] += 1,
                number => tally[REFUSED + number as usize] += 1,
            }
        }
    }
    Ok(Left { party, tally, memory: pair.memory() })
}

/// Replays a day in chunks whose sizes depend on where they begin, and holds tally and table to what the single calls
/// have left.
fn replay(
    library: &mut Library,
    recorded: &Recorded,
    hops: &[u32],
    left: &Left,
    size: &dyn Fn(usize) -> usize,
) -> Result<(), String> {
    let fed = cleared(library, Area::Old).and_then(|mut pair| {
        let mut at = 0;
        while at < recorded.bytes.len() {
            let chunk = size(at).min(recorded.bytes.len() - at);
            feed(library, &mut pair, left.party, Of::Day, &recorded.bytes[at..at + chunk], hops)?;
            at += chunk;
        }
        end(library, &mut pair, 0)?;
        look_up(library, &mut pair, &recorded.told)?;
        Ok(pair)
    });
    compare_left(&fed.map_err(|Difference(what)| what)?, left)
}

/// Replays a day again and again, each record cut in two, at another place each time, for one party after the other.
fn cut_each_record(
    library: &mut Library,
    recorded: &Recorded,
    hops: &[u32],
    left: [&Left; 2],
) -> Result<(), String> {
    let cut_at = |place: &dyn Fn(usize) -> usize| -> Vec<usize> {
        let cut = |two: &[usize]| two[0] + place(two[1] - two[0]).clamp(1, two[1] - two[0]);
        let mut cuts: Vec<usize> =
            recorded.starts.windows(2).map(cut).chain(recorded.starts.clone()).collect();
        cuts.sort();
        cuts
    };
    let from_start = PLACES.iter().map(|place| cut_at(&|_| *place));
    let from_end = LAST_PLACES.iter().map(|place| cut_at(&|size| size - place));
    for (cuts, left) in from_start.chain(from_end).zip(left.into_iter().cycle()) {
        replay(library, recorded, hops, left, &|at| next(&cuts, at))?;
    }
    Ok(())
}

/// Replays a day in two chunks. If it ended with the first, the number would be 0 where a record ends, else 17.
fn cut_in_two(
    library: &mut Library,
    recorded: &Recorded,
    hops: &[u32],
    left: &Left,
    at: usize,
) -> Result<(), String> {
    let (first, second) = recorded.bytes.split_at(at);
    let between = recorded.starts.contains(&at);
    let fed = cleared(library, Area::Old).and_then(|mut pair| {
        feed(library, &mut pair, left.party, Of::Day, first, hops)?;
        let mut ended = pair.copy(library, Area::New);
        end(library, &mut ended, if between { 0 } else { 17 })?;
        feed(library, &mut pair, left.party, Of::Day, second, hops)?;
        end(library, &mut pair, 0)?;
        Ok(pair)
    });
    let pair = fed.map_err(|Difference(what)| format!("cut after {at} bytes, {what}"))?;
    compare_left(&pair, left)
}

/// Looks up the prefixes that bgpdump tells as announced, for both parties.
fn look_up(library: &mut Library, pair: &mut Pair, told: &[Told]) -> Result<(), Difference> {
    for (prefix, _) in told.iter().flat_map(|told| &told.announced) {
        for party in [0, 1] {
            let call = Call::Lookup { party, address: *prefix };
            pair.call(library, &TABLE, pair.lent(call), call)?;
        }
    }
    Ok(())
}

fn compare_left(pair: &Pair, left: &Left) -> Result<(), String> {
    let tally = pair.stream.held().tally;
    if tally != left.tally {
        return Err(format!("the tally is {tally:?}, and by bgpdump {:?}", left.tally));
    }
    if pair.memory() != left.memory {
        return Err("the table is not that of the single calls that bgpdump tells".to_string());
    }
    Ok(())
}
