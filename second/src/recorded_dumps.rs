//! Dumps that real daemons wrote, each with what bgpdump reads in it: they are imported here in many cuttings, and
//! their routes must be those that bgpdump tells.

use crate::calls::{Call, Of};
use crate::imports::read_body;
use crate::library::{Area, Library};
use crate::pair::{Difference, Pair};
use crate::paper_streams::{first_record, is_read};
use crate::record_draft::HEADER;
use crate::recorded::{address, prefix, TABLE};
use crate::routes::Routes;
use std::fs;
use std::path::Path;
use std::rc::Rc;

/// A route as bgpdump tells it, with the next hop of each entry.
#[derive(Debug, PartialEq)]
struct Told {
    prefix: u32,
    length: u32,
    next_hops: Vec<Option<u32>>,
}

/// Sizes of chunks, each for a whole dump.
const SIZES: [usize; 8] = [1, 2, 7, 11, 12, 13, 100, 65_536];

/// A file and what bgpdump reads in it.
struct Recorded {
    bytes: Vec<u8>,
    told: Vec<Told>,
}

/// Reads the file and the reading beside it, imports it into the library, and says how it went.
pub fn compare(library: &mut Library, file: &str) -> Result<String, String> {
    let reading = Path::new(file).with_extension("bgpdump");
    let text = fs::read_to_string(&reading).map_err(|error| format!("{}: {error}", reading.display()))?;
    let told = all(&text).map_err(|line| format!("{}: this cannot be read: '{line}'", reading.display()))?;
    let bytes = fs::read(file).map_err(|error| format!("{file}: {error}"))?;
    let recorded = Recorded { bytes, told };
    let wrong = |what: String| format!("{file}: {what}");
    let starts = compare_reading(&recorded).map_err(wrong)?;
    let mut known: Vec<u32> =
        recorded.told.iter().flat_map(|told| &told.next_hops).flatten().copied().collect();
    known.sort();
    known.dedup();
    let some: Vec<u32> = known.iter().copied().step_by(3).collect();
    let mut counts = Vec::new();
    for hops in [&known[..], &some, &[]] {
        // One party after the other.
        for (party, size) in [0, 1].into_iter().cycle().zip(SIZES) {
            counts.push(import(library, &recorded, party, hops, &|_| size).map_err(wrong)?);
        }
        counts.push(import(library, &recorded, 1, hops, &|at| next(&starts, at)).map_err(wrong)?);
    }
    for at in 0..=recorded.bytes.len() {
        let party = at as u32 % 2;
        cut_in_two(library, &recorded, party, &known, at, starts.contains(&at)).map_err(wrong)?;
    }
    let [accepted, _, _] = counts[0];
    let [some_accepted, _, none] = counts[SIZES.len() + 1];
    Ok(format!(
        "{} bytes of {}: {accepted} routes accepted; by a third of the next hops {some_accepted}, and {none} records \
         without a hop",
        recorded.bytes.len(),
        name(file)
    ))
}

/// The name of a file, without the directories that it is in.
pub fn name(file: &str) -> String {
    Path::new(file).file_name().map_or(String::new(), |name| name.to_string_lossy().into_owned())
}

/// How many bytes there are from a place to the next start of a record.
pub fn next(starts: &[usize], at: usize) -> usize {
    starts.iter().find(|start| **start > at).map_or(1, |start| start - at)
}

/// Holds this program's reading of a dump to bgpdump's, and gives where its records begin, and where it ends.
fn compare_reading(recorded: &Recorded) -> Result<Vec<usize>, String> {
    let mut told = recorded.told.iter();
    let mut starts = vec![0];
    let mut rest = &recorded.bytes[..];
    while let Some((record, next)) = first_record(rest) {
        if is_read(Of::Dump, record) {
            let said = read_body(&record[HEADER..]).map_err(|()| "a record is not read".to_string())?;
            let said = Told { prefix: said.prefix, length: said.length, next_hops: said.next_hops };
            match told.next() {
                Some(told) if *told == said => {}
                told => return Err(format!("a record is read as {said:?}, and bgpdump tells {told:?}")),
            }
        }
        starts.push(recorded.bytes.len() - next.len());
        rest = next;
    }
    match (rest.len(), told.next()) {
        (0, None) => Ok(starts),
        (left, told) => Err(format!("{left} bytes are no record, and bgpdump tells {told:?} besides")),
    }
}

/// A cleared table.
pub fn cleared(library: &mut Library, area: Area) -> Result<Pair, Difference> {
    let mut pair = Pair::new(library, area, TABLE, None, || 7, || 7);
    let lent = pair.lent(Call::Clear);
    pair.call(library, &TABLE, lent, Call::Clear)?;
    pair.routes = Some(Routes::new(TABLE, None));
    Ok(pair)
}

/// Imports a dump in chunks whose sizes depend on where they begin, and holds counts and routes to what bgpdump tells.
/// Gives the counts.
fn import(
    library: &mut Library,
    recorded: &Recorded,
    party: u32,
    hops: &[u32],
    size: &dyn Fn(usize) -> usize,
) -> Result<[u32; 3], String> {
    let fed = cleared(library, Area::Old).and_then(|mut pair| {
        let mut at = 0;
        while at < recorded.bytes.len() {
            let chunk = size(at).min(recorded.bytes.len() - at);
            feed(library, &mut pair, party, Of::Dump, &recorded.bytes[at..at + chunk], hops)?;
            at += chunk;
        }
        end(library, &mut pair, 0)?;
        look_up(library, &mut pair, &recorded.told)?;
        Ok(pair)
    });
    let pair = fed.map_err(|Difference(what)| what)?;
    compare_routes(&pair, recorded, party, hops)
}

/// Imports a dump in two chunks. If it ended with the first, the number would be 0 where a record ends, else 17.
fn cut_in_two(
    library: &mut Library,
    recorded: &Recorded,
    party: u32,
    hops: &[u32],
    at: usize,
    between: bool,
) -> Result<(), String> {
    let (first, second) = recorded.bytes.split_at(at);
    let fed = cleared(library, Area::Old).and_then(|mut pair| {
        feed(library, &mut pair, party, Of::Dump, first, hops)?;
        let mut ended = pair.copy(library, Area::New);
        end(library, &mut ended, if between { 0 } else { 17 })?;
        feed(library, &mut pair, party, Of::Dump, second, hops)?;
        end(library, &mut pair, 0)?;
        Ok(pair)
    });
    let pair = fed.map_err(|Difference(what)| format!("cut after {at} bytes, {what}"))?;
    compare_routes(&pair, recorded, party, hops).map(|_| ())
}

/// A chunk of a dump or of a day goes on with the stream, and is given 0.
pub fn feed(
    library: &mut Library,
    pair: &mut Pair,
    party: u32,
    of: Of,
    chunk: &[u8],
    hops: &[u32],
) -> Result<(), Difference> {
    let chunk = pair.stream.chunk(party, of, chunk.to_vec(), 1, Rc::from(hops), 0);
    let lent = pair.lent(&chunk);
    given(pair.call_chunk(library, &TABLE, lent, &chunk)?, 0)
}

pub fn end(library: &mut Library, pair: &mut Pair, number: u64) -> Result<(), Difference> {
    let end = pair.stream.end();
    given(pair.end_stream(library, &end)?, number)
}

fn given(answer: u64, number: u64) -> Result<(), Difference> {
    if answer == number << 48 {
        return Ok(());
    }
    Err(Difference(format!("{} is given, not {number}", answer >> 48)))
}

/// Looks up the prefixes that bgpdump tells, for both parties.
fn look_up(library: &mut Library, pair: &mut Pair, told: &[Told]) -> Result<(), Difference> {
    for told in told {
        for party in [0, 1] {
            let call = Call::Lookup { party, address: told.prefix };
            pair.call(library, &TABLE, pair.lent(call), call)?;
        }
    }
    Ok(())
}

/// Holds counts and stored routes to what bgpdump tells: each is the party's, and its hop is the first that the list
/// has. Gives the counts.
fn compare_routes(pair: &Pair, recorded: &Recorded, party: u32, hops: &[u32]) -> Result<[u32; 3], String> {
    let place = |hop: &u32| hops.iter().position(|known| known == hop);
    let route = |told: &Told| {
        let hop = told.next_hops.iter().flatten().find_map(place)?;
        Some([party, told.prefix, told.length, hop as u32])
    };
    let mut told: Vec<[u32; 4]> = recorded.told.iter().filter_map(route).collect();
    let stored = pair.routes.as_ref().map_or(&[][..], |routes| routes.list());
    let mut stored: Vec<[u32; 4]> =
        stored.iter().map(|at| [at.party, at.prefix, at.length, at.hop]).collect();
    let counts = [told.len(), 0, recorded.told.len() - told.len()].map(|count| count as u32);
    told.sort();
    stored.sort();
    if stored != told {
        return Err(format!("the routes are {stored:?}, and bgpdump tells {told:?}"));
    }
    if pair.stream.held().counts != counts {
        return Err(format!("the counts are {:?}, and by bgpdump {counts:?}", pair.stream.held().counts));
    }
    Ok(counts)
}

/// The routes of a reading that are IPv4's and from a table; else a line of it that is none. A line is of one
/// entry, and those of a record stand together.
fn all(text: &str) -> Result<Vec<Told>, &str> {
    let mut all: Vec<Told> = Vec::new();
    for line in text.lines() {
        let fields: Vec<&str> = line.split('|').collect();
        let (["TABLE_DUMP2", _, "B", _, _, route, _, _, next_hop, ..]
        | ["BGP4MP", _, _, _, _, route, _, _, next_hop, ..]) = fields[..]
        else {
            return Err(line);
        };
        if fields[0] != "TABLE_DUMP2" || route.contains(':') {
            continue;
        }
        let (prefix, length) = prefix(route).ok_or(line)?;
        let next_hop = Some(address(next_hop).ok_or(line)?);
        match all.last_mut().filter(|last| (last.prefix, last.length) == (prefix, length)) {
            Some(last) => last.next_hops.push(next_hop),
            None => all.push(Told { prefix, length, next_hops: vec![next_hop] }),
        }
    }
    Ok(all)
}
