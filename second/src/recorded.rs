//! Messages that were recorded from real daemons, each with the reading that other programs gave of it: they
//! are read here and done by the library, one after the other on one table.

use crate::calls::{Call, Message, Settings, Sizes};
use crate::library::{Area, Library};
use crate::messages::{read, Said};
use crate::pair::{Difference, Pair};
use crate::routes::Routes;
use std::fs;

/// A table that takes all of their routes, with filters all of one size.
pub const TABLE: Settings =
    Settings { k: 4, d: Sizes::equal(7), e: 3, s: 8, a: 0xc2b2_ae3d, b: 0x85eb_ca77, c: 0x9e37_79b1 };

/// One message of the file.
#[derive(Default)]
struct Recorded {
    name: String,
    said: Said,
    /// How many bytes it has, and the bytes themselves.
    size: usize,
    bytes: Vec<u8>,
}

/// Reads the file, feeds its messages to the library, and says how it went.
pub fn compare(library: &mut Library, file: &str) -> Result<String, String> {
    let text = fs::read_to_string(file).map_err(|error| format!("{file}: {error}"))?;
    let recorded = all(&text).map_err(|line| format!("{file}: this cannot be read: '{line}'"))?;
    for message in &recorded {
        compare_reading(message).map_err(|what| format!("{file}, {}: {what}", message.name))?;
    }
    let (accepted, refused) =
        feed_all(library, TABLE, 0, &recorded).map_err(|what| format!("{file}, {what}"))?;
    let unequal = Settings { d: unequal(), ..TABLE };
    for (t, party, told) in [(TABLE, 1, "for party 1"), (unequal, 0, "with unequal filters")] {
        let again = feed_all(library, t, party, &recorded).map_err(|what| format!("{file}, {what}"))?;
        if again != (accepted, refused) {
            let (accepted_too, refused_too) = again;
            return Err(format!(
                "{file}: routes accepted {accepted}, refused {refused}, and {told} {accepted_too}, {refused_too}"
            ));
        }
    }
    Ok(format!("{} recorded messages: routes accepted {accepted}, refused {refused}", recorded.len()))
}

/// Filters that are large where most routes are and small where hardly any is.
fn unequal() -> Sizes {
    let mut values = [4; 32];
    values[8..24].fill(7);
    values[23] = 10;
    Sizes::of(&values)
}

/// Feeds all messages for one party to a table that begins cleared. Gives how many routes are accepted and how many
/// refused.
fn feed_all(
    library: &mut Library,
    t: Settings,
    party: u32,
    recorded: &[Recorded],
) -> Result<(u64, u64), String> {
    let mut pair = Pair::new(library, Area::Old, t, None, || 7, || 7);
    let wrong = |name: &str, Difference(what): Difference| format!("{name}: {what}");
    let lent = pair.lent(Call::Clear);
    pair.call(library, &t, lent, Call::Clear).map_err(|difference| wrong("clear", difference))?;
    pair.routes = Some(Routes::new(t, None));
    let hops: Vec<u32> = recorded.iter().filter_map(|message| message.said.next_hop).collect();
    let (mut accepted, mut refused) = (0, 0);
    for message in recorded {
        let answer = feed(library, &mut pair, party, message, &hops);
        let answer = answer.map_err(|difference| wrong(&message.name, difference))?;
        accepted += answer & 0xfff;
        refused += answer >> 12;
    }
    Ok((accepted, refused))
}

/// Does a message in both, and looks up what it announces.
fn feed(
    library: &mut Library,
    pair: &mut Pair,
    party: u32,
    message: &Recorded,
    hops: &[u32],
) -> Result<u64, Difference> {
    let (t, bytes) = (*pair.settings(), message.bytes.clone());
    let lent = Message { party, bytes, offset: 1, hops: hops.to_vec(), hops_offset: 0 };
    let answer = pair.call_message(library, &t, pair.lent(&lent), &lent)?;
    if answer >> 48 != 0 {
        return Err(Difference(format!("it is refused as {}", answer >> 48)));
    }
    for (prefix, _) in &message.said.announced {
        for party in [0, 1] {
            let call = Call::Lookup { party, address: *prefix };
            pair.call(library, &t, pair.lent(call), call)?;
        }
    }
    Ok(answer)
}

/// Holds this program's reading of a message to the recorded one.
fn compare_reading(message: &Recorded) -> Result<(), String> {
    if message.bytes.len() != message.size {
        return Err(format!("there are {} bytes, not {}", message.bytes.len(), message.size));
    }
    match read(&message.bytes) {
        Ok(said) if said == message.said => Ok(()),
        Ok(said) => Err(format!("it is read as {said:?}, and was recorded as {:?}", message.said)),
        Err(fault) => Err(format!("it is not read: {fault:?}")),
    }
}

/// The messages of a text; else a line of it that is none.
fn all(text: &str) -> Result<Vec<Recorded>, &str> {
    let mut all: Vec<Recorded> = Vec::new();
    for line in text.lines().filter(|line| !line.is_empty() && !line.starts_with('#')) {
        if let Some(name) = line.strip_prefix("name: ") {
            all.push(Recorded { name: name.to_string(), ..Recorded::default() });
        } else {
            all.last_mut().and_then(|message| take(message, line)).ok_or(line)?;
        }
    }
    if all.is_empty() {
        return Err("");
    }
    Ok(all)
}

/// Takes in one line of a message.
fn take(message: &mut Recorded, line: &str) -> Option<()> {
    match line.split_once(": ") {
        Some(("withdrawn", list)) => message.said.withdrawn = prefixes(list)?,
        Some(("announced", list)) => message.said.announced = prefixes(list)?,
        Some(("next hop", "-")) => message.said.next_hop = None,
        Some(("next hop", hop)) => message.said.next_hop = Some(address(hop)?),
        Some(("bytes", size)) => message.size = size.parse().ok()?,
        Some(_) => return None,
        None => {
            for at in (0..line.len()).step_by(2) {
                message.bytes.push(u8::from_str_radix(line.get(at..at + 2)?, 16).ok()?);
            }
        }
    }
    Some(())
}

fn prefixes(list: &str) -> Option<Vec<(u32, u32)>> {
    list.split(' ').filter(|word| *word != "-").map(prefix).collect()
}

/// A prefix and its length.
pub fn prefix(word: &str) -> Option<(u32, u32)> {
    let (prefix, length) = word.split_once('/')?;
    Some((address(prefix)?, length.parse().ok()?))
}

pub fn address(word: &str) -> Option<u32> {
    let octets: Option<Vec<u8>> = word.split('.').map(|octet| octet.parse().ok()).collect();
    Some(u32::from_be_bytes(octets?.try_into().ok()?))
}
