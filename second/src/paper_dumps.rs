//! What a record of a dump does on paper: if it has a hop, it is a single add to the list of stored routes.

use crate::calls::Call;
use crate::imports::read_body;
use crate::paper_streams::More;
use crate::routes::Routes;

/// Does a record that is read, and counts it: a route accepted, a route refused or none. An error ends the import.
pub fn import(routes: &mut Routes, party: u32, hops: &[u32], body: &[u8], more: &mut More) -> Result<(), ()> {
    let said = read_body(body)?;
    let place = |hop: &u32| (0..=65_535).zip(hops).find(|(_, known)| *known == hop);
    let hop = said.next_hops.iter().flatten().find_map(place);
    let add = |(hop, _)| Call::Add { party, prefix: said.prefix, length: said.length, hop };
    let answered = hop.map(|hop| routes.update(add(hop)));
    match answered {
        Some(0) => more.counts[0] += 1,
        Some(_) => more.counts[1] += 1,
        None => more.counts[2] += 1,
    }
    more.answered.extend(answered);
    Ok(())
}
