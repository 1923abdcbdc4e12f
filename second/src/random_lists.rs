//! Random lists of addresses, and what can be wrong about their sizes.

use crate::calls::List;
use crate::library::MOST_LISTED;
use crate::places::bytes_of;
use crate::random::Random;

/// Up to so many addresses of a list are new; the others repeat them.
const MOST_NEW: usize = 100;

/// A party's list of addresses that are drawn one by one, with results that hold anything.
pub fn list(random: &mut Random, party: u32, mut address: impl FnMut(&mut Random) -> u32) -> List {
    let count = match random.below(1000) {
        0..=79 => 0,
        80..=219 => 1,
        220..=359 => 2,
        360..=959 => random.within(3, 12),
        960..=996 => random.within(13, 400),
        997 | 998 => random.within(401, 2000),
        _ => random.within(4000, MOST_LISTED as u32),
    };
    let mut new = Vec::new();
    let mut addresses = Vec::new();
    for _ in 0..count {
        if new.is_empty() || new.len() < MOST_NEW && random.percent(80) {
            new.push(address(random));
            addresses.extend(new.last());
        } else {
            addresses.push(random.pick(&new));
        }
    }
    let addresses = bytes_of(&addresses);
    let results = random.bytes(4 * addresses.len());
    let [addresses_offset, results_offset] = [(); 2].map(|_| random.below(4));
    List { party, addresses, addresses_offset, results, results_offset }
}

/// Makes the sizes wrong, of the results or of both; now and then they come out right.
pub fn spoil(random: &mut Random, list: &mut List) {
    let whole = if random.percent(20) { 0 } else { list.addresses.len() / 4 * 4 };
    list.addresses.truncate(whole);
    if random.percent(50) {
        let stray = random.within(1, 3) as usize;
        list.addresses.extend(random.bytes(stray));
    }
    let right = 4 * list.addresses.len();
    let off = random.pick(&[1, 1, 2, 4, 4, 12, 16, 16, 256, 65_536]);
    let size = match random.below(10) {
        0 | 1 => right,
        2 => 4 * whole,
        3 => 4 * whole + 16,
        4 | 5 => right + off,
        6 => right.saturating_sub(off),
        7 => 0,
        8 => random.pick(&[whole / 4, whole, 2 * whole]),
        _ => random.below(right + 1),
    };
    list.results = random.bytes(size);
}
