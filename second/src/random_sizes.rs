//! Random lists of the filters' sizes, one D for each of the 32 lengths.

use crate::calls::Sizes;
use crate::random::Random;

/// The least D and the greatest.
pub const LEAST: u8 = 4;
pub const GREATEST: u8 = 11;

/// A list for a table whose routes are mostly of a few lengths.
pub fn sizes(random: &mut Random, few: &[u32]) -> Sizes {
    let mut values = [LEAST; 32];
    match random.below(12) {
        0..=3 => values = [one(random); 32],
        4 | 5 => values = values.map(|_| within(random, LEAST, GREATEST)),
        6 | 7 => values = values.map(|d| if random.percent(80) { d } else { one(random) }),
        8 | 9 => {
            for _ in 0..random.within(1, 3) {
                values[place(random, few)] = within(random, 9, GREATEST);
            }
        }
        10 => {
            values = values.map(|_| within(random, 5, 9));
            for length in few.iter().filter(|length| **length > 0) {
                values[*length as usize - 1] = LEAST;
            }
        }
        _ => {
            // From one end to the other D goes up or down step by step.
            for (at, value) in (0..).zip(&mut values) {
                *value += at / 4;
            }
            if random.percent(50) {
                values.reverse();
            }
        }
    }
    Sizes::of(&values)
}

/// A D, small ones oftener.
fn one(random: &mut Random) -> u8 {
    match random.below(100) {
        0..=54 => LEAST,
        55..=74 => within(random, 5, 6),
        75..=94 => within(random, 7, 10),
        _ => GREATEST,
    }
}

fn within(random: &mut Random, least: u8, greatest: u8) -> u8 {
    random.within(least.into(), greatest.into()) as u8
}

/// A place in the list: an end of it, that of a length of the few, or any.
fn place(random: &mut Random, few: &[u32]) -> usize {
    match random.below(5) {
        0 => 0,
        1 => 31,
        2 | 3 => (random.pick(few) as usize).saturating_sub(1),
        _ => random.below(32),
    }
}
