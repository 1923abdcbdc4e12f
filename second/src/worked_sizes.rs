//! Tables whose filters are of unequal size, with the answers and the counters that follow from the rules, worked
//! out by hand, and lists of sizes that are refused.

use crate::calls::{Call, Lent, Settings, Sizes};
use crate::library::Library;
use crate::places::bytes_of;
use crate::rules::{counter_at, counter_bytes, T};
use crate::worked::{address, found, list_of, refused, Case};
use crate::worked_messages::{routes, with_hops, MESSAGE, NEXT_HOP};

/// The list of sizes that has other values than 4 at some lengths.
fn fours_but(others: &[(usize, u8)]) -> Sizes {
    let mut values = [4; 32];
    for (length, d) in others {
        values[length - 1] = *d;
    }
    Sizes::of(&values)
}

/// Settings T with filters of 64, 2,048, 32 and 128 counters at lengths 8, 16, 24 and 32. They begin at bytes 112,
/// 288, 2,448 and 2,592, and there are 2,720 counters.
fn unequal() -> Settings {
    Settings { d: fours_but(&[(8, 6), (16, 11), (24, 5), (32, 7)]), ..T }
}

const TEN: u32 = 0x0a00_0000;
const LAST: u32 = 0xffff_ffff;

impl Case<'_> {
    /// A call is accepted, and leaves these values in these counters and all others as they were.
    fn counts(&mut self, call: Call, counted: &[(usize, u8)]) -> Result<(), String> {
        let (mut counters, _) = self.pair.memory();
        for (at, value) in counted {
            counters[*at] = *value;
        }
        self.gives(call, 0)?;
        self.holds(self.pair.memory().0 == counters, &format!("counters and their values: {counted:?}"))
    }

    fn add_counts(
        &mut self,
        prefix: u32,
        length: u32,
        hop: u32,
        counted: &[(usize, u8)],
    ) -> Result<(), String> {
        self.counts(Call::Add { party: 0, prefix, length, hop }, counted)
    }

    /// Every call with this list of sizes and so many counters is refused, and leaves all as it was.
    fn refused_by_all(&mut self, d: Sizes, counters: usize, refusal: u64) -> Result<(), String> {
        let before = self.pair.memory();
        let own = self.t;
        self.t.d = d;
        let number = refused(refusal);
        for call in [
            Call::Clear,
            Call::Add { party: 0, prefix: TEN, length: 9, hop: 1 },
            Call::Withdraw { party: 0, prefix: TEN, length: 8 },
            Call::Change { party: 0, prefix: TEN, length: 8, hop: 1 },
            Call::Vector { address: TEN },
            Call::Lookup { party: 0, address: TEN },
        ] {
            let lent = Lent { counters, ..self.pair.lent(call) };
            self.gives_lent(lent, call, number)?;
        }
        let list = list_of(bytes_of(&[TEN]), 16);
        self.list_gives(Lent { counters, ..self.pair.lent(&list) }, &list, number, &list.results)?;
        let message = with_hops(&MESSAGE, &[NEXT_HOP]);
        let t = self.t;
        self.message_gives_with(&t, Lent { counters, ..self.pair.lent(&message) }, &message, number)?;
        self.t = own;
        self.holds(self.pair.memory() == before, "refused calls leave the table")
    }
}

pub fn run(library: &mut Library) -> Result<(), String> {
    places(library)?;
    answers(library)?;
    ends(library)?;
    crowded(library)?;
    bad_lists(library)?;
    same_sum(library)
}

/// Where the filters begin, and where in them prefixes have their positions.
fn places(library: &mut Library) -> Result<(), String> {
    let case = Case::new(library, "the places of unequal filters", unequal())?;
    case.holds(counter_bytes(&case.t) == 2720, "there are 2720 counters")?;
    for (length, position, at) in [
        (1, 0, 0),
        (1, 15, 15),
        (8, 0, 112),
        (8, 63, 175),
        (9, 0, 176),
        (16, 0, 288),
        (16, 2047, 2335),
        (17, 0, 2336),
        (24, 0, 2448),
        (25, 0, 2480),
        (31, 15, 2591),
        (32, 0, 2592),
        (32, 127, 2719),
    ] {
        let told = format!("position {position} of length {length} is byte {at}");
        case.holds(counter_at(&case.t, length, position) == at, &told)?;
    }
    // 10.0.0.0 begins with the bits 00001010, and three times that with 00011110.
    case.hashes(TEN, 7, [0, 1], 0)?;
    case.hashes(TEN, 8, [2, 7], 0)?;
    case.hashes(TEN, 16, [80, 240], 0)?;
    case.hashes(TEN, 24, [1, 3], 0)?;
    case.hashes(TEN, 32, [5, 15], 0)?;
    // 192.0.2.0 begins with 11000000, and what is left of three times that with 01000000.
    case.hashes(address(192, 0, 2, 0), 24, [24, 8], 1)?;
    case.hashes(LAST, 32, [127, 127], 1)
}

fn answers(library: &mut Library) -> Result<(), String> {
    let mut case = Case::new(library, "unequal filters", unequal())?;
    case.add_counts(TEN, 8, 7, &[(114, 1), (119, 1)])?;
    case.add_counts(address(10, 1, 0, 0), 16, 9, &[(368, 1), (528, 1)])?;
    case.add_counts(address(192, 0, 2, 0), 24, 3, &[(2472, 1), (2456, 1)])?;
    case.add_counts(LAST, 32, 4, &[(2719, 2)])?;
    case.add_counts(address(128, 0, 0, 0), 1, 5, &[(8, 2)])?;
    case.add_counts(0, 1, 6, &[(0, 2)])?;
    for (length, first) in
        [(2, 16), (7, 96), (9, 176), (15, 272), (17, 2336), (23, 2432), (25, 2480), (31, 2576)]
    {
        case.add_counts(0, length, 1, &[(first, 2)])?;
        case.counts(Call::Change { party: 0, prefix: 0, length, hop: 2 }, &[])?;
        case.counts(Call::Withdraw { party: 0, prefix: 0, length }, &[(first, 0)])?;
    }

    case.vector(address(10, 1, 2, 3), 32_897)?;
    case.lookup(address(10, 1, 2, 3), found(9, 16, 1))?;
    // At length 16 the filter takes 10.2.0.0 for 10.1.0.0, and 10.32.0.0 not: their first 11 bits differ.
    case.vector(address(10, 2, 2, 3), 32_897)?;
    case.lookup(address(10, 2, 2, 3), found(7, 8, 2))?;
    case.vector(address(10, 32, 0, 1), 129)?;
    case.lookup(address(10, 32, 0, 1), found(7, 8, 1))?;
    // At length 8 the second position of 8.0.0.0 is 6, not 7.
    case.vector(address(8, 1, 2, 3), 1)?;
    case.lookup(address(8, 1, 2, 3), found(6, 1, 1))?;
    case.vector(address(192, 0, 2, 9), 8_388_609)?;
    case.lookup(address(192, 0, 2, 9), found(3, 24, 1))?;
    case.lookup(address(192, 0, 3, 9), found(5, 1, 2))?;
    case.vector(LAST, 2_147_483_649)?;
    case.lookup(LAST, found(4, 32, 1))?;
    case.lookup(LAST - 1, found(5, 1, 2))?;
    case.list(
        &[LAST, address(10, 2, 2, 3), address(10, 32, 0, 1), address(192, 0, 3, 9)],
        &[[1, 4, 32, 1], [1, 7, 8, 2], [1, 7, 8, 1], [1, 5, 1, 2]],
    )?;

    // The worked message takes 10.1.0.0/16 away and gives 192.0.2.0/24 and the default hop 0.
    let message = with_hops(&MESSAGE, &[NEXT_HOP]);
    let (t, lent) = (case.t, case.pair.lent(&message));
    case.message_gives_with(&t, lent, &message, routes(3, 0))?;
    case.holds(case.pair.counter(368) == 0 && case.pair.counter(528) == 0, "10.1.0.0/16 is not counted")?;
    case.holds(case.pair.counter(2472) == 1 && case.pair.counter(2456) == 1, "192.0.2.0/24 is counted once")?;
    case.lookup(address(10, 1, 2, 3), found(7, 8, 1))?;
    case.lookup(address(192, 0, 2, 9), found(0, 24, 1))?;
    case.counts(Call::Withdraw { party: 0, prefix: LAST, length: 32 }, &[(2719, 0)])?;
    case.counts(Call::Withdraw { party: 0, prefix: TEN, length: 8 }, &[(114, 0), (119, 0)])?;
    case.lookup(address(10, 1, 2, 3), found(6, 1, 1))
}

/// The largest filter at one end or at the other.
fn ends(library: &mut Library) -> Result<(), String> {
    let first = Settings { d: fours_but(&[(1, 11)]), ..T };
    let mut case = Case::new(library, "the largest filter first", first)?;
    case.holds(counter_bytes(&first) == 2544, "there are 2544 counters")?;
    case.add_counts(address(128, 0, 0, 0), 1, 1, &[(1024, 2)])?;
    case.add_counts(0, 2, 2, &[(2048, 2)])?;
    case.add_counts(address(192, 0, 0, 0), 2, 3, &[(2060, 1), (2052, 1)])?;
    case.add_counts(LAST, 32, 4, &[(2543, 2)])?;
    case.lookup(LAST, found(4, 32, 1))?;
    case.lookup(address(200, 0, 0, 1), found(3, 2, 1))?;

    let last = Settings { d: fours_but(&[(32, 11)]), ..T };
    let mut case = Case::new(library, "the largest filter last", last)?;
    case.holds(counter_bytes(&last) == 2544, "there are 2544 counters")?;
    case.add_counts(address(128, 0, 0, 0), 1, 1, &[(8, 2)])?;
    case.add_counts(LAST - 1, 31, 2, &[(495, 2)])?;
    case.add_counts(0, 32, 3, &[(496, 2)])?;
    case.add_counts(LAST, 32, 4, &[(2543, 2)])?;
    case.lookup(LAST, found(4, 32, 1))?;
    case.lookup(LAST - 1, found(2, 31, 2))?;
    case.lookup(0, found(3, 32, 1))
}

/// All steps of a route hit the first counter of its filter: three routes of a length bring it to 15.
fn crowded(library: &mut Library) -> Result<(), String> {
    let mut values = [11; 32];
    values[31] = 4;
    let t = Settings { k: 5, d: Sizes::of(&values), e: 0, s: 4, a: 0, b: 0, c: 0 };
    let mut case = Case::new(library, "the smallest filter last", t)?;
    for (length, first) in [(32, 63_488), (31, 61_440), (2, 2048)] {
        let prefix = |n: u32| n << (32 - length);
        for n in 1..=3 {
            case.add_counts(prefix(n), length, n, &[(first, 5 * n as u8)])?;
        }
        case.add(prefix(0), length, 1, 9)?;
        case.counts(Call::Withdraw { party: 0, prefix: prefix(2), length }, &[(first, 10)])?;
        case.add_counts(prefix(0), length, 1, &[(first, 15)])?;
    }
    Ok(())
}

fn bad_lists(library: &mut Library) -> Result<(), String> {
    let mut case = Case::new(library, "lists of sizes that are refused", unequal())?;
    case.add(TEN, 8, 7, 0)?;
    let own = case.t.d;
    let needed = |d: Sizes| counter_bytes(&Settings { d, ..T });
    for length in 1..=32 {
        for value in [0, 3, 12, 36, 255] {
            let mut values = own.values().to_vec();
            values[length - 1] = value;
            let bad = Sizes::of(&values);
            let fits = if value <= 12 { needed(bad) } else { 0 };
            for counters in [2720, 2719, fits] {
                case.refused_by_all(bad, counters, 1)?;
            }
        }
    }
    let longer = [own.values(), &[4; 8]].concat();
    for count in [0, 1, 2, 16, 30, 31, 33, 34, 39, 40] {
        let bad = Sizes::of(&longer[..count]);
        for counters in [2720, 2721, needed(bad), 0] {
            case.refused_by_all(bad, counters, 1)?;
        }
    }
    // The list without its last value or its first, whose sums are less by 128 and by 16.
    case.refused_by_all(Sizes::of(&own.values()[..31]), 2592, 1)?;
    case.refused_by_all(Sizes::of(&own.values()[1..]), 2704, 1)?;
    // A byte more or less, a filter more or less, and 32 filters of one of the sizes.
    for counters in [0, 1, 2719, 2721, 2704, 2736, 2656, 2784, 672, 4768, 2592, 2848] {
        case.refused_by_all(own, counters, 2)?;
    }
    for d in [4, 5, 6, 7, 11] {
        case.refused_by_all(own, 32 << d, 2)?;
        case.refused_by_all(Sizes::equal(d), 2720, 2)?;
    }
    case.lookup(TEN, found(7, 8, 1))
}

/// A list of the same sum passes; its filters lie elsewhere.
fn same_sum(library: &mut Library) -> Result<(), String> {
    let mut case = Case::new(library, "another list of the same sum", unequal())?;
    case.add(TEN, 8, 7, 0)?;
    case.pair.routes = None;
    // At length 8 there are now 2,048 counters, and the positions 80 and 240 are bytes 192 and 352.
    case.t.d = fours_but(&[(8, 11), (16, 6), (24, 5), (32, 7)]);
    case.vector(TEN, 0)?;
    case.lookup(TEN, 0)?;
    case.gives(Call::Withdraw { party: 0, prefix: TEN, length: 8 }, refused(10))?;
    case.counts(Call::Add { party: 0, prefix: TEN, length: 8, hop: 8 }, &[])?;
    case.add_counts(address(8, 0, 0, 0), 8, 1, &[(176, 1), (304, 1)])?;
    case.lookup(address(8, 0, 0, 0), found(1, 8, 1))?;
    case.gives(Call::Clear, 0)?;
    case.add_counts(TEN, 16, 1, &[(2274, 1), (2279, 1)])
}
