//! Comparisons of two tables, with the lists that follow from the rules, worked out by hand. Under settings T length 8
//! has words 56 to 63, two slots of bucket 0 and two of bucket 1, whose prefixes begin with the bit 1; the defaults are
//! words 256 and 257. Under settings U it has the three slots of its one bucket in words 42 to 47; the defaults are
//! words 192 and 193.

use crate::calls::{Call, Comparison, Lending, Lent, Settings, Sizes};
use crate::comparing::{compare, held_to_routes, Words, BYTES};
use crate::comparisons::exchanged;
use crate::library::{Area, Library, Offsets};
use crate::pair::{Difference, Pair};
use crate::places::bytes_of;
use crate::routes::Routes;
use crate::rules::T;
use crate::told::{told, Answer};
use crate::worked::{address, one_off, refused};

const U: Settings = Settings { k: 3, d: Sizes::equal(5), e: 0, s: 3, a: 5, b: 7, c: 9 };

const TEN: u32 = 0x0a00_0000;
const HALF: u32 = 0x8000_0000;
const HIGH: u32 = 0xc000_0000;

/// Each mark at which something changes, as it is told to party 0 and to party 1.
const EDGES: [(u32, [u32; 2]); 7] = [
    (0, [0, 0]),
    (1, [1, 0]),
    (65_536, [65_536, 0]),
    (65_537, [0, 1]),
    (131_072, [0, 65_536]),
    (131_073, [0, 0]),
    (u32::MAX, [0, 0]),
];

/// Two tables that begin cleared.
struct Two<'a> {
    name: &'static str,
    library: &'a mut Library,
    tables: [Pair; 2],
}

/// Which of the two is compared with which.
const IN_ORDER: [usize; 2] = [0, 1];
const EXCHANGED: [usize; 2] = [1, 0];

impl<'a> Two<'a> {
    /// The first under settings T and the second under U.
    fn new(library: &'a mut Library, name: &'static str) -> Result<Two<'a>, String> {
        let tables =
            [(Area::Old, T), (Area::New, U)].map(|(area, t)| Pair::new(library, area, t, None, || 7, || 7));
        let mut two = Two { name, library, tables };
        for table in 0..2 {
            two.accepted(table, Call::Clear)?;
            let t = *two.tables[table].settings();
            two.tables[table].routes = Some(Routes::new(t, None));
        }
        Ok(two)
    }

    /// A call of one of the tables is accepted.
    fn accepted(&mut self, table: usize, call: Call) -> Result<(), String> {
        let pair = &mut self.tables[table];
        let (t, lent) = (*pair.settings(), pair.lent(call));
        match pair.call(self.library, &t, lent, call) {
            Ok(0) => Ok(()),
            Ok(answer) => Err(format!("{}: {} gives {answer:#x}", self.name, told(&t, lent, call))),
            Err(Difference(what)) => Err(format!("{}: {}\n  {what}", self.name, told(&t, lent, call))),
        }
    }

    fn add(&mut self, table: usize, party: u32, prefix: u32, length: u32, hop: u32) -> Result<(), String> {
        self.accepted(table, Call::Add { party, prefix, length, hop })
    }

    /// Puts words into a table, from one on, as damage.
    fn put(&mut self, table: usize, first: usize, words: &[u32]) {
        let pair = &mut self.tables[table];
        pair.routes = None;
        for (at, word) in (first..).zip(words) {
            pair.damage_word(self.library, at, *word);
        }
    }

    /// A comparison of these two of the tables, with a list of so many bytes.
    fn comparison(&self, which: [usize; 2], party: u32, size: usize) -> Comparison {
        let [first, second] = which.map(|table| {
            let pair = &self.tables[table];
            let lent = pair.lent(Call::Lookup { party, address: 0 });
            Lending { t: *pair.settings(), area: pair.area, offsets: Offsets::default(), lent }
        });
        Comparison { party, first, second, list: vec![7; size], offset: 1 }
    }

    /// A comparison gives an answer, and leaves its list beginning with these differences and else as it was.
    fn gives(
        &mut self,
        which: [usize; 2],
        comparison: &Comparison,
        answer: u64,
        differences: &[Words],
    ) -> Result<(), String> {
        let wrong = |name: &str, what: String| {
            let Lending { t, lent, .. } = comparison.first;
            format!("{name}: {}\n  {what}", told(&t, lent, comparison))
        };
        let pairs = which.map(|table| &self.tables[table]);
        let compared = compare(self.library, pairs, comparison);
        let compared = compared.map_err(|Difference(what)| wrong(self.name, what))?;
        let mut list = bytes_of(&differences.concat());
        list.extend(&comparison.list[list.len()..]);
        if compared.answer != answer || compared.list != list {
            let [given, asked] = [compared.answer, answer].map(|answer| Answer::to(comparison, answer));
            let what = format!("answer {given} and list {:?}, not {asked} and {list:?}", compared.list);
            return Err(wrong(self.name, what));
        }
        let own = comparison.tables().iter().zip(pairs).all(|(table, pair)| table.t == *pair.settings());
        if own && matches!(compared.refusal(), 0 | 18) {
            let held = held_to_routes(pairs, comparison, &compared);
            held.map_err(|Difference(what)| wrong(self.name, what))?;
        }
        Ok(())
    }

    /// The tables differ so for a party, and exchanged they do with the marks exchanged: where the list is exactly
    /// enough and where it is longer. Shorter by a byte, by a word or by all it is refused.
    fn differ(&mut self, party: u32, differences: &[Words]) -> Result<(), String> {
        let exchanged = exchanged(differences);
        let (count, needed) = (differences.len() as u64, BYTES * differences.len());
        for (which, differences) in [(IN_ORDER, differences), (EXCHANGED, &exchanged)] {
            for size in [needed, needed + 1, needed + 4, needed + 21] {
                self.gives(which, &self.comparison(which, party, size), count, differences)?;
            }
            for size in [1, 4, needed].iter().filter_map(|less| needed.checked_sub(*less)) {
                if size < needed {
                    self.gives(which, &self.comparison(which, party, size), refused(18), &[])?;
                }
            }
        }
        Ok(())
    }
}

pub fn run(library: &mut Library) -> Result<(), String> {
    routes(library)?;
    order(library)?;
    misplaced(library)?;
    loose(library)?;
    equals(library)?;
    marks_of_slots(library)?;
    marks_of_defaults(library)?;
    filters(library)?;
    refusals(library)?;
    lists(library)?;
    one_memory(library)
}

/// One prefix in neither, in one, and in both.
fn routes(library: &mut Library) -> Result<(), String> {
    let mut two = Two::new(library, "a prefix in two tables")?;
    two.differ(0, &[])?;
    two.differ(1, &[])?;
    two.add(0, 0, TEN, 8, 7)?;
    two.differ(0, &[[8, TEN, 8, 0]])?;
    two.differ(1, &[])?;
    two.add(1, 0, TEN, 8, 7)?;
    two.differ(0, &[])?;
    two.add(1, 0, TEN, 8, 9)?;
    two.differ(0, &[[8, TEN, 8, 10]])?;
    // Party 1's marks are told as those of party 0 with the same hops.
    two.add(1, 1, TEN, 8, 7)?;
    two.differ(1, &[[8, TEN, 0, 8]])?;
    two.add(0, 1, TEN, 8, 65_535)?;
    two.differ(1, &[[8, TEN, 65_536, 8]])?;
    two.add(1, 1, TEN, 8, 0)?;
    two.differ(1, &[[8, TEN, 65_536, 1]])?;
    two.differ(0, &[[8, TEN, 8, 10]])?;
    two.accepted(1, Call::Withdraw { party: 0, prefix: TEN, length: 8 })?;
    two.differ(0, &[[8, TEN, 8, 0]])?;
    // The same prefix of another length is another route.
    two.add(1, 0, TEN, 9, 7)?;
    two.differ(0, &[[8, TEN, 8, 0], [9, TEN, 0, 8]])?;
    two.accepted(0, Call::Clear)?;
    two.differ(0, &[[9, TEN, 0, 8]])?;
    two.differ(1, &[[8, TEN, 0, 1]])
}

/// By rising length and then by rising prefix, the default first.
fn order(library: &mut Library) -> Result<(), String> {
    let mut two = Two::new(library, "the order of differences")?;
    let (nine, eleven) = (address(9, 1, 2, 3), address(11, 0, 0, 0));
    let two_hundred = address(200, 0, 0, 0);
    for (prefix, length, hop) in [(two_hundred, 8, 1), (nine, 32, 3), (0, 0, 0), (TEN, 8, 2), (HALF, 1, 4)] {
        two.add(0, 0, prefix, length, hop)?;
    }
    for (prefix, length, hop) in [(u32::MAX, 32, 65_535), (0, 32, 8), (eleven, 8, 6), (0, 1, 7), (0, 0, 5)] {
        two.add(1, 0, prefix, length, hop)?;
    }
    for table in [0, 1] {
        two.add(table, 0, address(12, 0, 0, 0), 6, 1)?;
        two.add(table, 1, address(12, 0, 0, 0), 6, table as u32)?;
    }
    let all = [
        [0, 0, 1, 6],
        [1, 0, 0, 8],
        [1, HALF, 5, 0],
        [8, TEN, 3, 0],
        [8, eleven, 0, 7],
        [8, two_hundred, 2, 0],
        [32, 0, 0, 9],
        [32, nine, 4, 0],
        [32, u32::MAX, 0, 65_536],
    ];
    two.differ(0, &all)?;
    two.differ(1, &[[6, address(12, 0, 0, 0), 1, 2]])?;
    two.accepted(1, Call::Withdraw { party: 0, prefix: 0, length: 0 })?;
    two.differ(0, &[&[[0, 0, 1, 0]], &all[1..]].concat())
}

/// A slot outside its prefix's bucket is no route.
fn misplaced(library: &mut Library) -> Result<(), String> {
    let mut two = Two::new(library, "a slot outside its bucket")?;
    two.put(0, 60, &[TEN, 8]);
    two.put(0, 56, &[HIGH, 9]);
    two.differ(0, &[])?;
    two.put(0, 58, &[TEN, 3]);
    two.differ(0, &[[8, TEN, 3, 0]])?;
    two.put(0, 62, &[HIGH, 5]);
    two.differ(0, &[[8, TEN, 3, 0], [8, HIGH, 5, 0]])?;
    // Length 9 has the next eight words.
    two.put(0, 64, &[TEN, 5]);
    two.put(0, 68, &[TEN, 6]);
    two.put(1, 42, &[HIGH, 5]);
    two.differ(0, &[[8, TEN, 3, 0], [9, TEN, 5, 0]])
}

/// A slot with a bit after its length is no route.
fn loose(library: &mut Library) -> Result<(), String> {
    let mut two = Two::new(library, "a slot with a bit after its length")?;
    let nine_bits = address(10, 128, 0, 0);
    two.put(0, 56, &[TEN + 1, 8, nine_bits, 8]);
    two.put(0, 0, &[HALF / 2, 8]);
    two.differ(0, &[])?;
    two.put(0, 4, &[HALF, 8]);
    two.put(0, 64, &[nine_bits, 8]);
    two.put(0, 248, &[TEN + 1, 8]);
    let mut all = vec![[1, HALF, 8, 0], [9, nine_bits, 8, 0], [32, TEN + 1, 8, 0]];
    two.differ(0, &all)?;
    // A loose one before the route that it would be without the bit.
    two.put(0, 58, &[TEN, 9]);
    two.put(1, 42, &[TEN + 1, 8, TEN, 10]);
    all.insert(1, [8, TEN, 9, 10]);
    two.differ(0, &all)
}

/// Of a party's equals the lowest slot counts.
fn equals(library: &mut Library) -> Result<(), String> {
    let mut two = Two::new(library, "a prefix in two slots")?;
    two.put(0, 56, &[TEN, 8, TEN, 10]);
    two.differ(0, &[[8, TEN, 8, 0]])?;
    two.put(1, 44, &[TEN, 8, TEN, 9]);
    two.differ(0, &[])?;
    two.put(1, 42, &[TEN, 9]);
    two.differ(0, &[[8, TEN, 8, 9]])?;
    two.put(0, 56, &[TEN, 131_073]);
    two.differ(0, &[[8, TEN, 10, 9]])?;
    two.put(0, 56, &[TEN, 65_537]);
    two.differ(0, &[[8, TEN, 10, 9]])?;
    two.differ(1, &[[8, TEN, 1, 0]])?;
    two.put(0, 58, &[TEN, 65_546]);
    two.differ(0, &[[8, TEN, 0, 9]])?;
    two.differ(1, &[[8, TEN, 1, 0]])
}

/// Only a party's own marks are routes to it, whichever table has them.
fn marks_of_slots(library: &mut Library) -> Result<(), String> {
    let mut two = Two::new(library, "any mark of a slot")?;
    for (mark, told) in EDGES {
        for party in [0, 1] {
            let listed = |words: Words| if told[party] == 0 { vec![] } else { vec![words] };
            two.put(0, 58, &[TEN, mark]);
            two.put(1, 46, &[TEN, 0]);
            two.differ(party as u32, &listed([8, TEN, told[party], 0]))?;
            two.put(0, 58, &[TEN, 0]);
            two.put(1, 46, &[TEN, mark]);
            two.differ(party as u32, &listed([8, TEN, 0, told[party]]))?;
            two.put(0, 58, &[TEN, mark]);
            two.differ(party as u32, &[])?;
        }
    }
    Ok(())
}

/// In the word of a default only the marks of its own party count, and only to it.
fn marks_of_defaults(library: &mut Library) -> Result<(), String> {
    let mut two = Two::new(library, "any mark of a default")?;
    for (mark, told) in EDGES {
        for word in [0, 1] {
            let listed = |words: Words| if told[word] == 0 { vec![] } else { vec![words] };
            two.put(1, 192, &[0, 0]);
            two.put(0, 256, &[0, 0]);
            two.put(0, 256 + word, &[mark]);
            two.differ(word as u32, &listed([0, 0, told[word], 0]))?;
            two.differ(1 - word as u32, &[])?;
            two.put(0, 256, &[0, 0]);
            two.put(1, 192 + word, &[mark]);
            two.differ(word as u32, &listed([0, 0, 0, told[word]]))?;
            two.differ(1 - word as u32, &[])?;
            two.put(0, 256 + word, &[mark]);
            two.differ(word as u32, &[])?;
        }
    }
    Ok(())
}

/// The filters are not asked.
fn filters(library: &mut Library) -> Result<(), String> {
    let mut two = Two::new(library, "a filter that denies")?;
    two.add(0, 0, TEN, 8, 7)?;
    two.tables[0].routes = None;
    for at in [112, 113] {
        two.tables[0].damage_counter(two.library, at, 0);
    }
    two.differ(0, &[[8, TEN, 8, 0]])?;
    for at in 0..512 {
        two.tables[0].damage_counter(two.library, at, 255);
    }
    two.differ(0, &[[8, TEN, 8, 0]])?;
    two.put(0, 56, &[0, 0]);
    two.differ(0, &[])
}

/// 1 and 2 of the first table, 1 and 2 of the second, 15 and 18, in this order: each beside all that are asked later.
fn refusals(library: &mut Library) -> Result<(), String> {
    let mut two = Two::new(library, "the order of refusals")?;
    two.add(0, 0, TEN, 8, 7)?;
    let right = two.comparison(IN_ORDER, 0, 15);
    let none = Lent { counters: 0, slots: 0 };
    let bad = |t: Settings| {
        let values = |count: usize, d: u8| Settings { d: Sizes::of(&vec![d; count]), ..t };
        [
            Settings { k: 0, ..t },
            Settings { k: 9, ..t },
            Settings { e: 9, ..t },
            Settings { s: 0, ..t },
            Settings { s: 9, ..t },
            values(31, 4),
            values(33, 4),
            values(32, 3),
            values(32, 12),
        ]
    };
    two.gives(IN_ORDER, &right, refused(18), &[])?;
    for party in [2, 3, 65_536, u32::MAX] {
        two.gives(IN_ORDER, &Comparison { party, ..right.clone() }, refused(15), &[])?;
        for size in [0, 16, 17] {
            let list = vec![7; size];
            two.gives(IN_ORDER, &Comparison { party, list, ..right.clone() }, refused(15), &[])?;
        }
    }
    for party in [0, 2] {
        let named = Comparison { party, ..right.clone() };
        for lent in one_off(right.second.lent) {
            let second = Lending { lent, ..right.second };
            two.gives(IN_ORDER, &Comparison { second, ..named.clone() }, refused(2), &[])?;
        }
        for t in bad(U) {
            for lent in [right.second.lent, none] {
                let second = Lending { t, lent, ..right.second };
                two.gives(IN_ORDER, &Comparison { second, ..named.clone() }, refused(1), &[])?;
            }
        }
        // With what is wrong of the second table, and with nothing wrong.
        let seconds = [
            right.second,
            Lending { lent: none, ..right.second },
            Lending { t: Settings { k: 0, ..U }, ..right.second },
        ];
        for second in seconds {
            let named = Comparison { second, ..named.clone() };
            for lent in one_off(right.first.lent) {
                let first = Lending { lent, ..right.first };
                two.gives(IN_ORDER, &Comparison { first, ..named.clone() }, refused(2), &[])?;
            }
            for t in bad(T) {
                for lent in [right.first.lent, none] {
                    let first = Lending { t, lent, ..right.first };
                    two.gives(IN_ORDER, &Comparison { first, ..named.clone() }, refused(1), &[])?;
                }
            }
        }
    }
    Ok(())
}

/// Two differences need 32 bytes.
fn lists(library: &mut Library) -> Result<(), String> {
    let mut two = Two::new(library, "the size of the list")?;
    two.add(0, 0, TEN, 8, 7)?;
    two.add(1, 0, 0, 0, 3)?;
    let differences = [[0, 0, 0, 4], [8, TEN, 8, 0]];
    for size in [0, 1, 4, 15, 16, 17, 20, 28, 29, 30, 31] {
        two.gives(IN_ORDER, &two.comparison(IN_ORDER, 0, size), refused(18), &[])?;
    }
    for size in [32, 33, 34, 35, 36, 40, 44, 47, 48, 64, 1000] {
        two.gives(IN_ORDER, &two.comparison(IN_ORDER, 0, size), 2, &differences)?;
    }
    for offset in 0..4 {
        let comparison = Comparison { offset, ..two.comparison(IN_ORDER, 0, 33) };
        two.gives(IN_ORDER, &comparison, 2, &differences)?;
    }
    for size in [0, 1, 3, 4, 16] {
        two.gives(IN_ORDER, &two.comparison(IN_ORDER, 1, size), 0, &[])?;
    }
    Ok(())
}

/// The same memory as both tables, by the same settings and by others of the same sizes.
fn one_memory(library: &mut Library) -> Result<(), String> {
    let mut two = Two::new(library, "one memory as both tables")?;
    let itself = [0, 0];
    two.add(0, 0, TEN, 8, 7)?;
    two.add(0, 0, HIGH, 8, 9)?;
    two.add(0, 0, 0, 0, 3)?;
    two.gives(itself, &two.comparison(itself, 0, 0), 0, &[])?;
    two.gives(itself, &two.comparison(itself, 1, 0), 0, &[])?;
    let by = |two: &Two, t: Settings| {
        let comparison = two.comparison(itself, 0, 48);
        Comparison { second: Lending { t, ..comparison.second }, ..comparison }
    };
    // Multiplied by 16 each of the two prefixes has the other's bucket.
    let sixteen = Settings { c: 16, ..T };
    two.gives(itself, &by(&two, sixteen), 2, &[[8, TEN, 8, 0], [8, HIGH, 10, 0]])?;
    // One bucket of four slots has the words of two buckets.
    let one_bucket = Settings { e: 0, s: 4, ..T };
    two.gives(itself, &by(&two, one_bucket), 0, &[])?;
    two.put(0, 62, &[TEN, 3]);
    two.gives(itself, &by(&two, one_bucket), 0, &[])?;
    two.put(0, 56, &[0, 0]);
    two.gives(itself, &by(&two, one_bucket), 1, &[[8, TEN, 0, 3]])
}
