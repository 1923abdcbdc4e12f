//! Random lines for the text program, most of them near the shapes that it reads.

use crate::random::Random;
use crate::rules;

/// Words at which something changes.
const VERBS: [&str; 18] = [
    "add", "drop", "move", "find", "ADD", "Drop", "movE", "FIND", "adds", "ad", "finds", "fin", "dro",
    "remove", "delete", "help", "0", "",
];
const OCTETS: [&str; 32] = [
    "0", "1", "9", "10", "99", "100", "127", "128", "199", "200", "249", "250", "254", "255", "256", "257",
    "260", "266", "300", "512", "999", "1000", "00", "01", "010", "0255", "+1", "-1", "0x1", "1e1", "a", "",
];
const LENGTHS: [&str; 16] =
    ["0", "1", "31", "32", "33", "99", "100", "128", "256", "264", "00", "08", "032", "+8", "-8", ""];
const HOPS: [&str; 20] = [
    "0",
    "1",
    "131071",
    "2147483647",
    "2147483648",
    "4294967303",
    "4295032832",
    "8589934592",
    "9999999999",
    "10000000000",
    "18446744073709551615",
    "18446744073709551616",
    "18446744073709551623",
    "00",
    "07",
    "0000000007",
    "+7",
    "-1",
    "0x7",
    "",
];
const BYTES: &[u8] = b"adropmvefin0123456789./ \t\r\n\0\x0b\x0c-+:;,_\x1b\x7f\x80\xa0\xff";

/// Sizes about the longest line, and about what a program might have room for.
const SIZES: [usize; 14] = [33, 34, 62, 63, 64, 65, 66, 67, 127, 128, 129, 130, 255, 1024];
const LONG: [usize; 5] = [4095, 4096, 4097, 16_384, 40_000];

/// What a line says, before it is written as one.
struct Parts {
    verb: String,
    octets: Vec<String>,
    length: Option<String>,
    hop: Option<String>,
}

impl Parts {
    fn line(&self) -> Vec<u8> {
        let mut line = format!("{} {}", self.verb, self.octets.join("."));
        if let Some(length) = &self.length {
            line = format!("{line}/{length}");
        }
        if let Some(hop) = &self.hop {
            line = format!("{line} {hop}");
        }
        line.into_bytes()
    }
}

pub struct RandomLines {
    random: Random,
    /// The routes that the lines are about: few, so that the small table's buckets are often full.
    pool: Vec<(u32, u32)>,
    /// How many lines of a hundred have something wrong about them.
    spoilt: usize,
    /// What was added of late, as it was written, and how much of that is left before some is dropped.
    added: Vec<Vec<u8>>,
    most_added: usize,
}

impl RandomLines {
    pub fn new(mut random: Random, spoilt: usize) -> RandomLines {
        let few = [0, random.within(1, 32), random.within(1, 32), random.pick(&[8, 16, 24, 32])];
        let every = random.percent(25);
        let mut pool: Vec<(u32, u32)> = Vec::new();
        for _ in 0..random.pick(&[8, 24, 60]) {
            let length = if every { random.within(0, 32) } else { random.pick(&few) };
            let address = match pool.is_empty() || random.percent(40) {
                true => random.word(),
                false => random.pick(&pool).0 ^ random.word() >> random.within(0, 24),
            };
            pool.push((rules::prefix(length, address), length));
        }
        let most_added = random.pick(&[10, 40, 100]);
        RandomLines { random, pool, spoilt, added: Vec::new(), most_added }
    }

    /// A line, without the byte that ends it.
    pub fn line(&mut self) -> Vec<u8> {
        if self.added.len() > self.most_added {
            let at = self.random.below(self.added.len());
            return [&b"drop "[..], &self.added.swap_remove(at)].concat();
        }
        let line = self.line_near_a_shape();
        let mut words = line.split(|byte| *byte == b' ');
        if let (Some(b"add"), Some(route)) = (words.next(), words.next()) {
            self.added.push(route.to_vec());
        }
        line
    }

    fn line_near_a_shape(&mut self) -> Vec<u8> {
        let mut parts = self.parts();
        if !self.random.percent(self.spoilt) {
            return parts.line();
        }
        let kind = self.random.below(100);
        if kind < 3 {
            let size = self.random.below(70);
            return (0..size).map(|_| self.random.pick(BYTES)).collect();
        }
        if kind < 60 {
            self.spoil_parts(&mut parts);
        }
        let mut line = parts.line();
        if kind >= 50 {
            self.spoil_bytes(&mut line);
        }
        line
    }

    /// What a readable line says; the table may refuse it.
    fn parts(&mut self) -> Parts {
        let (mut address, length) = self.random.pick(&self.pool);
        let verb = match self.random.below(100) {
            0..=34 => "add",
            35..=44 => "drop",
            45..=57 => "move",
            _ => "find",
        };
        if (verb == "find" || self.random.percent(4)) && length < 32 {
            address |= self.random.word() >> length;
        }
        if self.random.percent(3) {
            address = self.random.word();
        }
        let length = if self.random.percent(4) { self.random.within(0, 99) } else { length };
        let hop = match self.random.below(20) {
            0 => self.random.word(),
            1 => self.random.pick(&[0, 65_535, 65_536, u32::MAX]),
            _ => self.random.word() >> 16,
        };
        Parts {
            verb: verb.to_string(),
            octets: address.to_be_bytes().map(|octet| octet.to_string()).to_vec(),
            length: (verb != "find").then(|| length.to_string()),
            hop: (verb == "add" || verb == "move").then(|| hop.to_string()),
        }
    }

    fn spoil_parts(&mut self, parts: &mut Parts) {
        let at = self.random.below(4);
        match self.random.below(20) {
            0..=2 => parts.verb = self.random.pick(&VERBS).to_string(),
            3..=7 => parts.octets[at] = self.random.pick(&OCTETS).to_string(),
            8 => parts.octets[at] = format!("0{}", parts.octets[at]),
            9 => drop(parts.octets.remove(at)),
            10 => parts.octets.insert(at, self.random.pick(&OCTETS).to_string()),
            11 => parts.length = None,
            12..=13 => parts.length = Some(self.random.pick(&LENGTHS).to_string()),
            14 => parts.length = Some(self.random.within(0, 100).to_string()),
            15 => parts.hop = None,
            16..=18 if parts.hop.is_some() => parts.hop = Some(self.edge_hop()),
            _ => parts.hop = Some(format!("{} 7", parts.hop.take().unwrap_or("7".to_string()))),
        }
    }

    fn edge_hop(&mut self) -> String {
        match self.random.below(3) {
            0 => ((1 << 16) + self.random.below(3) as u64 - 1).to_string(),
            1 => ((1 << 32) + self.random.below(3) as u64 - 1).to_string(),
            _ => self.random.pick(&HOPS).to_string(),
        }
    }

    fn spoil_bytes(&mut self, line: &mut Vec<u8>) {
        let at = self.random.below(line.len());
        let spaces: Vec<usize> = (0..line.len()).filter(|at| line[*at] == b' ').collect();
        let space = if spaces.is_empty() { at } else { self.random.pick(&spaces) };
        let filler = self.random.pick(b" 0a\0\t");
        match self.random.below(100) {
            0..=9 => line.insert(space, b' '),
            10..=14 => drop(line.remove(space)),
            15..=19 => line[space] = self.random.pick(b"\t\0/._\r"),
            20..=24 => line.insert(0, b' '),
            25..=32 => line.push(b' '),
            33..=40 => line.push(b'\r'),
            41..=46 => {
                line.extend(self.random.pick(&[&b"\0"[..], b"\0a", b"\0\n", b"\t", b"/", b".", b" 0"]))
            }
            47..=52 => line.insert(at, self.random.pick(BYTES)),
            53..=58 => line[at] = self.random.pick(BYTES),
            59..=62 => line[at] = self.random.word() as u8,
            63..=66 => drop(line.remove(at)),
            67..=70 => line.truncate(at),
            71..=74 => line[at] = line[at].to_ascii_uppercase(),
            75..=76 => line.make_ascii_uppercase(),
            77..=79 => line.swap(at, space),
            80..=82 => line.extend_from_within(..),
            83..=90 => line.resize(self.random.pick(&SIZES).max(line.len()), filler),
            91..=97 => {
                let before = self.random.pick(&SIZES);
                line.splice(0..0, std::iter::repeat_n(filler, before));
            }
            98 => line.resize(self.random.pick(&LONG), filler),
            _ => line.clear(),
        }
    }
}
