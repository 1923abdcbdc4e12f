//! Random inputs to the text program. A seed and a number fix an input and how it is cut, so that a
//! failing one can be replayed.

use crate::lines::lines;
use crate::random::Random;
use crate::random_lines::RandomLines;
use std::fmt;

/// How many lines of a hundred have something wrong about them.
const SPOILT: usize = 50;

/// No input is given in more than about twice as many pieces.
const PIECES: usize = 2000;

pub struct Input {
    pub bytes: Vec<u8>,
    /// The sizes of the pieces in which it is given.
    pub pieces: Vec<usize>,
}

impl Input {
    pub fn new(seed: u64, number: u64) -> Input {
        let mut random = Random::new(seed, number);
        let many = if random.percent(25) { random.below(4) } else { random.within(200, 900) as usize };
        let most = random.pick(&[2, 40, 100, 1000, 20_000, usize::MAX]);
        let mut source = RandomLines::new(Random::new(random.next(), number), SPOILT);
        let mut bytes = Vec::new();
        for _ in 0..many {
            bytes.extend(source.line());
            bytes.push(b'\n');
        }
        if random.percent(50) {
            bytes.pop();
        }
        let most = most.max(bytes.len() / PIECES);
        let mut pieces = Vec::new();
        let mut left = bytes.len();
        while left > 0 {
            let size = if most > left { left } else { 1 + random.below(most) };
            pieces.push(size);
            left -= size;
        }
        Input { bytes, pieces }
    }
}

/// The first line at which the answers of the text program and of this one differ.
pub struct Difference {
    number: usize,
    line: Option<Vec<u8>>,
    theirs: Option<Vec<u8>>,
    ours: Option<Vec<u8>>,
}

/// Compares what the text program wrote with this program's answers.
pub fn compare(input: &[u8], theirs: &[u8], ours: &[String]) -> Result<(), Difference> {
    let answered: Vec<&[u8]> = theirs.split_inclusive(|byte| *byte == b'\n').collect();
    for at in 0..answered.len().max(ours.len()) {
        let (theirs, ours) = (answered.get(at).copied(), ours.get(at).map(|answer| answer.as_bytes()));
        if theirs != ours {
            let line = lines(input).get(at).map(|line| line.to_vec());
            let [theirs, ours] = [theirs, ours].map(|answer| answer.map(|bytes| bytes.to_vec()));
            return Err(Difference { number: at + 1, line, theirs, ours });
        }
    }
    Ok(())
}

/// Bytes with escapes, the middle of many left out.
pub fn told(bytes: &[u8]) -> String {
    const MANY: usize = 300;
    match bytes.len() {
        0..=MANY => format!("\"{}\"", bytes.escape_ascii()),
        size => {
            let (start, end) = (&bytes[..MANY / 3], &bytes[size - MANY / 3..]);
            format!("\"{}\" .. \"{}\" ({size} bytes)", start.escape_ascii(), end.escape_ascii())
        }
    }
}

impl Difference {
    /// The line's number and the line.
    pub fn place(&self) -> String {
        match &self.line {
            Some(line) => format!("line {}, {}", self.number, told(line)),
            None => format!("line {}, which the input does not have", self.number),
        }
    }
}

impl fmt::Display for Difference {
    fn fmt(&self, f: &mut fmt::Formatter) -> fmt::Result {
        let answer =
            |bytes: &Option<Vec<u8>>| bytes.as_ref().map_or("nothing".to_string(), |bytes| told(bytes));
        writeln!(f, "{}", self.place())?;
        writeln!(f, "  the text program: {}", answer(&self.theirs))?;
        write!(f, "  this program:     {}", answer(&self.ours))
    }
}
