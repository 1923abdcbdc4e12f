//! The text program beside this program's own reader of lines.

use crate::inputs::{compare, told, Input};
use crate::line_slips::LINE_SLIPS;
use crate::lines::{answers, lines, Reader};
use crate::program::Program;
use crate::random::Random;
use crate::random_lines::RandomLines;
use std::collections::HashSet;
use std::fmt;
use std::io::{self, BufRead, Write};
use std::time::Instant;

/// From so many lines on, a run must have met every kind of answer.
const MANY_LINES: u64 = 5000;

/// The kinds of answers. Settings and memory are right, and two buckets of two slots never raise a
/// counter to 15: no line can reach the other refusals.
const KINDS: [&str; 12] = [
    "ok",
    REPLACED,
    "refused 3",
    "refused 4",
    "refused 5",
    "refused 7",
    "refused 8",
    "refused 11",
    "a route",
    "the default",
    "none",
    "unreadable",
];

/// An ok that is counted apart.
const REPLACED: &str = "ok to an add of a stored prefix";

/// A slip that so many inputs do not show is not found.
const INPUTS_TO_THE_SLIPS: u64 = 100;

/// How many lines of a hundred have something wrong about them, where time is measured.
const SPOILT: usize = 10;

pub struct Text {
    pub seed: u64,
    /// What starts the text program, where that is told.
    pub command: Option<Vec<String>>,
}

impl Text {
    /// tests/start with the program that rt check builds, unless told.
    fn command(&self) -> io::Result<Vec<String>> {
        if let Some(command) = &self.command {
            return Ok(command.clone());
        }
        let program = std::env::current_exe()?.with_file_name("bin").join("text_program");
        if !program.exists() {
            let missing = format!("{} is missing: 'rt check text_program' builds it", program.display());
            return Err(io::Error::other(missing));
        }
        let start = std::env::current_exe()?.with_file_name("../tests/start");
        Ok([start, program].map(|path| path.to_string_lossy().into_owned()).to_vec())
    }

    fn replay(&self, number: u64) -> String {
        let program = std::env::args().next().unwrap_or("second".to_string());
        let mut command = format!("{program} --lines --show --seed {} --history {number}", self.seed);
        if let Some(words) = &self.command {
            command += " --";
            for word in words {
                command += &format!(" '{}'", word.replace('\'', "'\\''"));
            }
        }
        format!("replay: {command}")
    }

    /// An input and what the text program wrote to it, where both programs agree; else says what differs.
    fn agreed(&self, number: u64) -> Option<(Input, Vec<u8>)> {
        let program = match self.command().and_then(|command| Program::start(&command)) {
            Ok(program) => program,
            Err(error) => {
                eprintln!("second: the text program does not start: {error}");
                return None;
            }
        };
        let input = Input::new(self.seed, number);
        let (theirs, went) = program.answers(&input.bytes, &input.pieces);
        let compared = compare(&input.bytes, &theirs, &answers(&input.bytes, None));
        let strange = lines(&theirs).into_iter().find(|answer| !KINDS.contains(&kind_of(answer)));
        if went.is_ok() && compared.is_ok() && strange.is_none() {
            return Some((input, theirs));
        }
        say!("second: DIFFERENCE under seed {} in input {number}", self.seed);
        if let Err(error) = went {
            say!("{error}");
        }
        if let Err(difference) = compared {
            say!("{difference}");
        } else if let Some(answer) = strange {
            say!("both programs answer {}, which no line gets", told(answer));
        }
        say!("{}", self.replay(number));
        None
    }

    /// Random inputs, until there were so many lines.
    pub fn compare(&self, count: u64) -> bool {
        let start = Instant::now();
        let mut tally = Tally::default();
        while tally.lines < count {
            let Some((input, theirs)) = self.agreed(tally.inputs) else {
                return false;
            };
            tally.count(&input, &theirs);
        }
        let passed = start.elapsed().as_secs_f64();
        let Tally { lines, inputs, pieces, .. } = tally;
        say!(
            "seed {}: {lines} lines in {inputs} inputs and {pieces} pieces, {passed:.1} s, no difference",
            self.seed
        );
        say!("{tally}");
        match tally.missing() {
            Some(kind) if count >= MANY_LINES => {
                say!("second: too narrow a run: no line was answered by {kind}");
                false
            }
            _ => true,
        }
    }

    /// One input again.
    pub fn again(&self, number: u64, show: bool) -> bool {
        if show {
            let input = Input::new(self.seed, number);
            let ours = answers(&input.bytes, None);
            for (at, (line, answer)) in lines(&input.bytes).iter().zip(&ours).enumerate() {
                say!("line {}: {}\n  {}", at + 1, told(line), answer.trim_end());
            }
        }
        let Some((input, _)) = self.agreed(number) else {
            return false;
        };
        say!("seed {}, input {number}: {} lines, no difference", self.seed, lines(&input.bytes).len());
        true
    }

    /// Gets one rule of the reader wrong at a time. Each time a difference must be found.
    pub fn find_slips(&self) -> bool {
        let mut missed = LINE_SLIPS.to_vec();
        for number in 0..INPUTS_TO_THE_SLIPS {
            if missed.is_empty() {
                break;
            }
            // Without a slip there must be no difference, or every slip would seem found.
            let Some((input, theirs)) = self.agreed(number) else {
                return false;
            };
            missed.retain(|(slip, what)| {
                match compare(&input.bytes, &theirs, &answers(&input.bytes, Some(*slip))) {
                    Ok(()) => true,
                    Err(difference) => {
                        say!("found in input {number} at {}: {what}", difference.place());
                        false
                    }
                }
            });
        }
        for (_, what) in &missed {
            say!("second: NOT FOUND in {INPUTS_TO_THE_SLIPS} inputs: {what}");
        }
        say!("seed {}: {} of {} slips found", self.seed, LINE_SLIPS.len() - missed.len(), LINE_SLIPS.len());
        missed.is_empty()
    }
}

/// Writes so many lines, to measure by.
pub fn mix(seed: u64, count: u64) -> io::Result<()> {
    let mut source = RandomLines::new(Random::new(seed, 0), SPOILT);
    let mut out = io::BufWriter::new(io::stdout().lock());
    for _ in 0..count {
        let mut line = source.line();
        line.retain(|byte| *byte != b'\n');
        line.push(b'\n');
        out.write_all(&line)?;
    }
    out.flush()
}

/// Answers standard input, as the text program does.
pub fn answer() -> io::Result<()> {
    let mut input = io::BufReader::new(io::stdin().lock());
    let mut out = io::BufWriter::new(io::stdout().lock());
    let mut reader = Reader::new(None);
    let mut bytes = Vec::new();
    while input.read_until(b'\n', &mut bytes)? > 0 {
        for line in lines(&bytes) {
            out.write_all(reader.answer(line).as_bytes())?;
        }
        bytes.clear();
        // What has been read is answered before more is waited for.
        if !input.buffer().contains(&b'\n') {
            out.flush()?;
        }
    }
    out.flush()
}

/// What a run has seen.
#[derive(Default)]
struct Tally {
    inputs: u64,
    pieces: usize,
    lines: u64,
    given: [u64; KINDS.len()],
}

impl Tally {
    fn count(&mut self, input: &Input, answers: &[u8]) {
        self.inputs += 1;
        self.pieces += input.pieces.len();
        let mut stored = HashSet::new();
        for (line, answer) in lines(&input.bytes).into_iter().zip(lines(answers)) {
            self.lines += 1;
            let kind = match kind_of(answer) {
                "ok" if replaces(&mut stored, line) => REPLACED,
                kind => kind,
            };
            let kind = KINDS.iter().position(|known| *known == kind);
            self.given[kind.expect("both programs gave an answer of a kind that there is")] += 1;
        }
    }

    /// The first kind of answer that no line was given.
    fn missing(&self) -> Option<&'static str> {
        let kind = self.given.iter().position(|times| *times == 0);
        kind.map(|kind| KINDS[kind])
    }
}

/// Notes what an accepted line does to the stored routes; true if it adds one of them.
fn replaces<'a>(stored: &mut HashSet<&'a [u8]>, line: &'a [u8]) -> bool {
    let words: Vec<&[u8]> = line.split(|byte| *byte == b' ').collect();
    match words[..] {
        [b"add", route, _] => !stored.insert(route),
        [b"drop", route] => {
            stored.remove(route);
            false
        }
        _ => false,
    }
}

fn kind_of(answer: &[u8]) -> &str {
    let words: Vec<&[u8]> = answer.split(|byte| *byte == b' ').collect();
    match words[..] {
        [b"none", _] => "none",
        [_, b"0", _] => "the default",
        [_, _, _] => "a route",
        _ => std::str::from_utf8(answer).unwrap_or(""),
    }
}

impl fmt::Display for Tally {
    fn fmt(&self, f: &mut fmt::Formatter) -> fmt::Result {
        for (kind, times) in KINDS.iter().zip(self.given) {
            let comma = if kind == &KINDS[0] { "  " } else { ", " };
            write!(f, "{comma}{kind}: {times}")?;
        }
        Ok(())
    }
}
