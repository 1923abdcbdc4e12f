//! The second program: the table's rules and the reader of lines, written anew by someone who had the
//! text of the rules and had seen neither crates/ nor docs/, and held against libgateway.a, call by call,
//! and against the text program. No code is shared.

/// Writes a line to standard output. If nobody reads it any more, there is no more to do.
macro_rules! say {
    ($($text:tt)*) => {
        if std::io::Write::write_fmt(&mut std::io::stdout(), format_args!("{}\n", format_args!($($text)*))).is_err() {
            std::process::exit(1);
        }
    };
}

mod attributes;
mod calls;
mod comparing;
mod comparison_met;
mod comparison_tally;
mod comparisons;
mod cuts;
mod cutting;
mod day_draft;
mod differences;
mod draft;
mod feeding;
mod framing;
mod history;
mod import_tally;
mod imports;
mod inputs;
mod interrupt;
mod library;
mod line_slips;
mod lines;
mod lists;
mod message_tally;
mod messages;
mod other_sizes;
mod pair;
mod paper_days;
mod paper_dumps;
mod paper_streams;
mod parties;
mod party_tally;
mod places;
mod program;
mod random;
mod random_days;
mod random_dumps;
mod random_lines;
mod random_lists;
mod random_messages;
mod random_sizes;
mod reading;
mod record_draft;
mod recorded;
mod recorded_days;
mod recorded_dumps;
mod recordings;
mod records;
mod replacing;
mod replay_tally;
mod replays;
mod routes;
mod rules;
mod sharing;
mod slips;
mod spoilt_days;
mod spoilt_messages;
mod spoilt_records;
mod stream_tally;
mod streams;
mod tally;
mod text;
mod told;
mod two_histories;
mod worked;
mod worked_days;
mod worked_differences;
mod worked_imports;
mod worked_messages;
mod worked_parties;
mod worked_sizes;
mod writing;

use history::Manner;
use library::Library;
use slips::SLIPS;
use std::io;
use std::path::PathBuf;
use std::process::ExitCode;
use std::time::{Duration, Instant, SystemTime, UNIX_EPOCH};
use tally::Tally;
use text::Text;

const USAGE: &str = "\
usage: second [--seed N] [--calls N | --seconds N]   random histories, 500000 calls unless told
       second --seed N --history M [--show]          one history again; --show tells each call
       second --slips [--seed N]                     gets one rule wrong at a time: each must be found
       second --recorded FILE                        messages of real daemons, with other programs' readings
       second --recorded-dump FILE                   a dump of a real daemon, with bgpdump's reading beside it
       second --recorded-day FILE                    a day that a real daemon recorded, with two of its readings
       second --lines [--seed N] [--count N]         random lines to the text program, 6000 unless told
       second --lines --seed N --history M [--show]  one input of them again; --show tells each line
       second --lines --slips [--seed N]             as above, with the rules of the reader of lines
       second --cut FILE -- COMMAND [WORD..]         writes what a program answers to a file, however it is cut
       second --answer                               answers standard input as the text program does
       second --mix N [--seed N]                     writes so many lines for it, most of them readable

After --lines, '-- COMMAND [WORD..]' names what starts the text program; it is tests/start with
target/bin/text_program unless told. Without --lines, '--host PATH' names the program that is linked with the
library; it is the host beside this one unless told.";

/// How many lines are compared unless told.
const LINES: u64 = 6000;

/// From so many calls on, a run must have met every refusal by each party, all that adds of stored prefixes can meet,
/// and calls of the other party's routes and of marks, what messages, dumps and recorded days can be and have wrong
/// about them, every place where a stream can be cut, every figure at its limit, in each call all that can be other
/// about the sizes, two histories with one party's calls the same, and all that can differ between two tables or be
/// wrong about either.
const MANY_CALLS: u64 = 200_000;

/// A slip that so many histories do not show is not found.
const HISTORIES_TO_A_SLIP: u64 = 2_000;

const BETWEEN_PROGRESS: Duration = Duration::from_secs(5);

#[derive(Default)]
struct Options {
    seed: Option<u64>,
    calls: Option<u64>,
    seconds: Option<u64>,
    history: Option<u64>,
    count: Option<u64>,
    mix: Option<u64>,
    show: bool,
    slips: bool,
    lines: bool,
    answer: bool,
    cut: Option<String>,
    recorded: Option<String>,
    recorded_dump: Option<String>,
    recorded_day: Option<String>,
    host: Option<String>,
    command: Option<Vec<String>>,
}

fn options() -> Result<Options, String> {
    let mut options = Options::default();
    let mut words = std::env::args().skip(1);
    while let Some(word) = words.next() {
        let into = match word.as_str() {
            "--seed" => &mut options.seed,
            "--calls" => &mut options.calls,
            "--seconds" => &mut options.seconds,
            "--history" => &mut options.history,
            "--count" => &mut options.count,
            "--mix" => &mut options.mix,
            "--show" | "--slips" | "--lines" | "--answer" => {
                match word.as_str() {
                    "--show" => options.show = true,
                    "--slips" => options.slips = true,
                    "--lines" => options.lines = true,
                    _ => options.answer = true,
                }
                continue;
            }
            "--cut" => {
                options.cut = Some(words.next().ok_or("--cut needs a file")?);
                continue;
            }
            "--recorded" => {
                options.recorded = Some(words.next().ok_or("--recorded needs a file")?);
                continue;
            }
            "--recorded-dump" => {
                options.recorded_dump = Some(words.next().ok_or("--recorded-dump needs a file")?);
                continue;
            }
            "--recorded-day" => {
                options.recorded_day = Some(words.next().ok_or("--recorded-day needs a file")?);
                continue;
            }
            "--host" => {
                options.host = Some(words.next().ok_or("--host needs a program")?);
                continue;
            }
            "--" => {
                options.command = Some(words.by_ref().collect());
                continue;
            }
            "--help" | "-h" => {
                say!("{USAGE}");
                std::process::exit(0);
            }
            _ => return Err(format!("unknown word '{word}'")),
        };
        let value = words.next().ok_or(format!("{word} needs a number"))?;
        let number = value.parse().map_err(|_| format!("{word}: not a number: '{value}'"))?;
        if number == 0 && ["--calls", "--seconds", "--count"].contains(&word.as_str()) {
            return Err(format!("{word} 0 would compare nothing"));
        }
        *into = Some(number);
    }
    Ok(options)
}

fn main() -> ExitCode {
    let options = match options() {
        Ok(options) => options,
        Err(error) => {
            eprintln!("second: {error}; second --help tells what there is");
            return ExitCode::from(2);
        }
    };
    let seed = options.seed.unwrap_or_else(clock);
    let passed = if options.answer {
        done(text::answer())
    } else if let Some(file) = options.cut {
        done(cuts::answers(&file, &options.command.unwrap_or_default()))
    } else if let Some(count) = options.mix {
        done(text::mix(seed, count))
    } else if options.lines {
        compare_lines(seed, options)
    } else {
        compare_calls(seed, options)
    };
    if passed {
        ExitCode::SUCCESS
    } else {
        ExitCode::FAILURE
    }
}

/// Says what went wrong. If nobody reads what is written any more, there is no more to do.
fn done(result: io::Result<()>) -> bool {
    match result {
        Err(error) if error.kind() != io::ErrorKind::BrokenPipe => {
            eprintln!("second: {error}");
            false
        }
        _ => true,
    }
}

fn compare_lines(seed: u64, options: Options) -> bool {
    let text = Text { seed, command: options.command };
    match (options.slips, options.history) {
        (true, _) => text.find_slips(),
        (_, Some(number)) => text.again(number, options.show),
        _ => text.compare(options.count.unwrap_or(LINES)),
    }
}

fn compare_calls(seed: u64, options: Options) -> bool {
    let mut library = match start(options.host.as_deref()) {
        Ok(library) => library,
        Err(error) => {
            eprintln!("second: the library's process does not start: {error}; build it by 'make second'");
            return false;
        }
    };
    if let Some(file) = options.recorded {
        return recorded_went(recorded::compare(&mut library, &file));
    }
    if let Some(file) = options.recorded_dump {
        return recorded_went(recorded_dumps::compare(&mut library, &file));
    }
    if let Some(file) = options.recorded_day {
        return recorded_went(recorded_days::compare(&mut library, &file));
    }
    match (options.slips, options.history) {
        (true, _) => find_slips(&mut library, seed),
        (_, Some(history)) => replay(&mut library, seed, history, options.show),
        _ => compare(&mut library, seed, options.calls, options.seconds),
    }
}

fn clock() -> u64 {
    let now = SystemTime::now().duration_since(UNIX_EPOCH);
    now.map_or(1, |since| since.as_micros() as u64)
}

/// The program `host` stands beside this one, unless another is named. Ctrl-C is for this one alone.
fn start(named: Option<&str>) -> io::Result<Library> {
    let beside = std::env::current_exe()?.with_file_name("host");
    let host = named.map_or(beside, PathBuf::from);
    interrupt::ignored(|| Library::start(&host))
}

/// Runs one history, and says how it went.
fn holds(library: &mut Library, seed: u64, history: u64, show: bool, tally: &mut Tally) -> bool {
    let _replay = Replay { seed, history };
    let Err(failure) = history::run(library, seed, history, Manner { slip: None, show }, tally) else {
        return true;
    };
    say!("second: DIFFERENCE under seed {seed} in history {history}, {failure}");
    say!("{}", replay_command(seed, history));
    false
}

fn replay_command(seed: u64, history: u64) -> String {
    let program = std::env::args().next().unwrap_or("second".to_string());
    let host = options()
        .ok()
        .and_then(|options| options.host)
        .map_or(String::new(), |host| format!(" --host {host}"));
    format!("replay: {program} --show --seed {seed} --history {history}{host}")
}

/// Says which history ran when this program itself panics.
struct Replay {
    seed: u64,
    history: u64,
}

impl Drop for Replay {
    fn drop(&mut self) {
        if std::thread::panicking() {
            eprintln!("{}", replay_command(self.seed, self.history));
        }
    }
}

fn replay(library: &mut Library, seed: u64, history: u64, show: bool) -> bool {
    let mut tally = Tally::default();
    let held = holds(library, seed, history, show, &mut tally);
    if held {
        say!("seed {seed}, history {history}: {} calls, no difference", tally.calls());
    }
    held
}

/// Runs histories until there were so many calls, so many seconds have passed, or Ctrl-C ends them.
fn compare(library: &mut Library, seed: u64, calls: Option<u64>, seconds: Option<u64>) -> bool {
    let calls = calls.unwrap_or(if seconds.is_some() { u64::MAX } else { 500_000 });
    let seconds = Duration::from_secs(seconds.unwrap_or(u64::MAX));
    let start = Instant::now();
    let mut told = start;
    let mut tally = Tally::default();
    interrupt::note();
    say!("seed {seed}");
    if let Err(failure) = worked::run(library) {
        say!("second: DIFFERENCE in a worked case, {failure}");
        return false;
    }
    while tally.calls() < calls && start.elapsed() < seconds && !interrupt::noted() {
        if !holds(library, seed, tally.histories, false, &mut tally) {
            return false;
        }
        if told.elapsed() >= BETWEEN_PROGRESS {
            told = Instant::now();
            let passed = start.elapsed().as_secs();
            eprintln!("{} calls in {} histories, {passed} s, no difference", tally.calls(), tally.histories);
        }
    }
    let passed = start.elapsed().as_secs_f64();
    say!("{} calls in {} histories, {passed:.1} s, no difference", tally.calls(), tally.histories);
    say!("{tally}");
    match tally.missing() {
        Some(missing) if tally.calls() >= MANY_CALLS => {
            say!("second: too narrow a run: {missing}");
            false
        }
        _ => true,
    }
}

/// Says how it went with what was recorded.
fn recorded_went(went: Result<String, String>) -> bool {
    match went {
        Ok(went) => say!("{went}, no difference"),
        Err(difference) => {
            say!("second: DIFFERENCE in {difference}");
            return false;
        }
    }
    true
}

/// Gets one of this program's own rules wrong at a time. Each time a difference must be found.
fn find_slips(library: &mut Library, seed: u64) -> bool {
    let mut missed = 0;
    say!("seed {seed}");
    for (slip, told) in SLIPS {
        let mut tally = Tally::default();
        let manner = Manner { slip: Some(slip), show: false };
        let found = (0..HISTORIES_TO_A_SLIP)
            .find(|history| history::run(library, seed, *history, manner, &mut tally).is_err());
        match found {
            Some(history) => say!("found in history {history}, after {} calls: {told}", tally.calls()),
            None => {
                say!("second: NOT FOUND in {} calls: {told}", tally.calls());
                missed += 1;
            }
        }
    }
    if library.ended {
        say!("second: the library's process ended, which is no slip of this program");
        return false;
    }
    say!("{} of {} slips found", SLIPS.len() - missed, SLIPS.len());
    missed == 0
}
