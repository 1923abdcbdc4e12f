//! The text program as a process, whose input goes in piece by piece. Each has been read, and its lines
//! have been answered, before the next is written: so the program sees the cuts, and one that left
//! lines unanswered while it waits for more would be found.

use std::ffi::c_ulong;
use std::io::{self, Read, Write};
use std::os::fd::AsRawFd;
use std::process::{Child, ChildStdin, ChildStdout, Command, Stdio};
use std::sync::mpsc::{channel, Receiver, RecvTimeoutError, Sender};
use std::thread;
use std::time::{Duration, Instant};

/// How long the program may leave input unread or lines unanswered or, when its input has ended, go on.
const PATIENCE: Duration = Duration::from_secs(20);

const BETWEEN_LOOKS: Duration = Duration::from_micros(10);

/// A text program that runs.
pub struct Program {
    child: Child,
    /// What the program writes, as it comes.
    received: Receiver<Vec<u8>>,
    written: Vec<u8>,
    answered: usize,
}

impl Program {
    pub fn start(command: &[String]) -> io::Result<Program> {
        let (program, words) = command.split_first().ok_or(io::Error::other("no program is named"))?;
        let mut child =
            Command::new(program).args(words).stdin(Stdio::piped()).stdout(Stdio::piped()).spawn()?;
        let output = child.stdout.take().ok_or(io::Error::other("the program has no pipe"))?;
        let (sender, received) = channel();
        thread::spawn(move || pass_on(output, sender));
        Ok(Program { child, received, written: Vec::new(), answered: 0 })
    }

    /// What the program writes when it is given an input in pieces of these sizes, and what goes wrong.
    pub fn answers(mut self, input: &[u8], pieces: &[usize]) -> (Vec<u8>, io::Result<()>) {
        let went = self.give(input, pieces);
        (self.written, went)
    }

    fn give(&mut self, mut input: &[u8], pieces: &[usize]) -> io::Result<()> {
        let mut requests = self.child.stdin.take().ok_or(io::Error::other("the program has no pipe"))?;
        let mut asked = 0;
        for size in pieces {
            let (piece, rest) = input.split_at(*size);
            input = rest;
            asked += ends(piece);
            // A program that has ended is told by what it wrote.
            if requests.write_all(piece).is_err() || !self.reads(&requests)? || !self.has_answered(asked)? {
                break;
            }
        }
        drop(requests);
        while self.receive("running when its input had ended")? {}
        let status = self.child.wait()?;
        if !status.success() {
            return Err(io::Error::other(format!("the program ended with {status}")));
        }
        Ok(())
    }

    /// Waits until the program has read all that it was given; false if it has ended.
    fn reads(&mut self, requests: &ChildStdin) -> io::Result<bool> {
        let start = Instant::now();
        while unread(requests)? > 0 {
            if self.child.try_wait()?.is_some() {
                return Ok(false);
            }
            if start.elapsed() > PATIENCE {
                return Err(self.still("not reading its input"));
            }
            thread::sleep(BETWEEN_LOOKS);
        }
        Ok(true)
    }

    /// Waits until so many lines are answered; false if the program's output has ended.
    fn has_answered(&mut self, asked: usize) -> io::Result<bool> {
        while self.answered < asked {
            let what = format!("silent at {} answers to {asked} lines", self.answered);
            if !self.receive(&what)? {
                return Ok(false);
            }
        }
        Ok(true)
    }

    /// Takes what the program has written next; false if its output has ended.
    fn receive(&mut self, what: &str) -> io::Result<bool> {
        match self.received.recv_timeout(PATIENCE) {
            Ok(bytes) => {
                self.answered += ends(&bytes);
                self.written.extend(bytes);
                Ok(true)
            }
            Err(RecvTimeoutError::Disconnected) => Ok(false),
            Err(RecvTimeoutError::Timeout) => Err(self.still(what)),
        }
    }

    /// Ends a program that takes too long.
    fn still(&mut self, what: &str) -> io::Error {
        let _ = self.child.kill();
        let _ = self.child.wait();
        io::Error::other(format!("the program was still {what} after {} s", PATIENCE.as_secs()))
    }
}

/// How many lines end in these bytes.
fn ends(bytes: &[u8]) -> usize {
    bytes.iter().filter(|byte| **byte == b'\n').count()
}

/// Hands on what a program writes, until that ends.
fn pass_on(mut output: ChildStdout, sender: Sender<Vec<u8>>) {
    let mut bytes = [0; 1 << 16];
    while let Ok(size @ 1..) = output.read(&mut bytes) {
        if sender.send(bytes[..size].to_vec()).is_err() {
            return;
        }
    }
}

extern "C" {
    fn ioctl(file: i32, request: c_ulong, ...) -> i32;
}

/// How many bytes of a pipe have not been read.
fn unread(pipe: &ChildStdin) -> io::Result<i32> {
    const BYTES_TO_READ: c_ulong = 0x541b;
    let mut bytes = 0i32;
    match unsafe { ioctl(pipe.as_raw_fd(), BYTES_TO_READ, &mut bytes as *mut i32) } {
        0 => Ok(bytes),
        _ => Err(io::Error::last_os_error()),
    }
}
