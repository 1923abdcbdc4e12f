//! One input to a program, cut at every place: what it answers must not depend on the cuts.

use crate::program::Program;
use std::fs;
use std::io::{self, Write};

/// Writes what a program answers to the bytes of a file. It is given them in two pieces, cut at each
/// place in turn, and then byte by byte.
pub fn answers(file: &str, command: &[String]) -> io::Result<()> {
    let input = fs::read(file)?;
    let first = answer(command, &input, &[0, input.len()])?;
    for cut in 1..=input.len() {
        if answer(command, &input, &[cut, input.len() - cut])? != first {
            return Err(io::Error::other(format!("{file} is answered otherwise if cut after {cut} bytes")));
        }
    }
    if answer(command, &input, &vec![1; input.len()])? != first {
        return Err(io::Error::other(format!("{file} is answered otherwise byte by byte")));
    }
    io::stdout().write_all(&first)
}

fn answer(command: &[String], input: &[u8], pieces: &[usize]) -> io::Result<Vec<u8>> {
    let (answers, went) = Program::start(command)?.answers(input, pieces);
    went.map(|()| answers)
}
