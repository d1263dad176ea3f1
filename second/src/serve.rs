//! What the keeper's and the tablet's programs have in common: arguments, and the loop over
//! the lines that appends before it prints.

use crate::clock::Terms;
use crate::effects::{Effects, Refusal};
use crate::journal::{JournalError, JournalFile};
use crate::lines::{self, Line, LineReader};
use std::ffi::OsString;
use std::io::{self, Read, Write};
use std::os::unix::ffi::OsStrExt;
use std::process::ExitCode;

/// Why a program ends before its input does.
#[derive(Debug)]
pub enum Failure {
    /// The arguments are not what they should be.
    Usage(&'static str),
    Journal(JournalError),
    Io(io::Error),
}

impl From<JournalError> for Failure {
    fn from(error: JournalError) -> Self {
        Failure::Journal(error)
    }
}

impl From<io::Error> for Failure {
    fn from(error: io::Error) -> Self {
        Failure::Io(error)
    }
}

impl std::fmt::Display for Failure {
    fn fmt(&self, f: &mut std::fmt::Formatter) -> std::fmt::Result {
        match self {
            Failure::Usage(text) => f.write_str(text),
            Failure::Journal(error) => error.fmt(f),
            Failure::Io(error) => error.fmt(f),
        }
    }
}

/// A program that answers lines.
pub trait Server {
    /// Does what a whole line says. What is to be appended, sent, shown and told is left in
    /// the effects, which are clear before.
    fn line(&mut self, line: &[u8], effects: &mut Effects) -> Result<(), Refusal>;
}

/// Answers every line of the input.
pub fn serve(
    server: &mut impl Server,
    journal: &mut JournalFile,
    input: impl Read,
    mut output: impl Write,
) -> Result<(), Failure> {
    let mut reader = LineReader::new(input);
    let mut effects = Effects::default();
    let mut printed = Vec::with_capacity(1 << 16);
    while let Some(line) = reader.next_line()? {
        effects.clear();
        let answer = match line {
            Line::Whole(line) => server.line(line, &mut effects),
            Line::Cut => Err(Refusal::NoForm),
        };
        if !effects.record.is_empty() {
            if let Err(error) = journal.append(&effects.record) {
                // the lines before were answered: their records are on the disk
                output.write_all(&printed)?;
                return Err(error.into());
            }
        }
        print(answer, &effects, &mut printed);
        if !reader.has_whole_line() || printed.len() > 1 << 15 {
            output.write_all(&printed)?;
            output.flush()?;
            printed.clear();
        }
    }
    Ok(())
}

/// Appends the lines that answer one line.
pub fn print(answer: Result<(), Refusal>, effects: &Effects, out: &mut Vec<u8>) {
    for message in effects.messages() {
        out.extend_from_slice(b"send ");
        lines::push_hex(out, message);
        out.push(b'\n');
    }
    if let Some((place, bytes)) = effects.shown() {
        out.extend_from_slice(b"show");
        lines::push_number(out, place.file);
        lines::push_number(out, place.part);
        out.push(b' ');
        lines::push_hex(out, bytes);
        out.push(b'\n');
    }
    if let Some(told) = effects.told {
        out.extend_from_slice(if told.applied { b"in" } else { b"void" });
        lines::push_number(out, told.place.file);
        lines::push_number(out, told.place.part);
        lines::push_number(out, told.number);
        out.push(b'\n');
    }
    match answer {
        Ok(()) => out.extend_from_slice(b"done"),
        Err(refusal) => {
            out.extend_from_slice(b"refused");
            lines::push_number(out, refusal.number());
        }
    }
    out.push(b'\n');
}

/// The arguments as numbers, as far as they are to be numbers.
pub fn number_argument(argument: &OsString) -> Result<u64, Failure> {
    lines::number(argument.as_bytes()).ok_or(Failure::Usage("an argument is not a number"))
}

/// The first three arguments.
pub fn terms_arguments(arguments: &[OsString]) -> Result<Terms, Failure> {
    let rate = number_argument(&arguments[0])?;
    let short = number_argument(&arguments[1])?;
    let long = number_argument(&arguments[2])?;
    Terms::new(rate, short, long).ok_or(Failure::Usage("these terms do not fit together"))
}

/// Runs a program that takes `count` arguments, and turns a failure into one line and status 1.
pub fn run(usage: &'static str, count: usize, program: impl FnOnce(&[OsString]) -> Result<(), Failure>) -> ExitCode {
    let arguments: Vec<OsString> = std::env::args_os().skip(1).collect();
    if arguments.len() == 1 && arguments[0] == "--help" {
        println!("usage: {usage}");
        return ExitCode::SUCCESS;
    }
    let result = match arguments.len() == count {
        true => program(&arguments),
        false => Err(Failure::Usage(usage)),
    };
    match result {
        Ok(()) => ExitCode::SUCCESS,
        Err(failure) => {
            eprintln!("{failure}");
            ExitCode::FAILURE
        }
    }
}
