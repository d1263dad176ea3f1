//! The tablet's program: a borrower that is given lines.

use crate::borrower::{Borrower, Call};
use crate::clock::Terms;
use crate::effects::{Effects, Refusal};
use crate::journal::{JournalFile, Owner};
use crate::lines::{self, Words};
use crate::message::{FILES, Kind, PART_BYTES, PARTS, PartBytes, Place};
use crate::serve::{self, Failure, Server};
use std::io::{Read, Write};
use std::path::Path;

/// How many bytes a write call must give.
#[derive(Clone, Copy, PartialEq, Eq)]
pub enum WriteForm {
    /// All of them, since a shorter one may have been cut.
    Whole,
    /// One or more; the rest are zeros.
    Short,
}

/// Reads a call, whose name was read already, from the words that follow; what stands behind
/// it is left. The bytes of a write are put into `scratch`.
pub fn read_call<'a>(
    name: &[u8],
    words: &mut Words,
    form: WriteForm,
    scratch: &'a mut Vec<u8>,
) -> Option<Call<'a>> {
    let file = words.number(FILES as u64 - 1)? as u8;
    let part = words.number(PARTS as u64 - 1)? as u8;
    let place = Place { file, part };
    match name {
        b"ask" => Some(Call::Ask { place, kind: Kind::from_number(words.number(1)?)? }),
        b"show" => Some(Call::Show { place }),
        b"write" => Some(Call::Write { place, bytes: read_bytes(words.next()?, form, scratch)? }),
        b"forget" => Some(Call::Forget { place }),
        _ => None,
    }
}

fn read_bytes<'a>(word: &[u8], form: WriteForm, scratch: &'a mut Vec<u8>) -> Option<&'a PartBytes> {
    if !lines::hex_decode(word, scratch) || scratch.len() > PART_BYTES {
        return None;
    }
    if form == WriteForm::Short {
        scratch.resize(PART_BYTES, 0);
    }
    scratch[..].try_into().ok()
}

/// The tablet as a program: one line after another.
pub struct Program {
    borrower: Borrower,
    last_reading: u64,
    scratch: Vec<u8>,
}

impl Program {
    /// With what the journal had.
    pub fn new(borrower: Borrower) -> Program {
        Program { borrower, last_reading: 0, scratch: Vec::new() }
    }

    pub fn borrower(&self) -> &Borrower {
        &self.borrower
    }

    pub fn last_reading(&self) -> u64 {
        self.last_reading
    }

    /// The reading counts where it is not below an earlier one.
    fn note_reading(&mut self, reading: u64) -> Result<(), Refusal> {
        if reading < self.last_reading {
            return Err(Refusal::NoForm);
        }
        self.last_reading = reading;
        Ok(())
    }
}

impl Server for Program {
    fn line(&mut self, line: &[u8], effects: &mut Effects) -> Result<(), Refusal> {
        let mut words = Words::new(line);
        let reading = words.number(u64::MAX).ok_or(Refusal::NoForm)?;
        let Some(word) = words.next() else {
            return self.note_reading(reading);
        };
        if words.at_end() {
            if !lines::hex_decode(word, &mut self.scratch) {
                return Err(Refusal::NoForm);
            }
            self.note_reading(reading)?;
            return self.borrower.hear(&self.scratch, effects);
        }
        let mut scratch = std::mem::take(&mut self.scratch);
        let answer = match read_call(word, &mut words, WriteForm::Whole, &mut scratch).filter(|_| words.at_end()) {
            Some(call) => self.note_reading(reading).and_then(|()| self.borrower.call(reading, call, effects)),
            None => Err(Refusal::NoForm),
        };
        self.scratch = scratch;
        answer
    }
}

/// Opens the journal and serves until the input ends.
pub fn serve(
    terms: Terms,
    number: u8,
    journal: &Path,
    input: impl Read,
    output: impl Write,
) -> Result<(), Failure> {
    let mut borrower = Borrower::new(terms, number);
    let mut journal = JournalFile::open(journal, Owner::Borrower, |record| borrower.take(record))?;
    serve::serve(&mut Program::new(borrower), &mut journal, input, output)
}
