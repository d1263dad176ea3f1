//! What happened in the scripts that were played: it shows whether they reach everything.

use crate::journal::{NUMBERS_BYTES, VOIDED_BYTES, WRITTEN_BYTES};

/// How much of a record was left by a stop or a cut.
#[derive(Clone, Copy, PartialEq, Eq, Debug)]
pub enum TornAt {
    /// Nothing was being appended.
    NoRecord,
    /// None of its bytes.
    Nothing,
    /// Within the first byte, the borrower, the file and the part.
    Head,
    /// Within the numbers and the bytes.
    Body,
    /// All of it, exactly.
    Whole,
    /// More was to stay than there was.
    Beyond,
}

impl TornAt {
    pub fn of(first: u8, record: usize, kept: u64) -> TornAt {
        let head = if first == 10 { 3 } else { 4 };
        match kept {
            _ if record == 0 => TornAt::NoRecord,
            0 => TornAt::Nothing,
            kept if kept < head => TornAt::Head,
            kept if kept < record as u64 => TornAt::Body,
            kept if kept == record as u64 => TornAt::Whole,
            _ => TornAt::Beyond,
        }
    }

    /// Where the journal's bytes end.
    pub fn end_of(journal: &[u8]) -> TornAt {
        let mut rest = journal;
        while let Some(&first) = rest.first() {
            let length = match first {
                8 => WRITTEN_BYTES,
                9 => VOIDED_BYTES,
                10 => NUMBERS_BYTES,
                _ => return TornAt::NoRecord,
            };
            if rest.len() < length {
                return TornAt::of(first, length, rest.len() as u64);
            }
            rest = &rest[length..];
        }
        TornAt::Whole
    }
}

const MESSAGES: [&str; 8] = ["?", "ask", "loan", "write", "in", "void", "recall", "back"];
const TORN: [&str; 6] = ["no record", "nothing", "head", "body", "whole", "beyond"];

#[derive(Clone, Default, Debug)]
pub struct Stats {
    pub scripts: u64,
    pub sessions: u64,
    pub lines: u64,
    pub done: u64,
    pub refused: [u64; 10],
    pub sent: [u64; 8],
    pub told_in: u64,
    pub told_void: u64,
    pub shown: u64,
    pub down: u64,
    pub torn: [u64; 6],
    /// Programs that ended with status 1 because of what was in their journal.
    pub journals_refused: u64,
}

impl Stats {
    pub fn tear(&mut self, torn: TornAt) {
        self.torn[torn as usize] += 1;
    }

    /// Counts the lines that a program printed.
    pub fn count(&mut self, printed: &[u8]) {
        for line in printed.split(|&byte| byte == b'\n') {
            self.count_line(line);
        }
    }

    fn count_line(&mut self, line: &[u8]) {
        let mut words = line.split(|&byte| byte == b' ');
        match words.next().unwrap_or(b"") {
            b"done" => self.done += 1,
            b"refused" => {
                let digit = words.next().and_then(|word| word.first()).map_or(0, |digit| digit - b'0');
                self.refused[digit as usize % 10] += 1;
            }
            b"send" => {
                let first = words.next().and_then(|hex| hex.get(1)).map_or(0, |digit| digit - b'0');
                self.sent[first as usize % 8] += 1;
            }
            b"sent" => {
                let name = words.nth(1).unwrap_or(b"");
                let first = MESSAGES.iter().position(|message| message.as_bytes() == name);
                self.sent[first.unwrap_or(0)] += 1;
            }
            b"in" => self.told_in += 1,
            b"void" => self.told_void += 1,
            b"told" if words.next() == Some(b"in") => self.told_in += 1,
            b"told" => self.told_void += 1,
            b"show" | b"shown" => self.shown += 1,
            b"down" => self.down += 1,
            _ => {}
        }
    }

    pub fn add(&mut self, other: &Stats) {
        self.scripts += other.scripts;
        self.sessions += other.sessions;
        self.lines += other.lines;
        self.done += other.done;
        self.told_in += other.told_in;
        self.told_void += other.told_void;
        self.shown += other.shown;
        self.down += other.down;
        self.journals_refused += other.journals_refused;
        add_all(&mut self.refused, &other.refused);
        add_all(&mut self.sent, &other.sent);
        add_all(&mut self.torn, &other.torn);
    }
}

fn add_all(sums: &mut [u64], counts: &[u64]) {
    for (sum, count) in sums.iter_mut().zip(counts) {
        *sum += count;
    }
}

impl std::fmt::Display for Stats {
    fn fmt(&self, f: &mut std::fmt::Formatter) -> std::fmt::Result {
        write!(f, "{} scripts, {} sessions, {} lines; done {}", self.scripts, self.sessions, self.lines, self.done)?;
        for (number, count) in self.refused.iter().enumerate().skip(1) {
            write!(f, ", refused {number}: {count}")?;
        }
        write!(f, "; sent")?;
        for (name, count) in MESSAGES.iter().zip(self.sent).skip(1) {
            write!(f, " {name} {count}")?;
        }
        write!(f, "; told in {}, told void {}, shown {}, down {}", self.told_in, self.told_void, self.shown, self.down)?;
        write!(f, "; torn")?;
        for (name, count) in TORN.iter().zip(self.torn) {
            write!(f, " {name} {count}")?;
        }
        write!(f, "; journals refused {}", self.journals_refused)
    }
}
