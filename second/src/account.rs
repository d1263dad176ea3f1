//! The account that the kill test keeps of a keeper and tablets that run as processes.
//!
//! Lines given to the processes are numbered through, and each counts as done at its number,
//! although the process comes to it later: a process judges by the reading in the line, which
//! is the one of that moment. So what a show must give is the last write that a line with a
//! smaller number applied; it is judged once the keeper has answered all of those.

use crate::journal::{self, Owner, Record};
use crate::message::{Message, PART_BYTES, PartBytes, Place};
use std::collections::{HashMap, HashSet};

/// One write of a borrower.
pub type WriteName = (u8, Place, u32);

/// A write that was applied, by one of the lines from `from` to `to`.
struct Applied {
    from: u64,
    to: u64,
    bytes: Box<PartBytes>,
}

struct Shown {
    line: u64,
    place: Place,
    bytes: Vec<u8>,
}

#[derive(Default)]
pub struct Account {
    sent: HashMap<WriteName, Box<PartBytes>>,
    last_ask: HashMap<(u8, Place), u32>,
    last_write: HashMap<(u8, Place), u32>,
    /// The whole records of the keeper's file, as far as they were read.
    file: Vec<u8>,
    /// The writes in it, and how many of them are put down to a line already.
    in_file: Vec<WriteName>,
    in_file_names: HashSet<WriteName>,
    counted: usize,
    applied: HashMap<Place, Vec<Applied>>,
    applied_names: HashSet<WriteName>,
    told_in: HashSet<WriteName>,
    called_void: HashSet<WriteName>,
    shown: Vec<Shown>,
    pub shows_judged: u64,
}

type Judged = Result<(), String>;

fn broken(text: String) -> Judged {
    Err(text)
}

impl Account {
    pub fn writes_applied(&self) -> usize {
        self.applied_names.len()
    }

    pub fn writes_told(&self) -> usize {
        self.told_in.len()
    }

    pub fn writes_void(&self) -> usize {
        self.called_void.len()
    }

    /// A tablet sent a message. Its numbers never come twice, through any kills.
    pub fn tablet_sent(&mut self, message: &Message) -> Judged {
        match *message {
            Message::Ask { borrower, place, number, last_write, .. } => {
                let last = self.last_ask.insert((borrower, place), number);
                if last.is_some_and(|last| last >= number) {
                    return broken(format!("ask number {number} of {borrower} {place:?} after {last:?}"));
                }
                let written = self.last_write.get(&(borrower, place)).copied().unwrap_or(0);
                if last_write < written {
                    return broken(format!("an ask of {borrower} {place:?} names write {last_write} after {written}"));
                }
            }
            Message::Write { borrower, place, number, bytes } => {
                let last = self.last_write.insert((borrower, place), number);
                if last.is_some_and(|last| last >= number) {
                    return broken(format!("write number {number} of {borrower} {place:?} after {last:?}"));
                }
                self.sent.insert((borrower, place, number), Box::new(*bytes));
            }
            _ => {}
        }
        Ok(())
    }

    /// A tablet was told of one of its writes.
    pub fn tablet_told(&mut self, name: WriteName, applied: bool) -> Judged {
        if applied != self.applied_names.contains(&name) {
            return broken(format!("told in: {applied} of {name:?}, which is not so"));
        }
        if applied {
            self.told_in.insert(name);
        }
        Ok(())
    }

    /// A tablet showed a copy, in answer to the line of this number.
    pub fn tablet_showed(&mut self, line: u64, place: Place, bytes: Vec<u8>) {
        self.shown.push(Shown { line, place, bytes });
    }

    /// Reads the keeper's file: what was read before must still be there, and every write in
    /// it must have been sent, and stand there once.
    pub fn read_file(&mut self, file: &[u8]) -> Judged {
        if !file.starts_with(&self.file) {
            return broken("the keeper's file does not begin with what was in it before".into());
        }
        let mut new = Vec::new();
        let whole = journal::replay(Owner::Keeper, &file[self.file.len()..], |record| {
            if let Record::Written { borrower, place, number, bytes } = record {
                new.push(((borrower, place, number), Box::new(*bytes)));
            }
        });
        let whole = whole.map_err(|error| format!("the keeper's file: {error}"))? as usize;
        self.file.extend_from_slice(&file[self.file.len()..][..whole]);
        for (name, bytes) in new {
            if self.sent.get(&name).is_none_or(|sent| *sent != bytes) {
                return broken(format!("in the keeper's file, but never sent: {name:?}"));
            }
            if !self.in_file_names.insert(name) {
                return broken(format!("in the keeper's file twice: {name:?}"));
            }
            if self.called_void.contains(&name) {
                return broken(format!("in the keeper's file, but called void: {name:?}"));
            }
            self.in_file.push(name);
        }
        Ok(())
    }

    /// The next write in the file that is not put down to a line yet.
    pub fn next_in_file(&self) -> Option<WriteName> {
        self.in_file.get(self.counted).copied()
    }

    /// Puts the next write in the file down to one of these lines.
    pub fn apply_next(&mut self, from: u64, to: u64) -> Judged {
        let Some(name) = self.next_in_file() else {
            return broken("a write is answered as applied, and is not in the keeper's file".into());
        };
        self.counted += 1;
        self.applied_names.insert(name);
        let bytes = self.sent[&name].clone();
        self.applied.entry(name.1).or_default().push(Applied { from, to, bytes });
        Ok(())
    }

    /// The keeper answered a line completely: what it sent, and whether the line was done.
    pub fn keeper_answered(&mut self, line: u64, message: Option<Message>, sent: &[Vec<u8>], done: bool) -> Judged {
        let named = match message {
            Some(Message::Write { borrower, place, number, .. }) => Some((borrower, place, number)),
            _ => None,
        };
        if let (Some(name), true) = (named, done) {
            if self.next_in_file() != Some(name) {
                return broken(format!("{name:?} is answered as applied, and is not the next in the keeper's file"));
            }
            self.apply_next(line, line)?;
        }
        for bytes in sent {
            match Message::decode(bytes) {
                Some(message) => self.keeper_sent(line, &message)?,
                None => return broken(format!("the keeper sent what is no message: {bytes:?}")),
            }
        }
        Ok(())
    }

    /// The keeper sent a message in answer to this line, which is counted already.
    pub fn keeper_sent(&mut self, line: u64, message: &Message) -> Judged {
        match *message {
            Message::In { borrower, place, number } => {
                if !self.applied_names.contains(&(borrower, place, number)) {
                    return broken(format!("in for {:?}, which is not applied", (borrower, place, number)));
                }
            }
            Message::Void { borrower, place, number } => {
                if self.in_file_names.contains(&(borrower, place, number)) {
                    return broken(format!("void for {:?}, which is applied", (borrower, place, number)));
                }
                self.called_void.insert((borrower, place, number));
            }
            Message::Loan { place, bytes, .. } => {
                if !self.may_show(line, place, bytes) {
                    return broken(format!("a loan of {place:?} that is not the last write"));
                }
            }
            _ => {}
        }
        Ok(())
    }

    /// Whether these are the bytes that the part had at the line of this number.
    fn may_show(&self, line: u64, place: Place, bytes: &[u8]) -> bool {
        let writes = self.applied.get(&place).map_or(&[][..], |writes| &writes[..]);
        for write in writes.iter().rev() {
            if write.from < line && write.bytes[..] == *bytes {
                return true;
            }
            if write.to < line {
                return false;
            }
        }
        *bytes == [0; PART_BYTES]
    }

    /// Judges the shows before this line: the keeper has answered all lines up to it.
    pub fn judge_shows(&mut self, before: u64) -> Judged {
        let (now, later) = std::mem::take(&mut self.shown).into_iter().partition(|shown: &Shown| shown.line < before);
        self.shown = later;
        let now: Vec<Shown> = now;
        for shown in now {
            self.shows_judged += 1;
            if !self.may_show(shown.line, shown.place, &shown.bytes) {
                let (line, place, bytes) = (shown.line, shown.place, &shown.bytes[..8]);
                return broken(format!("line {line} showed {place:?} as {bytes:?}..., which is not the last write"));
            }
        }
        Ok(())
    }

    /// All that was ever told as in stands in the file, and all of the file is counted.
    pub fn judge_end(&self) -> Judged {
        if self.counted != self.in_file.len() {
            return broken("there are writes in the keeper's file that no line can have applied".into());
        }
        match self.told_in.iter().find(|name| !self.in_file_names.contains(*name)) {
            Some(name) => broken(format!("told as in, and lost: {name:?}")),
            None => Ok(()),
        }
    }

    /// What the part is now.
    pub fn bytes_now(&self, place: Place) -> PartBytes {
        let last = self.applied.get(&place).and_then(|writes| writes.last());
        last.map_or([0; PART_BYTES], |write| *write.bytes)
    }
}
