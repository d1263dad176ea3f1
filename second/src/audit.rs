//! The rehearsal's own account of what was promised.
//!
//! It goes by what leaves and by what stands in the keeper's file, not by what the keeper and
//! the borrowers believe, and compares the two after every line.

use crate::borrower::Borrower;
use crate::clock::Terms;
use crate::journal::{self, Owner, Record};
use crate::keeper::{Kept, KeptPart};
use crate::message::{Kind, Message, PART_BYTES, PartBytes, Place};
use crate::parts::PartTable;
use std::collections::{HashMap, HashSet};

/// One write of a borrower.
type WriteName = (u8, Place, u32);

/// What a promise that was broken says.
#[derive(Debug)]
pub struct Violation(pub String);

/// A borrower that is up, and what its clock shows.
pub struct Seen<'a> {
    pub number: usize,
    pub now: u64,
    pub borrower: &'a Borrower,
}

/// The writes that were sent, those that were applied, and those that were called void.
#[derive(Default)]
pub struct Audit {
    sent: HashMap<WriteName, Box<PartBytes>>,
    applied: HashSet<WriteName>,
    called_void: HashSet<WriteName>,
    /// What the records of the keeper's file make, read so far.
    replayed: Kept,
    read: usize,
}

fn broken<T>(text: String) -> Result<T, Violation> {
    Err(Violation(text))
}

impl Audit {
    /// Reads the whole records that were appended to the keeper's file since.
    pub fn keeper_file(&mut self, file: &[u8]) -> Result<(), Violation> {
        if file.len() < self.read {
            return broken("the keeper's file lost a whole record".into());
        }
        let new = &file[self.read..];
        if new.is_empty() {
            return Ok(());
        }
        let mut result = Ok(());
        let whole = journal::replay(Owner::Keeper, new, |record| {
            if result.is_ok() {
                result = self.record(record);
            }
        });
        result?;
        match whole {
            Ok(whole) => self.read += whole as usize,
            Err(error) => return broken(format!("the keeper's file: {error}")),
        }
        Ok(())
    }

    fn record(&mut self, record: Record) -> Result<(), Violation> {
        if let Record::Written { borrower, place, number, bytes } = record {
            let name = (borrower, place, number);
            if !self.applied.insert(name) {
                return broken(format!("applied twice: {name:?}"));
            }
            if self.called_void.contains(&name) {
                return broken(format!("applied after it was called void: {name:?}"));
            }
            if self.sent.get(&name).is_none_or(|sent| **sent != *bytes) {
                return broken(format!("applied, but no such write was sent: {name:?}"));
            }
        }
        self.replayed.take(record);
        Ok(())
    }

    /// A message is sent; the keeper's file was read before.
    pub fn message(&mut self, message: &Message) -> Result<(), Violation> {
        match *message {
            Message::Write { borrower, place, number, bytes } => {
                let name = (borrower, place, number);
                if self.sent.insert(name, Box::new(*bytes)).is_some() {
                    return broken(format!("two writes have the same name: {name:?}"));
                }
            }
            Message::In { borrower, place, number } => {
                if !self.applied.contains(&(borrower, place, number)) {
                    return broken(format!("answered as in, but not applied: {:?}", (borrower, place, number)));
                }
            }
            Message::Void { borrower, place, number } => {
                if self.applied.contains(&(borrower, place, number)) {
                    return broken(format!("answered as void, but applied: {:?}", (borrower, place, number)));
                }
                self.called_void.insert((borrower, place, number));
            }
            _ => {}
        }
        Ok(())
    }

    /// Compares what the keeper has, and what the borrowers may show, with the account.
    pub fn check(&self, terms: Terms, keeper: &Kept, borrowers: &[Seen]) -> Result<(), Violation> {
        self.check_keeper(keeper)?;
        let mut holders: PartTable<Holders> = PartTable::new();
        for seen in borrowers {
            for (place, part) in seen.borrower.parts() {
                let Some(kind) = part.valid(terms, seen.now) else { continue };
                if part.bytes != *bytes_of(self.replayed.part(place)) {
                    return broken(format!("borrower {} may show {place:?}, which is not the last write", seen.number));
                }
                holders.touch(place).add(kind);
            }
        }
        match holders.iter().find(|(_, holders)| holders.writers > 0 && holders.all > 1) {
            Some((place, _)) => broken(format!("a writer and another hold valid copies of {place:?}")),
            None => Ok(()),
        }
    }

    /// What the keeper has is what its file says, for every part that either knows of.
    fn check_keeper(&self, keeper: &Kept) -> Result<(), Violation> {
        let ours = self.replayed.parts().map(|(place, _)| place);
        let its = keeper.parts().map(|(place, _)| place);
        let untouched = KeptPart::default();
        for place in ours.chain(its) {
            let ours = self.replayed.part(place).unwrap_or(&untouched);
            let its = keeper.part(place).unwrap_or(&untouched);
            if ours.bytes != its.bytes || ours.applied != its.applied || ours.void != its.void {
                return broken(format!("the keeper's memory of {place:?} is not what its file says"));
            }
        }
        Ok(())
    }
}

/// How many borrowers hold valid copies of a part, and how many of them for writing.
#[derive(Default)]
struct Holders {
    all: u32,
    writers: u32,
}

impl Holders {
    fn add(&mut self, kind: Kind) {
        self.all += 1;
        self.writers += u32::from(kind == Kind::Writing);
    }
}

/// The part's bytes, zeros where it was never written.
pub fn bytes_of(part: Option<&KeptPart>) -> &PartBytes {
    const ZEROS: &PartBytes = &[0; PART_BYTES];
    part.map_or(ZEROS, |part| &part.bytes)
}

#[cfg(test)]
mod tests {
    use super::*;

    const PLACE: Place = Place { file: 3, part: 7 };
    const BYTES: &PartBytes = &[5; PART_BYTES];

    fn written(number: u32) -> Vec<u8> {
        let mut file = Vec::new();
        Record::Written { borrower: 1, place: PLACE, number, bytes: BYTES }.encode(&mut file);
        file
    }

    fn after_write(number: u32) -> Audit {
        let mut audit = Audit::default();
        audit.message(&Message::Write { borrower: 1, place: PLACE, number, bytes: BYTES }).unwrap();
        audit
    }

    #[test]
    fn a_write_is_applied_once_and_only_if_sent() {
        assert!(Audit::default().keeper_file(&written(1)).is_err());
        assert!(after_write(2).keeper_file(&written(1)).is_err());
        assert!(after_write(1).keeper_file(&written(1)).is_ok());
        assert!(after_write(1).keeper_file(&[written(1), written(1)].concat()).is_err());
    }

    #[test]
    fn in_and_void_must_be_true() {
        let named_in = Message::In { borrower: 1, place: PLACE, number: 1 };
        let named_void = Message::Void { borrower: 1, place: PLACE, number: 1 };
        assert!(after_write(1).message(&named_in).is_err());
        let mut audit = after_write(1);
        audit.keeper_file(&written(1)).unwrap();
        assert!(audit.message(&named_in).is_ok());
        assert!(audit.message(&named_void).is_err());
        let mut audit = after_write(1);
        audit.message(&named_void).unwrap();
        assert!(audit.keeper_file(&written(1)).is_err());
    }

    #[test]
    fn memory_must_be_what_the_file_says() {
        let terms = Terms::new(0, 100, 110).unwrap();
        let mut audit = after_write(1);
        audit.keeper_file(&written(1)[..1031]).unwrap();
        assert!(audit.check(terms, &Kept::default(), &[]).is_ok());
        audit.keeper_file(&written(1)).unwrap();
        assert!(audit.check(terms, &Kept::default(), &[]).is_err());
        assert!(audit.keeper_file(&[]).is_err());
    }
}
