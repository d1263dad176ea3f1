//! The keeper: what it keeps, its leases, and what it answers.

use crate::clock::Terms;
use crate::effects::{Effects, Refusal};
use crate::journal::{JournalFile, Owner, Record};
use crate::lines::{self, Words};
use crate::message::{BORROWERS, Kind, Message, PART_BYTES, PartBytes, Place};
use crate::parts::PartTable;
use crate::serve::{self, Failure, Server};
use std::io::{Read, Write};
use std::path::Path;

/// Not more leases than this run at a time.
pub const MOST_LEASES: usize = 4096;

/// What the keeper has of one part.
pub struct KeptPart {
    pub bytes: PartBytes,
    /// For each borrower the number of the last write applied.
    pub applied: [u32; BORROWERS],
    /// For each borrower the number up to which writes are void.
    pub void: [u32; BORROWERS],
}

impl Default for KeptPart {
    fn default() -> Self {
        KeptPart { bytes: [0; PART_BYTES], applied: [0; BORROWERS], void: [0; BORROWERS] }
    }
}

/// What the journal replays to: everything that outlives a stop.
#[derive(Default)]
pub struct Kept {
    parts: PartTable<KeptPart>,
}

impl Kept {
    pub fn take(&mut self, record: Record) {
        match record {
            Record::Written { borrower, place, number, bytes } => {
                let part = self.parts.touch(place);
                part.bytes = *bytes;
                part.applied[borrower as usize] = number;
            }
            Record::Voided { borrower, place, number } => {
                self.parts.touch(place).void[borrower as usize] = number;
            }
            Record::Numbers { .. } => unreachable!("the keeper's journal has no such record"),
        }
    }

    pub fn part(&self, place: Place) -> Option<&KeptPart> {
        self.parts.get(place)
    }

    /// The parts that were ever written, or asked for.
    pub fn parts(&self) -> impl Iterator<Item = (Place, &KeptPart)> {
        self.parts.iter()
    }
}

/// A lease; it runs while the clock is below `until`.
#[derive(Clone, Copy, Debug)]
pub struct Lease {
    pub borrower: u8,
    pub kind: Kind,
    pub place: Place,
    pub number: u32,
    pub until: u64,
}

impl Lease {
    fn runs(&self, now: u64) -> bool {
        now < self.until
    }
}

/// The keeper's memory.
pub struct Keeper {
    terms: Terms,
    kept: Kept,
    leases: Vec<Lease>,
    grace_end: u64,
}

impl Keeper {
    /// With what the journal had, and not up yet.
    pub fn new(terms: Terms, kept: Kept) -> Keeper {
        Keeper { terms, kept, leases: Vec::new(), grace_end: u64::MAX }
    }

    /// Comes up, where the clock has room left.
    pub fn come_up(&mut self, now: u64) -> Result<(), Refusal> {
        self.grace_end = now.checked_add(self.terms.long).ok_or(Refusal::NoRoom)?;
        Ok(())
    }

    pub fn kept(&self) -> &Kept {
        &self.kept
    }

    /// Who has which lease, for which ask and until when, those that no longer run included.
    pub fn leases(&self) -> &[Lease] {
        &self.leases
    }

    /// The reading at which the grace period is over.
    pub fn grace_end(&self) -> u64 {
        self.grace_end
    }

    /// A message came, as bytes that may be anything.
    pub fn hear(&mut self, now: u64, bytes: &[u8], effects: &mut Effects) -> Result<(), Refusal> {
        match Message::decode(bytes) {
            Some(Message::Ask { borrower, place, number, kind, last_write }) => {
                let lease = Lease { borrower, kind, place, number, until: 0 };
                self.ask(now, lease, last_write, effects)
            }
            Some(Message::Write { borrower, place, number, bytes }) => {
                self.write(now, borrower, place, number, bytes, effects)
            }
            Some(Message::Back { borrower, place, number }) => {
                self.leases.retain(|l| !(l.borrower == borrower && l.place == place && l.number <= number));
                Ok(())
            }
            _ => Err(Refusal::NoForm),
        }
    }

    fn ask(&mut self, now: u64, mut lease: Lease, last_write: u32, effects: &mut Effects) -> Result<(), Refusal> {
        if now < self.grace_end {
            return Err(Refusal::Grace);
        }
        let Lease { borrower, place, number, kind, .. } = lease;
        if self.recall_those_in_the_way(now, &lease, effects) {
            return Err(Refusal::Barred);
        }
        let running = self.leases.iter().filter(|l| l.runs(now)).count();
        let until = now.checked_add(self.terms.long).ok_or(Refusal::NoRoom)?;
        if running >= MOST_LEASES {
            return Err(Refusal::NoRoom);
        }
        self.leases.retain(|l| l.runs(now));
        lease.until = until;
        self.leases.push(lease);
        let part = self.kept.parts.touch(place);
        let void = &mut part.void[borrower as usize];
        // the borrower has given up on its writes so far by asking again: those that did not
        // come in until now must not come in later
        if last_write > part.applied[borrower as usize] && last_write > *void {
            *void = last_write;
            Record::Voided { borrower, place, number: last_write }.encode(&mut effects.record);
        }
        effects.send(Message::Loan { borrower, place, number, kind, bytes: &part.bytes });
        Ok(())
    }

    /// Sends a recall to each other borrower whose lease bars the one asked for, by rising
    /// number; answers whether there was any.
    fn recall_those_in_the_way(&self, now: u64, asked: &Lease, effects: &mut Effects) -> bool {
        let mut in_the_way = 0u32;
        for lease in self.leases.iter().filter(|l| l.place == asked.place && l.borrower != asked.borrower) {
            let one_writes = lease.kind == Kind::Writing || asked.kind == Kind::Writing;
            if one_writes && lease.runs(now) {
                in_the_way |= 1 << lease.borrower;
            }
        }
        for borrower in (0..BORROWERS as u8).filter(|b| in_the_way & 1 << b != 0) {
            effects.send(Message::Recall { borrower, place: asked.place });
        }
        in_the_way != 0
    }

    fn write(
        &mut self,
        now: u64,
        borrower: u8,
        place: Place,
        number: u32,
        bytes: &PartBytes,
        effects: &mut Effects,
    ) -> Result<(), Refusal> {
        if now < self.grace_end {
            return Err(Refusal::Grace);
        }
        let part = self.kept.parts.touch(place);
        let applied = &mut part.applied[borrower as usize];
        if number <= *applied {
            if number == *applied && number != 0 {
                effects.send(Message::In { borrower, place, number });
            }
            return Err(Refusal::NoLease);
        }
        if number <= part.void[borrower as usize] {
            effects.send(Message::Void { borrower, place, number });
            return Err(Refusal::NoLease);
        }
        let is_ours = |l: &Lease| l.borrower == borrower && l.place == place && l.kind == Kind::Writing;
        if !self.leases.iter().any(|l| is_ours(l) && l.runs(now)) {
            return Err(Refusal::NoLease);
        }
        part.bytes = *bytes;
        *applied = number;
        Record::Written { borrower, place, number, bytes }.encode(&mut effects.record);
        effects.send(Message::In { borrower, place, number });
        Ok(())
    }
}

/// The keeper as a program: one line after another.
pub struct Program {
    keeper: Keeper,
    /// It comes up at the first reading.
    is_up: bool,
    last_reading: u64,
    message: Vec<u8>,
}

impl Program {
    /// With what the journal had.
    pub fn new(terms: Terms, kept: Kept) -> Program {
        Program { keeper: Keeper::new(terms, kept), is_up: false, last_reading: 0, message: Vec::new() }
    }

    pub fn keeper(&self) -> &Keeper {
        &self.keeper
    }

    pub fn last_reading(&self) -> u64 {
        self.last_reading
    }
}

impl Server for Program {
    fn line(&mut self, line: &[u8], effects: &mut Effects) -> Result<(), Refusal> {
        let mut words = Words::new(line);
        let reading = words.number(u64::MAX).ok_or(Refusal::NoForm)?;
        let message = words.next();
        if !words.at_end() || message.is_some_and(|word| !lines::hex_decode(word, &mut self.message)) {
            return Err(Refusal::NoForm);
        }
        if reading < self.last_reading {
            return Err(Refusal::NoForm);
        }
        self.last_reading = reading;
        if !self.is_up {
            self.keeper.come_up(reading)?;
            self.is_up = true;
        }
        match message {
            Some(_) => self.keeper.hear(reading, &self.message, effects),
            None => Ok(()),
        }
    }
}

/// Opens the journal and serves until the input ends.
pub fn serve(terms: Terms, journal: &Path, input: impl Read, output: impl Write) -> Result<(), Failure> {
    let mut kept = Kept::default();
    let mut journal = JournalFile::open(journal, Owner::Keeper, |record| kept.take(record))?;
    serve::serve(&mut Program::new(terms, kept), &mut journal, input, output)
}

#[cfg(test)]
mod tests {
    use super::*;

    const PLACE: Place = Place { file: 3, part: 7 };

    fn hear(keeper: &mut Keeper, now: u64, message: Message) -> (Result<(), Refusal>, Vec<Vec<u8>>) {
        let (mut bytes, mut effects) = (Vec::new(), Effects::default());
        message.encode(&mut bytes);
        let answer = keeper.hear(now, &bytes, &mut effects);
        (answer, effects.messages().map(<[u8]>::to_vec).collect())
    }

    fn ask(borrower: u8, number: u32, kind: Kind) -> Message<'static> {
        Message::Ask { borrower, place: PLACE, number, kind, last_write: 0 }
    }

    #[test]
    fn a_lease_bars_others_until_it_runs_out() {
        let terms = Terms::new(0, 100, 110).unwrap();
        let mut keeper = Keeper::new(terms, Kept::default());
        assert_eq!(keeper.come_up(u64::MAX - 109), Err(Refusal::NoRoom));
        keeper.come_up(0).unwrap();
        assert_eq!(hear(&mut keeper, 109, ask(0, 1, Kind::Writing)).0, Err(Refusal::Grace));
        assert_eq!(hear(&mut keeper, 110, ask(0, 1, Kind::Writing)).0, Ok(()));
        let barred = hear(&mut keeper, 219, ask(1, 1, Kind::Reading));
        assert_eq!(barred, (Err(Refusal::Barred), vec![vec![6, 0, 3, 7]]));
        assert_eq!(hear(&mut keeper, 220, ask(1, 1, Kind::Reading)).0, Ok(()));
    }

    #[test]
    fn not_more_leases_than_fit() {
        let terms = Terms::new(0, 100, 110).unwrap();
        let mut keeper = Keeper::new(terms, Kept::default());
        keeper.come_up(0).unwrap();
        for number in 0..MOST_LEASES as u32 {
            assert_eq!(hear(&mut keeper, 110, ask(0, number, Kind::Reading)).0, Ok(()));
        }
        assert_eq!(hear(&mut keeper, 219, ask(0, 1, Kind::Reading)).0, Err(Refusal::NoRoom));
        assert_eq!(hear(&mut keeper, 220, ask(0, 1, Kind::Reading)).0, Ok(()));
    }
}
