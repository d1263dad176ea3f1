//! A borrower: its parts, its calls, and what it hears.

use crate::clock::Terms;
use crate::effects::{Effects, Refusal, Told};
use crate::journal::Record;
use crate::message::{Kind, Message, PART_BYTES, PartBytes, Place};
use crate::parts::PartTable;

const MAX: u32 = u32::MAX;

/// What a borrower holds of a part.
#[derive(Clone, Copy, PartialEq, Eq, Debug)]
pub enum Hold {
    Nothing,
    /// A copy of this kind, counted from the reading of the ask that it answers.
    Copy { kind: Kind, asked: u64 },
}

/// What a borrower keeps of a part. `bytes` are those of the copy, where one is held.
#[derive(Clone)]
pub struct BorrowerPart {
    pub ask: u32,
    pub write: u32,
    pub asked: u64,
    pub hold: Hold,
    pub bytes: PartBytes,
    /// The numbers in the journal.
    filed_ask: u32,
    filed_write: u32,
}

impl Default for BorrowerPart {
    fn default() -> Self {
        let (ask, write, asked, hold, bytes) = (0, 0, 0, Hold::Nothing, [0; PART_BYTES]);
        BorrowerPart { ask, write, asked, hold, bytes, filed_ask: 0, filed_write: 0 }
    }
}

impl BorrowerPart {
    /// The kind of the copy that is valid now.
    pub fn valid(&self, terms: Terms, now: u64) -> Option<Kind> {
        match self.hold {
            Hold::Copy { kind, asked } if u128::from(now) < u128::from(asked) + u128::from(terms.short) => Some(kind),
            _ => None,
        }
    }

    fn release(&mut self) {
        self.hold = Hold::Nothing;
        self.ask = self.ask.saturating_add(1);
    }

    /// Releases a copy that is no longer valid.
    fn settle(&mut self, terms: Terms, now: u64) {
        if self.hold != Hold::Nothing && self.valid(terms, now).is_none() {
            self.release();
        }
    }

    /// Everything that a call or message can change but the bytes, which change with the hold.
    fn state(&self) -> (u32, u32, u64, Hold) {
        (self.ask, self.write, self.asked, self.hold)
    }

    /// Notes the numbers that the journal has now; answers whether they had to go up.
    fn file_numbers(&mut self) -> bool {
        let passes = self.ask > self.filed_ask || self.write > self.filed_write;
        self.filed_ask = number_to_file(self.ask, self.filed_ask);
        self.filed_write = number_to_file(self.write, self.filed_write);
        passes
    }
}

/// The one in the journal or, where the current one passes it, that rounded up.
fn number_to_file(current: u32, filed: u32) -> u32 {
    if current <= filed { filed } else { current.checked_next_multiple_of(64).unwrap_or(MAX) }
}

/// What a user asks of a borrower.
#[derive(Clone, Copy, Debug)]
pub enum Call<'a> {
    Ask { place: Place, kind: Kind },
    Show { place: Place },
    Write { place: Place, bytes: &'a PartBytes },
    Forget { place: Place },
}

impl Call<'_> {
    pub fn place(&self) -> Place {
        match *self {
            Call::Ask { place, .. } | Call::Show { place } | Call::Write { place, .. } | Call::Forget { place } => place,
        }
    }
}

/// A borrower's memory.
pub struct Borrower {
    terms: Terms,
    number: u8,
    parts: PartTable<BorrowerPart>,
}

impl Borrower {
    /// With an empty journal; its records are taken next.
    pub fn new(terms: Terms, number: u8) -> Borrower {
        Borrower { terms, number, parts: PartTable::new() }
    }

    /// A record of the journal. What it has goes on above the numbers in it.
    pub fn take(&mut self, record: Record) {
        let Record::Numbers { place, ask, write } = record else {
            unreachable!("a borrower's journal has no such record");
        };
        let part = self.parts.touch(place);
        part.filed_ask = ask;
        part.filed_write = write;
        part.write = write;
        part.ask = if ask == 0 { 0 } else { ask.saturating_add(1) };
    }

    pub fn part(&self, place: Place) -> Option<&BorrowerPart> {
        self.parts.get(place)
    }

    /// The parts that were ever used.
    pub fn parts(&self) -> impl Iterator<Item = (Place, &BorrowerPart)> {
        self.parts.iter()
    }

    pub fn call(&mut self, now: u64, call: Call, effects: &mut Effects) -> Result<(), Refusal> {
        let place = call.place();
        let (terms, borrower) = (self.terms, self.number);
        let part = self.parts.touch(place);
        let before = part.state();
        if !matches!(call, Call::Forget { .. }) {
            part.settle(terms, now);
        }
        let answer = match call {
            Call::Ask { kind, .. } => ask(part, terms, now).map(|()| {
                let (number, last_write) = (part.ask, part.write);
                effects.send(Message::Ask { borrower, place, number, kind, last_write });
            }),
            Call::Show { .. } => match part.hold {
                Hold::Nothing => Err(Refusal::NoCopy),
                Hold::Copy { .. } => {
                    effects.show(place, &part.bytes);
                    Ok(())
                }
            },
            Call::Write { bytes, .. } => write(part).map(|()| {
                effects.send(Message::Write { borrower, place, number: part.write, bytes });
            }),
            Call::Forget { .. } => {
                part.release();
                Ok(())
            }
        };
        record_change(part, place, before, effects);
        answer
    }

    /// A message came, as bytes that may be anything.
    pub fn hear(&mut self, bytes: &[u8], effects: &mut Effects) -> Result<(), Refusal> {
        let message = Message::decode(bytes).ok_or(Refusal::NoForm)?;
        let (_, named, place) = message.head();
        if message.is_for_keeper() || named != self.number {
            return Err(Refusal::NoForm);
        }
        let part = self.parts.touch(place);
        let before = part.state();
        match message {
            Message::Loan { number, kind, bytes, .. } => loan(part, number, kind, bytes)?,
            Message::Recall { .. } => {
                effects.send(Message::Back { borrower: named, place, number: part.ask });
                part.release();
            }
            Message::In { number, .. } => effects.told = Some(Told { applied: true, place, number }),
            Message::Void { number, .. } => effects.told = Some(Told { applied: false, place, number }),
            Message::Ask { .. } | Message::Write { .. } | Message::Back { .. } => return Err(Refusal::NoForm),
        }
        record_change(part, place, before, effects);
        Ok(())
    }
}

fn ask(part: &mut BorrowerPart, terms: Terms, now: u64) -> Result<(), Refusal> {
    if part.hold != Hold::Nothing {
        return Err(Refusal::CopyHeld);
    }
    // one release must always have room above the number that is sent
    if part.ask >= MAX - 1 || now.checked_add(terms.short).is_none() {
        return Err(Refusal::NoRoom);
    }
    part.ask += 1;
    part.asked = now;
    Ok(())
}

fn write(part: &mut BorrowerPart) -> Result<(), Refusal> {
    match part.hold {
        Hold::Nothing => Err(Refusal::NoCopy),
        Hold::Copy { kind: Kind::Reading, .. } => Err(Refusal::ForReading),
        Hold::Copy { kind: Kind::Writing, .. } => {
            part.write = part.write.checked_add(1).ok_or(Refusal::NoRoom)?;
            part.release();
            Ok(())
        }
    }
}

fn loan(part: &mut BorrowerPart, number: u32, kind: Kind, bytes: &PartBytes) -> Result<(), Refusal> {
    if part.hold != Hold::Nothing {
        return Err(Refusal::CopyHeld);
    }
    if number != part.ask {
        return Err(Refusal::OtherAsk);
    }
    part.hold = Hold::Copy { kind, asked: part.asked };
    part.bytes = *bytes;
    Ok(())
}

/// Where the part changed and a number passes the one in the journal, the record for it.
fn record_change(part: &mut BorrowerPart, place: Place, before: (u32, u32, u64, Hold), effects: &mut Effects) {
    if part.state() != before && part.file_numbers() {
        let (ask, write) = (part.filed_ask, part.filed_write);
        Record::Numbers { place, ask, write }.encode(&mut effects.record);
    }
}

#[cfg(test)]
mod tests {
    use super::*;

    const PLACE: Place = Place { file: 3, part: 7 };

    #[test]
    fn numbers_are_filed_in_steps_of_64() {
        assert_eq!(number_to_file(1, 0), 64);
        assert_eq!(number_to_file(64, 0), 64);
        assert_eq!(number_to_file(65, 64), 128);
        assert_eq!(number_to_file(3, 64), 64);
        assert_eq!(number_to_file(MAX - 63, 0), MAX - 63);
        assert_eq!(number_to_file(MAX - 62, 0), MAX);
        assert_eq!(number_to_file(MAX, 1), MAX);
    }

    fn answers(borrower: &mut Borrower, now: u64, call: Call) -> (Result<(), Refusal>, Vec<u8>) {
        let mut effects = Effects::default();
        let answer = borrower.call(now, call, &mut effects);
        (answer, effects.record)
    }

    #[test]
    fn a_borrower_goes_on_above_its_journal() {
        let terms = Terms::new(0, 100, 110).unwrap();
        let mut borrower = Borrower::new(terms, 5);
        borrower.take(Record::Numbers { place: PLACE, ask: 64, write: 0 });
        // nothing changed, so nothing is filed, although 65 passes 64
        assert_eq!(answers(&mut borrower, 9, Call::Show { place: PLACE }), (Err(Refusal::NoCopy), vec![]));
        let (answer, record) = answers(&mut borrower, 9, Call::Ask { place: PLACE, kind: Kind::Reading });
        assert_eq!((answer, record), (Ok(()), vec![10, 3, 7, 0, 0, 0, 128, 0, 0, 0, 0]));
        assert_eq!(borrower.part(PLACE).unwrap().ask, 66);
    }

    #[test]
    fn asks_end_one_below_the_last_number() {
        let terms = Terms::new(0, 100, 110).unwrap();
        let mut borrower = Borrower::new(terms, 5);
        borrower.take(Record::Numbers { place: PLACE, ask: MAX - 3, write: MAX });
        let ask = Call::Ask { place: PLACE, kind: Kind::Writing };
        assert_eq!(answers(&mut borrower, 9, ask).0, Ok(()));
        assert_eq!(borrower.part(PLACE).unwrap().ask, MAX - 1);
        assert_eq!(answers(&mut borrower, 9, ask).0, Err(Refusal::NoRoom));
        assert_eq!(answers(&mut borrower, 9, Call::Forget { place: PLACE }).0, Ok(()));
        assert_eq!(answers(&mut borrower, 9, Call::Forget { place: PLACE }), (Ok(()), vec![]));
        assert_eq!(borrower.part(PLACE).unwrap().ask, MAX);
    }
}
