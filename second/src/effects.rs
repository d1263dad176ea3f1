//! What a call or a message brings about besides what it changes in memory.

use crate::message::{Message, PartBytes, Place};

/// Why something is refused; the numbers are those of the rules.
#[derive(Clone, Copy, PartialEq, Eq, Debug)]
pub enum Refusal {
    NoForm = 1,
    NoCopy = 2,
    ForReading = 3,
    CopyHeld = 4,
    OtherAsk = 5,
    Grace = 6,
    Barred = 7,
    NoLease = 8,
    NoRoom = 9,
}

impl Refusal {
    pub fn number(self) -> u8 {
        self as u8
    }
}

/// What a borrower is told of one of its writes.
#[derive(Clone, Copy, PartialEq, Eq, Debug)]
pub struct Told {
    pub applied: bool,
    pub place: Place,
    pub number: u32,
}

/// The record to append, the messages to send, what is shown and what the writer is told.
///
/// One value is kept and cleared for each line, so that a line costs no allocation.
#[derive(Default)]
pub struct Effects {
    /// Bytes to append to the journal before anything is sent; empty where there are none.
    pub record: Vec<u8>,
    pub told: Option<Told>,
    /// The part whose copy is shown, and its bytes.
    shown: Option<Place>,
    shown_bytes: Vec<u8>,
    messages: Vec<u8>,
    ends: Vec<usize>,
}

impl Effects {
    pub fn clear(&mut self) {
        self.record.clear();
        self.told = None;
        self.shown = None;
        self.messages.clear();
        self.ends.clear();
    }

    pub fn send(&mut self, message: Message) {
        message.encode(&mut self.messages);
        self.ends.push(self.messages.len());
    }

    pub fn show(&mut self, place: Place, bytes: &PartBytes) {
        self.shown = Some(place);
        self.shown_bytes.clear();
        self.shown_bytes.extend_from_slice(bytes);
    }

    pub fn shown(&self) -> Option<(Place, &[u8])> {
        self.shown.map(|place| (place, &self.shown_bytes[..]))
    }

    /// The bytes of each message, in the order of sending.
    pub fn messages(&self) -> impl Iterator<Item = &[u8]> {
        let starts = std::iter::once(0).chain(self.ends.iter().copied());
        starts.zip(&self.ends).map(|(start, &end)| &self.messages[start..end])
    }
}
