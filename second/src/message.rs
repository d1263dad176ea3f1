//! The seven messages, as bytes and as values.

/// Bytes of one part.
pub const PART_BYTES: usize = 1024;
/// Borrowers are numbered below this.
pub const BORROWERS: usize = 32;
/// Files are numbered below this.
pub const FILES: usize = 64;
/// Parts of one file.
pub const PARTS: usize = 256;
/// Bytes of the longest message, a loan.
pub const LONGEST: usize = 9 + PART_BYTES;

pub type PartBytes = [u8; PART_BYTES];

/// Which part of which file.
#[derive(Clone, Copy, PartialEq, Eq, PartialOrd, Ord, Hash, Debug)]
pub struct Place {
    pub file: u8,
    pub part: u8,
}

impl Place {
    /// Where the part stands when all parts of all files are counted through.
    pub fn index(self) -> usize {
        self.file as usize * PARTS + self.part as usize
    }
}

/// What a lease is for.
#[derive(Clone, Copy, PartialEq, Eq, Debug)]
pub enum Kind {
    Reading,
    Writing,
}

impl Kind {
    pub fn number(self) -> u8 {
        match self {
            Kind::Reading => 0,
            Kind::Writing => 1,
        }
    }

    pub fn from_number(number: u64) -> Option<Kind> {
        match number {
            0 => Some(Kind::Reading),
            1 => Some(Kind::Writing),
            _ => None,
        }
    }
}

/// A message; the bytes of a part are borrowed from wherever they stand.
#[derive(Clone, Copy, PartialEq, Eq, Debug)]
pub enum Message<'a> {
    Ask { borrower: u8, place: Place, number: u32, kind: Kind, last_write: u32 },
    Loan { borrower: u8, place: Place, number: u32, kind: Kind, bytes: &'a PartBytes },
    Write { borrower: u8, place: Place, number: u32, bytes: &'a PartBytes },
    In { borrower: u8, place: Place, number: u32 },
    Void { borrower: u8, place: Place, number: u32 },
    Recall { borrower: u8, place: Place },
    Back { borrower: u8, place: Place, number: u32 },
}

impl<'a> Message<'a> {
    /// The message that these bytes are, or nothing where they are none.
    pub fn decode(bytes: &'a [u8]) -> Option<Message<'a>> {
        let (&first, _) = bytes.split_first()?;
        if bytes.len() != length(first)? {
            return None;
        }
        let borrower = borrower_at(bytes, 1)?;
        let place = place_at(bytes, 2)?;
        Some(match first {
            1 => Message::Ask {
                borrower,
                place,
                number: number_at(bytes, 4),
                kind: Kind::from_number(bytes[8].into())?,
                last_write: number_at(bytes, 9),
            },
            2 => Message::Loan {
                borrower,
                place,
                number: number_at(bytes, 4),
                kind: Kind::from_number(bytes[8].into())?,
                bytes: part_at(bytes, 9),
            },
            3 => Message::Write { borrower, place, number: number_at(bytes, 4), bytes: part_at(bytes, 8) },
            4 => Message::In { borrower, place, number: number_at(bytes, 4) },
            5 => Message::Void { borrower, place, number: number_at(bytes, 4) },
            6 => Message::Recall { borrower, place },
            _ => Message::Back { borrower, place, number: number_at(bytes, 4) },
        })
    }

    /// Appends the message's bytes.
    pub fn encode(&self, out: &mut Vec<u8>) {
        let (first, borrower, place) = self.head();
        out.extend_from_slice(&[first, borrower, place.file, place.part]);
        match *self {
            Message::Ask { number, kind, last_write, .. } => {
                out.extend_from_slice(&number.to_be_bytes());
                out.push(kind.number());
                out.extend_from_slice(&last_write.to_be_bytes());
            }
            Message::Loan { number, kind, bytes, .. } => {
                out.extend_from_slice(&number.to_be_bytes());
                out.push(kind.number());
                out.extend_from_slice(bytes);
            }
            Message::Write { number, bytes, .. } => {
                out.extend_from_slice(&number.to_be_bytes());
                out.extend_from_slice(bytes);
            }
            Message::In { number, .. } | Message::Void { number, .. } | Message::Back { number, .. } => {
                out.extend_from_slice(&number.to_be_bytes());
            }
            Message::Recall { .. } => {}
        }
    }

    /// The first byte, the borrower and the part, which every message has.
    pub fn head(&self) -> (u8, u8, Place) {
        match *self {
            Message::Ask { borrower, place, .. } => (1, borrower, place),
            Message::Loan { borrower, place, .. } => (2, borrower, place),
            Message::Write { borrower, place, .. } => (3, borrower, place),
            Message::In { borrower, place, .. } => (4, borrower, place),
            Message::Void { borrower, place, .. } => (5, borrower, place),
            Message::Recall { borrower, place } => (6, borrower, place),
            Message::Back { borrower, place, .. } => (7, borrower, place),
        }
    }

    /// Whether the keeper hears it; the others are for the borrower that they name.
    pub fn is_for_keeper(&self) -> bool {
        matches!(self, Message::Ask { .. } | Message::Write { .. } | Message::Back { .. })
    }
}

/// How long the message is that begins with this byte.
pub fn length(first: u8) -> Option<usize> {
    match first {
        1 => Some(13),
        2 => Some(9 + PART_BYTES),
        3 => Some(8 + PART_BYTES),
        4 | 5 | 7 => Some(8),
        6 => Some(4),
        _ => None,
    }
}

/// The borrower's number at `at`, where it is in range.
pub(crate) fn borrower_at(bytes: &[u8], at: usize) -> Option<u8> {
    Some(bytes[at]).filter(|&b| (b as usize) < BORROWERS)
}

/// The file and part at `at`, where the file is in range.
pub(crate) fn place_at(bytes: &[u8], at: usize) -> Option<Place> {
    let place = Place { file: bytes[at], part: bytes[at + 1] };
    Some(place).filter(|p| (p.file as usize) < FILES)
}

/// The four-byte number at `at`, high byte first.
pub(crate) fn number_at(bytes: &[u8], at: usize) -> u32 {
    u32::from_be_bytes([bytes[at], bytes[at + 1], bytes[at + 2], bytes[at + 3]])
}

/// The part's bytes, from `at` to the end; the length was checked before.
pub(crate) fn part_at(bytes: &[u8], at: usize) -> &PartBytes {
    bytes[at..].try_into().expect("the length was checked")
}

#[cfg(test)]
mod tests {
    use super::*;

    fn examples(bytes: &PartBytes) -> Vec<Message<'_>> {
        let place = Place { file: 63, part: 255 };
        let (borrower, number, kind) = (31, 0x0102_0304, Kind::Writing);
        vec![
            Message::Ask { borrower, place, number, kind, last_write: u32::MAX },
            Message::Loan { borrower, place, number, kind: Kind::Reading, bytes },
            Message::Write { borrower, place, number, bytes },
            Message::In { borrower, place, number },
            Message::Void { borrower, place, number: 0 },
            Message::Recall { borrower, place },
            Message::Back { borrower, place, number },
        ]
    }

    #[test]
    fn what_is_encoded_is_decoded() {
        let bytes = std::array::from_fn(|i| (i * 7) as u8);
        for message in examples(&bytes) {
            let mut out = Vec::new();
            message.encode(&mut out);
            assert_eq!(Message::decode(&out), Some(message));
        }
    }

    #[test]
    fn first_parts_and_longer_ones_are_no_messages() {
        let bytes = [9; PART_BYTES];
        for message in examples(&bytes) {
            let mut out = Vec::new();
            message.encode(&mut out);
            for cut in 0..out.len() {
                assert_eq!(Message::decode(&out[..cut]), None);
            }
            out.push(0);
            assert_eq!(Message::decode(&out), None);
        }
    }

    #[test]
    fn fields_out_of_range_are_refused() {
        assert!(Message::decode(&[6, 31, 63, 255]).is_some());
        assert!(Message::decode(&[6, 32, 63, 255]).is_none());
        assert!(Message::decode(&[6, 31, 64, 255]).is_none());
        assert!(Message::decode(&[0, 0, 0, 0]).is_none());
        assert!(Message::decode(&[1, 0, 3, 7, 0, 0, 0, 1, 2, 0, 0, 0, 0]).is_none());
    }

    #[test]
    fn an_ask_byte_by_byte() {
        let place = Place { file: 3, part: 7 };
        let ask = Message::Ask { borrower: 5, place, number: 258, kind: Kind::Writing, last_write: 1 };
        let mut out = Vec::new();
        ask.encode(&mut out);
        assert_eq!(out, [1, 5, 3, 7, 0, 0, 1, 2, 1, 0, 0, 0, 1]);
    }
}
