//! Journals: the three records, reading a journal back, and the file that it stands in.

use crate::message::{self, PART_BYTES, PartBytes, Place};
use std::fs::{File, OpenOptions};
use std::io::{self, BufReader, Read, Seek, SeekFrom, Write};
use std::path::Path;

/// Bytes of each record.
pub const WRITTEN_BYTES: usize = 8 + PART_BYTES;
pub const VOIDED_BYTES: usize = 8;
pub const NUMBERS_BYTES: usize = 11;

/// Whose journal it is: the keeper's has records 8 and 9, a borrower's has record 10.
#[derive(Clone, Copy, PartialEq, Eq, Debug)]
pub enum Owner {
    Keeper,
    Borrower,
}

#[derive(Clone, Copy, PartialEq, Eq, Debug)]
pub enum Record<'a> {
    /// A write was applied.
    Written { borrower: u8, place: Place, number: u32, bytes: &'a PartBytes },
    /// The borrower's writes of the part up to this number are void, where not applied.
    Voided { borrower: u8, place: Place, number: u32 },
    /// The borrower may use numbers up to these without another record.
    Numbers { place: Place, ask: u32, write: u32 },
}

impl<'a> Record<'a> {
    /// Appends the record's bytes.
    pub fn encode(&self, out: &mut Vec<u8>) {
        match *self {
            Record::Written { borrower, place, number, bytes } => {
                out.extend_from_slice(&[8, borrower, place.file, place.part]);
                out.extend_from_slice(&number.to_be_bytes());
                out.extend_from_slice(bytes);
            }
            Record::Voided { borrower, place, number } => {
                out.extend_from_slice(&[9, borrower, place.file, place.part]);
                out.extend_from_slice(&number.to_be_bytes());
            }
            Record::Numbers { place, ask, write } => {
                out.extend_from_slice(&[10, place.file, place.part]);
                out.extend_from_slice(&ask.to_be_bytes());
                out.extend_from_slice(&write.to_be_bytes());
            }
        }
    }

    /// The record that these bytes are; they have the length that the first one announces.
    fn decode(bytes: &'a [u8]) -> Option<Record<'a>> {
        if bytes[0] == 10 {
            let place = message::place_at(bytes, 1)?;
            let (ask, write) = (message::number_at(bytes, 3), message::number_at(bytes, 7));
            return Some(Record::Numbers { place, ask, write });
        }
        let borrower = message::borrower_at(bytes, 1)?;
        let place = message::place_at(bytes, 2)?;
        let number = message::number_at(bytes, 4);
        Some(match bytes[0] {
            8 => Record::Written { borrower, place, number, bytes: message::part_at(bytes, 8) },
            _ => Record::Voided { borrower, place, number },
        })
    }
}

/// How long the record is that begins with this byte, where the owner has such records.
pub fn record_length(owner: Owner, first: u8) -> Option<usize> {
    match (owner, first) {
        (Owner::Keeper, 8) => Some(WRITTEN_BYTES),
        (Owner::Keeper, 9) => Some(VOIDED_BYTES),
        (Owner::Borrower, 10) => Some(NUMBERS_BYTES),
        _ => None,
    }
}

#[derive(Debug)]
pub enum JournalError {
    Io(io::Error),
    /// Something that is no record begins at this byte.
    NoRecord { at: u64 },
}

impl From<io::Error> for JournalError {
    fn from(error: io::Error) -> Self {
        JournalError::Io(error)
    }
}

impl std::fmt::Display for JournalError {
    fn fmt(&self, f: &mut std::fmt::Formatter) -> std::fmt::Result {
        match self {
            JournalError::Io(error) => error.fmt(f),
            JournalError::NoRecord { at } => write!(f, "no record begins at byte {at} of the journal"),
        }
    }
}

/// Gives every whole record to `take`, and answers how many bytes they are together.
/// What stands behind them is a torn record.
pub fn replay(owner: Owner, mut input: impl Read, mut take: impl FnMut(Record)) -> Result<u64, JournalError> {
    let mut buffer = [0; WRITTEN_BYTES];
    let mut whole = 0;
    loop {
        if read_full(&mut input, &mut buffer[..1])? == 0 {
            return Ok(whole);
        }
        let no_record = JournalError::NoRecord { at: whole };
        let Some(length) = record_length(owner, buffer[0]) else {
            return Err(no_record);
        };
        if read_full(&mut input, &mut buffer[1..length])? < length - 1 {
            return Ok(whole);
        }
        let Some(record) = Record::decode(&buffer[..length]) else {
            return Err(no_record);
        };
        take(record);
        whole += length as u64;
    }
}

/// Fills the buffer as far as the input goes.
fn read_full(input: &mut impl Read, buffer: &mut [u8]) -> io::Result<usize> {
    let mut filled = 0;
    while filled < buffer.len() {
        match input.read(&mut buffer[filled..]) {
            Ok(0) => break,
            Ok(count) => filled += count,
            Err(error) if error.kind() == io::ErrorKind::Interrupted => {}
            Err(error) => return Err(error),
        }
    }
    Ok(filled)
}

/// A journal on the disk, open for appending.
pub struct JournalFile {
    file: File,
}

impl JournalFile {
    /// Opens the journal, or makes it; gives every record to `take`, and cuts a torn one off.
    pub fn open(path: &Path, owner: Owner, take: impl FnMut(Record)) -> Result<JournalFile, JournalError> {
        let is_new = !path.exists();
        let mut file = OpenOptions::new().read(true).write(true).create(true).truncate(false).open(path)?;
        if is_new {
            file.sync_all()?;
            sync_directory_of(path)?;
        }
        let whole = replay(owner, BufReader::with_capacity(1 << 18, &file), take)?;
        if file.metadata()?.len() > whole {
            file.set_len(whole)?;
            file.sync_all()?;
        }
        file.seek(SeekFrom::Start(whole))?;
        Ok(JournalFile { file })
    }

    /// Appends the record; when this returns, it is on the disk.
    pub fn append(&mut self, record: &[u8]) -> io::Result<()> {
        self.file.write_all(record)?;
        self.file.sync_data()
    }
}

/// The name of a new file stands in its directory, which has to be on the disk too.
fn sync_directory_of(path: &Path) -> io::Result<()> {
    let parent = path.parent().filter(|parent| !parent.as_os_str().is_empty());
    File::open(parent.unwrap_or(Path::new(".")))?.sync_all()
}

#[cfg(test)]
mod tests {
    use super::*;

    const PLACE: Place = Place { file: 3, part: 7 };

    fn keeper_journal(bytes: &PartBytes) -> Vec<u8> {
        let mut journal = Vec::new();
        Record::Voided { borrower: 1, place: PLACE, number: 4 }.encode(&mut journal);
        Record::Written { borrower: 2, place: PLACE, number: 5, bytes }.encode(&mut journal);
        journal
    }

    #[test]
    fn a_torn_record_is_left_out_wherever_it_is_cut() {
        let journal = keeper_journal(&[6; PART_BYTES]);
        for cut in 0..=journal.len() {
            let mut count = 0;
            let whole = replay(Owner::Keeper, &journal[..cut], |_| count += 1).unwrap();
            let expected = if cut < 8 { (0, 0) } else if cut < journal.len() { (8, 1) } else { (journal.len() as u64, 2) };
            assert_eq!((whole, count), expected);
        }
    }

    #[test]
    fn records_come_back() {
        let bytes = std::array::from_fn(|i| i as u8);
        let journal = keeper_journal(&bytes);
        let mut again = Vec::new();
        replay(Owner::Keeper, &journal[..], |record| record.encode(&mut again)).unwrap();
        assert_eq!(again, journal);
        let numbers = Record::Numbers { place: PLACE, ask: 64, write: u32::MAX };
        let mut journal = Vec::new();
        numbers.encode(&mut journal);
        assert_eq!(journal, [10, 3, 7, 0, 0, 0, 64, 255, 255, 255, 255]);
        replay(Owner::Borrower, &journal[..], |record| assert_eq!(record, numbers)).unwrap();
    }

    #[test]
    fn what_is_no_record_is_refused() {
        let refused = |owner, bytes: &[u8]| replay(owner, bytes, |_| {}).is_err();
        assert!(refused(Owner::Keeper, &[10]));
        assert!(refused(Owner::Borrower, &[8]));
        assert!(refused(Owner::Keeper, &[9, 32, 0, 0, 0, 0, 0, 0]));
        assert!(refused(Owner::Keeper, &[9, 0, 64, 0, 0, 0, 0, 0]));
        assert!(refused(Owner::Borrower, &[10, 64, 0, 0, 0, 0, 0, 0, 0, 0, 0]));
        // a field out of range in a torn record is no matter: it is cut off
        assert!(!refused(Owner::Keeper, &[9, 32, 0, 0, 0, 0, 0]));
    }

    #[test]
    fn a_file_is_cut_back_or_left_as_it_is() {
        let path = std::env::temp_dir().join(format!("second-journal-test-{}", std::process::id()));
        let good = [10, 3, 7, 0, 0, 0, 64, 0, 0, 0, 0];
        std::fs::write(&path, [&good[..], &[10, 0, 0]].concat()).unwrap();
        let mut journal = JournalFile::open(&path, Owner::Borrower, |_| {}).unwrap();
        assert_eq!(std::fs::read(&path).unwrap(), good);
        journal.append(&good).unwrap();
        assert_eq!(std::fs::read(&path).unwrap(), [good, good].concat());
        let bad = [&good[..], &[8, 0, 0]].concat();
        std::fs::write(&path, &bad).unwrap();
        assert!(JournalFile::open(&path, Owner::Borrower, |_| {}).is_err());
        assert_eq!(std::fs::read(&path).unwrap(), bad);
        std::fs::remove_file(&path).unwrap();
    }
}
