//! A host of the library: a keeper and two tablets in one process, with journals in the folder that is its argument. It is the
//! network between them, and its clock goes on as the story needs it. What it prints is in `examples/host.out`.

use host::{DONE, Keeper, Left, PART, Tablet, terms};
use std::env;
use std::fs::{File, OpenOptions};
use std::io::{self, Read, Write};
use std::path::{Path, PathBuf};

const SHORT: u64 = 100;
const LONG: u64 = 110;
/// The part that the story is about.
const FILE: u8 = 3;
const NUMBER: u8 = 7;
const READING: u8 = 0;
const WRITING: u8 = 1;
/// The messages by their first byte. The second is the borrower's number.
const KINDS: [&str; 8] = ["", "ask", "loan", "write", "in", "void", "recall", "back"];

/// A journal in a file.
struct Journal(File);

impl Journal {
    fn read(path: &Path) -> io::Result<(Journal, Vec<u8>)> {
        let mut file = OpenOptions::new().read(true).append(true).create(true).open(path)?;
        let mut bytes = Vec::new();
        file.read_to_end(&mut bytes)?;
        Ok((Journal(file), bytes))
    }

    /// Cuts the file after its whole records.
    fn cut(&self, whole: usize) -> io::Result<()> {
        self.0.set_len(whole as u64)?;
        self.0.sync_all()
    }

    /// Appends a record and syncs: only then may what the call left leave.
    fn append(&mut self, record: &[u8]) -> io::Result<()> {
        if record.is_empty() {
            return Ok(());
        }
        self.0.write_all(record)?;
        self.0.sync_data()
    }
}

/// The keeper with its journal.
struct Office {
    keeper: Keeper,
    journal: Journal,
}

impl Office {
    fn open(path: &Path, clock: u64) -> io::Result<Office> {
        let (journal, bytes) = Journal::read(path)?;
        let (mut keeper, whole) = Keeper::open(LONG, &bytes).map_err(refused)?;
        journal.cut(whole)?;
        let number = keeper.come_up(clock);
        println!("{clock} keeper: up with {whole} of {} bytes: {number}", bytes.len());
        Ok(Office { keeper, journal })
    }

    /// A message comes: what the keeper sends.
    fn receive(&mut self, clock: u64, message: &[u8]) -> io::Result<Vec<Vec<u8>>> {
        let mut left = Left::default();
        let number = self.keeper.receive(clock, message, &mut left);
        self.journal.append(left.record())?;
        Ok(say(clock, "keeper: message", number, &left))
    }
}

/// A tablet with its journal.
struct Site {
    who: u8,
    tablet: Tablet,
    journal: Journal,
}

impl Site {
    fn open(path: &Path, who: u8) -> io::Result<Site> {
        let (journal, bytes) = Journal::read(path)?;
        let (tablet, whole) = Tablet::open(who, SHORT, &bytes).map_err(refused)?;
        journal.cut(whole)?;
        println!("tablet {who}: up with {whole} of {} bytes", bytes.len());
        Ok(Site { who, tablet, journal })
    }

    /// What was done is told once the record is synced.
    fn done(&mut self, clock: u64, what: &str, number: u8, left: &Left) -> io::Result<Vec<Vec<u8>>> {
        self.journal.append(left.record())?;
        Ok(say(clock, &format!("tablet {}: {what}", self.who), number, left))
    }

    fn ask(&mut self, clock: u64, kind: u8) -> io::Result<Vec<Vec<u8>>> {
        let mut left = Left::default();
        let number = self.tablet.ask(clock, FILE, NUMBER, kind, &mut left);
        self.done(clock, if kind == WRITING { "ask to write" } else { "ask to read" }, number, &left)
    }

    fn write(&mut self, clock: u64, text: &str) -> io::Result<Vec<Vec<u8>>> {
        let (mut bytes, mut left) = ([0; PART], Left::default());
        bytes[..text.len()].copy_from_slice(text.as_bytes());
        let number = self.tablet.write(clock, FILE, NUMBER, &bytes, &mut left);
        self.done(clock, &format!("write '{text}'"), number, &left)
    }

    fn show(&mut self, clock: u64) -> io::Result<()> {
        let (mut copy, mut left) = ([0; PART], Left::default());
        let number = self.tablet.show(clock, FILE, NUMBER, &mut copy, &mut left);
        self.journal.append(left.record())?;
        let text = String::from_utf8_lossy(&copy);
        let text = if number == DONE { format!(" '{}'", text.trim_end_matches('\0')) } else { String::new() };
        println!("{clock} tablet {}: show: {number}{text}", self.who);
        Ok(())
    }

    fn receive(&mut self, clock: u64, message: &[u8]) -> io::Result<Vec<Vec<u8>>> {
        let mut left = Left::default();
        let number = self.tablet.receive(message, &mut left);
        self.done(clock, "message", number, &left)
    }
}

fn refused(number: u8) -> io::Error {
    io::Error::other(format!("refused by {number}"))
}

/// Prints what a call left, and gives its messages.
fn say(clock: u64, who: &str, number: u8, left: &Left) -> Vec<Vec<u8>> {
    let messages: Vec<Vec<u8>> = left.messages().map(<[u8]>::to_vec).collect();
    let sent: Vec<String> = messages.iter().map(|m| format!("{} of {}", KINDS[usize::from(m[0])], m[1])).collect();
    let told = left.told().map_or(String::new(), |w| format!("; told {} of write {} of {} {}", KINDS[usize::from(w.kind)], w.number, w.file, w.part));
    println!("{clock} {who}: {number}; record of {}; sends [{}]{told}", left.record().len(), sent.join(", "));
    messages
}

/// The tablet asks, and the keeper's answer comes to it.
fn fetch(office: &mut Office, site: &mut Site, clock: u64, kind: u8) -> io::Result<Vec<Vec<u8>>> {
    let mut sent = Vec::new();
    for ask in site.ask(clock, kind)? {
        sent.extend(office.receive(clock, &ask)?);
    }
    let (ours, others): (Vec<_>, Vec<_>) = sent.into_iter().partition(|message| message[1] == site.who);
    for message in ours {
        site.receive(clock, &message)?;
    }
    Ok(others)
}

/// The tablet writes, and is told what became of it.
fn put(office: &mut Office, site: &mut Site, clock: u64, text: &str) -> io::Result<()> {
    for write in site.write(clock, text)? {
        for word in office.receive(clock, &write)? {
            site.receive(clock, &word)?;
        }
    }
    Ok(())
}

fn first_day(folder: &Path) -> io::Result<()> {
    println!("# the keeper comes up; it lends nothing until 1110");
    let mut office = Office::open(&folder.join("keeper"), 1000)?;
    let mut sites = [Site::open(&folder.join("tablet0"), 0)?, Site::open(&folder.join("tablet1"), 1)?];
    fetch(&mut office, &mut sites[0], 1109, WRITING)?;
    println!("# tablet 0 is lent the part and writes it, and tablet 1 reads it");
    fetch(&mut office, &mut sites[0], 1110, WRITING)?;
    put(&mut office, &mut sites[0], 1120, "18 steps")?;
    fetch(&mut office, &mut sites[1], 1221, READING)?;
    sites[1].show(1222)?;
    println!("# tablet 0 wants it again: tablet 1 is recalled, and gives it back");
    for recall in fetch(&mut office, &mut sites[0], 1230, WRITING)? {
        for back in sites[1].receive(1231, &recall)? {
            office.receive(1232, &back)?;
        }
    }
    sites[1].show(1233)?;
    fetch(&mut office, &mut sites[0], 1240, WRITING)?;
    put(&mut office, &mut sites[0], 1250, "19 steps")
}

fn second_day(folder: &Path) -> io::Result<()> {
    println!("# all stop, the keeper in the middle of a record, and come up again");
    OpenOptions::new().append(true).open(folder.join("keeper"))?.write_all(&[8, 0, 3])?;
    let mut office = Office::open(&folder.join("keeper"), 2000)?;
    let mut site = Site::open(&folder.join("tablet1"), 1)?;
    site.show(2001)?;
    fetch(&mut office, &mut site, 2110, READING)?;
    site.show(2209)?;
    site.show(2210)?;
    println!("# bytes that are no message, and a file that is no journal of a keeper");
    office.receive(2220, b"hello")?;
    let (_, bytes) = Journal::read(&folder.join("tablet1"))?;
    match Keeper::open(LONG, &bytes) {
        Ok(_) => println!("keeper: opened"),
        Err(number) => println!("keeper: refused by {number}"),
    }
    Ok(())
}

fn main() -> io::Result<()> {
    let folder = PathBuf::from(env::args_os().nth(1).expect("usage: host FOLDER"));
    println!("terms: {}", terms(0, SHORT, LONG));
    first_day(&folder)?;
    second_day(&folder)
}
