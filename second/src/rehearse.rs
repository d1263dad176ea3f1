//! The rehearsal: a keeper and four borrowers with journals in memory, played by a script.

use crate::audit::{self, Audit, Seen, Violation};
use crate::borrower::{Borrower, Call};
use crate::clock::{ClockError, Terms};
use crate::effects::{Effects, Refusal};
use crate::journal::{self, Owner};
use crate::keeper::{Keeper, Kept};
use crate::lines::{self, Line, LineReader, Words};
use crate::message::{Message, Place};
use crate::serve::Failure;
use crate::tablet::{self, WriteForm};
use std::io::{Read, Write};

/// Borrowers on the stage.
pub const BORROWERS: usize = 4;
/// Clocks: the keeper's first, then the borrowers'.
pub const CLOCKS: usize = 1 + BORROWERS;

#[derive(Clone, Copy, PartialEq, Eq, Debug)]
pub enum Who {
    Keeper,
    Borrower(usize),
}

impl Who {
    fn clock(self) -> usize {
        match self {
            Who::Keeper => 0,
            Who::Borrower(number) => 1 + number,
        }
    }
}

/// A line of a script.
#[derive(Debug)]
pub enum ScriptLine<'a> {
    Set([u64; CLOCKS]),
    Anew,
    Tick { passed: u64, counted: [u64; CLOCKS] },
    Up(Who),
    Stop(Who),
    Call { borrower: usize, call: Call<'a>, stop: Option<u64> },
    Deliver { message: u64, cut: Option<u64>, to: Option<Who>, stop: Option<u64> },
}

/// Reads a line; nothing where it is in no form.
pub fn read_line<'a>(line: &[u8], scratch: &'a mut Vec<u8>) -> Option<ScriptLine<'a>> {
    let mut words = Words::new(line);
    let read = match words.next()? {
        b"set" => {
            let first = words.number(u64::MAX)?;
            let mut readings = [0; CLOCKS];
            readings[0] = first;
            read_numbers(&mut words, &mut readings[1..])?;
            ScriptLine::Set(readings)
        }
        b"anew" => ScriptLine::Anew,
        b"tick" => {
            let passed = words.number(u64::MAX)?;
            let mut counted = [passed; CLOCKS];
            read_numbers(&mut words, &mut counted)?;
            ScriptLine::Tick { passed, counted }
        }
        b"up" => ScriptLine::Up(read_who(words.next()?)?),
        b"stop" => ScriptLine::Stop(read_who(words.next()?)?),
        b"deliver" => {
            let message = words.number(u64::MAX)?;
            let cut = read_after(&mut words, b"cut", |words| words.number(u64::MAX))?;
            let to = read_after(&mut words, b"to", |words| read_who(words.next()?))?;
            let stop = read_after(&mut words, b"stop", |words| words.number(u64::MAX))?;
            ScriptLine::Deliver { message, cut, to, stop }
        }
        number => {
            let borrower = lines::number(number).filter(|&b| b < BORROWERS as u64)? as usize;
            let call = tablet::read_call(words.next()?, &mut words, WriteForm::Short, scratch)?;
            let stop = read_after(&mut words, b"stop", |words| words.number(u64::MAX))?;
            ScriptLine::Call { borrower, call, stop }
        }
    };
    words.at_end().then_some(read)
}

/// As many numbers as there are words, at most those that are given; the others stay.
fn read_numbers(words: &mut Words, into: &mut [u64]) -> Option<()> {
    for number in into {
        if words.at_end() {
            break;
        }
        *number = words.number(u64::MAX)?;
    }
    Some(())
}

/// What stands behind this word, where the word comes next.
fn read_after<T>(words: &mut Words, word: &[u8], read: impl FnOnce(&mut Words) -> Option<T>) -> Option<Option<T>> {
    let mut ahead = words.clone();
    if ahead.next() != Some(word) {
        return Some(None);
    }
    let found = read(&mut ahead)?;
    *words = ahead;
    Some(Some(found))
}

fn read_who(word: &[u8]) -> Option<Who> {
    if word == b"keeper" {
        return Some(Who::Keeper);
    }
    let number = lines::number(word).filter(|&b| b < BORROWERS as u64)?;
    Some(Who::Borrower(number as usize))
}

/// The keeper on the stage.
enum KeeperState {
    /// Down: what the whole records of its file say.
    Down(Kept),
    Up(Keeper),
}

impl KeeperState {
    fn kept(&self) -> &Kept {
        match self {
            KeeperState::Down(kept) => kept,
            KeeperState::Up(keeper) => keeper.kept(),
        }
    }
}

/// The messages that were sent, numbered from 1.
#[derive(Default)]
pub struct Messages {
    bytes: Vec<u8>,
    ends: Vec<usize>,
}

impl Messages {
    fn push(&mut self, message: &[u8]) {
        self.bytes.extend_from_slice(message);
        self.ends.push(self.bytes.len());
    }

    pub fn count(&self) -> usize {
        self.ends.len()
    }

    /// The message of this number.
    pub fn get(&self, number: u64) -> Option<&[u8]> {
        let place = usize::try_from(number.checked_sub(1)?).ok()?;
        let end = *self.ends.get(place)?;
        let start = if place == 0 { 0 } else { self.ends[place - 1] };
        Some(&self.bytes[start..end])
    }
}

/// What somebody on the stage does.
enum Deed<'a> {
    Call(Call<'a>),
    Hear(&'a [u8]),
}

/// A stop in the middle of an append: how long the record was, and how much of it was to stay.
#[derive(Clone, Copy, Debug)]
pub struct Torn {
    pub record: usize,
    pub first: u8,
    pub kept: u64,
}

/// All that is on the stage.
pub struct Stage {
    terms: Terms,
    /// Whether a line in a form was played: it is too late to set the clocks then.
    begun: bool,
    true_time: u64,
    readings: [u64; CLOCKS],
    errors: [ClockError; CLOCKS],
    keeper: KeeperState,
    borrowers: [Option<Borrower>; BORROWERS],
    /// The journals, the keeper's first.
    files: [Vec<u8>; CLOCKS],
    messages: Messages,
    audit: Option<Audit>,
    effects: Effects,
    torn: Option<Torn>,
}

impl Stage {
    /// As at first: all are down, journals are empty, every clock shows 0.
    pub fn new(terms: Terms, audited: bool) -> Stage {
        Stage {
            terms,
            begun: false,
            true_time: 0,
            readings: [0; CLOCKS],
            errors: std::array::from_fn(|_| ClockError::new(terms.rate, 0, 0)),
            keeper: KeeperState::Down(Kept::default()),
            borrowers: Default::default(),
            files: Default::default(),
            messages: Messages::default(),
            audit: audited.then(Audit::default),
            effects: Effects::default(),
            torn: None,
        }
    }

    pub fn true_time(&self) -> u64 {
        self.true_time
    }

    pub fn readings(&self) -> &[u64; CLOCKS] {
        &self.readings
    }

    pub fn clock_error(&self, clock: usize) -> &ClockError {
        &self.errors[clock]
    }

    pub fn messages(&self) -> &Messages {
        &self.messages
    }

    pub fn borrower(&self, number: usize) -> Option<&Borrower> {
        self.borrowers[number].as_ref()
    }

    pub fn keeper(&self) -> Option<&Keeper> {
        match &self.keeper {
            KeeperState::Up(keeper) => Some(keeper),
            KeeperState::Down(_) => None,
        }
    }

    /// What was torn by the last line.
    pub fn torn(&self) -> Option<Torn> {
        self.torn
    }

    pub fn is_up(&self, who: Who) -> bool {
        match who {
            Who::Keeper => matches!(self.keeper, KeeperState::Up(_)),
            Who::Borrower(number) => self.borrowers[number].is_some(),
        }
    }

    /// Plays one line and appends what it prints. Empty lines and remarks are passed over; a
    /// line of spaces alone is not empty, and in no form.
    pub fn play(&mut self, line: &[u8], scratch: &mut Vec<u8>, out: &mut Vec<u8>) -> Result<(), Violation> {
        if line.first().is_none_or(|&byte| byte == b'#') {
            return Ok(());
        }
        self.torn = None;
        let Some(line) = read_line(line, scratch) else {
            print_answer(out, Err(Refusal::NoForm));
            return Ok(());
        };
        match line {
            ScriptLine::Anew => {
                *self = Stage::new(self.terms, self.audit.is_some());
                out.extend_from_slice(b"anew\n");
                return Ok(());
            }
            ScriptLine::Set(readings) => print_answer(out, self.set(readings)),
            ScriptLine::Tick { passed, counted } => print_answer(out, self.tick(passed, counted)),
            ScriptLine::Up(who) => print_answer(out, self.come_up(who)),
            ScriptLine::Stop(who) => print_answer(out, self.stop(who)),
            ScriptLine::Call { borrower, call, stop } => {
                self.perform(Who::Borrower(borrower), Deed::Call(call), stop, out)?;
            }
            ScriptLine::Deliver { message, cut, to, stop } => {
                self.deliver(message, cut, to, stop, out)?;
            }
        }
        self.begun = true;
        self.check()
    }

    fn set(&mut self, readings: [u64; CLOCKS]) -> Result<(), Refusal> {
        if self.begun {
            return Err(Refusal::NoForm);
        }
        self.readings = readings;
        self.errors = readings.map(|reading| ClockError::new(self.terms.rate, 0, reading));
        Ok(())
    }

    fn tick(&mut self, passed: u64, counted: [u64; CLOCKS]) -> Result<(), Refusal> {
        let true_time = self.true_time.checked_add(passed).ok_or(Refusal::NoForm)?;
        let mut readings = self.readings;
        for clock in 0..CLOCKS {
            readings[clock] = readings[clock].checked_add(counted[clock]).ok_or(Refusal::NoForm)?;
            if !self.errors[clock].allows(true_time, readings[clock]) {
                return Err(Refusal::NoForm);
            }
        }
        self.true_time = true_time;
        self.readings = readings;
        for (error, reading) in self.errors.iter_mut().zip(readings) {
            error.note(true_time, reading);
        }
        Ok(())
    }

    fn come_up(&mut self, who: Who) -> Result<(), Refusal> {
        if self.is_up(who) {
            return Err(Refusal::NoForm);
        }
        match who {
            Who::Keeper => {
                let mut kept = Kept::default();
                cut_back(Owner::Keeper, &mut self.files[0], |record| kept.take(record));
                let mut keeper = Keeper::new(self.terms, kept);
                keeper.come_up(self.readings[0])?;
                self.keeper = KeeperState::Up(keeper);
            }
            Who::Borrower(number) => {
                let mut borrower = Borrower::new(self.terms, number as u8);
                let file = &mut self.files[who.clock()];
                cut_back(Owner::Borrower, file, |record| borrower.take(record));
                self.borrowers[number] = Some(borrower);
            }
        }
        Ok(())
    }

    fn stop(&mut self, who: Who) -> Result<(), Refusal> {
        if !self.is_up(who) {
            return Err(Refusal::NoForm);
        }
        match who {
            Who::Keeper => {
                let mut kept = Kept::default();
                let replayed = journal::replay(Owner::Keeper, &self.files[0][..], |record| kept.take(record));
                replayed.expect("only whole records and first parts of one are appended");
                self.keeper = KeeperState::Down(kept);
            }
            Who::Borrower(number) => self.borrowers[number] = None,
        }
        Ok(())
    }

    fn deliver(
        &mut self,
        number: u64,
        cut: Option<u64>,
        to: Option<Who>,
        stop: Option<u64>,
        out: &mut Vec<u8>,
    ) -> Result<(), Violation> {
        let Some(message) = self.messages.get(number) else {
            print_answer(out, Err(Refusal::NoForm));
            return Ok(());
        };
        let decoded = Message::decode(message).expect("only messages are sent");
        let meant_for = match decoded.is_for_keeper() {
            true => Who::Keeper,
            false => Who::Borrower(decoded.head().1 as usize),
        };
        let arrives = cut.map_or(message.len(), |cut| cut.min(message.len() as u64) as usize);
        let message = message[..arrives].to_vec();
        self.perform(to.unwrap_or(meant_for), Deed::Hear(&message), stop, out)
    }

    fn perform(&mut self, who: Who, deed: Deed, stop: Option<u64>, out: &mut Vec<u8>) -> Result<(), Violation> {
        if !self.is_up(who) {
            out.extend_from_slice(b"down\n");
            return Ok(());
        }
        let shows = match deed {
            Deed::Call(Call::Show { place }) => Some(place),
            _ => None,
        };
        let answer = self.act(who, deed);
        let record = &self.effects.record;
        let kept = stop.map_or(record.len(), |kept| kept.min(record.len() as u64) as usize);
        self.files[who.clock()].extend_from_slice(&record[..kept]);
        if let Some(kept) = stop {
            self.torn = Some(Torn { record: record.len(), first: record.first().copied().unwrap_or(0), kept });
            let _ = self.stop(who);
            out.extend_from_slice(b"stopped\n");
            return Ok(());
        }
        self.let_out(who, out)?;
        match shows {
            Some(place) => self.print_show(place, answer, out),
            None => print_answer(out, answer),
        }
        Ok(())
    }

    /// Does it in memory; the effects say what is still to be done.
    fn act(&mut self, who: Who, deed: Deed) -> Result<(), Refusal> {
        self.effects.clear();
        let now = self.readings[who.clock()];
        match (who, deed) {
            (Who::Keeper, Deed::Hear(message)) => match &mut self.keeper {
                KeeperState::Up(keeper) => keeper.hear(now, message, &mut self.effects),
                KeeperState::Down(_) => unreachable!("it is up"),
            },
            (Who::Borrower(number), deed) => {
                let borrower = self.borrowers[number].as_mut().expect("it is up");
                match deed {
                    Deed::Call(call) => borrower.call(now, call, &mut self.effects),
                    Deed::Hear(message) => borrower.hear(message, &mut self.effects),
                }
            }
            (Who::Keeper, Deed::Call(_)) => unreachable!("only borrowers are called"),
        }
    }

    /// Sends and tells what the effects say.
    fn let_out(&mut self, who: Who, out: &mut Vec<u8>) -> Result<(), Violation> {
        if let Some(audit) = &mut self.audit {
            audit.keeper_file(&self.files[0])?;
        }
        for bytes in self.effects.messages() {
            self.messages.push(bytes);
            let message = Message::decode(bytes).expect("only messages are sent");
            if let Some(audit) = &mut self.audit {
                audit.message(&message)?;
            }
            out.extend_from_slice(b"sent");
            lines::push_number(out, self.messages.count() as u64);
            print_message(out, &message);
        }
        if let (Some(told), Who::Borrower(number)) = (self.effects.told, who) {
            out.extend_from_slice(if told.applied { b"told in" } else { b"told void" });
            print_fields(out, number as u8, told.place, &[told.number]);
            out.push(b'\n');
        }
        Ok(())
    }

    /// What is shown beside what the keeper has.
    fn print_show(&self, place: Place, answer: Result<(), Refusal>, out: &mut Vec<u8>) {
        match (answer, self.effects.shown()) {
            (Ok(()), Some((_, bytes))) => {
                out.extend_from_slice(b"shown ");
                push_bytes(out, bytes);
            }
            (Err(refusal), _) => {
                out.extend_from_slice(b"refused");
                lines::push_number(out, refusal.number());
            }
            (Ok(()), None) => unreachable!("a show that is done shows"),
        }
        out.extend_from_slice(b" keeper ");
        push_bytes(out, audit::bytes_of(self.keeper.kept().part(place)));
        out.push(b'\n');
    }

    fn check(&mut self) -> Result<(), Violation> {
        let Some(audit) = &mut self.audit else {
            return Ok(());
        };
        audit.keeper_file(&self.files[0])?;
        let up = self.borrowers.iter().enumerate().filter_map(|(number, borrower)| {
            let borrower = borrower.as_ref()?;
            Some(Seen { number, now: self.readings[1 + number], borrower })
        });
        let up: Vec<Seen> = up.collect();
        audit.check(self.terms, self.keeper.kept(), &up)
    }
}

/// Cuts a journal back to its last whole record.
fn cut_back(owner: Owner, file: &mut Vec<u8>, take: impl FnMut(journal::Record)) {
    let whole = journal::replay(owner, &file[..], take);
    let whole = whole.expect("only whole records and first parts of one are appended");
    file.truncate(whole as usize);
}

fn print_answer(out: &mut Vec<u8>, answer: Result<(), Refusal>) {
    match answer {
        Ok(()) => out.extend_from_slice(b"done"),
        Err(refusal) => {
            out.extend_from_slice(b"refused");
            lines::push_number(out, refusal.number());
        }
    }
    out.push(b'\n');
}

fn print_message(out: &mut Vec<u8>, message: &Message) {
    let (first, borrower, place) = message.head();
    let name = ["", " ask", " loan", " write", " in", " void", " recall", " back"][first as usize];
    out.extend_from_slice(name.as_bytes());
    match *message {
        Message::Ask { number, kind, last_write, .. } => {
            print_fields(out, borrower, place, &[number, kind.number().into(), last_write]);
        }
        Message::Loan { number, kind, bytes, .. } => {
            print_fields(out, borrower, place, &[number, kind.number().into()]);
            out.push(b' ');
            push_bytes(out, bytes);
        }
        Message::Write { number, bytes, .. } => {
            print_fields(out, borrower, place, &[number]);
            out.push(b' ');
            push_bytes(out, bytes);
        }
        Message::In { number, .. } | Message::Void { number, .. } | Message::Back { number, .. } => {
            print_fields(out, borrower, place, &[number]);
        }
        Message::Recall { .. } => print_fields(out, borrower, place, &[]),
    }
    out.push(b'\n');
}

fn print_fields(out: &mut Vec<u8>, borrower: u8, place: Place, numbers: &[u32]) {
    lines::push_number(out, borrower);
    lines::push_number(out, place.file);
    lines::push_number(out, place.part);
    for &number in numbers {
        lines::push_number(out, number);
    }
}

/// Bytes without the zeros at the end, or `-` where nothing is left.
fn push_bytes(out: &mut Vec<u8>, bytes: &[u8]) {
    let length = bytes.iter().rposition(|&byte| byte != 0).map_or(0, |last| last + 1);
    match length {
        0 => out.push(b'-'),
        _ => lines::push_hex(out, &bytes[..length]),
    }
}

/// Why a rehearsal ends before its script does.
pub enum Ended {
    Failure(Failure),
    /// A promise was broken, at this line.
    Violation { line: u64, violation: Violation },
}

impl From<std::io::Error> for Ended {
    fn from(error: std::io::Error) -> Self {
        Ended::Failure(Failure::Io(error))
    }
}

/// Plays the whole script.
pub fn play(terms: Terms, audited: bool, input: impl Read, mut output: impl Write) -> Result<(), Ended> {
    let mut reader = LineReader::new(input);
    let mut stage = Stage::new(terms, audited);
    let (mut scratch, mut printed) = (Vec::new(), Vec::new());
    let mut number = 0;
    while let Some(line) = reader.next_line()? {
        number += 1;
        match line {
            Line::Whole(line) => {
                if let Err(violation) = stage.play(line, &mut scratch, &mut printed) {
                    output.write_all(&printed)?;
                    return Err(Ended::Violation { line: number, violation });
                }
            }
            Line::Cut => print_answer(&mut printed, Err(Refusal::NoForm)),
        }
        if !reader.has_whole_line() || printed.len() > 1 << 15 {
            output.write_all(&printed)?;
            output.flush()?;
            printed.clear();
        }
    }
    Ok(())
}
