//! Random cases for the keeper: sessions on one journal, which is cut or changed between them.

use crate::case::{Case, Damage, Program, Session, hex};
use crate::clock::Terms;
use crate::effects::Effects;
use crate::generate;
use crate::journal::{self, Owner, Record};
use crate::keeper::{self, Kept, MOST_LEASES};
use crate::message::{Kind, Message, PART_BYTES, PartBytes, Place};
use crate::rng::Rng;
use crate::serve::{self, Server};
use crate::stats::{Stats, TornAt};

/// One case in so many fills all the leases there are.
const FULL_IN: u64 = 97;

/// The case of a seed, with about so many lines.
pub fn case(seed: u64, lines: usize, stats: &mut Stats) -> Case {
    let mut rng = generate::rng_for(200, seed);
    let terms = generate::terms(&mut rng);
    let mut writer = Writer::new(terms, rng, stats);
    let sessions = match seed % FULL_IN {
        0 => writer.full_house(),
        _ => writer.sessions(lines),
    };
    stats.scripts += 1;
    Case { program: Program::Keeper, arguments: generate::terms_words(terms), sessions }
}

struct Writer<'s> {
    rng: Rng,
    terms: Terms,
    borrowers: Vec<u8>,
    places: Vec<Place>,
    program: keeper::Program,
    journal: Vec<u8>,
    lines: Vec<Vec<u8>>,
    stats: &'s mut Stats,
}

impl<'s> Writer<'s> {
    fn new(terms: Terms, mut rng: Rng, stats: &'s mut Stats) -> Writer<'s> {
        let borrowers = (0..rng.within(1, 4)).map(|_| rng.pick(&[0, 1, 2, 17, 30, 31])).collect();
        let places = generate::places(&mut rng);
        let program = keeper::Program::new(terms, Kept::default());
        Writer { rng, terms, borrowers, places, program, journal: vec![], lines: vec![], stats }
    }

    fn sessions(&mut self, lines: usize) -> Vec<Session> {
        let count = self.rng.within(1, 4);
        let mut sessions = Vec::new();
        for number in 0..count {
            let damage = match number {
                0 if self.rng.percent(60) => self.made_up_journal(),
                0 => vec![],
                _ => generate::damage(&mut self.rng, &self.journal),
            };
            damage.iter().for_each(|damage| damage.apply(&mut self.journal));
            let opened = self.open();
            let each = if opened { lines / count as usize } else { 1 };
            self.session(each);
            // the last one may find the disk full
            let limit = (number + 1 == count && self.rng.percent(5)).then(|| self.rng.below(8));
            sessions.push(Session { damage, limit, lines: std::mem::take(&mut self.lines) });
            if !opened {
                break;
            }
        }
        sessions
    }

    /// Comes up on what is in the journal; false where that is refused.
    fn open(&mut self) -> bool {
        self.stats.sessions += 1;
        self.stats.tear(TornAt::end_of(&self.journal));
        let mut kept = Kept::default();
        let replayed = journal::replay(Owner::Keeper, &self.journal[..], |record| kept.take(record));
        self.program = keeper::Program::new(self.terms, kept);
        match replayed {
            Ok(whole) => self.journal.truncate(whole as usize),
            Err(_) => self.stats.journals_refused += 1,
        }
        replayed.is_ok()
    }

    /// Records with numbers that no short script reaches.
    fn made_up_journal(&mut self) -> Vec<Damage> {
        let mut bytes = Vec::new();
        for _ in 0..self.rng.within(1, 6) {
            let (borrower, place) = (self.borrower(), self.rng.pick(&self.places));
            let number = generate::number(&mut self.rng);
            match self.rng.percent(50) {
                true => Record::Voided { borrower, place, number }.encode(&mut bytes),
                false => {
                    let part = self.part();
                    Record::Written { borrower, place, number, bytes: &part }.encode(&mut bytes);
                }
            }
        }
        if self.rng.percent(25) {
            let whole = bytes.clone();
            bytes.extend_from_slice(&whole[..self.rng.below(whole.len() as u64) as usize]);
        }
        vec![Damage::Append(bytes)]
    }

    fn session(&mut self, count: usize) {
        self.begin();
        while self.lines.len() < count {
            let line = self.next_line();
            self.play(line);
        }
        if self.rng.percent(8) {
            let mut line = self.next_line();
            line.truncate(self.rng.within(1, line.len() as u64) as usize);
            // without a newline it is refused, whatever it says
            self.lines.push(line);
        }
    }

    /// The first reading, and mostly one at which the grace period is over.
    fn begin(&mut self) {
        let long = self.terms.long;
        let first = match self.rng.below(10) {
            0 => u64::MAX - long + self.rng.within(0, 2),
            1 => u64::MAX - long - self.rng.below(10 * long),
            2 => self.rng.next(),
            _ => self.rng.below(1000),
        };
        self.play(first.to_string().into_bytes());
        if self.rng.percent(85) {
            let after = first.saturating_add(long - self.rng.below(2));
            self.play(after.to_string().into_bytes());
        }
    }

    fn play(&mut self, mut line: Vec<u8>) {
        let (mut effects, mut printed) = (Effects::default(), Vec::new());
        let answer = self.program.line(&line, &mut effects);
        serve::print(answer, &effects, &mut printed);
        self.journal.extend_from_slice(&effects.record);
        self.stats.lines += 1;
        self.stats.count(&printed);
        line.push(b'\n');
        self.lines.push(line);
    }

    fn next_line(&mut self) -> Vec<u8> {
        if self.rng.percent(2) {
            return generate::nonsense(&mut self.rng);
        }
        let reading = self.reading();
        let mut line = generate::number_word(&mut self.rng, reading);
        if !self.rng.percent(3) {
            let message = self.message();
            line.push(' ');
            line.push_str(&generate::hex_word(&mut self.rng, &message));
        }
        match self.rng.percent(3) {
            true => generate::spoil(&mut self.rng, line.as_bytes()),
            false => line.into_bytes(),
        }
    }

    fn reading(&mut self) -> u64 {
        let now = self.program.last_reading();
        let long = self.terms.long;
        let edge = match self.program.keeper().leases() {
            leases if !leases.is_empty() && self.rng.percent(80) => self.rng.pick(leases).until,
            _ => self.program.keeper().grace_end(),
        };
        match self.rng.below(40) {
            0 => now.saturating_sub(self.rng.within(1, 3)),
            1 | 2 => edge.saturating_sub(1).max(now),
            3 | 4 => edge.max(now),
            5 => now.saturating_add(self.rng.below(2 * long)),
            6 if self.rng.percent(3) => u64::MAX - long + self.rng.below(2),
            6 if self.rng.percent(3) => u64::MAX - self.rng.below(2),
            7..12 => now.saturating_add(self.rng.below(long / 20 + 2)),
            _ => now,
        }
    }

    fn borrower(&mut self) -> u8 {
        self.rng.pick(&self.borrowers)
    }

    fn part(&mut self) -> PartBytes {
        let mut part = [0; PART_BYTES];
        let bytes = generate::part_bytes(&mut self.rng);
        part[..bytes.len()].copy_from_slice(&bytes);
        part
    }

    fn message(&mut self) -> Vec<u8> {
        let mut bytes = Vec::new();
        let part = self.part();
        self.message_value(&part).encode(&mut bytes);
        if self.rng.percent(4) {
            match self.rng.below(4) {
                0 => bytes.truncate(self.rng.below(bytes.len() as u64).max(1) as usize),
                1 => bytes.extend(std::iter::repeat_n(0, self.rng.pick(&[1, 2, 3_000]))),
                2 => bytes[0] = self.rng.below(12) as u8,
                _ => bytes[self.rng.below(4) as usize] = self.rng.pick(&[0, 31, 32, 63, 64, 255]),
            }
        }
        bytes
    }

    fn message_value<'a>(&mut self, bytes: &'a PartBytes) -> Message<'a> {
        let place = self.rng.pick(&self.places);
        let borrower = self.borrower();
        let (applied, void) = match self.program.keeper().kept().part(place) {
            Some(part) => (part.applied[borrower as usize], part.void[borrower as usize]),
            None => (0, 0),
        };
        let leases = self.program.keeper().leases().iter();
        let lease = leases.rev().find(|lease| lease.borrower == borrower && lease.place == place).copied();
        let writes = lease.is_some_and(|lease| lease.kind == Kind::Writing);
        let weights = if writes { [25, 55, 12, 4] } else { [70, 12, 12, 4] };
        match self.rng.weighted(&weights) {
            0 => {
                let number = self.ask_number(lease.map_or(0, |lease| lease.number));
                let kind = if self.rng.percent(60) { Kind::Writing } else { Kind::Reading };
                let last_write = self.near(applied.max(void));
                Message::Ask { borrower, place, number, kind, last_write }
            }
            1 => {
                let next = applied.max(void).saturating_add(1);
                let number = match self.rng.below(10) {
                    0 => 0,
                    1 => applied,
                    2 => void,
                    3 => self.near(applied),
                    4 => self.near(void),
                    _ => next,
                };
                Message::Write { borrower, place, number, bytes }
            }
            2 => {
                let number = lease.map_or(1, |lease| lease.number);
                Message::Back { borrower, place, number: self.near(number) }
            }
            _ => match self.rng.below(4) {
                0 => Message::Loan { borrower, place, number: 1, kind: Kind::Reading, bytes },
                1 => Message::In { borrower, place, number: 1 },
                2 => Message::Void { borrower, place, number: 1 },
                _ => Message::Recall { borrower, place },
            },
        }
    }

    fn ask_number(&mut self, last: u32) -> u32 {
        match self.rng.below(8) {
            0 => generate::number(&mut self.rng),
            1 => last,
            _ => last.saturating_add(1),
        }
    }

    /// The number itself, one beside it, or any.
    fn near(&mut self, number: u32) -> u32 {
        match self.rng.below(12) {
            0 => generate::number(&mut self.rng),
            1 => number.saturating_sub(1),
            2 | 3 => number.saturating_add(1),
            4 => number.saturating_add(2),
            _ => number,
        }
    }

    /// As many leases as there may be, one more, some given back, and then when they end.
    fn full_house(&mut self) -> Vec<Session> {
        self.open();
        let long = self.terms.long;
        self.play(b"7".to_vec());
        let (mut now, several) = (7 + long, self.rng.percent(50));
        let ask = |writer: &mut Writer, now: u64, number: u32| {
            let borrower = if several { (number % 32) as u8 } else { 9 };
            let place = Place { file: (number % 5) as u8, part: (number % 7) as u8 };
            let mut bytes = Vec::new();
            Message::Ask { borrower, place, number, kind: Kind::Reading, last_write: 0 }.encode(&mut bytes);
            writer.play(format!("{now} {}", hex(&bytes)).into_bytes());
        };
        for number in 0..MOST_LEASES as u32 {
            ask(self, now, number);
        }
        ask(self, now, 4096);
        let (borrower, place) = (if several { 1 } else { 9 }, Place { file: 1, part: 1 });
        let mut back = Vec::new();
        Message::Back { borrower, place, number: 1 }.encode(&mut back);
        self.play(format!("{now} {}", hex(&back)).into_bytes());
        ask(self, now, 4097);
        ask(self, now, 4098);
        now += long - 1;
        ask(self, now, 4099);
        ask(self, now + 1, 4100);
        vec![Session { lines: std::mem::take(&mut self.lines), ..Session::default() }]
    }
}
