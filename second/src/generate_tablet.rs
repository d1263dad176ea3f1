//! Random cases for the tablet: sessions on one journal, which is cut or changed between them.

use crate::borrower::{Borrower, Hold};
use crate::case::{Case, Damage, Program, Session};
use crate::clock::Terms;
use crate::effects::Effects;
use crate::generate;
use crate::journal::{self, Owner, Record};
use crate::message::{Kind, Message, PART_BYTES, PartBytes, Place};
use crate::rng::Rng;
use crate::serve::{self, Server};
use crate::stats::{Stats, TornAt};
use crate::tablet;

/// The case of a seed, with about so many lines.
pub fn case(seed: u64, lines: usize, stats: &mut Stats) -> Case {
    let mut rng = generate::rng_for(300, seed);
    let terms = generate::terms(&mut rng);
    let mut writer = Writer::new(terms, rng, stats);
    let mut arguments = generate::terms_words(terms);
    arguments.push(writer.number.to_string());
    let sessions = writer.sessions(lines);
    stats.scripts += 1;
    Case { program: Program::Tablet, arguments, sessions }
}

struct Writer<'s> {
    rng: Rng,
    terms: Terms,
    number: u8,
    places: Vec<Place>,
    program: tablet::Program,
    journal: Vec<u8>,
    lines: Vec<Vec<u8>>,
    stats: &'s mut Stats,
}

impl<'s> Writer<'s> {
    fn new(terms: Terms, mut rng: Rng, stats: &'s mut Stats) -> Writer<'s> {
        let number = rng.pick(&[0, 5, 31]);
        let places = generate::places(&mut rng);
        let program = tablet::Program::new(Borrower::new(terms, number));
        Writer { rng, terms, number, places, program, journal: vec![], lines: vec![], stats }
    }

    fn sessions(&mut self, lines: usize) -> Vec<Session> {
        let count = self.rng.within(1, 4);
        let mut sessions = Vec::new();
        for number in 0..count {
            let damage = match number {
                0 if self.rng.percent(60) => self.made_up_journal(),
                0 => vec![],
                _ => generate::damage(&mut self.rng, &self.journal),
            };
            damage.iter().for_each(|damage| damage.apply(&mut self.journal));
            let opened = self.open();
            let each = if opened { lines / count as usize } else { 1 };
            self.session(each);
            // the last one may find the disk full
            let limit = (number + 1 == count && self.rng.percent(5)).then(|| self.rng.below(8));
            sessions.push(Session { damage, limit, lines: std::mem::take(&mut self.lines) });
            if !opened {
                break;
            }
        }
        sessions
    }

    /// Comes up on what is in the journal; false where that is refused.
    fn open(&mut self) -> bool {
        self.stats.sessions += 1;
        self.stats.tear(TornAt::end_of(&self.journal));
        let mut borrower = Borrower::new(self.terms, self.number);
        let replayed = journal::replay(Owner::Borrower, &self.journal[..], |record| borrower.take(record));
        self.program = tablet::Program::new(borrower);
        match replayed {
            Ok(whole) => self.journal.truncate(whole as usize),
            Err(_) => self.stats.journals_refused += 1,
        }
        replayed.is_ok()
    }

    /// Records with numbers that no short script reaches.
    fn made_up_journal(&mut self) -> Vec<Damage> {
        let mut bytes = Vec::new();
        for _ in 0..self.rng.within(1, 5) {
            let place = self.rng.pick(&self.places);
            let (ask, write) = (generate::number(&mut self.rng), generate::number(&mut self.rng));
            Record::Numbers { place, ask, write }.encode(&mut bytes);
        }
        if self.rng.percent(25) {
            let torn = self.rng.below(11) as usize;
            bytes.extend_from_slice(&[10, 3, 7, 0, 0, 0, 64, 0, 0, 0, 0][..torn]);
        }
        vec![Damage::Append(bytes)]
    }

    fn session(&mut self, count: usize) {
        if self.rng.percent(15) {
            let first = match self.rng.below(3) {
                0 => u64::MAX - self.terms.short - self.rng.below(3),
                1 => u64::MAX - self.rng.below(3 * self.terms.short + 3),
                _ => self.rng.next(),
            };
            self.play(first.to_string().into_bytes());
        }
        while self.lines.len() < count {
            let line = self.next_line();
            self.play(line);
        }
        if self.rng.percent(8) {
            let mut line = self.next_line();
            line.truncate(self.rng.within(1, line.len() as u64) as usize);
            // without a newline it is refused, whatever it says
            self.lines.push(line);
        }
    }

    fn play(&mut self, mut line: Vec<u8>) {
        let (mut effects, mut printed) = (Effects::default(), Vec::new());
        let answer = self.program.line(&line, &mut effects);
        serve::print(answer, &effects, &mut printed);
        self.journal.extend_from_slice(&effects.record);
        self.stats.lines += 1;
        self.stats.count(&printed);
        line.push(b'\n');
        self.lines.push(line);
    }

    fn next_line(&mut self) -> Vec<u8> {
        if self.rng.percent(2) {
            return generate::nonsense(&mut self.rng);
        }
        let place = self.rng.pick(&self.places);
        let reading = self.reading(place);
        let head = generate::number_word(&mut self.rng, reading);
        let line = match self.rng.below(100) {
            0..2 => head,
            2..50 => format!("{head} {}", self.call(place)),
            _ => {
                let message = self.message(place);
                format!("{head} {}", generate::hex_word(&mut self.rng, &message))
            }
        };
        match self.rng.percent(3) {
            true => generate::spoil(&mut self.rng, line.as_bytes()),
            false => line.into_bytes(),
        }
    }

    fn reading(&mut self, place: Place) -> u64 {
        let now = self.program.last_reading();
        let short = self.terms.short;
        let asked = self.program.borrower().part(place).map_or(0, |part| part.asked);
        let edge = asked.saturating_add(short);
        match self.rng.below(40) {
            0 => now.saturating_sub(self.rng.within(1, 3)),
            1 | 2 => edge.saturating_sub(1).max(now),
            3 | 4 => edge.max(now),
            5 => now.saturating_add(self.rng.below(2 * short)),
            6 if self.rng.percent(2) => u64::MAX - short + self.rng.below(2),
            7..12 => now.saturating_add(self.rng.below(short / 20 + 2)),
            _ => now,
        }
    }

    fn part(&mut self) -> PartBytes {
        let mut part = [0; PART_BYTES];
        let bytes = generate::part_bytes(&mut self.rng);
        part[..bytes.len()].copy_from_slice(&bytes);
        part
    }

    fn call(&mut self, place: Place) -> String {
        let hold = self.program.borrower().part(place).map_or(Hold::Nothing, |part| part.hold);
        // in this order: ask, show, write, forget
        let weights = match hold {
            Hold::Nothing => [70, 8, 8, 14],
            Hold::Copy { kind: Kind::Reading, .. } => [15, 50, 20, 15],
            Hold::Copy { kind: Kind::Writing, .. } => [10, 30, 50, 10],
        };
        let (file, part) = (place.file, generate::number_word(&mut self.rng, place.part));
        match self.rng.weighted(&weights) {
            0 => format!("ask {file} {part} {}", self.rng.below(2)),
            1 => format!("show {file} {part}"),
            2 => {
                let mut bytes = self.part().to_vec();
                if self.rng.percent(4) {
                    bytes.resize(self.rng.pick(&[1, 1023, 1025]), 7);
                }
                format!("write {file} {part} {}", generate::hex_word(&mut self.rng, &bytes))
            }
            _ => format!("forget {file} {part}"),
        }
    }

    fn message(&mut self, place: Place) -> Vec<u8> {
        let mut bytes = Vec::new();
        let part = self.part();
        self.message_value(place, &part).encode(&mut bytes);
        if self.rng.percent(4) {
            match self.rng.below(4) {
                0 => bytes.truncate(self.rng.below(bytes.len() as u64).max(1) as usize),
                1 => bytes.extend(std::iter::repeat_n(0, self.rng.pick(&[1, 2, 3_000]))),
                2 => bytes[0] = self.rng.below(12) as u8,
                _ => bytes[self.rng.below(4) as usize] = self.rng.pick(&[0, 31, 32, 63, 64, 255]),
            }
        }
        bytes
    }

    fn message_value<'a>(&mut self, place: Place, bytes: &'a PartBytes) -> Message<'a> {
        let (ask, write) = self.program.borrower().part(place).map_or((0, 0), |part| (part.ask, part.write));
        let borrower = if self.rng.percent(3) { self.rng.below(32) as u8 } else { self.number };
        let kind = if self.rng.percent(60) { Kind::Writing } else { Kind::Reading };
        match self.rng.weighted(&[60, 8, 8, 14, 5]) {
            0 => Message::Loan { borrower, place, number: self.near(ask), kind, bytes },
            1 => Message::In { borrower, place, number: self.near(write) },
            2 => Message::Void { borrower, place, number: self.near(write) },
            3 => Message::Recall { borrower, place },
            _ => match self.rng.below(3) {
                0 => Message::Ask { borrower, place, number: ask, kind, last_write: write },
                1 => Message::Write { borrower, place, number: write, bytes },
                _ => Message::Back { borrower, place, number: ask },
            },
        }
    }

    /// Mostly the number itself.
    fn near(&mut self, number: u32) -> u32 {
        match self.rng.below(12) {
            0 => generate::number(&mut self.rng),
            1 => number.saturating_sub(1),
            2 => number.saturating_add(1),
            _ => number,
        }
    }
}
