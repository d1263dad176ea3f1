//! Random scripts for the rehearsal. While a script is made up it is played, so that the next
//! line can be one that has a point: a loan that is due is delivered, a copy that is held is
//! written, a clock goes exactly to the edge.

use crate::audit::Violation;
use crate::case::{Case, Program, Session};
use crate::clock::Terms;
use crate::generate::{self, number_word};
use crate::journal::{NUMBERS_BYTES, VOIDED_BYTES, WRITTEN_BYTES};
use crate::message::{Kind, Message, Place};
use crate::rehearse::{BORROWERS, CLOCKS, Stage, Who};
use crate::rng::Rng;
use crate::stats::{Stats, TornAt};

/// The terms of all scripts of a group of seeds.
pub fn terms_of(seed: u64) -> Terms {
    generate::terms(&mut generate::rng_for(100, seed / generate::GROUP))
}

/// One script as a case of its own.
pub fn case(seed: u64, lines: usize, stats: &mut Stats) -> Result<Case, Violation> {
    let terms = terms_of(seed);
    let lines = script(terms, seed, lines, stats)?;
    let sessions = vec![Session { lines, ..Session::default() }];
    Ok(Case { program: Program::Rehearse, arguments: generate::terms_words(terms), sessions })
}

/// The lines of one script, with their newlines.
pub fn script(terms: Terms, seed: u64, lines: usize, stats: &mut Stats) -> Result<Vec<Vec<u8>>, Violation> {
    let mut writer = Writer::new(terms, generate::rng_for(101, seed));
    writer.begin()?;
    while writer.lines.len() < lines {
        let line = writer.next_line();
        writer.play(line)?;
    }
    stats.add(&writer.stats);
    stats.scripts += 1;
    Ok(writer.lines)
}

/// What the last line led to, and the next one may go on with.
#[derive(Clone, Copy)]
enum Focus {
    /// A message that was just sent.
    Message(u64),
    /// A copy that was just lent.
    Copy(usize, Place),
}

struct Writer {
    rng: Rng,
    terms: Terms,
    stage: Stage,
    places: Vec<Place>,
    /// Messages that are still on their way, by number.
    pending: Vec<u64>,
    focus: Option<Focus>,
    /// How often things go wrong, in a hundred.
    trouble: u64,
    lines: Vec<Vec<u8>>,
    stats: Stats,
    scratch: Vec<u8>,
}

impl Writer {
    fn new(terms: Terms, mut rng: Rng) -> Writer {
        let places = generate::places(&mut rng);
        let trouble = rng.pick(&[0, 3, 8, 20]);
        let stage = Stage::new(terms, true);
        let (pending, focus, lines, stats, scratch) = Default::default();
        Writer { rng, terms, stage, places, pending, focus, trouble, lines, stats, scratch }
    }

    fn play(&mut self, line: String) -> Result<(), Violation> {
        self.play_bytes(line.into_bytes())
    }

    fn play_bytes(&mut self, mut line: Vec<u8>) -> Result<(), Violation> {
        let before = self.stage.messages().count() as u64;
        let mut printed = Vec::new();
        let played = self.stage.play(&line, &mut self.scratch, &mut printed);
        line.push(b'\n');
        self.lines.push(line);
        if let Err(violation) = played {
            let script = String::from_utf8_lossy(&self.lines.concat()).into_owned();
            return Err(Violation(format!("{} in the script\n{script}", violation.0)));
        }
        let after = self.stage.messages().count() as u64;
        if after < before {
            self.pending.clear();
        }
        self.pending.extend(before + 1..=after);
        self.focus = match after > before {
            true => Some(Focus::Message(after)),
            false => self.lent_copy(self.focus),
        };
        self.stats.lines += 1;
        self.stats.count(&printed);
        if let Some(torn) = self.stage.torn() {
            self.stats.tear(TornAt::of(torn.first, torn.record, torn.kept));
        }
        Ok(())
    }

    /// Clocks set, and most of those on the stage brought up.
    fn begin(&mut self) -> Result<(), Violation> {
        if self.rng.percent(40) {
            let count = self.rng.within(1, CLOCKS as u64);
            let near_end = self.rng.percent(30);
            let readings: Vec<String> = (0..count).map(|_| self.first_reading(near_end).to_string()).collect();
            self.play(format!("set {}", readings.join(" ")))?;
        }
        if self.rng.percent(90) {
            self.play("up keeper".into())?;
        }
        for borrower in 0..BORROWERS {
            if self.rng.percent(85) {
                self.play(format!("up {borrower}"))?;
            }
        }
        if self.rng.percent(80) {
            self.play(format!("tick {}", self.terms.long))?;
        }
        Ok(())
    }

    fn first_reading(&mut self, near_end: bool) -> u64 {
        let Terms { short, long, .. } = self.terms;
        match self.rng.below(8) {
            0 if near_end => u64::MAX - self.rng.below(4),
            1 if near_end => u64::MAX - long - self.rng.below(3),
            2 | 3 if near_end => u64::MAX - long - self.rng.below(20 * long),
            4 if near_end => u64::MAX - short - self.rng.below(short + 3),
            5 => self.rng.below(1 << 63),
            _ => self.rng.below(3 * long),
        }
    }

    /// The copy that came with the loan that was delivered last, where it is valid.
    fn lent_copy(&self, delivered: Option<Focus>) -> Option<Focus> {
        let Some(Focus::Message(number)) = delivered else { return None };
        let message = Message::decode(self.stage.messages().get(number)?)?;
        let Message::Loan { borrower, place, .. } = message else { return None };
        let borrower = borrower as usize;
        self.held(borrower, place).map(|_| Focus::Copy(borrower, place))
    }

    /// The kind of the copy that the borrower may show.
    fn held(&self, borrower: usize, place: Place) -> Option<Kind> {
        let part = self.stage.borrower(borrower)?.part(place)?;
        part.valid(self.terms, self.stage.readings()[1 + borrower])
    }

    fn next_line(&mut self) -> String {
        match self.focus {
            Some(Focus::Message(number)) if self.rng.percent(70) => {
                if let Some(ask_again) = self.leave_write(number) {
                    return ask_again;
                }
                self.pending.retain(|&pending| pending != number);
                return self.deliver(number);
            }
            Some(Focus::Copy(borrower, place)) if self.rng.percent(65) => return self.call_of(borrower, place),
            _ => self.focus = None,
        }
        let grace_left = self.stage.keeper().is_some_and(|keeper| keeper.grace_end() > self.stage.readings()[0]);
        let tick = if grace_left { 40 } else { 12 };
        let deliverable = if self.pending.is_empty() { 0 } else { 45 };
        let sent = if self.stage.messages().count() == 0 { 0 } else { 4 + self.trouble / 2 };
        let down = (0..CLOCKS).filter(|&clock| !self.stage.is_up(who(clock))).count() as u64;
        match self.rng.weighted(&[deliverable, sent, 25, tick, 1 + self.trouble / 8, 10 * down, 1, 2]) {
            0 => self.deliver_pending(),
            1 => self.deliver_any(),
            2 => self.call(),
            3 => self.tick(),
            4 => format!("stop {}", self.anybody()),
            5 => format!("up {}", self.somebody_down()),
            6 => {
                // everything on its way is lost
                self.pending.clear();
                self.tick()
            }
            _ => self.odd_line(),
        }
    }

    /// Now and then a write is left on its way, and its borrower asks again: it is void then.
    fn leave_write(&mut self, number: u64) -> Option<String> {
        let message = Message::decode(self.stage.messages().get(number)?)?;
        match message {
            Message::Write { borrower, place, .. } if self.rng.percent(30) => Some(self.call_of(borrower as usize, place)),
            _ => None,
        }
    }

    fn deliver_pending(&mut self) -> String {
        let last = self.pending.len() - 1;
        let place = if self.rng.percent(70) { last } else { self.rng.below(last as u64 + 1) as usize };
        let number = self.pending[place];
        self.focus = Some(Focus::Message(number));
        let line = self.deliver(number);
        // what arrives spoiled, or where somebody stops, may be tried again
        if line == format!("deliver {number}") || self.rng.percent(50) {
            self.pending.remove(place);
        }
        line
    }

    /// Again, or very late; a write sooner than anything else.
    fn deliver_any(&mut self) -> String {
        let count = self.stage.messages().count() as u64;
        let mut number = count;
        for _ in 0..5 {
            number = match self.rng.percent(50) {
                true => self.rng.within(1, count),
                false => count - self.rng.below(count.min(8)),
            };
            if self.stage.messages().get(number).is_some_and(|message| message[0] == 3) {
                break;
            }
        }
        self.deliver(number)
    }

    fn deliver(&mut self, number: u64) -> String {
        let mut line = format!("deliver {}", number_word(&mut self.rng, number));
        if self.rng.percent(self.trouble / 3) {
            let length = self.stage.messages().get(number).map_or(0, <[u8]>::len) as u64;
            let cut = match self.rng.below(4) {
                0 => self.rng.pick(&[0, 1, 3, 4, 5, 8, 9, 13]),
                1 => length.saturating_sub(self.rng.below(3)),
                2 => self.rng.pick(&[length, length + 1, u64::MAX]),
                _ => self.rng.below(length + 2),
            };
            line.push_str(&format!(" cut {cut}"));
        }
        if self.rng.percent(self.trouble / 3) {
            line.push_str(&format!(" to {}", self.anybody()));
        }
        let is_write = self.stage.messages().get(number).is_some_and(|message| message[0] == 3);
        match is_write {
            true => self.maybe_stop(&mut line, 2 * self.trouble, WRITTEN_BYTES),
            false => self.maybe_stop(&mut line, self.trouble / 3, VOIDED_BYTES),
        }
        line
    }

    /// A stop in the middle, where a record of about so many bytes may be on its way.
    fn maybe_stop(&mut self, line: &mut String, percent: u64, record: usize) {
        if self.rng.percent(percent) {
            let whole = record as u64;
            let kept = match self.rng.below(6) {
                0 => 0,
                1 => self.rng.within(1, 4),
                2 => self.rng.below(whole),
                3 => whole,
                4 => whole - 1 + self.rng.below(3),
                _ => self.rng.pick(&[5_000, u64::MAX, 2_000]),
            };
            line.push_str(&format!(" stop {kept}"));
        }
    }

    fn call(&mut self) -> String {
        let borrower = self.rng.below(BORROWERS as u64) as usize;
        let place = self.rng.pick(&self.places);
        self.call_of(borrower, place)
    }

    fn call_of(&mut self, borrower: usize, place: Place) -> String {
        // in this order: ask, show, write, forget
        let weights = match self.held(borrower, place) {
            Some(Kind::Writing) => [6, 20, 60, 4],
            Some(Kind::Reading) => [8, 60, 8, 8],
            None => [75, 10, 6, 5],
        };
        let head = |name: &str| format!("{borrower} {name} {} {}", place.file, place.part);
        let mut line = match self.rng.weighted(&weights) {
            0 => format!("{} {}", head("ask"), u8::from(self.rng.percent(65))),
            1 => head("show"),
            2 => {
                let bytes = generate::part_bytes(&mut self.rng);
                format!("{} {}", head("write"), generate::hex_word(&mut self.rng, &bytes))
            }
            _ => head("forget"),
        };
        self.maybe_stop(&mut line, self.trouble / 3, NUMBERS_BYTES);
        line
    }

    fn tick(&mut self) -> String {
        let passed = self.time_to_pass();
        let mut line = format!("tick {passed}");
        if self.rng.percent(60) {
            for clock in 0..self.rng.within(1, CLOCKS as u64) as usize {
                let counted = self.clock_steps(clock, passed);
                line.push_str(&format!(" {counted}"));
            }
        }
        line
    }

    fn time_to_pass(&mut self) -> u64 {
        let Terms { short, long, .. } = self.terms;
        let grace_left = self.stage.keeper().map_or(0, |k| k.grace_end().saturating_sub(self.stage.readings()[0]));
        if grace_left > 0 && self.rng.percent(70) {
            return grace_left - self.rng.below(2);
        }
        match self.rng.below(16) {
            0 | 1 => 0,
            2..5 => 1,
            5 | 6 => self.rng.below(short + 1),
            7 => self.time_left_of_a_copy(),
            8 => short - self.rng.below(2),
            9 => long - self.rng.below(2),
            10 => self.rng.below(20 * long),
            11 => self.rng.pick(&[1_000_000, 10_000_000_000]),
            12 if self.rng.percent(20) => u64::MAX - self.rng.below(3),
            _ => self.rng.below(short / 8 + 2),
        }
    }

    /// Until some copy is no longer valid, or one less.
    fn time_left_of_a_copy(&mut self) -> u64 {
        let borrower = self.rng.below(BORROWERS as u64) as usize;
        let place = self.rng.pick(&self.places);
        let now = self.stage.readings()[1 + borrower];
        let part = self.stage.borrower(borrower).and_then(|borrower| borrower.part(place));
        let asked = part.filter(|part| part.valid(self.terms, now).is_some()).map_or(now, |part| part.asked);
        (asked + self.terms.short).saturating_sub(now + self.rng.below(2))
    }

    /// How far a clock goes on: to an edge of its error, seldom beyond, or somewhere between.
    fn clock_steps(&mut self, clock: usize, passed: u64) -> u64 {
        let reading = self.stage.readings()[clock];
        let then = self.stage.true_time().saturating_add(passed);
        let (least, greatest) = self.stage.clock_error(clock).range(then);
        let steps = |to: i128| u64::try_from(to - i128::from(reading)).unwrap_or(0);
        let (least, greatest) = (steps(least), steps(greatest));
        match self.rng.below(40) {
            0 => least.saturating_sub(1),
            1 => greatest.saturating_add(1),
            2..10 => least,
            10..20 => greatest,
            20..30 => passed,
            _ => self.rng.within(least.min(greatest), greatest),
        }
    }

    fn anybody(&mut self) -> String {
        let clock = self.rng.below(CLOCKS as u64) as usize;
        name(clock)
    }

    fn somebody_down(&mut self) -> String {
        let down: Vec<usize> = (0..CLOCKS).filter(|&clock| !self.stage.is_up(who(clock))).collect();
        if down.is_empty() { self.anybody() } else { name(self.rng.pick(&down)) }
    }

    fn odd_line(&mut self) -> String {
        let count = self.stage.messages().count();
        let odd: [&str; 16] = [
            "", "# a remark", "set 5", "tick", "tick 1 1 1 1 1 1 1", "up 4", "up", "stop keeper 3", "anew 1", "4 show 0 0",
            "deliver 0", "deliver 1 cut", "deliver 1 to 4", "deliver 1 to 0 cut 3", "0 ask 0 0 2", "deliver 1 stop",
        ];
        match self.rng.below(4) {
            0 => self.rng.pick(&odd).to_owned(),
            1 => format!("deliver {}", self.rng.pick(&[count as u64 + 1, u64::MAX, 1 << 32, 1 << 40])),
            2 => String::from_utf8_lossy(&generate::nonsense(&mut self.rng)).replace('\u{fffd}', "?"),
            _ => {
                let good = if self.rng.percent(50) { self.call() } else { self.tick() };
                let bad = generate::spoil(&mut self.rng, good.as_bytes());
                String::from_utf8(bad).unwrap_or("\u{e9}".into())
            }
        }
    }
}

fn who(clock: usize) -> Who {
    if clock == 0 { Who::Keeper } else { Who::Borrower(clock - 1) }
}

fn name(clock: usize) -> String {
    if clock == 0 { "keeper".into() } else { (clock - 1).to_string() }
}
