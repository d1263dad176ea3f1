//! Runs a keeper and four tablets as processes on real files, is the network between them, and
//! kills them again and again: `second-kill PROGRAMS SECONDS [SEED]`, where PROGRAMS is the
//! directory of `keeper` and `tablet`. Ends with status 1 where a promise is broken.
//!
//! Time is simulated: the clock readings that the processes are given go on as the test likes,
//! each at its own pace within the stated error, also while its process is down.

use second::account::Account;
use second::case::hex;
use second::journal::{self, Owner};
use second::lines;
use second::message::{Kind, Message, PART_BYTES, Place};
use second::process::{Printed, Process};
use second::rng::Rng;
use std::collections::VecDeque;
use std::path::{Path, PathBuf};
use std::process::ExitCode;
use std::sync::mpsc::{Receiver, Sender, channel};
use std::time::{Duration, Instant};
use std::{fs, io};

const TABLETS: usize = 4;
const KEEPER: usize = TABLETS;
const RATE: u64 = 1_000;
const SHORT: u64 = 100;
const LONG: u64 = 115;
const PLACES: [Place; 3] = [Place { file: 0, part: 0 }, Place { file: 3, part: 7 }, Place { file: 63, part: 255 }];
/// Not more lines than this wait in front of a process.
const MOST_WAITING: usize = 6;

/// A line that a process has not answered yet.
struct Waiting {
    number: u64,
    text: String,
    /// The message in it, for the keeper.
    message: Option<Vec<u8>>,
    /// Whether something was printed in answer, and the messages in that, for the keeper.
    printed: bool,
    sent: Vec<Vec<u8>>,
}

/// One of the five: the process, where it is up, its clock and its journal.
struct Actor {
    process: Option<Process>,
    journal: PathBuf,
    /// How far its clock runs off, in parts of a million, and what it showed at first.
    drift: i64,
    first_reading: u64,
    waiting: VecDeque<Waiting>,
    /// How long the journal was when nothing was waiting, and whether any line was answered
    /// since: where none was, nothing beyond that length has been told to anybody.
    settled: u64,
    answered_since: bool,
    /// What the tablet has of each part, as far as is known.
    beliefs: [Belief; PLACES.len()],
}

#[derive(Clone, Copy, PartialEq, Eq)]
enum Belief {
    Nothing,
    /// It has asked, and waits for a loan.
    Asked,
    Copy(Kind),
}

struct Travelling {
    due: u64,
    message: Vec<u8>,
}

#[derive(Default)]
struct Counts {
    kills: u64,
    kills_busy: u64,
    torn: u64,
    calls: u64,
    lines: u64,
    delivered: u64,
    lost: u64,
    repeated: u64,
}

struct Test {
    rng: Rng,
    programs: PathBuf,
    directory: PathBuf,
    actors: Vec<Actor>,
    true_time: u64,
    next_line: u64,
    network: Vec<Travelling>,
    /// The tablet that was just lent a part, and which: its next call has a point.
    focus: Option<(usize, usize)>,
    account: Account,
    counts: Counts,
    trail: VecDeque<String>,
    sender: Sender<(usize, Printed)>,
    receiver: Receiver<(usize, Printed)>,
}

type Judged = Result<(), String>;

fn text(error: io::Error) -> String {
    error.to_string()
}

impl Test {
    fn new(programs: &str, seed: u64) -> io::Result<Test> {
        let directory = std::env::temp_dir().join(format!("second-kill-{}", std::process::id()));
        fs::create_dir_all(&directory)?;
        let mut rng = Rng::new(seed);
        let actors = (0..=TABLETS).map(|number| Actor {
            process: None,
            journal: directory.join(if number == KEEPER { "keeper".into() } else { format!("tablet{number}") }),
            drift: rng.within(0, 2 * RATE) as i64 - RATE as i64,
            first_reading: rng.below(1 << 40),
            waiting: VecDeque::new(),
            settled: 0,
            answered_since: false,
            beliefs: [Belief::Nothing; PLACES.len()],
        });
        let actors = actors.collect();
        let (sender, receiver) = channel();
        let (network, focus, account, counts, trail) = Default::default();
        let (programs, true_time, next_line) = (PathBuf::from(programs), 0, 0);
        Ok(Test { rng, programs, directory, actors, true_time, next_line, network, focus, account, counts, trail, sender, receiver })
    }

    fn note(&mut self, event: String) {
        if self.trail.len() == 80 {
            self.trail.pop_front();
        }
        self.trail.push_back(event);
    }

    /// What the clock shows now: it stays within its error between any two moments, because it
    /// goes at one pace and is only rounded down.
    fn reading(&self, who: usize) -> u64 {
        let actor = &self.actors[who];
        let pace = (1_000_000 + actor.drift) as u128;
        actor.first_reading + (u128::from(self.true_time) * pace / 1_000_000) as u64
    }

    fn start(&mut self, who: usize) -> Judged {
        let mut arguments: Vec<String> = [RATE, SHORT, LONG].map(|number| number.to_string()).to_vec();
        if who != KEEPER {
            arguments.push(who.to_string());
        }
        arguments.push(self.actors[who].journal.display().to_string());
        let program = self.programs.join(if who == KEEPER { "keeper" } else { "tablet" });
        let process = Process::start(&program, &arguments, who, self.sender.clone()).map_err(text)?;
        self.note(format!("{} comes up", name(who)));
        let actor = &mut self.actors[who];
        actor.process = Some(process);
        actor.beliefs = [Belief::Nothing; PLACES.len()];
        self.give(who, String::new(), None)?;
        self.wait_for(who)
    }

    /// Gives a line with the reading of this moment.
    fn give(&mut self, who: usize, rest: String, message: Option<Vec<u8>>) -> Judged {
        let reading = self.reading(who);
        let line = if rest.is_empty() { format!("{reading}\n") } else { format!("{reading} {rest}\n") };
        let number = self.next_line;
        self.next_line += 1;
        self.counts.lines += 1;
        self.note(format!("line {number} to {}: {}", name(who), shorten(line.trim_end())));
        let actor = &mut self.actors[who];
        let process = actor.process.as_mut().expect("it is up");
        process.give(line.as_bytes()).map_err(|error| format!("{} does not read: {error}", name(who)))?;
        actor.waiting.push_back(Waiting { number, text: rest, message, printed: false, sent: vec![] });
        Ok(())
    }

    /// Where nothing waits in front of it, all of its journal may have been told.
    fn settle(&mut self, who: usize) {
        let actor = &mut self.actors[who];
        if actor.waiting.is_empty() {
            actor.answered_since = false;
            actor.settled = fs::metadata(&actor.journal).map_or(0, |data| data.len());
        }
    }

    /// Takes what was printed, without waiting.
    fn take_printed(&mut self) -> Judged {
        while let Ok((who, printed)) = self.receiver.try_recv() {
            self.printed(who, printed)?;
        }
        Ok(())
    }

    /// Waits until all lines are answered.
    fn wait_for(&mut self, who: usize) -> Judged {
        while !self.actors[who].waiting.is_empty() {
            match self.receiver.recv_timeout(Duration::from_secs(20)) {
                Ok((from, printed)) => self.printed(from, printed)?,
                Err(_) => return Err(format!("{} does not answer", name(who))),
            }
        }
        Ok(())
    }

    fn printed(&mut self, who: usize, printed: Printed) -> Judged {
        let Printed::Line(line) = printed else {
            return match self.actors[who].process {
                Some(_) => Err(format!("{} ended by itself", name(who))),
                None => Ok(()),
            };
        };
        let line = String::from_utf8_lossy(&line).into_owned();
        self.note(format!("    {} prints {}", name(who), shorten(&line)));
        match self.actors[who].waiting.front_mut() {
            Some(waiting) => waiting.printed = true,
            None => return Err(format!("{} answers no line: {line}", name(who))),
        }
        let words: Vec<&str> = line.split(' ').collect();
        match words[..] {
            ["send", word] => self.sent(who, word),
            ["show", file, part, word] => self.showed(who, place(file, part)?, word),
            ["in" | "void", file, part, number] => {
                let number = number.parse().map_err(|_| "a number".to_owned())?;
                self.account.tablet_told((who as u8, place(file, part)?, number), words[0] == "in")
            }
            ["done"] => self.answered(who, true),
            ["refused", _] => self.answered(who, false),
            _ => Err(format!("{} prints something in no form: {line}", name(who))),
        }
    }

    fn sent(&mut self, who: usize, word: &str) -> Judged {
        let mut bytes = Vec::new();
        if !lines::hex_decode(word.as_bytes(), &mut bytes) {
            return Err(format!("bad hexadecimal from {}", name(who)));
        }
        let waiting = self.actors[who].waiting.front_mut().ok_or("an answer to no line")?;
        if who == KEEPER {
            // it is judged, and let go, when the answer is complete
            waiting.sent.push(bytes);
            return Ok(());
        }
        let message = Message::decode(&bytes).ok_or("a tablet sends what is no message")?;
        self.account.tablet_sent(&message)?;
        self.travel(bytes);
        Ok(())
    }

    fn showed(&mut self, who: usize, place: Place, word: &str) -> Judged {
        let mut bytes = Vec::new();
        let waiting = self.actors[who].waiting.front().ok_or("an answer to no line")?;
        if !lines::hex_decode(word.as_bytes(), &mut bytes) || bytes.len() != PART_BYTES {
            return Err("a show that is no part".into());
        }
        self.account.tablet_showed(waiting.number, place, bytes);
        Ok(())
    }

    /// The answer to the oldest line is complete.
    fn answered(&mut self, who: usize, done: bool) -> Judged {
        let waiting = self.actors[who].waiting.pop_front().ok_or("an answer to no line")?;
        self.actors[who].answered_since = true;
        if who == KEEPER {
            if !waiting.sent.is_empty() {
                self.read_keeper_file()?;
            }
            let message = waiting.message.as_deref().and_then(Message::decode);
            self.account.keeper_answered(waiting.number, message, &waiting.sent, done)?;
            waiting.sent.into_iter().for_each(|bytes| self.travel(bytes));
            let before = self.actors[KEEPER].waiting.front().map_or(u64::MAX, |next| next.number);
            self.account.judge_shows(before)?;
        } else {
            self.note_belief(who, &waiting, done);
        }
        self.settle(who);
        Ok(())
    }

    fn read_keeper_file(&mut self) -> Judged {
        let file = fs::read(&self.actors[KEEPER].journal).map_err(text)?;
        self.account.read_file(&file)
    }

    /// Keeps track of what the tablet has, so that calls have a point.
    fn note_belief(&mut self, who: usize, waiting: &Waiting, done: bool) {
        let loan = waiting.message.as_deref().and_then(Message::decode);
        match loan {
            Some(Message::Loan { place, kind, .. }) if done => {
                self.actors[who].beliefs[place_number(place)] = Belief::Copy(kind);
                self.focus = Some((who, place_number(place)));
            }
            Some(Message::Recall { place, .. }) => self.actors[who].beliefs[place_number(place)] = Belief::Nothing,
            _ => {}
        }
        let words: Vec<&str> = waiting.text.split(' ').collect();
        if let (["write" | "forget" | "ask", file, part, ..], true) | (["show", file, part], false) = (&words[..], done) {
            // odd lines name parts that are not used
            if let Ok(number) = place(file, part).map(place_number) {
                let belief = if words[0] == "ask" { Belief::Asked } else { Belief::Nothing };
                self.actors[who].beliefs[number] = belief;
            }
        }
    }

    /// A message sets out: it may be lost, late, or come twice.
    fn travel(&mut self, message: Vec<u8>) {
        let copies = match self.rng.below(100) {
            0..6 => 0,
            6..14 => 2,
            14 => 4,
            _ => 1,
        };
        self.counts.lost += u64::from(copies == 0);
        self.counts.repeated += u64::from(copies > 1);
        for _ in 0..copies {
            let late = match self.rng.below(10) {
                0 => self.rng.below(6 * LONG),
                1 | 2 => self.rng.below(40),
                _ => 0,
            };
            self.network.push(Travelling { due: self.true_time + late, message: message.clone() });
        }
    }

    /// Some message that is due arrives, mostly the newest.
    fn deliver(&mut self) -> Judged {
        let due: Vec<usize> = (0..self.network.len()).filter(|&i| self.network[i].due <= self.true_time).collect();
        if due.is_empty() {
            return self.call_somebody();
        }
        let which = if self.rng.percent(70) { due[due.len() - 1] } else { self.rng.pick(&due) };
        let Travelling { message, .. } = self.network.remove(which);
        let (_, borrower, _) = Message::decode(&message).expect("only messages travel").head();
        let to = match Message::decode(&message).is_some_and(|message| message.is_for_keeper()) {
            true => KEEPER,
            false => borrower as usize,
        };
        if self.actors[to].process.is_none() {
            self.counts.lost += 1;
            return Ok(());
        }
        self.counts.delivered += 1;
        if message[0] == 3 && self.rng.percent(10) {
            // the keeper is killed somewhere between reading the write and answering it
            self.give(to, hex(&message), Some(message))?;
            self.spin(600);
            return self.kill(to);
        }
        self.give_and_go_on(to, hex(&message), Some(message))
    }

    /// Passes up to so many microseconds.
    fn spin(&mut self, most: u64) {
        let moments = Duration::from_micros(self.rng.below(most));
        let start = Instant::now();
        while start.elapsed() < moments {
            std::hint::spin_loop();
        }
    }

    fn call_somebody(&mut self) -> Judged {
        let who = self.rng.below(TABLETS as u64) as usize;
        let number = self.rng.below(PLACES.len() as u64) as usize;
        self.call(who, number)
    }

    fn call(&mut self, who: usize, number: usize) -> Judged {
        if self.actors[who].process.is_none() {
            return Ok(());
        }
        let place = PLACES[number];
        // in this order: ask, show, write, forget
        let weights = match self.actors[who].beliefs[number] {
            Belief::Copy(Kind::Writing) => [3, 35, 55, 3],
            Belief::Copy(Kind::Reading) => [6, 75, 4, 5],
            Belief::Asked if self.rng.percent(85) => return Ok(()),
            Belief::Nothing | Belief::Asked => [80, 5, 4, 4],
        };
        let head = |name: &str| format!("{name} {} {}", place.file, place.part);
        let call = match self.rng.weighted(&weights) {
            0 => format!("{} {}", head("ask"), u8::from(self.rng.percent(55))),
            1 => head("show"),
            2 => {
                let mut bytes = [0; PART_BYTES];
                bytes[..8].copy_from_slice(&self.rng.next().to_be_bytes());
                format!("{} {}", head("write"), hex(&bytes))
            }
            _ => head("forget"),
        };
        self.counts.calls += 1;
        self.give_and_go_on(who, call, None)
    }

    /// Gives a line, and mostly waits for its answer.
    fn give_and_go_on(&mut self, who: usize, rest: String, message: Option<Vec<u8>>) -> Judged {
        self.give(who, rest, message)?;
        if self.rng.percent(75) || self.actors[who].waiting.len() >= MOST_WAITING {
            self.wait_for(who)?;
        }
        Ok(())
    }

    /// Kills somebody: at rest, right after lines were given, some moments later, or in the
    /// middle of a line.
    fn kill_somebody(&mut self) -> Judged {
        let who = if self.rng.percent(40) { KEEPER } else { self.rng.below(TABLETS as u64) as usize };
        if self.actors[who].process.is_none() {
            return Ok(());
        }
        match self.rng.below(4) {
            0 => self.wait_for(who)?,
            1 => self.burst(who)?,
            2 => {
                self.burst(who)?;
                self.spin(400);
            }
            _ => {
                let reading = self.reading(who);
                let process = self.actors[who].process.as_mut().expect("it is up");
                let begun = format!("{reading} ask 0");
                process.give(&begun.as_bytes()[..self.rng.within(1, begun.len() as u64) as usize]).map_err(text)?;
            }
        }
        self.kill(who)
    }

    /// Gives what is on its way to somebody all at once, or a few calls.
    fn burst(&mut self, who: usize) -> Judged {
        for _ in 0..self.rng.within(1, 3) {
            let place = self.rng.pick(&PLACES);
            if who != KEEPER {
                let name = self.rng.pick(&["ask", "forget", "show"]);
                let kind = if name == "ask" { " 1" } else { "" };
                self.give(who, format!("{name} {} {}{kind}", place.file, place.part), None)?;
                continue;
            }
            let found = self.network.iter().rposition(|travelling| matches!(travelling.message[0], 1 | 3 | 7));
            let Some(found) = found else { return Ok(()) };
            let message = self.network.remove(found).message;
            self.give(KEEPER, hex(&message), Some(message))?;
        }
        Ok(())
    }

    fn kill(&mut self, who: usize) -> Judged {
        self.note(format!("{} is killed", name(who)));
        self.counts.kills += 1;
        self.take_printed()?;
        let process = self.actors[who].process.take().expect("it is up");
        process.kill();
        // what it had printed before it was killed
        self.take_printed()?;
        let left: Vec<Waiting> = self.actors[who].waiting.drain(..).collect();
        self.counts.kills_busy += u64::from(!left.is_empty());
        self.tear(who, &left)?;
        if who == KEEPER {
            self.resolve(&left)?;
        }
        self.actors[who].answered_since = false;
        Ok(())
    }

    /// Where nothing of the last record was told to anybody, a power cut might have torn it:
    /// now and then, only a first part of it is left.
    fn tear(&mut self, who: usize, left: &[Waiting]) -> Judged {
        let actor = &self.actors[who];
        let owner = if who == KEEPER { Owner::Keeper } else { Owner::Borrower };
        let told = actor.answered_since || left.iter().any(|waiting| waiting.printed);
        let (settled, path) = (actor.settled, actor.journal.clone());
        let file = fs::read(&path).map_err(text)?;
        let mut last = 0;
        let whole = journal::replay(owner, &file[..], |record| {
            let mut bytes = Vec::new();
            record.encode(&mut bytes);
            last = bytes.len() as u64;
        });
        let whole = whole.map_err(|error| error.to_string())?;
        if told || whole <= settled || self.rng.percent(40) {
            return Ok(());
        }
        let cut = whole - self.rng.within(1, last);
        self.counts.torn += 1;
        self.note(format!("the last record of {} is torn: {cut} bytes are left", name(who)));
        let file = fs::OpenOptions::new().write(true).open(&path).map_err(text)?;
        file.set_len(cut).map_err(text)
    }

    /// The keeper was killed: the writes that are in its file and were not answered were
    /// applied by the lines that it had not answered.
    fn resolve(&mut self, left: &[Waiting]) -> Judged {
        self.read_keeper_file()?;
        let mut from = 0;
        while let Some(name) = self.account.next_in_file() {
            let is_it = |waiting: &&Waiting| match waiting.message.as_deref().and_then(Message::decode) {
                Some(Message::Write { borrower, place, number, .. }) => (borrower, place, number) == name,
                _ => false,
            };
            let Some(first) = left.iter().find(|waiting| waiting.number >= from && is_it(waiting)) else {
                return Err(format!("{name:?} is in the keeper's file, and no line can have applied it"));
            };
            let last = left.iter().rev().find(is_it).map_or(first.number, |last| last.number);
            self.account.apply_next(first.number, last)?;
            from = first.number + 1;
        }
        for waiting in left {
            for bytes in &waiting.sent {
                let message = Message::decode(bytes).ok_or("the keeper sends what is no message")?;
                self.account.keeper_sent(waiting.number, &message)?;
                self.travel(bytes.clone());
            }
        }
        self.account.judge_shows(u64::MAX)
    }

    fn pass_time(&mut self) {
        self.true_time += match self.rng.below(20) {
            0 => self.rng.below(3 * LONG),
            1 => LONG + 1,
            2..6 => self.rng.below(SHORT / 2),
            _ => self.rng.below(5),
        };
    }

    fn step(&mut self) -> Judged {
        self.take_printed()?;
        if let Some((who, number)) = self.focus.take() {
            if self.rng.percent(60) {
                return self.call(who, number);
            }
        }
        let down: Vec<usize> = (0..=TABLETS).filter(|&who| self.actors[who].process.is_none()).collect();
        match self.rng.weighted(&[75, 12, 10, 2, 20 * down.len() as u64, 1]) {
            0 => self.deliver(),
            1 => self.call_somebody(),
            2 => {
                self.pass_time();
                Ok(())
            }
            3 => self.kill_somebody(),
            4 => {
                let who = self.rng.pick(&down);
                self.start(who)?;
                if who == KEEPER && self.rng.percent(80) {
                    // most of the time is better spent after the grace period
                    self.true_time += LONG + 1;
                }
                Ok(())
            }
            _ => {
                let who = self.rng.below(1 + TABLETS as u64) as usize;
                let odd = self.rng.pick(&["00", "ask", "0", "zz", "06ff0000", "show 64 0 0"]).to_owned();
                if self.actors[who].process.is_some() { self.give_and_go_on(who, odd, None) } else { Ok(()) }
            }
        }
    }

    fn run(&mut self, seconds: u64) -> Judged {
        let start = Instant::now();
        while start.elapsed() < Duration::from_secs(seconds) {
            self.step()?;
        }
        self.end()
    }

    /// All are killed once more. Then a keeper comes up, and what it lends must be what the
    /// account has.
    fn end(&mut self) -> Judged {
        for who in 0..=TABLETS {
            if self.actors[who].process.is_some() {
                self.wait_for(who)?;
                self.kill(who)?;
            }
        }
        self.start(KEEPER)?;
        self.read_keeper_file()?;
        self.true_time += 2 * LONG;
        for place in PLACES {
            let mut ask = Vec::new();
            Message::Ask { borrower: 31, place, number: 1, kind: Kind::Reading, last_write: 0 }.encode(&mut ask);
            self.network.clear();
            self.give(KEEPER, hex(&ask), Some(ask))?;
            // a loan that is not the last write is found by the account
            self.wait_for(KEEPER)?;
        }
        self.kill(KEEPER)?;
        self.account.judge_end()
    }

    fn summary(&self) -> String {
        let Counts { kills, kills_busy, torn, calls, lines, delivered, lost, repeated } = self.counts;
        let (applied, told) = (self.account.writes_applied(), self.account.writes_told());
        let (void, shows) = (self.account.writes_void(), self.account.shows_judged);
        format!(
            "{kills} kills ({kills_busy} with lines unanswered, {torn} records torn), {lines} lines, {calls} calls, \
             {delivered} messages delivered, {lost} lost, {repeated} repeated, {shows} shows judged, \
             {applied} writes applied, {told} told as in, {void} called void"
        )
    }
}

fn name(who: usize) -> String {
    if who == KEEPER { "keeper".into() } else { format!("tablet {who}") }
}

fn place(file: &str, part: &str) -> Result<Place, String> {
    match (file.parse(), part.parse()) {
        (Ok(file), Ok(part)) => Ok(Place { file, part }),
        _ => Err(format!("no part: {file} {part}")),
    }
}

fn place_number(place: Place) -> usize {
    PLACES.iter().position(|&other| other == place).expect("no other parts are used")
}

fn shorten(line: &str) -> String {
    let end = line.char_indices().nth(90).map_or(line.len(), |(end, _)| end);
    if end < line.len() { format!("{}...", &line[..end]) } else { line.to_owned() }
}

fn main() -> ExitCode {
    let arguments: Vec<String> = std::env::args().skip(1).collect();
    let seconds = arguments.get(1).and_then(|word| word.parse().ok());
    let (Some(programs), Some(seconds)) = (arguments.first(), seconds) else {
        eprintln!("second-kill PROGRAMS SECONDS [SEED]");
        return ExitCode::FAILURE;
    };
    let seed = arguments.get(2).map_or(Some(1), |word| word.parse().ok()).unwrap_or(1);
    let mut test = match Test::new(programs, seed) {
        Ok(test) => test,
        Err(error) => {
            eprintln!("{error}");
            return ExitCode::FAILURE;
        }
    };
    let result = test.run(seconds);
    let clean_up = |directory: &Path| drop(fs::remove_dir_all(directory));
    match result {
        Ok(()) => {
            println!("kept: seed {seed}, {}", test.summary());
            clean_up(&test.directory);
            ExitCode::SUCCESS
        }
        Err(violation) => {
            test.trail.iter().for_each(|event| println!("{event}"));
            println!("BROKEN: seed {seed}: {violation}\n{}", test.summary());
            println!("the journals are in {}", test.directory.display());
            ExitCode::FAILURE
        }
    }
}
