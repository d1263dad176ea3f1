//! How long calls of the library take, beside the same calls of the second implementation, both built for release and in one
//! process, without a disk. Each row is measured in rounds, ours and the other in turn, and has the medians: its name, and
//! nanoseconds for a call of ours and of the other, with tabs between. The argument says how many rounds.

use host::{DONE, Keeper, Left, PART, Tablet};
use second::borrower::{Borrower, Call};
use second::clock::Terms;
use second::effects::Effects;
use second::keeper::{self, Kept};
use second::message::{Kind, Message, Place};
use std::hint::black_box;
use std::time::Instant;

const RATE: u64 = 100;
const SHORT: u64 = 1000;
const LONG: u64 = 1100;
/// The keeper's grace period is over by then.
const LOUD: u64 = 3000;
/// Calls in a round.
const CALLS: u32 = 50_000;
/// Parts and buffers that take turns. Copying 1,024 bytes can take ten times as long where they go to an address that collides
/// with theirs in the processor: so no row is about one pair of addresses.
const TURNS: usize = 16;

fn terms() -> Terms {
    Terms::new(RATE, SHORT, LONG).expect("they fit together")
}

fn bytes_of(message: Message) -> Vec<u8> {
    let mut bytes = Vec::new();
    message.encode(&mut bytes);
    bytes
}

fn ask(number: u32, kind: Kind) -> Vec<u8> {
    let place = Place { file: (number / 256 % 64) as u8, part: (number % 256) as u8 };
    bytes_of(Message::Ask { borrower: (number % 32) as u8, place, number, kind, last_write: 0 })
}

/// Our keeper, up.
fn our_keeper() -> Keeper {
    let (mut keeper, _) = Keeper::open(LONG, &[]).expect("it is a journal");
    assert_eq!(keeper.come_up(1000), DONE);
    keeper
}

/// The other keeper, up.
fn other_keeper() -> keeper::Keeper {
    let mut keeper = keeper::Keeper::new(terms(), Kept::default());
    keeper.come_up(1000).expect("the clock has room");
    keeper
}

fn median(mut times: Vec<f64>) -> f64 {
    times.sort_by(f64::total_cmp);
    times[times.len() / 2]
}

/// Nanoseconds for a call of a round.
fn round(calls: impl FnOnce()) -> f64 {
    let start = Instant::now();
    calls();
    start.elapsed().as_nanos() as f64 / f64::from(CALLS)
}

/// Prints a row. The first round of each is not counted.
fn row(name: &str, rounds: usize, mut ours: impl FnMut(), mut other: impl FnMut()) {
    let (mut first, mut second) = (Vec::new(), Vec::new());
    for k in 0..=rounds {
        let (a, b) = (round(&mut ours), round(&mut other));
        if k > 0 {
            first.push(a);
            second.push(b);
        }
    }
    println!("{name}\t{:.0}\t{:.0}", median(first), median(second));
}

/// Asks that nobody bars, each of another part, so far apart that eleven leases run at a time; what is sent is a loan.
fn asks(rounds: usize) {
    let asks: Vec<Vec<u8>> = (0..CALLS).map(|k| ask(k, Kind::Reading)).collect();
    let (mut ours, mut left, mut clock) = (our_keeper(), Left::default(), LOUD);
    let (mut other, mut effects, mut other_clock) = (other_keeper(), Effects::default(), LOUD);
    row(
        "library: an ask with its loan",
        rounds,
        || {
            for ask in &asks {
                clock += 100;
                assert_eq!(ours.receive(clock, ask, &mut left), DONE);
                black_box(&left);
            }
        },
        || {
            for ask in &asks {
                other_clock += 100;
                effects.clear();
                other.hear(other_clock, ask, &mut effects).expect("nobody bars it");
                black_box(&effects);
            }
        },
    );
}

/// Copies that are valid are shown again and again.
fn shows(rounds: usize) {
    let (mut ours, mut left) = (Tablet::open(5, SHORT, &[]).expect("it is a journal").0, Left::default());
    let mut other = Borrower::new(terms(), 5);
    let mut copies = vec![Box::new([0; PART]); TURNS];
    let mut effects: Vec<Effects> = (0..TURNS).map(|_| Effects::default()).collect();
    for place in places() {
        let loan = bytes_of(Message::Loan { borrower: 5, place, number: 1, kind: Kind::Reading, bytes: &[0x17; PART] });
        assert_eq!(ours.ask(1000, place.file, place.part, 0, &mut left), DONE);
        assert_eq!(ours.receive(&loan, &mut left), DONE);
        other.call(1000, Call::Ask { place, kind: Kind::Reading }, &mut effects[0]).expect("it holds no copy");
        other.hear(&loan, &mut effects[0]).expect("it asked for it");
    }
    row(
        "library: a show",
        rounds,
        || {
            for (place, copy) in places().cycle().zip(turns(copies.len())).take(CALLS as usize) {
                assert_eq!(ours.show(1500, place.file, place.part, &mut copies[copy], &mut left), DONE);
                black_box(&copies[copy]);
            }
        },
        || {
            for (place, turn) in places().cycle().zip(turns(effects.len())).take(CALLS as usize) {
                effects[turn].clear();
                other.call(1500, Call::Show { place }, &mut effects[turn]).expect("the copy is valid");
                black_box(&effects[turn]);
            }
        },
    );
}

/// Parts that stand far from each other.
fn places() -> impl Iterator<Item = Place> + Clone {
    (0..TURNS as u8).map(|k| Place { file: k, part: 7 * k })
}

/// The buffers in turn, so that each part meets each of them.
fn turns(count: usize) -> impl Iterator<Item = usize> {
    (0..).map(move |k| (k + k / TURNS) % count)
}

/// The writes of one borrower with this number, of all parts.
fn number_writes(writes: &mut [Vec<u8>], number: u32) {
    for write in writes {
        write[4..8].copy_from_slice(&number.to_be_bytes());
    }
}

/// Writes of one borrower that are applied, one after another.
fn writes(rounds: usize) {
    let (mut ours, mut left, mut number) = (our_keeper(), Left::default(), 0u32);
    let (mut other, mut effects, mut other_number) = (other_keeper(), Effects::default(), 0u32);
    for place in places() {
        let lease = bytes_of(Message::Ask { borrower: 5, place, number: 1, kind: Kind::Writing, last_write: 0 });
        assert_eq!(ours.receive(LOUD, &lease, &mut left), DONE);
        other.hear(LOUD, &lease, &mut effects).expect("nobody bars it");
    }
    let write = |place| bytes_of(Message::Write { borrower: 5, place, number: 0, bytes: &[0x17; PART] });
    let mut writes: Vec<Vec<u8>> = places().map(write).collect();
    let mut other_writes = writes.clone();
    row(
        "library: a write applied, with no disk",
        rounds,
        || {
            for _ in 0..CALLS as usize / TURNS {
                number += 1;
                number_writes(&mut writes, number);
                for write in &writes {
                    assert_eq!(ours.receive(LOUD, write, &mut left), DONE);
                    black_box(&left);
                }
            }
        },
        || {
            for _ in 0..CALLS as usize / TURNS {
                other_number += 1;
                number_writes(&mut other_writes, other_number);
                for write in &other_writes {
                    effects.clear();
                    other.hear(LOUD, write, &mut effects).expect("its lease runs");
                    black_box(&effects);
                }
            }
        },
    );
}

fn main() {
    let rounds = std::env::args().nth(1).map_or(5, |text| text.parse().expect("how many rounds"));
    asks(rounds);
    shows(rounds);
    writes(rounds);
}
