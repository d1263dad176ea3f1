//! Random scripts by seed: what all three programs' scripts have in common.

use crate::case::{Damage, hex};
use crate::clock::Terms;
use crate::message::Place;
use crate::rng::Rng;

/// Scripts of seeds in one such group have the same terms, so that one process can play them.
pub const GROUP: u64 = 50;

/// A generator of its own for each program and seed.
pub fn rng_for(program: u64, seed: u64) -> Rng {
    let mut mixed = Rng::new(seed);
    Rng::new(mixed.next() ^ program.wrapping_mul(0x9E37_79B9_97F4_A7C1))
}

/// Terms that fit, often only just.
pub fn terms(rng: &mut Rng) -> Terms {
    loop {
        let rate = match rng.below(4) {
            0 => rng.below(10_001),
            _ => rng.pick(&[0, 1, 100, 1_000, 9_999, 10_000]),
        };
        let short = match rng.below(4) {
            0 => rng.within(1, 3_500_000),
            _ => rng.pick(&[1, 2, 10, 100, 100, 1_000, 60_000, 3_500_000]),
        };
        let Some(least) = Terms::least_long(rate, short) else { continue };
        let long = match rng.below(6) {
            0 => least + 1,
            1 => rng.within(least, 3_600_000),
            2 => (2 * least).min(3_600_000),
            3 => 3_600_000,
            _ => least,
        };
        return Terms::new(rate, short, long).expect("at least what is needed");
    }
}

pub fn terms_words(terms: Terms) -> Vec<String> {
    [terms.rate, terms.short, terms.long].map(|number| number.to_string()).to_vec()
}

/// A few parts, so that borrowers meet.
pub fn places(rng: &mut Rng) -> Vec<Place> {
    let place = |rng: &mut Rng| Place { file: rng.pick(&[0, 3, 63]), part: rng.pick(&[0, 7, 255]) };
    (0..rng.within(1, 3)).map(|_| place(rng)).collect()
}

/// Bytes of a part, most of them zeros.
pub fn part_bytes(rng: &mut Rng) -> Vec<u8> {
    let length = match rng.below(20) {
        0 => 1024,
        1 => rng.within(1000, 1024),
        _ => rng.within(1, 6),
    };
    (0..length).map(|_| if rng.percent(20) { 0 } else { rng.next() as u8 }).collect()
}

/// A number near the end of 32 bits, or a small one, or any.
pub fn number(rng: &mut Rng) -> u32 {
    match rng.below(6) {
        0 => rng.next() as u32,
        1 | 2 => u32::MAX - rng.below(4) as u32,
        3 => u32::MAX - rng.below(140) as u32,
        4 => rng.pick(&[0, 1, 63, 64, 65, 127, 128, 1 << 31]),
        _ => rng.below(5) as u32,
    }
}

/// A good line made into one that is mostly in no form.
pub fn spoil(rng: &mut Rng, line: &[u8]) -> Vec<u8> {
    let mut line = line.to_vec();
    let place = rng.below(line.len() as u64 + 1) as usize;
    match rng.below(9) {
        0 => line.insert(place, b' '),
        1 => line.push(b' '),
        2 => line.insert(0, b' '),
        3 => line.insert(place, rng.pick(&[0, 9, 13, b'-', b'+', b'_', b'g', 0x80, 0xff, b'0'])),
        4 => line.truncate(place),
        5 if place < line.len() => drop(line.remove(place)),
        6 if place < line.len() => line[place] = rng.next() as u8 & 0x7f,
        7 => line.extend_from_slice(b" 1"),
        _ => line.make_ascii_uppercase(),
    }
    // a newline would make two lines of it
    line.retain(|&byte| byte != b'\n');
    line
}

/// Lines that are in no form anywhere.
pub fn nonsense(rng: &mut Rng) -> Vec<u8> {
    let lines: [&[u8]; 14] = [
        b"x", b" ", b"-1", b"+5", b"5 ", b"18446744073709551616", b"5 0", b"5 0x00", b"5  00", b"5 00 00",
        b"99999999999999999999999999999 00", b"\xe2\x82\xac", b"5\t00", b"5 ask 0 0 0 ",
    ];
    rng.pick(&lines).to_vec()
}

/// Hexadecimal, now and then in upper case.
pub fn hex_word(rng: &mut Rng, bytes: &[u8]) -> String {
    let word = hex(bytes);
    if rng.percent(5) { word.to_uppercase() } else { word }
}

/// A number, now and then with zeros in front.
pub fn number_word(rng: &mut Rng, number: impl Into<u64>) -> String {
    let number = number.into();
    if rng.percent(2) { format!("00{number}") } else { number.to_string() }
}

/// Changes to a journal between two sessions; most leave something that can be opened.
pub fn damage(rng: &mut Rng, journal: &[u8]) -> Vec<Damage> {
    let length = journal.len() as u64;
    match rng.below(20) {
        0..6 => vec![],
        6..11 => vec![Damage::Cut(rng.below(length.min(1100) + 1) as usize)],
        11..14 => vec![Damage::Cut(rng.below(12) as usize)],
        14..16 => vec![Damage::Cut(rng.below(length + 1) as usize)],
        16 => vec![Damage::Append(vec![rng.pick(&[8, 9, 10])])],
        17 => vec![Damage::Append((0..rng.within(1, 20)).map(|_| rng.pick(&[0, 3, 8, 9, 10, 31, 32, 63, 64])).collect())],
        18 => vec![Damage::Change { from_end: rng.below(length + 1) as usize, byte: rng.next() as u8 }],
        _ => vec![
            Damage::Cut(rng.below(20) as usize),
            Damage::Change { from_end: rng.below(40) as usize, byte: rng.pick(&[0, 8, 9, 10, 31, 32, 63, 64]) },
        ],
    }
}
