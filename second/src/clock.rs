//! The terms, and how far a clock may run from the true time.

/// The three numbers that every program is started with.
#[derive(Clone, Copy, PartialEq, Eq, Debug)]
pub struct Terms {
    /// How far off a clock may run, in parts of a million.
    pub rate: u64,
    /// How long a copy is valid for its borrower.
    pub short: u64,
    /// How long a lease runs for the keeper.
    pub long: u64,
}

const MILLION: u128 = 1_000_000;

impl Terms {
    /// The terms, where the three numbers fit together.
    pub fn new(rate: u64, short: u64, long: u64) -> Option<Terms> {
        if rate > 10_000 || short < 1 || !(1..=3_600_000).contains(&long) {
            return None;
        }
        let needed = (u128::from(short) + 1) * (MILLION + u128::from(rate)) + 2 * MILLION;
        let given = (u128::from(long) - 1) * (MILLION - u128::from(rate));
        (needed <= given).then_some(Terms { rate, short, long })
    }

    /// The least `long` that fits, or nothing where none does.
    pub fn least_long(rate: u64, short: u64) -> Option<u64> {
        let needed = (u128::from(short) + 1) * (MILLION + u128::from(rate)) + 2 * MILLION;
        let long = 1 + needed.div_ceil(MILLION - u128::from(rate));
        u64::try_from(long).ok().filter(|&long| Terms::new(rate, short, long).is_some())
    }
}

/// Keeps a clock within its stated error against every earlier moment.
///
/// Between two moments with true times t, u and readings c, d the rule is, in millionths:
/// (u - t)(1000000 - rate) - 1000000 <= (d - c) 1000000 <= (u - t)(1000000 + rate) + 1000000.
/// Each side compares a number of the later moment with the same number of the earlier one,
/// so the greatest and the least of them stand for all earlier moments.
#[derive(Clone, Debug)]
pub struct ClockError {
    rate: i128,
    /// The greatest `c 1000000 - t (1000000 - rate)` so far.
    slowest: i128,
    /// The least `c 1000000 - t (1000000 + rate)` so far.
    fastest: i128,
}

impl ClockError {
    /// The first moment.
    pub fn new(rate: u64, true_time: u64, reading: u64) -> ClockError {
        let mut error = ClockError { rate: rate.into(), slowest: i128::MIN, fastest: i128::MAX };
        error.note(true_time, reading);
        error
    }

    fn sides(&self, true_time: u64, reading: u64) -> (i128, i128) {
        let (time, reading) = (i128::from(true_time), i128::from(reading) * 1_000_000);
        (reading - time * (1_000_000 - self.rate), reading - time * (1_000_000 + self.rate))
    }

    /// Whether the clock may show this reading at this time.
    pub fn allows(&self, true_time: u64, reading: u64) -> bool {
        let (slow, fast) = self.sides(true_time, reading);
        slow >= self.slowest - 1_000_000 && fast <= self.fastest + 1_000_000
    }

    /// A moment that was allowed.
    pub fn note(&mut self, true_time: u64, reading: u64) {
        let (slow, fast) = self.sides(true_time, reading);
        self.slowest = self.slowest.max(slow);
        self.fastest = self.fastest.min(fast);
    }

    /// The least and the greatest reading that is allowed at this time; they may lie outside
    /// of 64 bits, and the range may be empty of readings that the clock can still reach.
    pub fn range(&self, true_time: u64) -> (i128, i128) {
        let time = i128::from(true_time);
        let least = self.slowest - 1_000_000 + time * (1_000_000 - self.rate);
        let greatest = self.fastest + 1_000_000 + time * (1_000_000 + self.rate);
        (-(-least).div_euclid(1_000_000), greatest.div_euclid(1_000_000))
    }
}

#[cfg(test)]
mod tests {
    use super::*;
    use crate::rng::Rng;

    #[test]
    fn terms_at_their_limits() {
        assert!(Terms::new(0, 100, 104).is_some());
        assert!(Terms::new(0, 100, 103).is_none());
        assert!(Terms::new(0, 1, 5).is_some());
        assert!(Terms::new(0, 0, 100).is_none());
        assert!(Terms::new(10_000, 1, 6).is_some());
        assert!(Terms::new(10_000, 1, 5).is_none());
        assert!(Terms::new(10_001, 1, 100).is_none());
        assert!(Terms::new(0, 3_599_996, 3_600_000).is_some());
        assert!(Terms::new(0, 1, 3_600_001).is_none());
        assert!(Terms::new(0, u64::MAX, 3_600_000).is_none());
        assert_eq!(Terms::least_long(0, 100), Some(104));
        assert_eq!(Terms::least_long(0, 3_600_000), None);
    }

    /// The rule as it stands in words, between two moments.
    fn allowed_between(rate: u64, earlier: (u64, u64), later: (u64, u64)) -> bool {
        let passed = i128::from(later.0) - i128::from(earlier.0);
        let counted = (i128::from(later.1) - i128::from(earlier.1)) * 1_000_000;
        let share = passed * i128::from(rate);
        counted >= passed * 1_000_000 - share - 1_000_000 && counted <= passed * 1_000_000 + share + 1_000_000
    }

    #[test]
    fn two_numbers_stand_for_all_earlier_moments() {
        let mut rng = Rng::new(7);
        for round in 0..400 {
            let rate = [0, 1, 100, 10_000][round % 4];
            let first = (0, rng.below(5));
            let mut moments = vec![first];
            let mut error = ClockError::new(rate, first.0, first.1);
            for _ in 0..60 {
                let &(time, reading) = moments.last().unwrap();
                let passed = [0, 1, 99, 10_000, 1_000_000][rng.below(5) as usize];
                let counted = (passed + rng.below(5)).saturating_sub(2) + rng.below(2) * passed / 100;
                let next = (time + passed, reading + counted);
                let all = moments.iter().all(|&earlier| allowed_between(rate, earlier, next));
                assert_eq!(error.allows(next.0, next.1), all);
                let (least, greatest) = error.range(next.0);
                assert_eq!(all, (least..=greatest).contains(&i128::from(next.1)));
                if all {
                    error.note(next.0, next.1);
                    moments.push(next);
                }
            }
        }
    }

    #[test]
    fn far_readings_do_not_overflow() {
        let error = ClockError::new(10_000, 0, u64::MAX);
        assert!(error.allows(0, u64::MAX));
        assert!(!error.allows(u64::MAX, u64::MAX));
        let error = ClockError::new(10_000, 0, 0);
        assert!(error.allows(u64::MAX, u64::MAX));
    }
}
