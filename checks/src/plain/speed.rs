//! Speeds: the way to stop, and the fastest that can still stop.

use super::{Mistake, Rules};

impl Rules {
    /// The way that is still made from a speed, slowed as much as may be: the sum of the speed less the change, less
    /// twice the change, and so on as long as these are above 0.
    pub fn way(self, change: u64, speed: u64) -> u128 {
        if self.mistake == Mistake::SquareToStop {
            return u128::from(speed) * u128::from(speed) / (2 * u128::from(change));
        }
        let (a, v) = (u128::from(change), u128::from(speed));
        let terms = v.saturating_sub(1) / a;
        terms * v - a * (terms * (terms + 1) / 2)
    }

    /// The largest speed up to the change above the speed it has, for which speed and its way together are no more than
    /// what is left.
    pub fn fastest(self, change: u64, speed: u64, left: u64) -> u64 {
        let fits = |v: u64| u128::from(v) + self.way(change, v) <= u128::from(left);
        let (mut good, mut bad) = (0, speed + change + 1);
        while bad - good > 1 {
            let middle = good + (bad - good) / 2;
            if fits(middle) { good = middle } else { bad = middle }
        }
        good
    }

    /// The smaller of fastest and cap, or the speed it has less the change, if that is larger.
    pub fn next_speed(self, change: u64, speed: u64, left: u64, cap: u64) -> u64 {
        let wanted = self.fastest(change, speed, left).min(cap);
        if self.mistake == Mistake::SlowsAtOnce {
            return wanted;
        }
        wanted.max(speed.saturating_sub(change))
    }
}

#[cfg(test)]
mod tests {
    use super::*;

    const RULES: Rules = Rules { mistake: Mistake::None };

    fn added_up(change: u64, speed: u64) -> u128 {
        let terms = std::iter::successors(speed.checked_sub(change), |v| v.checked_sub(change));
        terms.map(u128::from).sum()
    }

    #[test]
    fn worked() {
        let ways: Vec<u128> = (0..8).map(|v| RULES.way(2, v)).collect();
        assert_eq!(ways, [0, 0, 0, 1, 2, 4, 6, 9]);
    }

    #[test]
    fn way_is_the_sum() {
        for change in 1..40 {
            for speed in 0..400 {
                assert_eq!(RULES.way(change, speed), added_up(change, speed));
            }
        }
    }

    #[test]
    fn fastest_is_the_largest() {
        for change in 1..9 {
            for speed in 0..30 {
                for left in 0..150 {
                    let fits = |v: &u64| u128::from(*v) + added_up(change, *v) <= u128::from(left);
                    let largest = (0..=speed + change).rev().find(fits);
                    assert_eq!(Some(RULES.fastest(change, speed, left)), largest);
                }
            }
        }
    }
}
