//! Lines: how long they are, and the places on them.

use super::{Mistake, Rules};

type Place = (i64, i64);

/// As long as the longer axis has steps.
pub fn length(from: Place, to: Place) -> u64 {
    from.0.abs_diff(to.0).max(from.1.abs_diff(to.1))
}

impl Rules {
    /// Where a line is after n of its steps: n over its length of each axis's way, rounded to nearest, halves away from
    /// where it began. A line of length 0 stays where it is.
    pub fn place_on(self, from: Place, to: Place, n: u64) -> Place {
        let length = length(from, to);
        if length == 0 {
            return from;
        }
        let x = from.0 + self.share(to.0 - from.0, n, length);
        let y = from.1 + self.share(to.1 - from.1, n, length);
        (x, y)
    }

    fn share(self, way: i64, n: u64, length: u64) -> i64 {
        let exact = i128::from(way) * i128::from(n);
        let length = i128::from(length);
        let up = (2 * exact + length).div_euclid(2 * length);
        let away = if exact < 0 { -((2 * -exact + length) / (2 * length)) } else { up };
        let rounded = if self.mistake == Mistake::HalvesUp { up } else { away };
        i64::try_from(rounded).expect("a place")
    }
}

#[cfg(test)]
mod tests {
    use super::*;

    fn places(to: Place, n: u64) -> Vec<Place> {
        let rules = Rules { mistake: Mistake::None };
        (0..=n).map(|i| rules.place_on((0, 0), to, i)).collect()
    }

    #[test]
    fn worked() {
        assert_eq!(places((5, 2), 5), [(0, 0), (1, 0), (2, 1), (3, 1), (4, 2), (5, 2)]);
        assert_eq!(places((-4, 2), 4), [(0, 0), (-1, 1), (-2, 1), (-3, 2), (-4, 2)]);
    }
}
