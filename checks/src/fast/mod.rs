//! The same control in plain Rust, written to be quick: what the proved one is timed beside. It takes the same ways (a
//! ranged search for the speed, counts before targets), with Rust's own checks of sums off and of indices on.

pub mod control;
pub mod print;
pub mod program;

/// A number whose values below 0 count as 0.
fn size(n: i64) -> u64 {
    if n < 0 { 0 } else { n as u64 }
}

#[derive(Clone, Copy)]
pub struct Place {
    pub x: i64,
    pub y: i64,
}

impl Place {
    const ORIGIN: Place = Place { x: 0, y: 0 };

    fn is_far(self) -> bool {
        self.x.unsigned_abs() > REACH || self.y.unsigned_abs() > REACH
    }
}

/// How far a target may lie on an axis.
const REACH: u64 = 1_000_000_000;
