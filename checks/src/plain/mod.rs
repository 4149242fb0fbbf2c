//! The rules in plain Rust. Slow and direct on purpose: each function says what the prose says, nothing is composed or
//! saved up, and numbers are wide enough that nothing can overflow.

pub mod line;
pub mod program;
pub mod script;
pub mod speed;
pub mod text;
pub mod work;

/// A refusal: its number in the list, and its place.
#[derive(Clone, Copy, PartialEq, Eq, Debug)]
pub struct Refused(pub u64, pub u64);

#[derive(Clone, Copy, PartialEq, Eq, Debug)]
pub struct Target {
    pub x: i64,
    pub y: i64,
    pub fast: u64,
}

/// A mistake that is planted on purpose, to show that the comparison sees it.
#[derive(Clone, Copy, PartialEq, Eq, Debug)]
pub enum Mistake {
    None,
    /// Halves of a step are rounded up, and not away from where the line began.
    HalvesUp,
    /// A knob or a hold takes the speed down at once.
    SlowsAtOnce,
    /// A `by` goes from the place as seen from outside the frame.
    ByFromOutside,
    /// The way to stop is a square over twice the change.
    SquareToStop,
    /// A refused text's line is counted from 1.
    LinesFromOne,
}

impl Mistake {
    pub const ALL: [Mistake; 5] =
        [Mistake::HalvesUp, Mistake::SlowsAtOnce, Mistake::ByFromOutside, Mistake::SquareToStop, Mistake::LinesFromOne];
}

/// The rules, with at most one mistake planted in them.
#[derive(Clone, Copy)]
pub struct Rules {
    pub mistake: Mistake,
}
