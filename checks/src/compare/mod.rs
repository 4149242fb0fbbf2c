//! Comparisons of the proved control with the plain rules. Each answers how many cases agreed, or the first that does
//! not, in full.

pub mod damage;
pub mod edges;
pub mod happen;
pub mod processes;
pub mod runs;
pub mod say;
pub mod scripts;
pub mod search;
pub mod tables;
pub mod texts;

use checks::plain::Refused;

/// How many cases agreed, or the first that does not.
pub type Compared = Result<u64, String>;

/// Which answers came up: 0 for what is taken, and the refusals by their numbers.
#[derive(Default)]
pub struct Seen([u64; 10]);

impl Seen {
    pub fn add<T>(&mut self, answer: &Result<T, Refused>) {
        self.0[answer.as_ref().err().map_or(0, |refused| refused.0 as usize)] += 1;
    }

    /// Where the cases are enough, each of these answers must have come up; else they are too much alike.
    pub fn all(&self, answers: &[usize], what: &str, cases: u64, enough: u64) -> Compared {
        match answers.iter().find(|&&n| self.0[n] == 0) {
            Some(never) if cases >= enough => Err(format!("no case of {what} was answered {never}")),
            _ => Ok(cases),
        }
    }
}

/// Says in full where two answers differ.
pub fn same<T: PartialEq + std::fmt::Debug>(
    what: &str,
    case: &dyn std::fmt::Debug,
    proved: T,
    plain: T,
) -> Result<(), String> {
    if proved == plain {
        return Ok(());
    }
    Err(format!("{what} differs\n  case:   {case:?}\n  proved: {proved:?}\n  plain:  {plain:?}"))
}
