//! Work: ticks, holds, goes and the knob, and memory of seven numbers.

use super::line::length;
use super::{Refused, Rules, Target};

const REACH: u64 = 1_000_000_000;
const MOST_MEMORY: u64 = 2_000_000_000;

#[derive(Clone, Copy, PartialEq, Eq, Debug)]
pub struct Machine {
    pub change: u64,
    pub top: u64,
}

impl Machine {
    pub fn check(self) -> Result<(), Refused> {
        let fine = |n: u64| (1..=1_000_000).contains(&n);
        match (fine(self.change), fine(self.top)) {
            (false, _) => Err(Refused(6, 0)),
            (true, false) => Err(Refused(6, 1)),
            (true, true) => Ok(()),
        }
    }
}

#[derive(Clone, Copy, PartialEq, Eq, Debug)]
pub enum Event {
    Tick,
    Hold,
    Go,
    Knob(u64),
}

#[derive(Clone, Copy, PartialEq, Eq, Debug)]
pub struct Work {
    /// How many targets are behind it.
    pub behind: u64,
    /// Where the line began.
    pub from: (i64, i64),
    /// How far it has come.
    pub done: u64,
    pub speed: u64,
    pub held: bool,
    pub percent: u64,
}

impl Work {
    pub const FRESH: Work = Work { behind: 0, from: (0, 0), done: 0, speed: 0, held: false, percent: 100 };

    fn next(self, targets: &[Target]) -> Option<Target> {
        targets.get(self.behind as usize).copied()
    }

    /// Memory as seven numbers.
    pub fn numbers(self) -> [i64; 7] {
        let of = |n: u64| i64::try_from(n).expect("a number of memory");
        let (x, y) = self.from;
        [of(self.behind), x, y, of(self.done), of(self.speed), i64::from(self.held), of(self.percent)]
    }

    /// The work that seven numbers say; numbers below 0 are 0, and it is held only by exactly 1.
    fn read(memory: &[i64]) -> Option<Work> {
        let &[behind, x, y, done, speed, held, percent] = memory else { return None };
        let size = |n: i64| u64::try_from(n).unwrap_or(0);
        let large = memory.iter().any(|n| n.unsigned_abs() > MOST_MEMORY);
        let far = x.unsigned_abs() > REACH || y.unsigned_abs() > REACH;
        if large || far || percent > 100 {
            return None;
        }
        let (behind, done, speed, percent) = (size(behind), size(done), size(speed), size(percent));
        Some(Work { behind, from: (x, y), done, speed, held: held == 1, percent })
    }
}

fn targets_of(numbers: &[i64]) -> Result<Vec<Target>, Refused> {
    if !numbers.len().is_multiple_of(3) {
        return Err(Refused(7, 0));
    }
    let target = |t: &[i64]| Target { x: t[0], y: t[1], fast: u64::try_from(t[2]).unwrap_or(0) };
    let targets: Vec<Target> = numbers.chunks(3).map(target).collect();
    if targets.iter().any(|t| t.x.unsigned_abs() > REACH || t.y.unsigned_abs() > REACH) {
        return Err(Refused(7, 1));
    }
    Ok(targets)
}

impl Rules {
    /// Where the work is.
    pub fn place(self, targets: &[Target], work: Work) -> (i64, i64) {
        match work.next(targets) {
            Some(t) => self.place_on(work.from, (t.x, t.y), work.done),
            None => work.from,
        }
    }

    /// What an event makes of work.
    pub fn event(self, machine: Machine, targets: &[Target], work: Work, event: Event) -> Work {
        match event {
            Event::Tick => self.tick(machine, targets, work),
            Event::Hold => Work { held: true, ..work },
            Event::Go => Work { held: false, ..work },
            Event::Knob(percent) => Work { percent: percent.min(100), ..work },
        }
    }

    fn tick(self, machine: Machine, targets: &[Target], work: Work) -> Work {
        let Some(target) = work.next(targets) else { return work };
        let to = (target.x, target.y);
        let length = length(work.from, to);
        let cap = if work.held { 0 } else { machine.top.min(target.fast) * work.percent / 100 };
        let left = length.saturating_sub(work.done);
        let speed = self.next_speed(machine.change, work.speed, left, cap);
        let done = work.done + speed;
        if done >= length {
            return Work { behind: work.behind + 1, from: to, done: 0, speed: 0, ..work };
        }
        Work { done, speed, ..work }
    }

    /// One event on lent numbers: memory and the pulses after it.
    pub fn happen(
        self,
        machine: Machine,
        targets: &[i64],
        memory: &[i64],
        kind: u64,
        number: u64,
    ) -> Result<([i64; 7], [i64; 2]), Refused> {
        machine.check()?;
        let targets = targets_of(targets)?;
        let work = Work::read(memory).ok_or(Refused(7, 2))?;
        let event = match kind {
            0 => Event::Tick,
            1 => Event::Hold,
            2 => Event::Go,
            3 => Event::Knob(number),
            _ => return Err(Refused(8, 0)),
        };
        if number > 1000 {
            return Err(Refused(8, 1));
        }
        let after = self.event(machine, &targets, work, event);
        let (x, y) = self.place(&targets, work);
        let (p, q) = self.place(&targets, after);
        Ok((after.numbers(), [p - x, q - y]))
    }
}
