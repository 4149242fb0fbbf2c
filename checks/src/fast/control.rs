//! A loaded control, and one event on lent numbers.

use super::{Place, REACH, size};
use crate::plain::{Refused, Target};

#[derive(Clone, Copy)]
pub struct Machine {
    pub change: u64,
    pub top: u64,
}

/// Work, with its fields changed in place.
struct Work {
    behind: usize,
    from: Place,
    done: u64,
    speed: u64,
    held: bool,
    percent: u32,
}

/// The way that is still made from a speed, slowed as much as may be.
fn way(change: u64, speed: u64) -> u64 {
    if speed <= change {
        return 0;
    }
    let terms = (speed - 1) / change;
    terms * speed - change * (terms * (terms + 1) / 2)
}

/// The next speed: the slowest where the cap asks for less, the highest where it fits, and else a search between.
fn next_speed(change: u64, cap: u64, left: u64, speed: u64) -> u64 {
    let low = speed.saturating_sub(change);
    let high = cap.min(speed + change);
    let fits = |v: u64| v + way(change, v) <= left;
    if high <= low {
        return low;
    }
    if fits(high) {
        return high;
    }
    let (mut good, mut bad) = (low, high);
    while bad - good > 1 {
        let middle = good + (bad - good) / 2;
        if fits(middle) { good = middle } else { bad = middle }
    }
    good
}

/// Where an axis is after n steps; the longer axis and one that stands need no quotient.
fn along(from: i64, to: i64, n: u64, length: u64) -> i64 {
    let way = from.abs_diff(to);
    let made = if way == 0 {
        0
    } else if way == length {
        n
    } else {
        (2 * way * n + length) / (2 * length)
    };
    if to < from { from - made as i64 } else { from + made as i64 }
}

fn length(from: Place, to: Place) -> u64 {
    from.x.abs_diff(to.x).max(from.y.abs_diff(to.y))
}

impl Work {
    const FRESH: Work = Work { behind: 0, from: Place::ORIGIN, done: 0, speed: 0, held: false, percent: 100 };

    fn place(&self, next: Option<&Target>) -> Place {
        let Some(target) = next else { return self.from };
        let to = Place { x: target.x, y: target.y };
        let length = length(self.from, to);
        Place { x: along(self.from.x, to.x, self.done, length), y: along(self.from.y, to.y, self.done, length) }
    }

    /// A tick towards a target; answers where it is then.
    fn tick(&mut self, machine: Machine, target: &Target) -> Place {
        let to = Place { x: target.x, y: target.y };
        let length = length(self.from, to);
        let most = machine.top.min(target.fast) * u64::from(self.percent) / 100;
        let cap = if self.held { 0 } else { most };
        self.speed = next_speed(machine.change, cap, length.saturating_sub(self.done), self.speed);
        self.done += self.speed;
        if self.done < length {
            return Place {
                x: along(self.from.x, to.x, self.done, length),
                y: along(self.from.y, to.y, self.done, length),
            };
        }
        *self = Work { behind: self.behind + 1, from: to, done: 0, speed: 0, held: self.held, percent: self.percent };
        to
    }
}

/// A loaded control, which keeps the place from tick to tick.
pub struct Control {
    machine: Machine,
    targets: Vec<Target>,
    work: Work,
    place: Place,
}

impl Control {
    pub fn new(machine: Machine, targets: Vec<Target>) -> Control {
        Control { machine, targets, work: Work::FRESH, place: Place::ORIGIN }
    }

    pub fn add(&mut self, target: Target) {
        self.targets.push(target);
    }

    pub fn place(&self) -> Place {
        self.place
    }

    pub fn tick(&mut self) -> [i64; 2] {
        let Some(target) = self.targets.get(self.work.behind) else { return [0, 0] };
        let after = self.work.tick(self.machine, target);
        let before = std::mem::replace(&mut self.place, after);
        [after.x - before.x, after.y - before.y]
    }

    pub fn hold(&mut self) {
        self.work.held = true;
    }

    pub fn go(&mut self) {
        self.work.held = false;
    }

    pub fn knob(&mut self, percent: u64) {
        self.work.percent = percent.min(100) as u32;
    }
}

fn target_at(targets: &[i64], i: usize) -> Option<Target> {
    let numbers = targets.get(3 * i..3 * i + 3)?;
    Some(Target { x: numbers[0], y: numbers[1], fast: size(numbers[2]) })
}

fn check(machine: Machine, targets: &[i64], memory: &[i64], kind: u64, number: u64) -> Result<(), Refused> {
    let fine = |n: u64| (1..=1_000_000).contains(&n);
    let far = |t: &[i64]| t[0].unsigned_abs() > REACH || t[1].unsigned_abs() > REACH;
    if !fine(machine.change) {
        return Err(Refused(6, 0));
    }
    if !fine(machine.top) {
        return Err(Refused(6, 1));
    }
    if !targets.len().is_multiple_of(3) {
        return Err(Refused(7, 0));
    }
    if targets.chunks_exact(3).any(far) {
        return Err(Refused(7, 1));
    }
    if memory.len() != 7 || memory.iter().any(|n| n.unsigned_abs() > 2 * REACH) || memory[6] > 100 || far(&memory[1..3])
    {
        return Err(Refused(7, 2));
    }
    if kind > 3 {
        return Err(Refused(8, 0));
    }
    if number > 1000 {
        return Err(Refused(8, 1));
    }
    Ok(())
}

fn work_in(memory: &[i64]) -> Work {
    let from = Place { x: memory[1], y: memory[2] };
    let (done, speed, percent) = (size(memory[3]), size(memory[4]), size(memory[6]) as u32);
    Work { behind: size(memory[0]) as usize, from, done, speed, held: memory[5] == 1, percent }
}

/// One event on lent memory, as a function that is called and not inlined.
#[inline(never)]
pub fn happen(
    machine: Machine,
    targets: &[i64],
    memory: &mut [i64],
    kind: u64,
    number: u64,
    moved: &mut [i64; 2],
) -> Result<(), Refused> {
    check(machine, targets, memory, kind, number)?;
    let mut work = work_in(memory);
    *moved = [0, 0];
    match kind {
        0 => {
            if let Some(target) = target_at(targets, work.behind) {
                let before = work.place(Some(&target));
                let after = work.tick(machine, &target);
                *moved = [after.x - before.x, after.y - before.y];
            }
        }
        1 => work.held = true,
        2 => work.held = false,
        _ => work.percent = number.min(100) as u32,
    }
    let Work { behind, from, done, speed, held, percent } = work;
    memory.copy_from_slice(&[
        behind as i64,
        from.x,
        from.y,
        done as i64,
        speed as i64,
        i64::from(held),
        i64::from(percent),
    ]);
    Ok(())
}
