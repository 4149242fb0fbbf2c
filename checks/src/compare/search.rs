//! For a single short line, a search through all runs of speeds that keep the limits: none is there in fewer ticks than
//! the proved control, and it can always stop within the line.

use super::{Compared, same};
use checks::plain::work::{Machine, Work};
use checks::plain::{Mistake, Rules};
use checks::proved;
use std::collections::HashSet;

/// A line with its machine and target's speed.
#[derive(Clone, Copy, Debug)]
struct Line {
    change: u64,
    fast: u64,
    length: u64,
}

/// Where a run is: the steps done and the speed.
type State = (u64, u64);

/// The fewest ticks in which any run that keeps the limits is at the line's end, from a state.
fn fewest(line: Line, cap: u64, from: State) -> Option<u64> {
    let mut reached: HashSet<State> = HashSet::from([from]);
    let mut now = vec![from];
    for ticks in 1..200 {
        let mut next = Vec::new();
        for (done, speed) in now {
            for steps in speed.saturating_sub(line.change)..=speed + line.change {
                let allowed = steps <= cap || steps + line.change == speed;
                let after = done + steps;
                if !allowed || after > line.length {
                    continue;
                }
                if after == line.length && steps <= line.change {
                    return Some(ticks);
                }
                if after < line.length && reached.insert((after, steps)) {
                    next.push((after, steps));
                }
            }
        }
        now = next;
    }
    None
}

/// The proved control on the line, from a state, under a knob.
struct Run {
    machine: Machine,
    targets: [i64; 3],
    memory: [i64; 7],
}

impl Run {
    fn new(line: Line) -> Run {
        let machine = Machine { change: line.change, top: 1000 };
        let targets = [line.length as i64, 0, line.fast as i64];
        Run { machine, targets, memory: Work::FRESH.numbers() }
    }

    fn event(&mut self, kind: u64, number: u64) -> Result<(), String> {
        let mut moved = [0; 2];
        let done = proved::happen(self.machine, &self.targets, &mut self.memory, kind, number, &mut moved);
        done.map_err(|refused| format!("{refused:?} on a line"))
    }

    fn arrived(&self) -> bool {
        self.memory[0] == 1
    }

    fn state(&self) -> State {
        (self.memory[3] as u64, self.memory[4] as u64)
    }

    fn ticks_to_arrive(mut self) -> Result<Option<u64>, String> {
        for ticks in 1..200 {
            self.event(0, 0)?;
            if self.arrived() {
                return Ok(Some(ticks));
            }
        }
        Ok(None)
    }

    /// Held from now on: how many steps are done where it stands.
    fn held_stand(mut self, line: Line) -> Result<u64, String> {
        self.event(1, 0)?;
        while self.state().1 > 0 && !self.arrived() {
            self.event(0, 0)?;
        }
        Ok(if self.arrived() { line.length } else { self.state().0 })
    }

    fn copy(&self) -> Run {
        Run { ..*self }
    }
}

/// Fewest ticks and the stop from every state along the line, with the knob turned after so many ticks.
fn along(line: Line, percent: u64) -> Compared {
    let rules = Rules { mistake: Mistake::None };
    let mut run = Run::new(line);
    let mut cases = 0;
    while cases < 60 && !run.arrived() {
        let state = run.state();
        let mut turned = run.copy();
        turned.event(3, percent)?;
        let cap = line.fast * percent / 100;
        let shown = (line, percent, state);
        let ours = turned.ticks_to_arrive()?;
        same("the ticks to the line's end", &shown, ours, fewest(line, cap, state))?;
        let stop = u128::from(state.0) + rules.way(line.change, state.1);
        same("where it stands when held", &shown, u128::from(run.copy().held_stand(line)?), stop)?;
        same("that it stands within its line", &shown, stop <= u128::from(line.length), true)?;
        cases += 1;
        run.event(0, 0)?;
    }
    Ok(cases)
}

pub fn compare(longest: u64) -> Compared {
    let mut cases = 0;
    for change in 1..=4 {
        for fast in [1, 2, 3, 5, 8, 13] {
            for length in 0..=longest {
                for percent in [100, 60, 34] {
                    cases += along(Line { change, fast, length }, percent)?;
                }
            }
        }
    }
    Ok(cases)
}
