//! Programs loaded and run for some ticks.

use super::{Compared, happen, same, say};
use checks::fast::control as fast;
use checks::plain::work::{Event, Machine, Work};
use checks::plain::{Refused, Rules};
use checks::proved;
use checks::random::Random;

fn plain_run(rules: Rules, machine: Machine, nodes: &[i64], most: u64, count: u64) -> Result<[i64; 2], Refused> {
    let targets = rules.say(nodes, most)?;
    machine.check()?;
    let mut work = Work::FRESH;
    for _ in 0..count {
        work = rules.event(machine, &targets, work, Event::Tick);
    }
    let (x, y) = rules.place(&targets, work);
    Ok([x, y])
}

fn fast_run(machine: Machine, rules: Rules, nodes: &[i64], most: u64, count: u64) -> Result<[i64; 2], Refused> {
    let targets = rules.say(nodes, most)?;
    machine.check()?;
    let mut control = fast::Control::new(fast::Machine { change: machine.change, top: machine.top }, targets);
    let pulses = (0..count).map(|_| control.tick());
    Ok(pulses.fold([0, 0], |[x, y], [p, q]| [x + p, y + q]))
}

pub fn compare(rules: Rules, random: &mut Random, cases: u64) -> Compared {
    for _ in 0..cases {
        let nodes = say::valid(random);
        let (machine, most) = (happen::machine(random), random.sized(4000));
        let count = random.sized(300);
        let shown = (machine, &nodes, most, count);
        let proved = proved::run(machine, &nodes, most, count);
        same("where a run is", &shown, proved, plain_run(rules, machine, &nodes, most, count))?;
        same("where a quick plain run is", &shown, proved, fast_run(machine, rules, &nodes, most, count))?;
    }
    Ok(cases)
}
