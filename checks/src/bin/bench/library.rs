//! The functions of the library: a loaded control's ticks, one event on lent numbers, what a program says.

use crate::{Row, timed};
use checks::fast::{control as fast, program};
use checks::plain::work::Machine;
use checks::proved;
use std::hint::black_box;

const MILLION: u64 = 1_000_000;

/// There and back on short lines, so many targets in all.
fn zigzag(targets: u64) -> Vec<i64> {
    let turns = targets as i64 / 2;
    vec![2, 50, 20, 9, 2, -50, -20, 9, 3, 0, 1, 0, 4, turns, 2, 0]
}

/// One line of 999 million steps, in frames within frames.
fn long_line(fast: u64) -> Vec<i64> {
    let mut nodes = vec![1, 0, 400_000, fast as i64];
    for body in 0..999 {
        nodes.extend([5, MILLION as i64, 0, body]);
    }
    nodes
}

/// Ticks of a loaded control, without the loading. A short run is made many times.
fn ticks(what: String, machine: Machine, nodes: &[i64], count: u64) -> Row {
    let runs = (4 * MILLION / count).max(1);
    let proved = |count: u64| {
        for _ in 0..runs {
            black_box(proved::run(machine, nodes, MILLION, count).expect("a run"));
        }
    };
    let quick = fast::Machine { change: machine.change, top: machine.top };
    let targets = program::load(nodes, MILLION).expect("a program");
    let plain = |count: u64| {
        for _ in 0..runs {
            let mut control = fast::Control::new(quick, targets.clone());
            let pulses = (0..count).map(|_| control.tick());
            black_box(pulses.fold([0, 0], |[x, y], [p, q]| [x + p, y + q]));
        }
    };
    let all = timed(what, "tick", runs * count, || proved(count), || plain(count));
    let loading = timed(String::new(), "tick", runs * count, || proved(0), || plain(0));
    Row { proved: all.proved - loading.proved, plain: all.plain - loading.plain, ..all }
}

/// How many ticks a zigzag's line takes.
const TICKS_FOR_A_LINE: u64 = 9;

/// Ticks by one event on lent numbers, from the same memory each time.
fn events(what: String, machine: Machine, targets: &[i64], memory: [i64; 7]) -> Row {
    let calls = (20 * MILLION / (targets.len() as u64 + 10)).clamp(20, MILLION);
    let quick = fast::Machine { change: machine.change, top: machine.top };
    let proved = || {
        for _ in 0..calls {
            let (mut memory, mut moved) = (black_box(memory), [0; 2]);
            proved::happen(machine, targets, &mut memory, 0, 0, &mut moved).expect("an event");
            black_box((memory, moved));
        }
    };
    let plain = || {
        for _ in 0..calls {
            let (mut memory, mut moved) = (black_box(memory), [0; 2]);
            fast::happen(quick, targets, &mut memory, 0, 0, &mut moved).expect("an event");
            black_box((memory, moved));
        }
    };
    timed(what, "event", calls, proved, plain)
}

/// A state that has to slow down now: the fastest lies between speed less change and speed.
fn braking(ratio: u64) -> (Machine, [i64; 7]) {
    let change = (MILLION / ratio).max(if ratio > 4000 { 1 } else { 250 });
    let speed = change * ratio;
    let slower = speed - change / 2;
    let terms = (slower - 1) / change;
    let way = terms * slower - change * (terms * (terms + 1) / 2);
    let left = (slower + way).min(2_000_000_000) as i64;
    (Machine { change, top: MILLION }, [0, 1_000_000_000 - left, 0, 0, speed as i64, 0, 100])
}

fn says(what: String, nodes: &[i64], count: u64) -> Row {
    let mut room = vec![0; 3 * count as usize];
    let mut other = room.clone();
    let times = (4 * MILLION / count).max(1);
    let proved = || (0..times).for_each(|_| assert_eq!(proved::say(black_box(nodes), &mut room), Ok(count)));
    let plain = || (0..times).for_each(|_| assert_eq!(program::say(black_box(nodes), &mut other), Ok(count)));
    timed(what, "target", times * count, proved, plain)
}

fn said_rows(rows: &mut Vec<Row>) {
    for count in [10, 1000, MILLION] {
        let nodes = [2, 1, 0, 9, 4, count as i64, 0, 0];
        rows.push(says(format!("say, `{count} times {{ by 1 0 fast 9; }}`"), &nodes, count));
    }
    let nested = [2, 1, 0, 9, 4, 100, 0, 0, 7, 1, 0, 0, 5, 3, 4, 2, 4, 100, 3, 0, 6, 4, 0, 0, 4, 100, 5, 0];
    rows.push(says("say, three loops of 100 with a turn, an `at` and a mirror between".to_string(), &nested, MILLION));
}

pub fn rows() -> Vec<Row> {
    let mut rows = Vec::new();
    let machine = Machine { change: 2, top: 100 };
    for targets in [10, 1000, 100_000, MILLION] {
        let what = format!("loaded control, {targets} targets, lines of 50 steps");
        rows.push(ticks(what, machine, &zigzag(targets), TICKS_FOR_A_LINE * targets));
    }
    for fast in [1, 100, 10_000, 31_000] {
        let what = format!("loaded control, one line of 999 million steps, change 1, up to speed {fast}");
        let count = (999 * MILLION / fast).min(2 * MILLION);
        rows.push(ticks(what, Machine { change: 1, top: MILLION }, &long_line(fast), count));
    }
    for targets in [10, 1000, 100_000, MILLION] {
        let numbers: Vec<i64> = (0..targets as i64).flat_map(|i| [i % 2 * 50, i % 2 * 20, 9]).collect();
        let what = format!("thin entry, {targets} targets");
        rows.push(events(what, machine, &numbers, [1, 0, 0, 20, 8, 0, 100]));
    }
    for ratio in [1, 10, 100, 1000, 10_000, MILLION] {
        let (machine, memory) = braking(ratio);
        let targets = [1_000_000_000, 0, MILLION as i64].repeat(10);
        rows.push(events(
            format!("thin entry, 10 targets, braking, speed over change {ratio}"),
            machine,
            &targets,
            memory,
        ));
    }
    said_rows(&mut rows);
    rows
}
