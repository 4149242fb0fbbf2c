//! Events on lent numbers: raw memories that no run reaches, and rows of events from a fresh work.

use super::{Compared, Seen, same};
use checks::fast::control as fast;
use checks::plain::work::{Machine, Work};
use checks::plain::{Refused, Rules};
use checks::proved;
use checks::random::Random;

const REACH: i64 = 1_000_000_000;

#[derive(Debug, Clone)]
struct Case {
    machine: Machine,
    targets: Vec<i64>,
    memory: Vec<i64>,
    kind: u64,
    number: u64,
}

pub fn machine(random: &mut Random) -> Machine {
    let one = |random: &mut Random| match random.below(40) {
        0 => random.pick(&[0, 1_000_001, u64::MAX]),
        1..=3 => 1_000_000,
        4..=19 => random.between(1, 9) as u64,
        _ => random.sized(999_999) + 1,
    };
    Machine { change: one(random), top: one(random) }
}

/// Short lines at low speeds, where each step of a line is likely to be seen.
fn small(random: &mut Random) -> (Machine, Vec<i64>) {
    let machine = Machine { change: random.between(1, 4) as u64, top: random.between(1, 12) as u64 };
    let mut numbers = Vec::new();
    for _ in 0..random.below(30) {
        numbers.extend([random.between(-20, 20), random.between(-20, 20), random.between(1, 9)]);
    }
    (machine, numbers)
}

/// A place on an axis, near the last one or anywhere.
fn axis(random: &mut Random, last: i64) -> i64 {
    match random.below(8) {
        0 => random.pick(&[REACH, -REACH, 0]),
        1 => random.signed(REACH as u64),
        2 => last,
        _ => (last + random.signed(3000)).clamp(-REACH, REACH),
    }
}

fn speed(random: &mut Random) -> i64 {
    match random.below(12) {
        0 => random.pick(&[i64::MAX, i64::MIN, 0, -1]),
        1..=4 => random.between(0, 9),
        _ => random.signed(1 << 22).abs(),
    }
}

fn targets(random: &mut Random) -> Vec<i64> {
    let count = if random.one_in(50) { random.below(60) } else { random.below(6) };
    let (mut x, mut y) = (0, 0);
    let mut numbers = Vec::new();
    for _ in 0..count {
        (x, y) = (axis(random, x), axis(random, y));
        numbers.extend([x, y, speed(random)]);
    }
    if random.one_in(40) {
        numbers.push(7);
    }
    if random.one_in(40) && !numbers.is_empty() {
        let at = random.below(numbers.len() as u64) as usize;
        numbers[at] = random.pick(&[REACH + 1, -REACH - 1, i64::MAX, i64::MIN]);
    }
    numbers
}

/// Memory as no run leaves it: steps past the line's end, any speed, numbers below 0.
fn memory(random: &mut Random) -> Vec<i64> {
    let most = 2 * REACH as u64;
    let behind = if random.one_in(4) { random.signed(most) } else { random.between(0, 5) };
    let (x, y) = (random.signed(REACH as u64), random.signed(REACH as u64));
    let (done, speed) = (random.signed(most), random.signed(most));
    let near = random.one_in(2);
    let mut memory = vec![
        behind,
        if near { x % 1000 } else { x },
        if near { y % 1000 } else { y },
        if random.one_in(9) { most as i64 } else { done.abs() - 3 },
        if random.one_in(9) { most as i64 } else { speed.abs() - 3 },
        random.pick(&[0, 1, 1, 2, -1]),
        random.between(-3, 100),
    ];
    if random.one_in(20) {
        let at = random.below(7) as usize;
        memory[at] = random.pick(&[most as i64 + 1, -(most as i64) - 1, REACH + 1, -REACH - 1, 101, i64::MIN]);
    }
    if random.one_in(60) {
        memory.push(0);
    }
    if random.one_in(60) {
        memory.truncate(random.below(7) as usize);
    }
    memory
}

fn event(random: &mut Random) -> (u64, u64) {
    let kind = match random.below(100) {
        0 => random.pick(&[4, 5, u64::MAX]),
        1..=8 => 1,
        9..=18 => 2,
        19..=30 => 3,
        _ => 0,
    };
    let number = if random.one_in(60) { random.pick(&[1000, 1001, u64::MAX]) } else { random.below(130) };
    (kind, number)
}

/// One event by both; the memory and pulses of the proved one go on.
fn both(rules: Rules, case: &mut Case) -> Result<Result<(), Refused>, String> {
    let before = case.clone();
    let untouched = [i64::MIN, 77];
    let mut moved = untouched;
    let proved = proved::happen(case.machine, &case.targets, &mut case.memory, case.kind, case.number, &mut moved);
    let plain = rules.happen(case.machine, &before.targets, &before.memory, case.kind, case.number);
    same("what happen answers", &before, proved, plain.map(|_| ()))?;
    let (memory, pulses) = match plain {
        Ok((memory, pulses)) => (memory.to_vec(), pulses),
        Err(_) => (before.memory.clone(), untouched),
    };
    same("the memory after happen", &before, &case.memory, &memory)?;
    same("the pulses of happen", &before, moved, pulses)?;
    let (mut memory, mut moved) = (before.memory.clone(), untouched);
    let machine = fast::Machine { change: case.machine.change, top: case.machine.top };
    let quick = fast::happen(machine, &before.targets, &mut memory, case.kind, case.number, &mut moved);
    same("the quick plain happen", &before, (quick, &memory, moved), (proved, &case.memory, pulses))?;
    Ok(proved)
}

/// Memories of any kind, one event each.
pub fn compare_raw(rules: Rules, random: &mut Random, cases: u64) -> Compared {
    let mut seen = Seen::default();
    for _ in 0..cases {
        let (kind, number) = event(random);
        let mut case =
            Case { machine: machine(random), targets: targets(random), memory: memory(random), kind, number };
        seen.add(&both(rules, &mut case)?);
    }
    seen.all(&[0, 6, 7, 8], "happen", cases, 10_000)
}

/// Rows of events from a fresh work, followed through.
pub fn compare_rows(rules: Rules, random: &mut Random, cases: u64) -> Compared {
    let mut done = 0;
    while done < cases {
        let (machine, targets) = if random.one_in(2) { small(random) } else { (machine(random), targets(random)) };
        let mut case = Case { machine, targets, memory: Work::FRESH.numbers().to_vec(), kind: 0, number: 0 };
        for _ in 0..random.between(1, 300) {
            (case.kind, case.number) = event(random);
            let _ = both(rules, &mut case)?;
            done += 1;
        }
    }
    Ok(done)
}
