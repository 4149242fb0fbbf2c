//! Programs in numbers, valid and damaged.

use super::{Compared, Seen, same};
use checks::fast::program as fast;
use checks::plain::{Refused, Rules, Target};
use checks::proved;
use checks::random::Random;

const MOST: i64 = 1_000_000;

/// A number of a program: mostly small, sometimes at an end.
fn number(random: &mut Random) -> i64 {
    match random.below(12) {
        0 => random.pick(&[MOST, -MOST, MOST - 1, 1 - MOST]),
        1 => random.signed(MOST as u64),
        _ => random.between(-9, 9),
    }
}

/// A name of an earlier node, the last ones more often.
fn name(random: &mut Random, node: usize) -> i64 {
    let back = if random.one_in(4) { random.below(node as u64) } else { random.below(node.min(3) as u64) };
    let name = node as i64 - 1 - back as i64;
    if name == 0 && random.one_in(4) { random.between(-5, 0) } else { name }
}

fn count(random: &mut Random) -> i64 {
    match random.below(20) {
        0 => random.pick(&[0, -3, -MOST]),
        1 => random.pick(&[MOST, 1500, 1001]),
        _ => random.between(1, 4),
    }
}

fn node(random: &mut Random, i: usize) -> [i64; 4] {
    let kind = if i == 0 {
        random.pick(&[0, 1, 2, -4])
    } else {
        random.pick(&[0, 1, 1, 2, 2, 2, 3, 3, 3, 3, 4, 5, 5, 6, 6, 7, 7, 8])
    };
    let n = number(random);
    let unused = if random.one_in(3) { number(random) } else { 0 };
    match kind {
        1 | 2 => [kind, n, number(random), number(random)],
        3 => [3, name(random, i), name(random, i), unused],
        4 => [4, count(random), name(random, i), unused],
        5 => [5, n, number(random), name(random, i)],
        6..=8 => [kind, name(random, i), unused, unused],
        _ => [kind, unused, n, unused],
    }
}

pub fn valid(random: &mut Random) -> Vec<i64> {
    let nodes = match random.below(60) {
        0 => random.between(1000, 1024),
        1..=5 => random.between(30, 200),
        _ => random.between(1, 14),
    };
    (0..nodes as usize).flat_map(|i| node(random, i)).collect()
}

/// Something that may be refused, at any place.
fn damage(random: &mut Random, nodes: &mut Vec<i64>) {
    let at = random.below(nodes.len() as u64) as usize;
    let first = at - at % 4;
    match random.below(8) {
        0 => nodes.truncate(at),
        1 => nodes.insert(at, 1),
        2 => nodes[at] = random.pick(&[MOST + 1, -MOST - 1, i64::MAX, i64::MIN]),
        3 => nodes[first] = random.pick(&[9, 10, MOST, 3, 4, 5, 6, 7, 8]),
        4 => nodes[at] = random.between(0, 1100),
        5 => nodes[at] = random.between(-MOST, -1),
        6 => nodes.extend(std::iter::repeat_n(0, 4 * random.pick(&[1usize, 1023, 1024, 1025]))),
        _ => nodes[at] = (at / 4) as i64 + random.between(-1, 1),
    }
}

/// A program, and how many numbers its room has: just right, one less, more, or hardly any.
fn case(random: &mut Random, rules: Rules) -> (Vec<i64>, usize) {
    let mut nodes = valid(random);
    while random.one_in(3) && !nodes.is_empty() {
        damage(random, &mut nodes);
    }
    let count = match rules.say(&nodes, 5000) {
        Ok(targets) => targets.len(),
        Err(Refused(5, _)) => 3000,
        Err(_) => 2,
    };
    let room = match random.below(6) {
        0 => (3 * count).saturating_sub(1),
        1 => 3 * count + 2,
        2 => 3 * count + random.below(40) as usize,
        3 => random.below(3 * count as u64 + 1) as usize,
        _ => 3 * count,
    };
    (nodes, room)
}

fn room_after(targets: &[Target], before: &[i64]) -> Vec<i64> {
    let mut room: Vec<i64> = targets.iter().flat_map(|t| [t.x, t.y, t.fast as i64]).collect();
    room.extend_from_slice(&before[room.len()..]);
    room
}

pub fn compare(rules: Rules, random: &mut Random, cases: u64) -> Compared {
    let mut seen = Seen::default();
    for _ in 0..cases {
        let (nodes, length) = case(random, rules);
        let before: Vec<i64> = (0..length).map(|_| random.draw() as i64).collect();
        let mut room = before.clone();
        let proved = proved::say(&nodes, &mut room);
        let plain = rules.say(&nodes, length as u64 / 3);
        let shown = (&nodes, length);
        same("what say answers", &shown, proved, plain.as_ref().map(|t| t.len() as u64).map_err(|r| *r))?;
        let after = room_after(plain.as_deref().unwrap_or(&[]), &before);
        same("the room after say", &shown, &room, &after)?;
        let mut quick = before.clone();
        same("the quick plain say", &shown, (fast::say(&nodes, &mut quick), quick), (proved, room))?;
        seen.add(&proved);
    }
    seen.all(&[0, 1, 2, 3, 4, 5], "say", cases, 10_000)
}
