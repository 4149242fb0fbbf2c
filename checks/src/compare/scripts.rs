//! Scripts through the program `play`, valid and damaged.

use super::damage::damage;
use super::{Compared, Seen, processes};
use checks::plain::Rules;
use checks::proved::Program;
use checks::random::Random;

const REACH: u64 = 1_000_000_000;

fn order(random: &mut Random) -> String {
    let place = |random: &mut Random| match random.below(600) {
        0 => random.signed(REACH),
        1 => REACH as i64,
        _ => random.between(-60, 60),
    };
    match random.below(20) {
        0..=4 => {
            let fast = match random.below(300) {
                0 => random.between(-1, 0),
                1..=20 => random.sized(1 << 62) as i64,
                _ => random.between(1, 30),
            };
            format!("to {} {} fast {fast}", place(random), place(random))
        }
        5 => "hold".to_string(),
        6..=9 => "go".to_string(),
        10 | 11 => format!("knob {}", random.pick(&[0, 1, 33, 50, 99, 100, 101, 1000, -5])),
        12 | 13 => "where".to_string(),
        14 if random.one_in(200) => format!("tick {}", random.between(5000, 40_000)),
        _ => format!("tick {}", random.pick(&[1, 1, 2, 3, 5, 10, 40, 0, -1])),
    }
}

fn machine(random: &mut Random) -> String {
    let one = |random: &mut Random| match random.below(60) {
        0 => random.pick(&[0, -3, 1_000_001]),
        1..=9 => random.sized(999_999) as i64 + 1,
        _ => random.between(1, 9),
    };
    format!("machine {} {}", one(random), one(random) * 3)
}

/// A fault of those that are found by the checks, and not by the reader.
fn faulty(random: &mut Random) -> &'static str {
    random.pick(&[
        "to 1000000001 0 fast 3",
        "to 0 -1000000001 fast 3",
        "knob 1001",
        "knob 9223372036854775808",
        "to 0 99999999999999999999 fast 1",
    ])
}

fn script(random: &mut Random) -> (Vec<u8>, u64) {
    let mut lines = vec![machine(random)];
    let orders = match random.below(90) {
        0 => 10_000,
        1..=30 => random.below(20),
        _ => random.between(20, 300) as u64,
    };
    for _ in 0..orders {
        lines.push(if random.one_in(1500) { faulty(random).to_string() } else { order(random) });
    }
    let mut text = Vec::new();
    for line in lines {
        let spaced = if random.one_in(12) { line.replace(' ', random.pick(&["\t", "  ", " \t "])) } else { line };
        text.extend_from_slice(random.pick(&["", "", "", " ", "\t"]).as_bytes());
        text.extend_from_slice(spaced.as_bytes());
        text.extend_from_slice(random.pick(&["\n", "\n", "\n", "\r\n", " \n", "\n\n"]).as_bytes());
    }
    if random.one_in(4) {
        text.pop();
    }
    (text, orders + 1)
}

/// Compares scripts until they have so many orders in all.
pub fn compare(rules: Rules, program: &Program, random: &mut Random, orders: u64) -> Compared {
    let (mut done, mut seen) = (0, Seen::default());
    while done < orders {
        let (mut text, count) = script(random);
        while random.one_in(4) {
            damage(random, &mut text);
        }
        if ticks(&text) > 1_000_000 {
            continue;
        }
        let plain = rules.play(&text);
        seen.add(&plain);
        processes::compare(program, &text, plain)?;
        done += count;
    }
    seen.all(&[0, 6, 7, 8, 9], "scripts", done, 20_000)
}

/// The largest number behind a `tick`, since damage may join two numbers into one that takes for ever.
fn ticks(text: &[u8]) -> u128 {
    let text = String::from_utf8_lossy(text);
    let words: Vec<&str> = text.split_whitespace().collect();
    let after = words.windows(2).filter(|pair| pair[0] == "tick");
    after.map(|pair| pair[1].parse().unwrap_or(if pair[1].starts_with('-') { 0 } else { u128::MAX })).max().unwrap_or(0)
}
