//! The worked tables: places and speeds tick by tick, by the entry over lent numbers and by the program `play`.

use super::{Compared, same};
use checks::plain::Rules;
use checks::plain::work::{Machine, Work};
use checks::proved::{self, Program};

/// Targets, events with the tick before which they happen, and the places with their speeds.
struct Row {
    targets: &'static [i64],
    events: &'static [(usize, u64, u64)],
    places: &'static [(i64, i64, i64)],
}

const HOLD: u64 = 1;
const GO: u64 = 2;
const KNOB: u64 = 3;

/// With a change of 2 and a top speed of 100, from 0, 0.
const ROWS: [Row; 6] = [
    Row {
        targets: &[20, 0, 5],
        events: &[],
        places: &[(2, 0, 2), (6, 0, 4), (11, 0, 5), (16, 0, 5), (19, 0, 3), (20, 0, 0)],
    },
    Row {
        targets: &[20, 7, 5],
        events: &[],
        places: &[(2, 1, 2), (6, 2, 4), (11, 4, 5), (16, 6, 5), (19, 7, 3), (20, 7, 0)],
    },
    Row { targets: &[3, -4, 50], events: &[], places: &[(2, -2, 2), (3, -4, 0)] },
    Row {
        targets: &[20, 0, 5],
        events: &[(2, HOLD, 0), (7, GO, 0)],
        places: &[
            (2, 0, 2),
            (6, 0, 4),
            (8, 0, 2),
            (8, 0, 0),
            (8, 0, 0),
            (8, 0, 0),
            (8, 0, 0),
            (10, 0, 2),
            (14, 0, 4),
            (18, 0, 4),
            (20, 0, 0),
        ],
    },
    Row {
        targets: &[20, 0, 6],
        events: &[(3, KNOB, 50)],
        places: &[(2, 0, 2), (6, 0, 4), (12, 0, 6), (16, 0, 4), (19, 0, 3), (20, 0, 0)],
    },
    Row {
        targets: &[2, 0, 5, 2, 0, 5, 2, 3, 1],
        events: &[],
        places: &[(2, 0, 0), (2, 0, 0), (2, 1, 1), (2, 2, 1), (2, 3, 0)],
    },
];

const MACHINE: Machine = Machine { change: 2, top: 100 };

/// Where it is and how fast, after each tick, by the entry over lent numbers.
fn by_entry(row: &Row) -> Result<Vec<(i64, i64, i64)>, String> {
    let mut memory = Work::FRESH.numbers();
    let (mut x, mut y, mut seen) = (0, 0, Vec::new());
    for tick in 0..row.places.len() {
        let events = row.events.iter().filter(|e| e.0 == tick).map(|e| (e.1, e.2));
        for (kind, number) in events.chain([(0, 0)]) {
            let mut moved = [0; 2];
            let done = proved::happen(MACHINE, row.targets, &mut memory, kind, number, &mut moved);
            done.map_err(|refused| format!("{refused:?} in a worked table"))?;
            x += moved[0];
            y += moved[1];
        }
        seen.push((x, y, memory[4]));
    }
    Ok(seen)
}

/// The same as a script, with what it should print.
fn script(row: &Row) -> (String, String) {
    let mut text = "machine 2 100\n".to_string();
    for t in row.targets.chunks(3) {
        text += &format!("to {} {} fast {}\n", t[0], t[1], t[2]);
    }
    let (mut out, mut last) = (String::new(), (0, 0));
    for (tick, place) in row.places.iter().enumerate() {
        for event in row.events.iter().filter(|e| e.0 == tick) {
            text += &match event.1 {
                HOLD => "hold\n".to_string(),
                GO => "go\n".to_string(),
                _ => format!("knob {}\n", event.2),
            };
        }
        text += "tick 1\nwhere\n";
        let pulse = |n: i64| if n > 0 { format!("+{n}") } else { n.to_string() };
        out += &format!("{} {}\n{} {}\n", pulse(place.0 - last.0), pulse(place.1 - last.1), place.0, place.1);
        last = (place.0, place.1);
    }
    (text, out)
}

pub fn compare(rules: Rules, play: Option<&Program>) -> Compared {
    for row in &ROWS {
        same("a worked table", &row.targets, by_entry(row)?, row.places.to_vec())?;
        let (text, out) = script(row);
        same("a worked table by the plain rules", &text, Ok(out.clone()), rules.play(text.as_bytes()))?;
        if let Some(play) = play {
            super::processes::compare(play, text.as_bytes(), Ok(out))?;
        }
    }
    Ok(ROWS.len() as u64)
}
