//! One table: the proved control beside the quick plain one, both built for release, timed in turns in one run.

mod library;
mod programs;

use checks::fast::print;
use checks::plain::Refused;
use std::io::Read;
use std::process::ExitCode;
use std::time::Instant;

/// What a line of the table says: nanoseconds for each item.
pub struct Row {
    what: String,
    item: &'static str,
    proved: f64,
    plain: f64,
}

/// The shortest of several times, in nanoseconds for each item, of the proved and the plain in turns.
pub fn timed(what: String, item: &'static str, items: u64, mut proved: impl FnMut(), mut plain: impl FnMut()) -> Row {
    let (mut best, mut other) = (f64::MAX, f64::MAX);
    for _ in 0..7 {
        best = best.min(seconds(&mut proved));
        other = other.min(seconds(&mut plain));
    }
    let each = |seconds: f64| seconds * 1e9 / items as f64;
    Row { what, item, proved: each(best), plain: each(other) }
}

fn seconds(work: &mut impl FnMut()) -> f64 {
    let start = Instant::now();
    work();
    start.elapsed().as_secs_f64()
}

fn print_table(rows: &[Row]) {
    println!("| What | Item | Proved, ns | Plain, ns | Proved, items a second | Ratio |");
    println!("|---|---|---:|---:|---:|---:|");
    for row in rows {
        let Row { what, item, proved, plain } = row;
        let rate = 1e9 / proved;
        let shown = if rate >= 1e6 { format!("{:.1} million", rate / 1e6) } else { format!("{rate:.0}") };
        println!("| {what} | {item} | {proved:.2} | {plain:.2} | {shown} | {:.2} |", proved / plain);
    }
}

/// The plain program of this name on standard input.
fn plain_program(name: &str) -> ExitCode {
    let mut input = Vec::new();
    std::io::stdin().read_to_end(&mut input).expect("standard input");
    let done = if name == "targets" { print::targets(&input) } else { print::play(&input) };
    match done {
        Ok(()) => ExitCode::SUCCESS,
        Err(Refused(number, place)) => {
            eprintln!("refused {number} {place}: plain");
            ExitCode::FAILURE
        }
    }
}

fn main() -> ExitCode {
    let words: Vec<String> = std::env::args().skip(1).collect();
    match words.iter().map(String::as_str).collect::<Vec<_>>()[..] {
        ["plain", name] => plain_program(name),
        [folder] => {
            let mut rows = library::rows();
            rows.extend(programs::rows(folder.as_ref()));
            print_table(&rows);
            ExitCode::SUCCESS
        }
        _ => {
            eprintln!("bench FOLDER, where the programs are built");
            ExitCode::from(2)
        }
    }
}
