//! Holds the proved control to the plain rules, on random cases with a seed. Ends with status 1 at the first that
//! differs, which it prints in full.

mod compare;

use checks::plain::{Mistake, Rules};
use checks::proved::Program;
use checks::random::Random;
use compare::{Compared, edges, happen, runs, say, scripts, search, tables, texts};
use std::path::Path;
use std::process::ExitCode;
use std::time::Instant;

struct Settings {
    seed: u64,
    cases: u64,
    folder: String,
    mistake: Mistake,
}

impl Settings {
    fn read() -> Result<Settings, String> {
        let mut settings =
            Settings { seed: 1, cases: 200_000, folder: "target/bin".to_string(), mistake: Mistake::None };
        let mut words = std::env::args().skip(1);
        while let Some(word) = words.next() {
            let value = words.next().ok_or(format!("{word} needs a value"))?;
            let number = || value.parse().map_err(|_| format!("{value} is not a number"));
            match word.as_str() {
                "--seed" => settings.seed = number()?,
                "--cases" => settings.cases = number()?,
                "--programs" => settings.folder = value,
                "--plant" => settings.mistake = planted(&value)?,
                _ => return Err(format!("{word} is not known; --seed N --cases N --programs FOLDER --plant MISTAKE")),
            }
        }
        Ok(settings)
    }
}

/// The mistake of this name.
fn planted(name: &str) -> Result<Mistake, String> {
    let found = Mistake::ALL.into_iter().find(|mistake| format!("{mistake:?}") == name);
    found.ok_or(format!("{name} is none of {:?}", Mistake::ALL))
}

/// The two programs, as far as they are built.
struct Programs {
    targets: Option<Program>,
    play: Option<Program>,
}

/// One comparison, with its name.
type Named = (&'static str, Compared);

/// Every comparison of the plain rules; all random cases come from one seed.
fn all(rules: Rules, programs: &Programs, seed: u64, cases: u64) -> Vec<Named> {
    let fresh = |part: u64| Random::new(seed.wrapping_mul(1000).wrapping_add(part));
    let mut done: Vec<Named> = vec![
        ("worked tables", tables::compare(rules, programs.play.as_ref())),
        ("programs in numbers", say::compare(rules, &mut fresh(1), cases)),
        ("events on any memory", happen::compare_raw(rules, &mut fresh(2), cases)),
        ("events in rows", happen::compare_rows(rules, &mut fresh(3), cases)),
        ("programs run", runs::compare(rules, &mut fresh(6), cases / 10)),
    ];
    if let (Some(targets), Some(play)) = (&programs.targets, &programs.play) {
        done.push(("texts and scripts at the edges", edges::compare(rules, targets, play)));
    }
    if let Some(targets) = &programs.targets {
        done.push(("texts", texts::compare(rules, targets, &mut fresh(4), cases / 2)));
    }
    if let Some(play) = &programs.play {
        done.push(("orders in scripts", scripts::compare(rules, play, &mut fresh(5), cases)));
    }
    done
}

/// Each planted mistake is seen by some comparison.
fn self_test(programs: &Programs, seed: u64) -> Compared {
    for mistake in Mistake::ALL {
        let unseen = all(Rules { mistake }, programs, seed, 5000).iter().all(|(_, compared)| compared.is_ok());
        let needs_programs = mistake == Mistake::LinesFromOne;
        if unseen && !(needs_programs && programs.targets.is_none()) {
            return Err(format!("the planted mistake {mistake:?} was not seen"));
        }
    }
    Ok(Mistake::ALL.len() as u64)
}

fn run(settings: &Settings) -> bool {
    let folder = Path::new(&settings.folder);
    let programs = Programs { targets: Program::find(folder, "targets"), play: Program::find(folder, "play") };
    let missing = [("targets", programs.targets.is_none()), ("play", programs.play.is_none())];
    for (name, _) in missing.iter().filter(|m| m.1) {
        println!("{name} is not built in {}", settings.folder);
    }
    let longest = if settings.cases > 200_000 { 60 } else { 36 };
    let start = Instant::now();
    let rules = Rules { mistake: settings.mistake };
    let mut done = all(rules, &programs, settings.seed, settings.cases);
    done.push(("runs along a line, against all others", search::compare(longest)));
    done.push(("planted mistakes that are seen", self_test(&programs, settings.seed)));
    let mut good = missing.iter().all(|m| !m.1);
    for (name, compared) in done {
        match compared {
            Ok(cases) => println!("{cases:>10} {name} agree"),
            Err(case) => {
                println!("DISAGREES: {name}, seed {}\n{case}", settings.seed);
                good = false;
            }
        }
    }
    println!("{:.1} s, seed {}", start.elapsed().as_secs_f64(), settings.seed);
    good
}

fn main() -> ExitCode {
    match Settings::read() {
        Ok(settings) if run(&settings) => ExitCode::SUCCESS,
        Ok(_) => ExitCode::FAILURE,
        Err(fault) => {
            eprintln!("{fault}");
            ExitCode::from(2)
        }
    }
}
