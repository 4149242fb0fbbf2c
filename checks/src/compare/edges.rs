//! Texts and scripts at the edges of the rules, each by itself.

use super::{Compared, processes};
use checks::plain::Rules;
use checks::proved::Program;

const TEXTS: [&str; 34] = [
    "",
    "\n \t\r\n",
    "sub 0 { }",
    "sub 0 { by 1 0 fast 2; }",
    "sub -7 { by 1 0 fast 2; } sub -3;",
    "sub 0 { sub 0; }",
    "sub 0 { } sub 1 { sub 0; } sub 2 { sub 1; sub 0; } sub 2;",
    "sub 0 { } sub 0;\nsub 1 { }",
    "to 1 1 fast 1;\nsub 0\n{ }",
    "turn { sub 0 { } }",
    "sub 1 { }",
    "sub x { }",
    "sub 0 ;",
    "to 1 2 fast 3",
    "to 1 2 fast 3;;",
    "to 1 2 fast 3;}",
    "turn { to 1 2 fast 3; \n",
    "turn\n",
    "5 \n times",
    "5 turn",
    "-3 times { to 1 2 fast 3; }",
    "0 times { to 1 2 fast 3; } by 1 1 fast -9;",
    "times { }",
    "+1 times { }",
    "- times { }",
    "to --1 2 fast 3;",
    "to 1e3 2 fast 3;",
    "to 0x1 2 fast 3;",
    "TO 1 2 fast 3;",
    "to 1000000 -1000000 fast 1000000;",
    "to 1000001 0 fast 1;",
    "to 0 0 fast -9223372036854775809;",
    "to 0 0 fast 1; # no comments",
    "at 1000000 0 { at 1000000 0 { to 0 0 fast 1; } by -1 0 fast 1; }",
];

/// Texts that are made: as many nodes as there may be and one more, more targets than there is room for, what says
/// nothing however often it is repeated, and frames within frames to the end of the reach and past it.
fn made_texts() -> Vec<String> {
    let lines = |n: usize| "by 1 0 fast 2;".repeat(n);
    let inside = |n: usize, open: &str, body: &str| format!("{}{body}{}", open.repeat(n), "}".repeat(n));
    vec![
        lines(512),
        lines(513),
        "4096 times { 4096 times { by 0 0 fast 1; } } by 1 1 fast 1;".to_string(),
        inside(10, "1000000 times {", ""),
        inside(10, "1000000 times {", "by 1 0 fast 1;"),
        inside(1000, "at 1000000 -1000000 {", "to 0 0 fast 1;"),
        inside(1000, "at 1000000 -1000000 {", "by 0 0 fast 1; to 1 0 fast 1;"),
        inside(1000, "turn {", "to 5 1 fast 1; by 3 0 fast 1;"),
        inside(999, "mirror {", "to 5 1 fast 1; by 3 0 fast 1;"),
        inside(5000, "turn {", ""),
        "{".repeat(100_000),
        "}".repeat(100_000),
        "9".repeat(100_000),
    ]
}

const SCRIPTS: [&str; 30] = [
    "",
    "\n\n",
    "machine 2 100",
    "machine 2 100\nmachine 2 100",
    "tick 1\nmachine 2 100",
    "machine 0 100\ntick 1",
    "machine 1000001 0",
    "machine -1 5",
    "machine 5 1000001",
    "machine 1000000 1000000\nto 1000000000 -1000000000 fast 1000000\ntick 3\nwhere",
    "machine 1 1\nto 1000000001 0 fast 1\nknob 1001",
    "machine 1 1\nknob 1001\nto 0 -1000000001 fast 1",
    "machine 1 1\nknob 1000\nto 3 0 fast 1\ntick 4\nknob 1001",
    "machine 0 1\nto 1000000001 0 fast 1\nwho",
    "machine 1 1\nto 1 2 fast",
    "machine 1 1\nto 1 2 fast 3;",
    "machine 1 1\nto 1 2 slow 3",
    "machine 1 1\ntick",
    "machine 1 1\ntick 1 1",
    "machine 1 1\ntick +1",
    "machine 1 1\nhold 1",
    "machine 1 1\nwhere there",
    "machine 1 1 ; tick 1",
    "machine 1 1\n\u{b}tick 1",
    "machine 1 1\ntick 0\ntick -5\nwhere",
    "machine 2 100\ntick 2\nto 5 5 fast 9\ntick 2\nto -5 5 fast 9\ntick 9\nwhere",
    "machine 2 100\nto 0 0 fast 9\nhold\ntick 1\nto 9 0 fast 0\ngo\ntick 2\nwhere",
    "machine 2 100\nto 9 0 fast 9\nhold\ntick 3\nwhere\ngo\nknob 0\ntick 3\nwhere\nknob 1\ntick 1\nknob 100\ntick 9\nwhere",
    "machine 1 1\nto 1 0 fast 99999999999999999999\nto 1 1 fast -99999999999999999999\ntick 5\nwhere",
    "machine 9223372036854775808 1\ntick 1",
];

pub fn compare(rules: Rules, targets: &Program, play: &Program) -> Compared {
    let made = made_texts();
    let texts = TEXTS.into_iter().chain(made.iter().map(String::as_str));
    let mut cases = 0;
    for text in texts {
        cases += processes::compare(targets, text.as_bytes(), rules.print_targets(text.as_bytes()))?;
    }
    for script in SCRIPTS {
        cases += processes::compare(play, script.as_bytes(), rules.play(script.as_bytes()))?;
    }
    Ok(cases)
}
