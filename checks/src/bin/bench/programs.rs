//! The two programs, from a file on standard input, with standard output to nowhere: the whole process is timed.

use crate::{Row, timed};
use std::fs::File;
use std::path::{Path, PathBuf};
use std::process::{Command, Stdio};

const MILLION: u64 = 1_000_000;

/// The proved and the plain program of one name.
struct Pair<'a> {
    folder: &'a Path,
    name: &'static str,
}

fn run(mut command: Command, input: &Path, refused: bool) {
    let file = File::open(input).expect("the input");
    let status = command.stdin(file).stdout(Stdio::null()).stderr(Stdio::null()).status().expect("the program runs");
    assert_eq!(status.success(), !refused, "{command:?}");
}

impl Pair<'_> {
    fn row(&self, what: String, item: &'static str, items: u64, text: &[u8], refused: bool) -> Row {
        let input = PathBuf::from(format!("{}/bench-{}", std::env::temp_dir().display(), std::process::id()));
        std::fs::write(&input, text).expect("a temporary file");
        let proved = || run(Command::new(self.folder.join(self.name)), &input, refused);
        let plain = || {
            let mut command = Command::new(std::env::current_exe().expect("this program"));
            command.args(["plain", self.name]);
            run(command, &input, refused);
        };
        let row = timed(format!("program `{}`, {what}", self.name), item, items, proved, plain);
        std::fs::remove_file(&input).expect("a temporary file");
        row
    }
}

/// A script with so many targets, far apart where they are few, and ten million ticks.
fn script(targets: u64) -> Vec<u8> {
    let length = 600 * MILLION / targets;
    let mut text = "machine 2 100\n".to_string();
    for i in 0..targets {
        text += &format!("to {} {} fast 60\n", i % 2 * length, i % 2 * length / 3);
    }
    text += "tick 10000000\nwhere\n";
    text.into_bytes()
}

pub fn rows(folder: &Path) -> Vec<Row> {
    let play = Pair { folder, name: "play" };
    let targets = Pair { folder, name: "targets" };
    let mut rows = Vec::new();
    for count in [10, 1000, MILLION] {
        rows.push(play.row(format!("{count} targets"), "tick", 10 * MILLION, &script(count), false));
    }
    let ten = "by 1 0 fast 9; by -1 0 fast 9; ".repeat(5);
    for count in [1000, 100_000, MILLION] {
        let text = format!("{count} times {{ {ten} }}");
        rows.push(targets.row(format!("{} targets", 10 * count), "target", 10 * count, text.as_bytes(), false));
    }
    let lines = b"by 12 -700 fast 40;\n".repeat(MILLION as usize);
    let what = "reading 20 MB of lines".to_string();
    rows.push(targets.row(what, "byte", lines.len() as u64, &lines, true));
    let nested = [b"turn{".repeat(MILLION as usize), b"}".repeat(MILLION as usize)].concat();
    rows.push(targets.row("reading a million nested braces".to_string(), "byte", nested.len() as u64, &nested, true));
    rows
}
