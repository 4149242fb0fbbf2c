//! Texts through the program `targets`, valid and damaged.

use super::damage::damage;
use super::{Compared, Seen, processes};
use checks::plain::Rules;
use checks::proved::Program;
use checks::random::Random;

/// Writes a random program, with random white space between its words.
struct Writer<'a> {
    random: &'a mut Random,
    text: Vec<u8>,
    /// How many lines may still be written.
    lines: u64,
    /// How many sub-programs may be used.
    subs: u64,
}

impl Writer<'_> {
    fn word(&mut self, word: &str) {
        self.text.extend_from_slice(word.as_bytes());
        let space: &[u8] = match self.random.below(14) {
            0 => b"\n",
            1 => b"\t ",
            2 => b"\r\n",
            3 if matches!(word, ";" | "{" | "}") => b"",
            _ => b" ",
        };
        // A reader may take the text in pieces: now and then a word stands far behind the last.
        let times = if self.random.one_in(4000) { self.random.between(1, 150_000) } else { 1 };
        self.text.extend_from_slice(&space.repeat(times as usize));
    }

    fn number(&mut self, n: i64) {
        let zeros = if self.random.one_in(20) { "000" } else { "" };
        let sign = if n < 0 || (n == 0 && self.random.one_in(9)) { "-" } else { "" };
        self.word(&format!("{sign}{zeros}{}", n.unsigned_abs()));
    }

    fn some_number(&mut self) {
        let n = match self.random.below(400) {
            0 => 1_000_001,
            1 => i64::MIN,
            2..=40 => self.random.signed(1_000_000),
            _ => self.random.between(-20, 20),
        };
        self.number(n);
    }

    fn go(&mut self, how: &str) {
        self.word(how);
        self.some_number();
        self.some_number();
        self.word("fast");
        self.some_number();
        self.word(";");
    }

    fn block(&mut self, depth: u64) {
        self.word("{");
        self.lines(depth);
        self.word("}");
    }

    fn lines(&mut self, depth: u64) {
        for _ in 0..self.random.below(if depth == 0 { 12 } else { 4 }) {
            if self.lines == 0 {
                return;
            }
            self.lines -= 1;
            self.line(depth + 1);
        }
    }

    fn times(&mut self, depth: u64) {
        let n = match self.random.below(60) {
            0 => 1_000_000,
            1 => 0,
            2 => -4,
            3 => 3000,
            _ => self.random.between(1, 4),
        };
        self.number(n);
        self.word("times");
        match n {
            // More targets than there is room for.
            1_000_000 => self.text.extend_from_slice(b"{ 1000 times { by 1 0 fast 1; } }"),
            // Farther than a program may reach.
            3000 if self.random.one_in(2) => self.text.extend_from_slice(b"{ by 999999 -1000000 fast 5; }"),
            _ => self.block(depth),
        }
    }

    fn line(&mut self, depth: u64) {
        match self.random.below(if depth > 7 { 4 } else { 10 }) {
            0 | 1 => self.go("to"),
            2 | 3 => self.go("by"),
            4 => self.times(depth),
            5 => {
                self.word("at");
                self.some_number();
                self.some_number();
                self.block(depth);
            }
            6 => {
                self.word("turn");
                self.block(depth);
            }
            7 => {
                self.word("mirror");
                self.block(depth);
            }
            _ if self.subs > 0 => {
                self.word("sub");
                let name = self.random.below(self.subs) as i64;
                let below = name == 0 && self.random.one_in(5);
                self.number(if below { -7 } else { name });
                self.word(";");
            }
            _ => self.go("by"),
        }
    }

    fn program(&mut self) {
        for name in 0..self.random.below(4) {
            self.word("sub");
            self.number(name as i64);
            self.block(1);
            self.subs = name + 1;
        }
        self.lines(0);
    }
}

fn text(random: &mut Random) -> Vec<u8> {
    let lines = if random.one_in(40) { 600 } else { random.below(40) };
    let mut writer = Writer { random, text: Vec::new(), lines, subs: 0 };
    writer.program();
    if lines == 600 {
        let more = writer.random.between(400, 600);
        (0..more).for_each(|_| writer.go("by"));
    }
    writer.text
}

pub fn compare(rules: Rules, program: &Program, random: &mut Random, cases: u64) -> Compared {
    let (mut done, mut seen) = (0, Seen::default());
    while done < cases {
        let mut text = text(random);
        while random.one_in(2) {
            damage(random, &mut text);
        }
        // A program may say millions of targets; what is refused for its room is compared, what fills it hardly.
        if let Ok(nodes) = rules.read(&text) {
            let many = rules.say(&nodes, 200_000).is_err_and(|r| r.0 == 4 && r.1 <= 1 << 24);
            if many {
                continue;
            }
        }
        let plain = rules.print_targets(&text);
        seen.add(&plain);
        done += processes::compare(program, &text, plain)?;
    }
    seen.all(&[0, 1, 2, 4, 5, 9], "texts", done, 1000)
}
