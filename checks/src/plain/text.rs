//! Texts: the words of a program, read into nodes, and what the program `targets` prints.

use super::{Mistake, Refused, Rules};

const MOST_TARGETS: u64 = 1 << 24;

/// A word with the number of line feeds before it.
struct Word<'a> {
    bytes: &'a [u8],
    line: u64,
}

/// The words of a text: the longest runs of bytes other than white space and `;` `{` `}`, and each of those three by
/// itself.
struct Words<'a> {
    text: &'a [u8],
    line: u64,
}

impl<'a> Iterator for Words<'a> {
    type Item = Word<'a>;

    fn next(&mut self) -> Option<Word<'a>> {
        loop {
            let line = self.line;
            let alone = |b: &u8| matches!(b, b' ' | b'\t' | b'\r' | b'\n' | b';' | b'{' | b'}');
            let run = self.text.iter().position(alone).unwrap_or(self.text.len());
            let (bytes, rest) = self.text.split_at_checked(run.max(1))?;
            self.text = rest;
            match bytes {
                b" " | b"\t" | b"\r" => {}
                b"\n" => self.line += 1,
                _ => return Some(Word { bytes, line }),
            }
        }
    }
}

/// A number: `-` at most once, then digits; past 64 bits it is cut to the ends of i64.
pub fn number(word: &[u8]) -> Option<i64> {
    let (negative, digits) = match word {
        [b'-', digits @ ..] => (true, digits),
        digits => (false, digits),
    };
    if digits.is_empty() || !digits.iter().all(u8::is_ascii_digit) {
        return None;
    }
    let mut value = 0u64;
    for digit in digits {
        value = value.saturating_mul(10).saturating_add(u64::from(digit - b'0'));
    }
    let cut = i64::try_from(value).unwrap_or(i64::MAX);
    let below = value > i64::MAX as u64;
    Some(if negative && below {
        i64::MIN
    } else if negative {
        -cut
    } else {
        cut
    })
}

/// What a block becomes at its end.
enum Opened {
    Program,
    Times(i64),
    At(i64, i64),
    Turn,
    Mirror,
    Sub,
}

/// A block that is still open, and the node of its lines so far.
struct Block {
    opened: Opened,
    so_far: Option<i64>,
}

struct Reader<'a> {
    words: Words<'a>,
    /// The line feeds of the whole text.
    end: u64,
    nodes: Vec<[i64; 4]>,
    /// The nodes of the sub-programs told so far.
    subs: Vec<i64>,
    open: Vec<Block>,
    /// Whether a line other than a sub-program has begun.
    begun: bool,
}

/// What was read, or the line that can't be.
type Read<T> = Result<T, u64>;

impl<'a> Reader<'a> {
    fn word(&mut self) -> Read<Word<'a>> {
        self.words.next().ok_or(self.end)
    }

    fn number(&mut self) -> Read<i64> {
        let word = self.word()?;
        number(word.bytes).ok_or(word.line)
    }

    fn exactly(&mut self, bytes: &[u8]) -> Read<()> {
        let word = self.word()?;
        if word.bytes == bytes { Ok(()) } else { Err(word.line) }
    }

    fn node(&mut self, node: [i64; 4]) -> i64 {
        self.nodes.push(node);
        self.nodes.len() as i64 - 1
    }

    /// A line is complete: it is joined to those before it in its block.
    fn line(&mut self, node: [i64; 4]) {
        let this = self.node(node);
        let innermost = self.open.len() - 1;
        let joined = match self.open[innermost].so_far {
            Some(before) => self.node([3, before, this, 0]),
            None => this,
        };
        self.open[innermost].so_far = Some(joined);
    }

    fn go_line(&mut self, kind: i64) -> Read<()> {
        let (x, y) = (self.number()?, self.number()?);
        self.exactly(b"fast")?;
        let fast = self.number()?;
        self.exactly(b";")?;
        self.line([kind, x, y, fast]);
        Ok(())
    }

    fn open(&mut self, opened: Opened) -> Read<()> {
        self.exactly(b"{")?;
        self.open.push(Block { opened, so_far: None });
        Ok(())
    }

    fn sub(&mut self, first: bool) -> Read<()> {
        let word = self.word()?;
        let name = number(word.bytes).ok_or(word.line)?.max(0);
        let told = self.subs.len() as i64;
        if name < told {
            self.begun |= self.open.len() == 1;
            self.exactly(b";")?;
            let body = self.subs[name as usize];
            self.line([8, body, 0, 0]);
            return Ok(());
        }
        if name == told && first {
            return self.open(Opened::Sub);
        }
        Err(word.line)
    }

    fn close(&mut self, line: u64) -> Read<()> {
        if self.open.len() == 1 {
            return Err(line);
        }
        let block = self.open.pop().expect("a block is open");
        let body = match block.so_far {
            Some(body) => body,
            None => self.node([0, 0, 0, 0]),
        };
        match block.opened {
            Opened::Program => unreachable!("the program has no brace"),
            Opened::Times(n) => self.line([4, n, body, 0]),
            Opened::At(x, y) => self.line([5, x, y, body]),
            Opened::Turn => self.line([6, body, 0, 0]),
            Opened::Mirror => self.line([7, body, 0, 0]),
            Opened::Sub => self.subs.push(body),
        }
        Ok(())
    }

    /// One line's beginning, or a block's end.
    fn step(&mut self, word: Word) -> Read<()> {
        let first = self.open.len() == 1 && !self.begun;
        if first && word.bytes != b"sub" {
            self.begun = true;
        }
        match word.bytes {
            b"to" => self.go_line(1),
            b"by" => self.go_line(2),
            b"at" => {
                let (x, y) = (self.number()?, self.number()?);
                self.open(Opened::At(x, y))
            }
            b"turn" => self.open(Opened::Turn),
            b"mirror" => self.open(Opened::Mirror),
            b"sub" => self.sub(first),
            b"}" => self.close(word.line),
            other => {
                let n = number(other).ok_or(word.line)?;
                self.exactly(b"times")?;
                self.open(Opened::Times(n))
            }
        }
    }

    fn text(mut self) -> Read<Vec<i64>> {
        while let Some(word) = self.words.next() {
            self.step(word)?;
        }
        if self.open.len() > 1 {
            return Err(self.end);
        }
        if self.open[0].so_far.is_none() {
            self.node([0, 0, 0, 0]);
        }
        Ok(self.nodes.into_flattened())
    }
}

/// The nodes of a text, or the line that can't be read.
pub fn read(text: &[u8]) -> Read<Vec<i64>> {
    let end = text.iter().filter(|&&b| b == b'\n').count() as u64;
    let program = Block { opened: Opened::Program, so_far: None };
    let words = Words { text, line: 0 };
    Reader { words, end, nodes: vec![], subs: vec![], open: vec![program], begun: false }.text()
}

impl Rules {
    /// The nodes of a text.
    pub fn read(self, text: &[u8]) -> Result<Vec<i64>, Refused> {
        let from_one = u64::from(self.mistake == Mistake::LinesFromOne);
        read(text).map_err(|line| Refused(9, line + from_one))
    }

    /// What the program `targets` prints of a text.
    pub fn print_targets(self, text: &[u8]) -> Result<String, Refused> {
        let targets = self.say(&self.read(text)?, MOST_TARGETS)?;
        Ok(targets.iter().map(|t| format!("to {} {} fast {}\n", t.x, t.y, t.fast)).collect())
    }
}
