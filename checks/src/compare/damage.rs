//! Damage to a text: bytes flipped, words deleted, doubled or exchanged, the text cut.

use checks::random::Random;

/// Pieces that may stand in a text where they should not.
const PIECES: [&[u8]; 24] = [
    b"to",
    b"by",
    b"fast",
    b"times",
    b"at",
    b"turn",
    b"mirror",
    b"sub",
    b";",
    b"{",
    b"}",
    b"\n",
    b"-",
    b"+1",
    b"--2",
    b"1x",
    b"\0",
    b"\x0c",
    b"9223372036854775808",
    b"-99999999999999999999",
    b"machine 1 1",
    b"tick",
    b"knob 1001",
    b"To",
];

fn is_space(byte: u8) -> bool {
    b" \t\r\n".contains(&byte)
}

/// Where a random word begins and ends.
fn word(random: &mut Random, text: &[u8]) -> (usize, usize) {
    let mut begin = random.below(text.len() as u64) as usize;
    while begin > 0 && !is_space(text[begin - 1]) {
        begin -= 1;
    }
    let length = text[begin..].iter().take_while(|&&b| !is_space(b)).count();
    (begin, begin + length)
}

/// Damages the text once; it may still be a valid one.
pub fn damage(random: &mut Random, text: &mut Vec<u8>) {
    if text.is_empty() {
        return;
    }
    let at = random.below(text.len() as u64) as usize;
    let (begin, end) = word(random, text);
    match random.below(7) {
        0 => text[at] ^= 1 << random.below(8),
        1 => text[at] = random.draw() as u8,
        2 => drop(text.drain(begin..end)),
        3 => text.truncate(at),
        4 => drop(text.drain(..at)),
        5 => {
            let doubled = text[begin..end].to_vec();
            text.splice(begin..begin, [doubled, b" ".to_vec()].concat());
        }
        _ => {
            let piece: &[u8] = random.pick(&PIECES);
            text.splice(at..at, [b" ", piece, b" "].concat());
        }
    }
}
