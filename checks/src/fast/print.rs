//! The two programs in plain Rust, for the benchmark: they read all of standard input and write it out in large pieces.

use super::control::{Control, Machine};
use super::program;
use crate::plain::Refused;
use crate::plain::script::{Order, check, orders};
use crate::plain::text::read;
use crate::plain::work::Event;
use std::io::Write;

const FULL: usize = 1 << 16;

/// Lines put into memory and written out when there are enough.
struct Out {
    bytes: Vec<u8>,
}

impl Out {
    fn new() -> Out {
        Out { bytes: Vec::with_capacity(2 * FULL) }
    }

    fn number(&mut self, n: i64) {
        let mut digits = [0u8; 20];
        let (mut left, mut first) = (n.unsigned_abs(), digits.len());
        loop {
            first -= 1;
            digits[first] = b'0' + (left % 10) as u8;
            left /= 10;
            if left == 0 {
                break;
            }
        }
        if n < 0 {
            self.bytes.push(b'-');
        }
        self.bytes.extend_from_slice(&digits[first..]);
    }

    fn pulse(&mut self, n: i64) {
        if n > 0 {
            self.bytes.push(b'+');
        }
        self.number(n);
    }

    fn pair(&mut self, [x, y]: [i64; 2], put: fn(&mut Out, i64)) {
        put(self, x);
        self.bytes.push(b' ');
        put(self, y);
        self.end_line();
    }

    fn end_line(&mut self) {
        self.bytes.push(b'\n');
        if self.bytes.len() >= FULL {
            self.flush();
        }
    }

    fn flush(&mut self) {
        std::io::stdout().write_all(&self.bytes).expect("standard output");
        self.bytes.clear();
    }
}

/// The program `targets`.
pub fn targets(text: &[u8]) -> Result<(), Refused> {
    let nodes = read(text).map_err(|line| Refused(9, line))?;
    let mut out = Out::new();
    for target in program::load(&nodes, 1 << 24)? {
        out.bytes.extend_from_slice(b"to ");
        out.number(target.x);
        out.bytes.push(b' ');
        out.number(target.y);
        out.bytes.extend_from_slice(b" fast ");
        out.number(target.fast as i64);
        out.end_line();
    }
    out.flush();
    Ok(())
}

/// The program `play`.
pub fn play(text: &[u8]) -> Result<(), Refused> {
    let orders = orders(text).map_err(|line| Refused(9, line))?;
    let machine = check(&orders)?;
    let mut control = Control::new(Machine { change: machine.change, top: machine.top }, Vec::new());
    let mut out = Out::new();
    for order in orders {
        match order {
            Order::Machine(_) => {}
            Order::To(target) => control.add(target),
            Order::Event(Event::Hold) => control.hold(),
            Order::Event(Event::Go) => control.go(),
            Order::Event(Event::Knob(n)) => control.knob(n),
            Order::Event(Event::Tick) => drop(control.tick()),
            Order::Where => {
                let place = control.place();
                out.pair([place.x, place.y], Out::number);
            }
            Order::Ticks(n) => (0..n).for_each(|_| out.pair(control.tick(), Out::pulse)),
        }
    }
    out.flush();
    Ok(())
}
