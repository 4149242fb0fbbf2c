//! Scripts: what the program `play` prints.

use super::text::number;
use super::work::{Event, Machine, Work};
use super::{Mistake, Refused, Rules, Target};

const REACH: u64 = 1_000_000_000;

#[derive(Clone, Copy, PartialEq, Eq, Debug)]
pub enum Order {
    Machine(Machine),
    To(Target),
    Ticks(u64),
    Event(Event),
    Where,
}

/// The order of a line's words, if it is one.
fn order(words: &[&[u8]]) -> Option<Order> {
    let size = |word: &[u8]| number(word).map(|n| u64::try_from(n).unwrap_or(0));
    Some(match words {
        [b"machine", a, b] => Order::Machine(Machine { change: size(a)?, top: size(b)? }),
        [b"to", x, y, b"fast", f] => Order::To(Target { x: number(x)?, y: number(y)?, fast: size(f)? }),
        [b"tick", n] => Order::Ticks(size(n)?),
        [b"hold"] => Order::Event(Event::Hold),
        [b"go"] => Order::Event(Event::Go),
        [b"knob", n] => Order::Event(Event::Knob(size(n)?)),
        [b"where"] => Order::Where,
        _ => return None,
    })
}

/// The orders of a script, one a line, the machine first and only there; or the line that can't be read.
pub fn orders(text: &[u8]) -> Result<Vec<Order>, u64> {
    let mut orders = Vec::new();
    let lines: Vec<&[u8]> = text.split(|&b| b == b'\n').collect();
    for (i, line) in lines.iter().enumerate() {
        let mut words: [&[u8]; 6] = [b""; 6];
        let found = line.split(|&b| b == b' ' || b == b'\t' || b == b'\r').filter(|word| !word.is_empty());
        let count = found.zip(&mut words).map(|(word, slot)| *slot = word).count();
        if count == 0 {
            continue;
        }
        let order = order(&words[..count]).ok_or(i as u64)?;
        if matches!(order, Order::Machine(_)) != orders.is_empty() {
            return Err(i as u64);
        }
        orders.push(order);
    }
    if orders.is_empty() { Err(lines.len() as u64 - 1) } else { Ok(orders) }
}

/// Everything is checked before the first pulse: the machine, then the targets, then the knob.
pub fn check(orders: &[Order]) -> Result<Machine, Refused> {
    let Order::Machine(machine) = orders[0] else { unreachable!("the machine is first") };
    machine.check()?;
    let far = |n: i64| n.unsigned_abs() > REACH;
    if orders.iter().any(|o| matches!(o, Order::To(t) if far(t.x) || far(t.y))) {
        return Err(Refused(7, 1));
    }
    if orders.iter().any(|o| matches!(o, Order::Event(Event::Knob(n)) if *n > 1000)) {
        return Err(Refused(8, 1));
    }
    Ok(machine)
}

fn pulse(n: i64) -> String {
    if n > 0 { format!("+{n}") } else { n.to_string() }
}

impl Rules {
    /// What the program `play` prints of a script.
    pub fn play(self, text: &[u8]) -> Result<String, Refused> {
        let from_one = u64::from(self.mistake == Mistake::LinesFromOne);
        let orders = orders(text).map_err(|line| Refused(9, line + from_one))?;
        let machine = check(&orders)?;
        let (mut targets, mut work, mut out) = (Vec::new(), Work::FRESH, String::new());
        for order in orders {
            match order {
                Order::Machine(_) => {}
                Order::To(target) => targets.push(target),
                Order::Event(event) => work = self.event(machine, &targets, work, event),
                Order::Where => {
                    let (x, y) = self.place(&targets, work);
                    out += &format!("{x} {y}\n");
                }
                Order::Ticks(n) => {
                    for _ in 0..n {
                        let (x, y) = self.place(&targets, work);
                        work = self.event(machine, &targets, work, Event::Tick);
                        let (p, q) = self.place(&targets, work);
                        out += &format!("{} {}\n", pulse(p - x), pulse(q - y));
                    }
                }
            }
        }
        Ok(out)
    }
}
