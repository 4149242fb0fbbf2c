//! What programs in numbers say.

use super::{Place, size};
use crate::plain::{Refused, Target};

/// How a frame's places are seen from outside: each axis goes along `ax`, `ay` from the frame's origin.
#[derive(Clone, Copy)]
struct Frame {
    origin: Place,
    ax: Place,
    ay: Place,
}

impl Frame {
    const OUTSIDE: Frame = Frame { origin: Place::ORIGIN, ax: Place { x: 1, y: 0 }, ay: Place { x: 0, y: 1 } };

    fn way(self, x: i64, y: i64) -> Place {
        Place { x: self.ax.x * x + self.ay.x * y, y: self.ax.y * x + self.ay.y * y }
    }

    fn place(self, x: i64, y: i64) -> Place {
        let way = self.way(x, y);
        Place { x: self.origin.x + way.x, y: self.origin.y + way.y }
    }
}

fn names(node: &[i64]) -> [Option<u64>; 2] {
    match size(node[0]) {
        3 => [Some(size(node[1])), Some(size(node[2]))],
        4 => [Some(size(node[2])), None],
        5 => [Some(size(node[3])), None],
        6..=8 => [Some(size(node[1])), None],
        _ => [None, None],
    }
}

fn counted(nodes: &[i64], room: u64) -> Result<[u64; 1024], Refused> {
    let count = nodes.len() / 4;
    if !nodes.len().is_multiple_of(4) || count == 0 || count > 1024 {
        return Err(Refused(1, nodes.len() as u64));
    }
    if let Some(i) = nodes.iter().position(|n| n.unsigned_abs() > 1_000_000) {
        return Err(Refused(2, i as u64));
    }
    let mut counts = [0u64; 1024];
    for (i, node) in nodes.chunks_exact(4).enumerate() {
        let kind = size(node[0]);
        if kind > 8 || names(node).into_iter().flatten().any(|name| name >= i as u64) {
            return Err(Refused(3, i as u64));
        }
        let sum = names(node).into_iter().flatten().fold(0u64, |sum, name| sum.saturating_add(counts[name as usize]));
        counts[i] = match kind {
            0 => 0,
            1 | 2 => 1,
            4 => sum.saturating_mul(size(node[1])),
            _ => sum,
        };
    }
    let all = counts[count - 1];
    if all > room { Err(Refused(4, all.min(1 << 40))) } else { Ok(counts) }
}

/// A walk through a program: where it is, and how many targets it has said.
struct Walk<'a> {
    nodes: &'a [i64],
    counts: &'a [u64; 1024],
    said: usize,
    here: Place,
}

/// A target is too far.
struct Far;

impl Walk<'_> {
    fn go(&mut self, to: Place, fast: i64, keep: &mut impl FnMut(usize, [i64; 3])) -> Result<(), Far> {
        if to.is_far() {
            return Err(Far);
        }
        keep(self.said, [to.x, to.y, fast.max(0)]);
        self.said += 1;
        self.here = to;
        Ok(())
    }

    fn node(&mut self, n: usize, frame: Frame, keep: &mut impl FnMut(usize, [i64; 3])) -> Result<(), Far> {
        if self.counts[n] == 0 {
            return Ok(());
        }
        let [kind, a, b, c] = self.nodes[4 * n..4 * n + 4].try_into().expect("four numbers");
        let Frame { origin, ax, ay } = frame;
        match size(kind) {
            1 => self.go(frame.place(a, b), c, keep),
            2 => {
                let way = frame.way(a, b);
                self.go(Place { x: self.here.x + way.x, y: self.here.y + way.y }, c, keep)
            }
            3 => {
                self.node(size(a) as usize, frame, keep)?;
                self.node(size(b) as usize, frame, keep)
            }
            4 => (0..a).try_for_each(|_| self.node(size(b) as usize, frame, keep)),
            5 => self.node(size(c) as usize, Frame { origin: frame.place(a, b), ..frame }, keep),
            6 => self.node(size(a) as usize, Frame { origin, ax: ay, ay: Place { x: -ax.x, y: -ax.y } }, keep),
            7 => self.node(size(a) as usize, Frame { origin, ax: Place { x: -ax.x, y: -ax.y }, ay }, keep),
            _ => self.node(size(a) as usize, frame, keep),
        }
    }
}

/// Goes through the whole program, and gives each target to `keep`.
fn walk(nodes: &[i64], counts: &[u64; 1024], mut keep: impl FnMut(usize, [i64; 3])) -> Result<u64, Refused> {
    let mut walk = Walk { nodes, counts, said: 0, here: Place::ORIGIN };
    match walk.node(nodes.len() / 4 - 1, Frame::OUTSIDE, &mut keep) {
        Ok(()) => Ok(walk.said as u64),
        Err(Far) => Err(Refused(5, walk.said as u64)),
    }
}

/// How many targets a program says, at most so many.
pub fn count(nodes: &[i64], most: u64) -> Result<u64, Refused> {
    Ok(counted(nodes, most)?[nodes.len() / 4 - 1])
}

/// The targets that a program says, into a lent room. Since what is refused changes nothing, the program is gone through
/// once before anything is written.
pub fn say(nodes: &[i64], room: &mut [i64]) -> Result<u64, Refused> {
    let counts = counted(nodes, room.len() as u64 / 3)?;
    walk(nodes, &counts, |_, _| ())?;
    walk(nodes, &counts, |i, target| room[3 * i..3 * i + 3].copy_from_slice(&target))
}

/// The targets that a program says, at most so many.
pub fn load(nodes: &[i64], most: u64) -> Result<Vec<Target>, Refused> {
    let counts = counted(nodes, most)?;
    let mut targets = Vec::with_capacity(counts[nodes.len() / 4 - 1] as usize);
    walk(nodes, &counts, |_, [x, y, fast]| targets.push(Target { x, y, fast: fast as u64 }))?;
    Ok(targets)
}
