//! Programs in numbers: what they are refused for, and the targets that they say.

use super::{Mistake, Refused, Rules, Target};

const MOST_NODES: usize = 1024;
const MOST_NUMBER: u64 = 1_000_000;
const REACH: u64 = 1_000_000_000;
const MOST_COUNT: u128 = 1 << 40;

/// A number whose values below 0 count as 0.
fn size(n: i64) -> u64 {
    u64::try_from(n).unwrap_or(0)
}

/// The earlier nodes that a node names.
fn names(node: &[i64]) -> Vec<u64> {
    match size(node[0]) {
        3 => vec![size(node[1]), size(node[2])],
        4 => vec![size(node[2])],
        5 => vec![size(node[3])],
        6..=8 => vec![size(node[1])],
        _ => vec![],
    }
}

/// How many targets each node says.
fn counts(nodes: &[i64]) -> Vec<u128> {
    let mut counts: Vec<u128> = Vec::new();
    for node in nodes.chunks(4) {
        let named = names(node).into_iter().map(|name| counts[name as usize]);
        let sum = named.fold(0u128, |a, b| a.saturating_add(b));
        counts.push(match size(node[0]) {
            0 => 0,
            1 | 2 => 1,
            4 => sum.saturating_mul(u128::from(size(node[1]))),
            _ => sum,
        });
    }
    counts
}

fn shape(nodes: &[i64]) -> Result<(), Refused> {
    let count = nodes.len() / 4;
    if !nodes.len().is_multiple_of(4) || count == 0 || count > MOST_NODES {
        return Err(Refused(1, nodes.len() as u64));
    }
    if let Some(i) = nodes.iter().position(|n| n.unsigned_abs() > MOST_NUMBER) {
        return Err(Refused(2, i as u64));
    }
    for (i, node) in nodes.chunks(4).enumerate() {
        if size(node[0]) > 8 || names(node).iter().any(|&name| name >= i as u64) {
            return Err(Refused(3, i as u64));
        }
    }
    Ok(())
}

impl Rules {
    /// The targets that a program says, where there is room for so many.
    pub fn say(self, nodes: &[i64], room: u64) -> Result<Vec<Target>, Refused> {
        shape(nodes)?;
        let counts = counts(nodes);
        let count = counts[counts.len() - 1];
        if count > u128::from(room) {
            return Err(Refused(4, count.min(MOST_COUNT) as u64));
        }
        let mut targets = Vec::new();
        self.walk(nodes, &counts, counts.len() - 1, (0, 0), &mut targets);
        let far = |t: &Target| t.x.unsigned_abs() > REACH || t.y.unsigned_abs() > REACH;
        match targets.iter().position(far) {
            Some(i) => Err(Refused(5, i as u64)),
            None => Ok(targets),
        }
    }

    /// Adds the targets of a node, seen from the frame that the node stands in, where it is `here`. Answers where it
    /// is then.
    fn walk(self, nodes: &[i64], counts: &[u128], n: usize, here: (i64, i64), out: &mut Vec<Target>) -> (i64, i64) {
        if counts[n] == 0 {
            return here;
        }
        let node = &nodes[4 * n..4 * n + 4];
        let (a, b, c) = (node[1], node[2], node[3]);
        match size(node[0]) {
            1 => {
                out.push(Target { x: a, y: b, fast: size(c) });
                (a, b)
            }
            2 => {
                let (x, y) = (here.0 + a, here.1 + b);
                out.push(Target { x, y, fast: size(c) });
                (x, y)
            }
            3 => {
                let here = self.walk(nodes, counts, size(a) as usize, here, out);
                self.walk(nodes, counts, size(b) as usize, here, out)
            }
            4 => (0..size(a)).fold(here, |here, _| self.walk(nodes, counts, size(b) as usize, here, out)),
            5 => {
                self.framed(nodes, counts, size(c) as usize, here, out, |p| (p.0 + a, p.1 + b), |p| (p.0 - a, p.1 - b))
            }
            6 => self.framed(nodes, counts, size(a) as usize, here, out, |p| (-p.1, p.0), |p| (p.1, -p.0)),
            7 => self.framed(nodes, counts, size(a) as usize, here, out, |p| (-p.0, p.1), |p| (-p.0, p.1)),
            _ => self.walk(nodes, counts, size(a) as usize, here, out),
        }
    }

    /// The same of a node in a frame of its own: `outward` is how the frame's places are seen from outside, and `inward`
    /// the way back.
    #[allow(clippy::too_many_arguments)]
    fn framed(
        self,
        nodes: &[i64],
        counts: &[u128],
        body: usize,
        here: (i64, i64),
        out: &mut Vec<Target>,
        outward: impl Fn((i64, i64)) -> (i64, i64),
        inward: impl Fn((i64, i64)) -> (i64, i64),
    ) -> (i64, i64) {
        let first = out.len();
        let inside = if self.mistake == Mistake::ByFromOutside { here } else { inward(here) };
        let end = self.walk(nodes, counts, body, inside, out);
        for target in &mut out[first..] {
            (target.x, target.y) = outward((target.x, target.y));
        }
        outward(end)
    }
}

#[cfg(test)]
mod tests {
    use super::*;

    fn places(nodes: &[i64]) -> Vec<(i64, i64)> {
        let rules = Rules { mistake: Mistake::None };
        rules.say(nodes, 10).unwrap().iter().map(|t| (t.x, t.y)).collect()
    }

    #[test]
    fn worked() {
        let mirror_in_turn = [1, 3, 1, 9, 2, 2, 0, 9, 7, 1, 0, 0, 3, 0, 2, 0, 6, 3, 0, 0];
        assert_eq!(places(&mirror_in_turn), [(-1, 3), (-1, 1)]);
        let turn_in_mirror = [1, 3, 1, 9, 2, 2, 0, 9, 6, 1, 0, 0, 3, 0, 2, 0, 7, 3, 0, 0];
        assert_eq!(places(&turn_in_mirror), [(-3, 1), (-3, 3)]);
    }
}
