//! The heaviest chain of a plan, written from the words of the request and from docs/RULES.md alone. The values of the walk
//! are a graph: each is tied to those that it is made of. The weights are found from the answer backwards, so a power that
//! nothing uses is never met.

use std::collections::BTreeMap;

use crate::inputs::{MAX_DEGREE, MAX_SCALE};
use crate::split::parts;

/// The most values that wait.
const MAX_WAITING: usize = 16;

/// The interval in a plan's head, with its pair. No chain depends on it.
#[repr(C)]
#[derive(Clone, Copy, Debug, Default, PartialEq)]
pub struct Interval {
    pub a: f64,
    pub b: f64,
    pub u: f64,
    pub w: f64,
}

/// A plan's head as include/firrozun.h has it. Kinds go by number.
#[repr(C)]
#[derive(Clone, Copy, Debug, Default)]
pub struct Head {
    pub basis: u8,
    pub parity: u8,
    pub strategy: u8,
    pub transform: u8,
    pub degree: usize,
    pub base: usize,
    pub ct: usize,
    pub pt: usize,
    pub depth: usize,
    pub coefficients: usize,
    pub lists: usize,
    pub steps: usize,
    pub interval: Interval,
}

/// Refusal and weight. The tests are 43, 10 and 24, in this order; a refused plan weighs 0.
pub fn chain_of(
    head: &Head,
    coefficients: &[i64],
    boundaries: &[u16],
    steps: &[u16],
    input: usize,
    coeff: usize,
) -> (u8, u64) {
    if head.basis > 1 || head.parity > 2 || head.strategy > 1 || head.transform > 4 {
        return (43, 0);
    }
    if input > MAX_SCALE || coeff > MAX_SCALE {
        return (10, 0);
    }
    match Graph::of(head, coefficients.len(), boundaries, steps) {
        Some(graph) => (0, graph.heaviest(input as u64, coeff as u64)),
        None => (24, 0),
    }
}

/// How a value goes into another one: added or subtracted, or multiplied.
#[derive(Clone, Copy)]
enum Way {
    Added,
    CtCt,
    PtCt,
}

use Way::*;

/// The values of a walk, each with those that it is made of. These were there before it; the answer is the last.
struct Graph(Vec<Vec<(usize, Way)>>);

/// What a walk keeps: the powers that are there, and the waiting values.
struct Walk {
    chebyshev: bool,
    graph: Graph,
    powers: BTreeMap<usize, usize>,
    waiting: Vec<usize>,
}

impl Graph {
    /// A new value, and its place.
    fn value(&mut self, of: Vec<(usize, Way)>) -> usize {
        self.0.push(of);
        self.0.len() - 1
    }

    /// The graph of a plan; none if the plan cannot be walked.
    fn of(head: &Head, coefficients: usize, boundaries: &[u16], steps: &[u16]) -> Option<Self> {
        let steps = steps.as_chunks::<4>().0.get(..head.steps)?;
        let boundaries = boundaries.get(..head.lists)?;
        if head.coefficients > coefficients {
            return None;
        }
        let mut lengths = vec![];
        let mut begin = 0;
        for end in boundaries.iter().map(|&end| end as usize) {
            if end <= begin || end > head.coefficients {
                return None;
            }
            lengths.push(end - begin);
            begin = end;
        }
        let mut graph = Graph(vec![]);
        let x = graph.value(vec![]);
        let one = graph.value(vec![]);
        // The square of x, or T_2 at x, is one multiplication.
        let y = match head.transform {
            0 => x,
            _ => graph.value(vec![(x, CtCt)]),
        };
        let mut walk = Walk {
            chebyshev: head.basis == 1,
            graph,
            powers: BTreeMap::from([(0, one), (1, y)]),
            waiting: vec![],
        };
        for &[kind, n, a, b] in steps {
            let n = n as usize;
            match (kind, a, b) {
                (1, _, _) => walk.make(n, a.into(), b.into())?,
                (2, 0, 0) => walk.load(head.parity, *lengths.get(n)?)?,
                (3, 0, 0) => walk.combine(n, CtCt)?,
                (4, 0, 0) => walk.combine(n, PtCt)?,
                _ => return None,
            }
        }
        let [left] = walk.waiting[..] else {
            return None;
        };
        let times_input = matches!(head.transform, 2 | 4);
        let answer = match times_input {
            true => vec![(left, CtCt), (x, CtCt)],
            false => vec![(left, Added)],
        };
        walk.graph.value(answer);
        Some(walk.graph)
    }

    /// The greatest weight of a path that ends in the answer, wherever it begins.
    fn heaviest(&self, input: u64, coeff: u64) -> u64 {
        // For each value the greatest weight from it to the answer, none as long as no path is found.
        let mut from = vec![None; self.0.len()];
        if let Some(answer) = from.last_mut() {
            *answer = Some(0u64);
        }
        for (value, parts) in self.0.iter().enumerate().rev() {
            let Some(here) = from[value] else { continue };
            for &(part, way) in parts {
                let more = match way {
                    Added => 0,
                    CtCt => input,
                    PtCt => coeff,
                };
                from[part] = from[part].max(Some(here.saturating_add(more)));
            }
        }
        from.into_iter().flatten().max().unwrap_or(0)
    }
}

impl Walk {
    fn power(&self, n: usize) -> Option<usize> {
        self.powers.get(&n).copied()
    }

    fn make(&mut self, n: usize, a: usize, b: usize) -> Option<()> {
        if n > MAX_DEGREE || self.powers.contains_key(&n) {
            return None;
        }
        let (first, second, distance) = parts(n);
        if (first, second) != (a, b) {
            return None;
        }
        let mut of = vec![(self.power(a)?, CtCt), (self.power(b)?, CtCt)];
        if self.chebyshev {
            of.push((self.power(distance)?, Added));
        }
        let made = self.graph.value(of);
        self.powers.insert(n, made);
        Some(())
    }

    /// A constant, at place 0, is only added: a list is made of its allowed powers, and of nothing if it has none.
    fn load(&mut self, parity: u8, length: usize) -> Option<()> {
        if self.waiting.len() >= MAX_WAITING {
            return None;
        }
        let allowed = (1..length).filter(|j| match parity {
            0 => true,
            1 => j % 2 == 0,
            _ => j % 2 == 1,
        });
        let powers: Option<Vec<_>> = allowed.map(|j| Some((self.power(j)?, PtCt))).collect();
        let list = self.graph.value(powers?);
        self.waiting.push(list);
        Some(())
    }

    fn combine(&mut self, p: usize, way: Way) -> Option<()> {
        let (high, low) = (self.waiting.pop()?, self.waiting.pop()?);
        let of = vec![(high, way), (self.power(p)?, way), (low, Added)];
        let sum = self.graph.value(of);
        self.waiting.push(sum);
        Some(())
    }
}

#[cfg(test)]
mod tests;
