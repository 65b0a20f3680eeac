//! The largest degree for a budget of bits. The published planner has no such call: it is worked out here by a scan over all degrees
//! from 4,095 down, by the published bits.

use crate::Rec;
use crate::calls::{Basis, Parity, STRATEGIES, SplitStrategy};
use crate::inputs::MAX_DEGREE;
use crate::layouts::polynomial_evaluation::bsgs_consumed_bits;

/// Bit scales of input and coefficients. In the last eight neither is 0, as the bench wants it.
pub const SCALES: [(usize, usize); 12] = [
    (0, 0),
    (0, 5),
    (12, 0),
    (1, 65_535),
    (1, 2),
    (30, 20),
    (20, 100),
    (45, 45),
    (40, 60),
    (1, 1_000),
    (100, 1),
    (65_535, 65_535),
];
/// Every budget up to this one is asked at each pair of scales.
pub const BUDGETS: u64 = 2_000;

/// Refusal and degree.
pub type Largest = (u8, usize);

/// The published bits, which depend neither on parity nor on basis.
pub fn bits(strategy: SplitStrategy, degree: usize, (input, coeff): (usize, usize)) -> u64 {
    let (parity, basis) = (Parity::Full, Basis::Monomial);
    bsgs_consumed_bits(degree, strategy, parity, basis, input, coeff) as u64
}

/// The published bits of every degree from 0 to 4,095.
pub fn all_bits(strategy: SplitStrategy, scales: (usize, usize)) -> Vec<u64> {
    let degrees = 0..=MAX_DEGREE;
    degrees.map(|d| bits(strategy, d, scales)).collect()
}

/// The first degree from 4,095 down to 1 whose bits are at most the budget, or refusal 31.
pub fn largest(budget: u64, bits: impl Fn(usize) -> u64) -> Largest {
    let fits = |&degree: &usize| bits(degree) <= budget;
    let found = (1..=MAX_DEGREE).rev().find(fits);
    found.map_or((31, 0), |degree| (0, degree))
}

/// At each pair of scales, in both strategies: the budgets with another answer than the budget one less has, each with that one, and a few more.
pub fn record(r: &mut Rec) {
    for scales in SCALES {
        for strategy in STRATEGIES {
            let bits = all_bits(strategy, scales);
            let answer = |budget: u64| largest(budget, |d| bits[d]);
            for budget in recorded(&bits, answer) {
                r.largest_degree(strategy, budget, scales, answer(budget));
            }
        }
    }
    refused(r);
}

/// The answer can change at the bits of a degree alone; up to 2,000 every budget is tried all the same.
fn recorded(bits: &[u64], answer: impl Fn(u64) -> Largest) -> Vec<u64> {
    let tried = (1..=BUDGETS).chain(bits[1..].iter().copied());
    let changes = tried.filter(|&b| b > 0 && answer(b) != answer(b - 1));
    let last = bits[MAX_DEGREE];
    let more = [0, BUDGETS, last.saturating_sub(1), last, last + 1, u64::MAX];
    let mut all: Vec<u64> = changes.flat_map(|b| [b - 1, b]).chain(more).collect();
    all.sort();
    all.dedup();
    all
}

/// Refusal 10, by hand from docs/RULES.md: a scale above 65,535, also where no degree fits.
fn refused(r: &mut Rec) {
    const MAX: usize = usize::MAX;
    for scales in [(65_536, 20), (20, 65_536), (MAX, 0), (0, MAX), (MAX, MAX)] {
        for strategy in STRATEGIES {
            for budget in [0, BUDGETS, u64::MAX] {
                r.largest_degree(strategy, budget, scales, (10, 0));
            }
        }
    }
}
