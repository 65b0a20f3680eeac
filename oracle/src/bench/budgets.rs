//! The largest degree for a budget. The published code has no such call: beside ours stands a scan by its bits, from degree 4,095 down.

use firrozun as lib;

use super::{Bench, INPUTS};
use crate::both::kinds_of;
use crate::budgets::{Largest, SCALES, bits, largest};
use crate::calls::{Basis, Parity, STRATEGIES, SplitStrategy};
use crate::inputs::MAX_DEGREE;

/// A budget with its strategy and scales.
type Asked = (SplitStrategy, u64, (usize, usize));

fn theirs(&(strategy, budget, scales): &Asked) -> Largest {
    largest(budget, |degree| bits(strategy, degree, scales))
}

fn ours(&(strategy, budget, (input, coeff)): &Asked) -> Largest {
    let (.., strategy) = kinds_of(Basis::Monomial, Parity::Full, strategy);
    let answer = lib::largest_degree(strategy, budget, input, coeff);
    answer.map_or_else(|refusal| (refusal.number(), 0), |degree| (0, degree))
}

fn scales() -> impl Iterator<Item = (usize, usize)> {
    SCALES.into_iter().skip(SCALES.len() - INPUTS)
}

/// The budgets are the bits of the degree.
pub fn fitting(b: &Bench, strategy: SplitStrategy, degree: usize) {
    let asked: Vec<Asked> = scales()
        .map(|scales| (strategy, bits(strategy, degree, scales), scales))
        .collect();
    for one in &asked {
        assert!(theirs(one).1 >= degree, "a degree");
        assert_eq!(theirs(one), ours(one), "largest degree");
    }
    let case = ("largest degree", None, Some(strategy), degree);
    b.time(
        case,
        |i| theirs(&asked[i % INPUTS]),
        |i| ours(&asked[i % INPUTS]),
    );
}

/// One less than the bits of degree 1, which are the coefficient scale and the fewest. All degrees are looked at, so it goes by the greatest.
pub fn none_fits(b: &Bench) {
    let asked: Vec<Asked> = STRATEGIES
        .into_iter()
        .flat_map(|s| scales().map(move |scales| (s, bits(s, 1, scales) - 1, scales)))
        .collect();
    for one in &asked {
        assert_eq!(theirs(one), (31, 0), "no degree");
        assert_eq!(ours(one), (31, 0), "no degree");
    }
    let case = ("largest degree, none fits", None, None, MAX_DEGREE);
    b.time(
        case,
        |i| theirs(&asked[i % (2 * INPUTS)]),
        |i| ours(&asked[i % (2 * INPUTS)]),
    );
}
