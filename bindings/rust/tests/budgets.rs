//! The largest degree for a budget, held against its plain definition: the bits of every degree, looked through from 4,095 down.

mod common;

use common::{Numbers, STRATEGIES};
use firrozun::{bsgs_consumed_bits, largest_degree, Basis, Parity, Refusal, SplitStrategy};
use std::collections::BTreeSet;

/// Input scale and coefficient scale.
type Scales = (usize, usize);

const SCALES: [Scales; 14] = [
    (0, 0),
    (0, 5),
    (5, 0),
    (1, 1),
    (1, 2),
    (2, 1),
    (30, 20),
    (20, 100),
    (45, 45),
    (40, 60),
    (1, 1000),
    (1000, 1),
    (1, 65_535),
    (65_535, 65_535),
];

/// The bits of every degree from 1 to 4,095, the first at place 0.
fn all_bits(strategy: SplitStrategy, (input, coeff): Scales) -> Vec<u64> {
    let (parity, basis) = (Parity::Full, Basis::Monomial);
    let bits = |degree| bsgs_consumed_bits(degree, strategy, parity, basis, input, coeff);
    (1..=4095)
        .map(|degree| bits(degree).expect("bits") as u64)
        .collect()
}

/// The definition, on the bits of every degree.
fn greatest(bits: &[u64], budget: u64) -> Result<usize, Refusal> {
    let place = bits.iter().rposition(|&taken| taken <= budget);
    place.map(|place| place + 1).ok_or(Refusal::Budget)
}

/// Tests with both strategies at every pair of scales, handing over the bits of every degree.
fn at_every_pair(mut test: impl FnMut(SplitStrategy, Scales, &[u64])) {
    for strategy in STRATEGIES {
        for scales in SCALES {
            test(strategy, scales, &all_bits(strategy, scales));
        }
    }
}

fn agrees(strategy: SplitStrategy, (input, coeff): Scales, bits: &[u64], budget: u64) {
    assert_eq!(
        largest_degree(strategy, budget, input, coeff),
        greatest(bits, budget),
        "{strategy:?}, budget {budget}, scales {input} and {coeff}"
    );
}

#[test]
fn every_budget_to_2000() {
    at_every_pair(|strategy, scales, bits| {
        for budget in 0..=2000 {
            agrees(strategy, scales, bits, budget);
        }
    });
}

/// The budgets where an answer can change: the bits of a degree, and one fewer.
#[test]
fn every_budget_where_the_answer_changes() {
    at_every_pair(|strategy, scales, bits| {
        let distinct: BTreeSet<u64> = bits.iter().copied().collect();
        for budget in distinct {
            agrees(strategy, scales, bits, budget);
            agrees(strategy, scales, bits, budget.saturating_sub(1));
        }
    });
}

#[test]
fn budgets_of_any_size() {
    let mut numbers = Numbers(5);
    at_every_pair(|strategy, scales, bits| {
        for power in 0..64 {
            let least = 1 << power;
            agrees(strategy, scales, bits, least);
            agrees(strategy, scales, bits, least - 1);
            agrees(strategy, scales, bits, numbers.next() >> power);
        }
        let most = largest_degree(strategy, u64::MAX, scales.0, scales.1);
        assert_eq!(most, Ok(4095));
    });
}

/// A budget met exactly is kept.
#[test]
fn the_bits_of_a_degree_are_enough_for_it() {
    at_every_pair(|strategy, (input, coeff), bits| {
        for (place, &budget) in bits.iter().enumerate() {
            let largest = largest_degree(strategy, budget, input, coeff);
            assert!(largest.expect("a degree") > place);
        }
    });
}

/// MinMult's bits fall from degree 4 to degree 5, so that 5 is within a budget that 4 exceeds.
#[test]
fn bits_that_fall() {
    let strategy = SplitStrategy::MinMult;
    assert_eq!(all_bits(strategy, (1, 2))[..6], [2, 3, 3, 4, 3, 4]);
    assert_eq!(largest_degree(strategy, 3, 1, 2), Ok(5));
    assert_eq!(largest_degree(SplitStrategy::MinDepth, 3, 1, 2), Ok(3));
}

#[test]
fn refusal_10_ahead_of_31() {
    for strategy in STRATEGIES {
        for budget in [0, 65_535, u64::MAX] {
            for (input, coeff) in [(65_536, 1), (1, 65_536), (usize::MAX, usize::MAX)] {
                let refused = largest_degree(strategy, budget, input, coeff);
                assert_eq!(refused, Err(Refusal::Scale));
            }
        }
    }
}

/// Degree 1 takes the coefficient scale, and none takes fewer bits.
#[test]
fn refusal_31_below_the_coefficient_scale() {
    for strategy in STRATEGIES {
        for input in [0, 1, 40, 65_535] {
            for coeff in 1..=65_535 {
                let largest = |budget| largest_degree(strategy, budget, input, coeff as usize);
                assert_eq!(largest(coeff - 1), Err(Refusal::Budget));
                assert!(largest(coeff).is_ok());
            }
            assert!(largest_degree(strategy, 0, input, 0).is_ok());
        }
    }
}
