//! The heaviest chain, held against all paths: worked out here step by step, each value with the weights of the paths that end in it.

mod common;

use common::settings;
use firrozun::{split_degree, Basis, Parity, Plan, PolynomialInputTransform, SplitStrategy, Step};
use std::collections::{BTreeMap, BTreeSet};

/// Input scale and coefficient scale.
type Scales = (usize, usize);
/// The weights of the paths that end in a value.
type Weights = BTreeSet<u64>;

fn given() -> Weights {
    Weights::from([0])
}

fn product(scale: usize, a: &Weights, b: &Weights) -> Weights {
    a.union(b).map(|weight| weight + scale as u64).collect()
}

/// What is done with the input ahead of the steps.
fn first_power(transform: PolynomialInputTransform, input: usize) -> Weights {
    let square = product(input, &given(), &given());
    match transform {
        PolynomialInputTransform::Identity => given(),
        PolynomialInputTransform::Square | PolynomialInputTransform::SquareTimesInput => square,
        PolynomialInputTransform::ChebyshevT2 | PolynomialInputTransform::ChebyshevT2TimesInput => {
            &square | &given()
        }
    }
}

/// A list: its constant is only added.
fn load(plan: &Plan, list: u16, powers: &BTreeMap<u16, Weights>, coeff: usize) -> Weights {
    let parity = plan.head().parity;
    let places = plan.list(list.into()).expect("a list").len();
    let products = (1..places)
        .filter(|&place| common::allows(parity, place))
        .map(|place| product(coeff, &given(), &powers[&(place as u16)]));
    products.fold(given(), |so_far, weights| &so_far | &weights)
}

/// The distance of the parts of power n.
fn distance(n: u16) -> u16 {
    let (_, _, distance) = split_degree(n.into()).expect("an index");
    distance as u16
}

/// The weights of the paths that end in the plan's value.
fn paths(plan: &Plan, (input, coeff): Scales) -> Weights {
    let head = plan.head();
    let mut powers = BTreeMap::from([(0, given()), (1, first_power(head.transform, input))]);
    let mut waiting = Vec::new();
    for step in plan.steps() {
        let mut combine = |power: u16, scale| {
            let high = waiting.pop().expect("a high value");
            let low = waiting.pop().expect("a low value");
            waiting.push(&product(scale, &high, &powers[&power]) | &low);
        };
        match step {
            Step::Power { n, a, b } => {
                let made = product(input, &powers[&a], &powers[&b]);
                let less = match head.basis {
                    Basis::Monomial => Weights::new(),
                    Basis::Chebyshev => powers[&distance(n)].clone(),
                };
                powers.insert(n, &made | &less);
            }
            Step::Load { list } => waiting.push(load(plan, list, &powers, coeff)),
            Step::Combine { power } => combine(power, input),
            Step::CombinePlain { power } => combine(power, coeff),
        }
    }
    let value = waiting.pop().expect("a value");
    match head.transform {
        PolynomialInputTransform::SquareTimesInput
        | PolynomialInputTransform::ChebyshevT2TimesInput => product(input, &given(), &value),
        _ => value,
    }
}

fn weighs_the_greatest(plan: &Plan, scales: Scales) {
    assert_eq!(
        plan.heaviest_chain(scales.0, scales.1).ok(),
        paths(plan, scales).last().copied(),
        "{:?} at {scales:?}",
        plan.head()
    );
}

#[test]
fn the_greatest_of_all_paths() {
    let zeros = [0; 4096];
    for (strategy, parity, basis, fold) in settings() {
        for degree in (1..=70).chain([127, 128, 255, 256, 1000, 4095]) {
            let Ok(plan) = Plan::new(basis, &zeros[..=degree], parity, strategy, fold) else {
                continue;
            };
            for scales in [(30, 20), (20, 100), (1, 0), (0, 1), (65_535, 65_535)] {
                weighs_the_greatest(&plan, scales);
            }
        }
    }
}

/// x + 2x³ + 3x⁵ + 4x⁷ + 5x⁹ folded: the heaviest path makes x² and its powers 2 and 4, multiplies by the plain 5 and then by x.
#[test]
fn a_fold_with_a_transform() {
    let folded = |coeffs: &[i64]| {
        let (basis, strategy) = (Basis::Monomial, SplitStrategy::MinDepth);
        Plan::new(basis, coeffs, Parity::Odd, strategy, true).expect("a plan")
    };
    let plan = folded(&[0, 1, 0, 2, 0, 3, 0, 4, 0, 5]);
    let transform = PolynomialInputTransform::SquareTimesInput;
    assert_eq!((plan.head().transform, plan.head().degree), (transform, 4));
    assert_eq!(plan.heaviest_chain(30, 20), Ok(30 + 30 + 30 + 20 + 30));
    // The coefficients make no difference.
    assert_eq!(folded(&[0; 10]).heaviest_chain(30, 20), Ok(140));
}
