//! A package fixes the bits, and the fitter wants the degree: the largest degree for a few budgets, with both strategies.

use firrozun::{largest_degree, SplitStrategy};

const INPUT: usize = 40;
const COEFF: usize = 60;

fn main() {
    println!("input scale {INPUT}, coefficient scale {COEFF}");
    for budget in [59, 60, 120, 140, 300, 600] {
        for strategy in [SplitStrategy::MinDepth, SplitStrategy::MinMult] {
            match largest_degree(strategy, budget, INPUT, COEFF) {
                Ok(degree) => println!("{budget} bits, {strategy:?}: degree {degree}"),
                Err(refusal) => println!("{budget} bits, {strategy:?}: {refusal}"),
            }
        }
    }
}
