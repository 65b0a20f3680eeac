//! The losses of a pipe and of a filter are planned, each by itself. The plan of their sum is had by adding the lists, and needs no planning.

use firrozun::buffers::trial_walk;
use firrozun::{Basis, Parity, Plan, Refusal, SplitStrategy};

fn plan(curve: &[i64]) -> Result<Plan, Refusal> {
    let (parity, strategy) = (Parity::Full, SplitStrategy::MinMult);
    Plan::new(Basis::Chebyshev, curve, parity, strategy, false)
}

/// The value at 2, modulo a million, of lists with the rest of a plan.
fn value(plan: &Plan, lists: &[i64]) -> Result<u64, Refusal> {
    let (bounds, steps) = (plan.boundaries(), plan.step_numbers());
    trial_walk(plan.head(), lists, bounds, steps, 2, 1_000_000)
}

fn main() -> Result<(), Refusal> {
    let pipe = plan(&[1, 2, 3, 4, 5, 6])?;
    let filter = plan(&[0, 0, 10, 0, 0, 1])?;
    let pairs = pipe.coefficients().iter().zip(filter.coefficients());
    let added: Vec<i64> = pairs.map(|(a, b)| a + b).collect();
    println!("the lists of both: {added:?}");
    println!("at 2: {}", value(&pipe, &added)?);

    // The plan of the sum is the same.
    let both = plan(&[1, 2, 13, 4, 5, 7])?;
    println!("planned: {:?}", both.coefficients());
    println!(
        "the same steps: {}",
        both.step_numbers() == pipe.step_numbers()
    );

    // Two curves that are planned, and whose sum is too large.
    println!(
        "half of the limit: {:?}",
        plan(&[0, 1 << 29])?.coefficients()
    );
    println!("one more: {:?}", plan(&[1, 1 << 29])?.coefficients());
    match plan(&[1, 1 << 30]) {
        Ok(sum) => println!("their sum: {:?}", sum.coefficients()),
        Err(refusal) => println!("their sum: {refusal}"),
    }
    Ok(())
}
