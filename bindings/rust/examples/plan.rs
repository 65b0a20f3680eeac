//! The plan of README's picture, and its value at 2.

use firrozun::{Basis, Polynomial, Refusal, SplitStrategy};

fn main() -> Result<(), Refusal> {
    let plan =
        Polynomial::new(Basis::Monomial, vec![1, 2, 3, 4, 5]).plan(SplitStrategy::MinDepth)?;
    println!("{:?}", plan.head());
    for list in plan.lists() {
        println!("{list:?}");
    }
    for step in plan.steps() {
        println!("{step:?}");
    }
    println!("at 2, modulo 100: {}", plan.walk(2, 100)?);
    Ok(())
}
