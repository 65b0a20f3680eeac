//! A fitter has lost a curve, and still has its plan: the curve comes back from the lists, and damaged lists are refused.

use firrozun::buffers::{rebuild_into, Lists};
use firrozun::{Basis, Parity, Polynomial, Refusal, SplitStrategy};

/// The curve of a plan that was stored with these settings, degree 5, base 2 and transform identity.
fn curve(lists: &[i64; 6]) -> Result<Polynomial<i64>, Refusal> {
    let (strategy, parity, basis) = (SplitStrategy::MinMult, Parity::Full, Basis::Chebyshev);
    let lists = Lists {
        degree: 5,
        base: 2,
        coefficients: lists,
        boundaries: &[2, 4, 6],
    };
    let mut coeffs = vec![0; 6];
    rebuild_into(strategy, parity, basis, lists, &mut coeffs)?;
    Ok(Polynomial::new(basis, coeffs))
}

fn main() -> Result<(), Refusal> {
    let found = curve(&[1, 4, 3, -4, 5, 12])?;
    println!("the curve: {:?}", found.coeffs);
    // A plan in memory tells its polynomial by itself.
    let plan = found.plan(SplitStrategy::MinMult)?;
    println!("planned again: {:?}", plan.coefficients());
    println!("its plan has it: {}", plan.polynomial() == Some(found));
    match curve(&[1, 4, 3, -4, 5, 13]) {
        Ok(other) => println!("with 13 for 12: {:?}", other.coeffs),
        Err(refusal) => println!("with 13 for 12: {refusal}"),
    }

    // The lists of a folded plan are those of the fold, which is not the curve.
    let odd = Polynomial::new(Basis::Chebyshev, vec![0, 1, 0, 2]);
    let folded = odd.plan_folded(SplitStrategy::MinMult)?;
    println!("of a folded plan: {:?}", folded.polynomial());
    if let Some((fold, transform)) = folded.folded_polynomial() {
        println!("its fold: {:?} behind {transform:?}", fold.coeffs);
    }
    Ok(())
}
