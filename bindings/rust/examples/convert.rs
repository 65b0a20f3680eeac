//! The maker of a pump sends its curves by powers of the flow, and the curves of the block are Chebyshev ones. The pump's head is converted,
//! planned in the Chebyshev basis and walked to the same values. The power that the pump takes would have fractions, and is converted times 4.

use firrozun::{Basis, Polynomial, Refusal, SplitStrategy};

/// The head in centimetres and the power in watts, by the flow in litres a second.
const HEAD: [i64; 5] = [4200, 15, -26, -12, -8];
const POWER: [i64; 4] = [900, 120, 25, -6];

fn by_powers(curve: &[i64]) -> Polynomial<i64> {
    Polynomial::new(Basis::Monomial, curve.to_vec())
}

/// The value by the plan of a curve, in its own basis.
fn value(curve: &Polynomial<i64>, flow: i64) -> Result<u64, Refusal> {
    curve.plan(SplitStrategy::MinMult)?.walk(flow, 1_000_000)
}

fn main() -> Result<(), Refusal> {
    let head = by_powers(&HEAD);
    let converted = head.to_basis(Basis::Chebyshev)?;
    println!("the head by powers: {:?}", head.coeffs);
    println!("by T_0 to T_4: {:?}", converted.coeffs);
    for flow in 0..=4 {
        let (sent, planned) = (value(&head, flow)?, value(&converted, flow)?);
        println!("at {flow}: {planned} cm, as sent: {}", planned == sent);
    }
    let back = converted.to_basis(Basis::Monomial)?;
    println!("there and back: {}", back == head);

    // The 25 of x² is odd, and x² is half of T_0 + T_2.
    let power = by_powers(&POWER);
    match power.to_basis(Basis::Chebyshev) {
        Ok(converted) => println!("the power: {:?}", converted.coeffs),
        Err(refusal) => println!("the power: {refusal}"),
    }
    // Times 2^(degree - 1) every coefficient is whole. Whoever decrypts the value divides it again.
    let times = 1 << (power.degree() - 1);
    let converted = by_powers(&POWER.map(|c| times * c)).to_basis(Basis::Chebyshev)?;
    println!("the power times {times}: {:?}", converted.coeffs);
    println!(
        "at 2: {} W, {times} times {} W",
        value(&converted, 2)?,
        value(&power, 2)?
    );
    Ok(())
}
