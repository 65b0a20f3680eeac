//! Three curves of one flow, read once: the power of a pump, the loss of a filter and the loss of a pipe. What each costs alone, what they
//! cost as a set, and their values at 2.

use firrozun::{Basis, Curve, CurveSet, Parity, Plan, Refusal, SplitStrategy, Step};

const CURVES: [(&str, &[i64]); 3] = [
    ("power", &[30, 12, 5, 0, 2, 1, 0, 1]),
    ("filter", &[0, 3, 7, 1, 0, 2]),
    ("pipe", &[1, 4, 6, 2]),
];
const STRATEGY: SplitStrategy = SplitStrategy::MinMult;

fn main() -> Result<(), Refusal> {
    let mut by_themselves = 0;
    for (name, coeffs) in CURVES {
        let plan = Plan::new(Basis::Monomial, coeffs, Parity::Full, STRATEGY, false)?;
        let head = plan.head();
        println!("{name} alone: ct-ct {}, pt-ct {}", head.ct_ct, head.pt_ct);
        by_themselves += head.ct_ct;
    }

    let curves = CURVES.map(|(_, coeffs)| {
        Curve::new(Basis::Monomial, coeffs)
            .with_strategy(STRATEGY)
            .with_interval(0.0, 4.0)
    });
    let set = CurveSet::plan(&curves)?;
    println!("as a set: ct-ct {}, pt-ct {}", set.ct_ct(), set.pt_ct());
    let saved = by_themselves - set.ct_ct();
    println!("saved: {saved} of {by_themselves} multiplications of two encrypted numbers");
    for step in set.powers() {
        if let Step::Power { n, a, b } = step {
            println!("power {n} from {a} and {b}, for all");
        }
    }
    for ((name, _), member) in CURVES.into_iter().zip(set.members()) {
        println!("{name}: {:?}", member.own_steps().collect::<Vec<_>>());
        println!("{name} at 2: {}", member.walk(2, 1_000_000)?);
    }

    // A member's plan can be kept by itself. It has all powers of the set.
    if let Some(pipe) = set.member(2).map(|member| member.to_plan()) {
        println!(
            "the pipe alone, with all powers: {} steps",
            pipe.head().steps
        );
    }

    // Curves of two bases have no power in common.
    let other = Curve::new(Basis::Chebyshev, &[1, 2, 3]);
    match CurveSet::plan(&[curves[0], other]) {
        Ok(set) => println!("two bases: {} members", set.len()),
        Err(refusal) => println!("two bases: {refusal}"),
    }
    Ok(())
}
