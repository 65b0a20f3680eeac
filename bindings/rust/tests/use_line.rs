//! Code written for poulpy's planner, of which only the `use` line is changed; and the types of the calls, which are poulpy's.

mod common;

use common::{BASES, PARITIES, STRATEGIES};
use firrozun::poulpy::{
    bsgs_consumed_bits, bsgs_eval_depth, bsgs_op_counts, change_of_basis, evaluate_coeffs,
    split_degree, BSGSPolynomial, Basis, Parity, Polynomial, PolynomialInputTransform,
    SplitStrategy, DEFAULT_SPLIT_STRATEGY,
};
use std::error::Error;

type Bare = Box<dyn Error + Send + Sync>;

/// An encoder of the caller's, with an error of its own.
fn encode(list: &[f64]) -> Result<Vec<u64>, Bare> {
    Ok(list.iter().map(|c| c.to_bits()).collect())
}

fn planned(degree: usize) -> Result<BSGSPolynomial<Vec<u64>>, Bare> {
    let p = Polynomial::chebyshev_interpolate(degree, -4.0, 4.0, |x| 1.0 / (1.0 + (-x).exp()))?;
    let p = Polynomial::new_with_parity(p.basis, p.coeffs, Parity::Full).with_interval(p.a, p.b);
    p.decompose_bsgs_with(DEFAULT_SPLIT_STRATEGY, encode)
}

#[test]
fn a_planner_of_poulpys() -> Result<(), Bare> {
    let bsgs = planned(15)?;
    assert_eq!(
        (bsgs.degree(), bsgs.basis(), bsgs.parity()),
        (15, Basis::Chebyshev, Parity::Full)
    );
    assert_eq!(bsgs.input_transform(), PolynomialInputTransform::Identity);
    assert_eq!(
        bsgs.eval_depth(),
        bsgs_eval_depth(15, SplitStrategy::MinDepth)
    );
    assert_eq!(
        (bsgs.interval(), bsgs.change_of_basis()),
        ((-4.0, 4.0), (0.25, -0.0))
    );
    assert_eq!(bsgs.baby_step(0), &bsgs.baby_steps()[0]);
    assert_eq!(1 << bsgs.log_split(), bsgs.base());
    let bits = bsgs_consumed_bits(
        15,
        SplitStrategy::MinDepth,
        bsgs.parity(),
        bsgs.basis(),
        40,
        30,
    );
    assert_eq!(bsgs.consumed_bits(40, 30)?, bits);
    assert_eq!(
        bsgs_op_counts(7, SplitStrategy::MinMult, Parity::Full, Basis::Monomial),
        (4, 6)
    );
    assert_eq!(split_degree(9), (7, 2));
    assert_eq!(
        planned(0)
            .err()
            .map(|e| e.to_string().starts_with("refusal 1: ")),
        Some(true)
    );
    Ok(())
}

#[test]
fn a_fold_of_poulpys() -> Result<(), Bare> {
    let p = Polynomial::new(Basis::Monomial, vec![0.0, 1.0, 0.0, 2.0, 0.0, 3.0])
        .with_interval(0.0, 2.0);
    let (folded, transform) = p.fold_parity()?;
    assert_eq!(
        (folded.coeffs.as_slice(), folded.interval()),
        (&[1.0, 2.0, 3.0][..], (-1.0, 1.0))
    );
    assert_eq!(transform, PolynomialInputTransform::SquareTimesInput);
    assert_eq!(p.evaluate(3.0), 3.0 * folded.evaluate(9.0));
    assert_eq!(
        p.evaluate_on_interval(3.0),
        evaluate_coeffs(p.basis, &p.coeffs, 3.0)
    );
    let bsgs = p.decompose_bsgs_folded_with(SplitStrategy::MinMult, encode)?;
    assert_eq!((bsgs.degree(), bsgs.interval()), (2, (0.0, 2.0)));
    assert_eq!(
        bsgs.eval_depth(),
        bsgs_eval_depth(2, SplitStrategy::MinMult) + 2
    );
    let bits = bsgs_consumed_bits(
        2,
        SplitStrategy::MinMult,
        Parity::Full,
        Basis::Monomial,
        40,
        30,
    );
    assert_eq!(bsgs.consumed_bits(40, 30)?, bits + 2 * 40);
    Ok(())
}

/// An encoder's error comes back, and no list behind it is encoded.
#[test]
fn an_encoders_error() {
    let p = Polynomial::new(Basis::Monomial, vec![1.0; 16]);
    let mut encoded = 0;
    let answer = p.decompose_bsgs_with(SplitStrategy::MinMult, |_| -> Result<(), Bare> {
        encoded += 1;
        if encoded == 2 {
            Err("the second".into())
        } else {
            Ok(())
        }
    });
    assert_eq!(
        answer.err().map(|e| e.to_string()),
        Some("the second".to_string())
    );
    assert_eq!(encoded, 2);
}

#[test]
fn the_types_are_poulpys() {
    let _: fn(usize) -> (usize, usize) = split_degree;
    let _: fn(usize, SplitStrategy, Parity, Basis) -> (usize, usize) = bsgs_op_counts;
    let _: fn(usize, SplitStrategy) -> usize = bsgs_eval_depth;
    let _: fn(usize, SplitStrategy, Parity, Basis, usize, usize) -> usize = bsgs_consumed_bits;
    let _: fn(Basis, &[f64], f64) -> f64 = evaluate_coeffs;
    let _: fn(Basis, f64, f64) -> (f64, f64) = change_of_basis;
    let _: fn(Basis, Vec<f64>) -> Polynomial<f64> = Polynomial::new;
    let _: fn(Basis, Vec<f64>, Parity) -> Polynomial<f64> = Polynomial::new_with_parity;
}

#[test]
fn bare_answers_are_those_of_the_root() {
    for degree in 0..300 {
        for strategy in STRATEGIES {
            let depth = bsgs_eval_depth(degree, strategy);
            assert_eq!(firrozun::bsgs_eval_depth(degree, strategy), Ok(depth));
            for parity in PARITIES {
                for basis in BASES {
                    let counts = bsgs_op_counts(degree, strategy, parity, basis);
                    let same = firrozun::bsgs_op_counts(degree, strategy, parity, basis);
                    assert_eq!(same, Ok(counts));
                    let bits = bsgs_consumed_bits(degree, strategy, parity, basis, 40, degree);
                    let same =
                        firrozun::bsgs_consumed_bits(degree, strategy, parity, basis, 40, degree);
                    assert_eq!(same, Ok(bits));
                }
            }
        }
    }
    for n in 2..300 {
        let same = firrozun::split_degree(n).map(|(a, b, _)| (a, b));
        assert_eq!(same, Ok(split_degree(n)));
    }
}

/// Bare answers have no room for a refusal.
#[test]
#[should_panic(expected = "refusal 2: ")]
fn a_bare_answer_that_is_refused() {
    bsgs_op_counts(4096, SplitStrategy::MinMult, Parity::Full, Basis::Monomial);
}
