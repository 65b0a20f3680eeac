//! The checked examples of document 01 (`docs/RULES.md`), those of a conversion, and the example of README.

use firrozun::buffers::{trial_walk, Head};
use firrozun::Basis::{Chebyshev, Monomial};
use firrozun::Parity::{Even, Full, Odd};
use firrozun::SplitStrategy::{MinDepth, MinMult};
use firrozun::{
    bsgs_consumed_bits, bsgs_eval_depth, bsgs_op_counts, evaluate_coeffs, min_depth_split,
    min_mult_split, split_degree, Basis, Interval, Plan, Polynomial, PolynomialInputTransform,
    Refusal, SplitStrategy, Step,
};

/// A plan, unfolded, of the parity `Full`.
fn full(basis: Basis, coeffs: &[i64], strategy: SplitStrategy) -> Plan {
    Plan::new(basis, coeffs, Full, strategy, false).expect("a plan")
}

fn lengths(plan: &Plan) -> Vec<usize> {
    plan.lists().map(<[i64]>::len).collect()
}

#[test]
fn splits() {
    assert_eq!(split_degree(3), Ok((1, 2, 1)));
    assert_eq!(split_degree(5), Ok((3, 2, 1)));
    assert_eq!(split_degree(1), Err(Refusal::Index));
    // Degrees of 1, 2, 3, 4 and 5 binary digits.
    assert_eq!(
        [1, 2, 4, 8, 16].map(min_depth_split),
        [1, 1, 2, 2, 3].map(Ok)
    );
}

/// Each T_n from three smaller ones, by the three numbers of its split, is 2·x·T_(n−1) − T_(n−2), at a point modulo a prime.
#[test]
fn chebyshev_powers_by_the_split() {
    const PRIME: i64 = 1_000_003;
    let x: i64 = 12_345;
    let mut powers = vec![1, x];
    for n in 2..=4_095 {
        let (a, b, distance) = split_degree(n).expect("an index");
        let split = (2 * powers[a] * powers[b] - powers[distance]).rem_euclid(PRIME);
        let recurrence = (2 * x * powers[n - 1] - powers[n - 2]).rem_euclid(PRIME);
        assert_eq!(split, recurrence, "T_{n}");
        powers.push(split);
    }
}

#[test]
fn min_mult_splits_and_pairs() {
    for (degree, split, pair) in [
        (2, 1, (1, 2)),
        (4, 1, (3, 3)),
        (5, 1, (4, 3)),
        (7, 2, (4, 6)),
    ] {
        assert_eq!(min_mult_split(degree, Full, Monomial), Ok(split));
        assert_eq!(bsgs_op_counts(degree, MinMult, Full, Monomial), Ok(pair));
    }
}

#[test]
fn min_depth_lists() {
    assert_eq!(lengths(&full(Monomial, &[1; 7], MinDepth)), [4, 3]);
    let seven = full(Monomial, &[1; 8], MinDepth);
    assert_eq!(lengths(&seven), [4, 2, 2]);
    assert_eq!((seven.head().ct_ct, seven.head().pt_ct), (5, 5));
    assert_eq!(bsgs_op_counts(7, MinDepth, Full, Monomial), Ok((4, 6)));
}

#[test]
fn chebyshev_lists_and_value() {
    let plan = full(Chebyshev, &[1, 2, 3, 4, 5, 6], MinMult);
    assert_eq!(plan.lists().collect::<Vec<_>>(), [[1, 4], [3, -4], [5, 12]]);
    assert_eq!(plan.walk(2, 1_000_000), Ok(2787));
    assert_eq!(
        evaluate_coeffs(Chebyshev, &[1.0, 2.0, 3.0, 4.0, 5.0, 6.0], 2.0),
        2787.0
    );
}

/// 1 + 2T_1 + 3T_2 + 4T_3 = −2 − 10x + 6x² + 16x³ and 8x⁴ = 3T_0 + 4T_2 + T_4, both ways, and x², which is half of T_0 + T_2.
#[test]
fn conversions() {
    for (by_powers, by_chebyshev) in [
        (vec![-2, -10, 6, 16], vec![1, 2, 3, 4]),
        (vec![0, 0, 0, 0, 8], vec![3, 0, 4, 0, 1]),
        (vec![0, 0, 2], vec![1, 0, 1]),
    ] {
        let p = Polynomial::new(Monomial, by_powers);
        let q = Polynomial::new(Chebyshev, by_chebyshev);
        assert_eq!(p.to_basis(Chebyshev), Ok(q.clone()));
        assert_eq!(q.to_basis(Monomial), Ok(p));
    }
    let square = Polynomial::new(Monomial, vec![0, 0, 1]).to_basis(Chebyshev);
    assert_eq!(square.map_err(Refusal::number), Err(38));
}

/// What `examples/convert.rs` prints: the head of a pump, and the power that it takes, times 4.
#[test]
fn the_curves_of_a_pump() {
    let head = Polynomial::new(Monomial, vec![4200, 15, -26, -12, -8]);
    let converted = head.to_basis(Chebyshev).expect("whole coefficients");
    assert_eq!(converted.coeffs, [4184, 6, -17, -3, -1]);
    let plan = converted.plan(MinMult).expect("a plan");
    for (flow, head) in (0..).zip([4200, 4169, 3902, 3039, 1028]) {
        assert_eq!(plan.walk(flow, 1_000_000), Ok(head));
    }
    let power = Polynomial::new(Monomial, vec![900, 120, 25, -6]);
    assert_eq!(power.to_basis(Chebyshev), Err(Refusal::NotWhole));
    let fourfold = Polynomial::new(Monomial, vec![3600, 480, 100, -24]);
    let converted = fourfold.to_basis(Chebyshev).expect("whole coefficients");
    assert_eq!(converted.coeffs, [3650, 462, 50, -6]);
    let plan = converted.plan(MinMult).expect("a plan");
    assert_eq!(plan.walk(2, 1_000_000), Ok(4 * 1192));
}

#[test]
fn odd_chebyshev_fold() {
    let p = Polynomial::new(Chebyshev, vec![0, 1, 0, 2]);
    assert_eq!(p.parity, Odd);
    let (folded, transform) = p.fold_parity().expect("a fold");
    assert_eq!((folded.coeffs, folded.parity), (vec![-1, 4], Full));
    assert_eq!(transform, PolynomialInputTransform::ChebyshevT2TimesInput);
    for strategy in [MinDepth, MinMult] {
        let plan = p.plan_folded(strategy).expect("a plan");
        assert_eq!(plan.coefficients(), [-1, 4]);
        assert_eq!(
            (plan.head().degree, plan.head().ct_ct, plan.head().depth),
            (1, 2, 3)
        );
        assert_eq!(plan.walk(2, 1000), Ok(54));
        // 2x² − 1, times the plain 4, times x.
        assert_eq!(plan.heaviest_chain(40, 30), Ok(40 + 30 + 40));
    }
}

#[test]
fn depth_and_bits() {
    assert_eq!(bsgs_eval_depth(6, MinMult), Ok(3));
    assert_eq!(bsgs_eval_depth(7, MinMult), Ok(4));
    assert_eq!(
        bsgs_consumed_bits(5, MinMult, Full, Monomial, 20, 100),
        Ok(120)
    );
    for strategy in [MinDepth, MinMult] {
        assert_eq!(
            bsgs_consumed_bits(4, strategy, Even, Chebyshev, 30, 20),
            Ok(80)
        );
        assert_eq!(
            bsgs_consumed_bits(0, strategy, Odd, Monomial, 30, 20),
            Ok(0)
        );
    }
}

#[test]
fn the_plan_of_the_picture() {
    let plan = full(Monomial, &[1, 2, 3, 4, 5], MinDepth);
    let head = Head {
        basis: Monomial,
        parity: Full,
        strategy: MinDepth,
        transform: PolynomialInputTransform::Identity,
        degree: 4,
        base: 4,
        ct_ct: 3,
        pt_ct: 4,
        depth: 3,
        coefficients: 5,
        lists: 2,
        steps: 6,
        interval: Interval {
            a: -1.0,
            b: 1.0,
            u: 1.0,
            w: 0.0,
        },
    };
    assert_eq!(*plan.head(), head);
    assert_eq!(plan.lists().collect::<Vec<_>>(), [&[1, 2, 3, 4][..], &[5]]);
    let steps = [
        Step::Power { n: 2, a: 1, b: 1 },
        Step::Power { n: 3, a: 1, b: 2 },
        Step::Power { n: 4, a: 2, b: 2 },
        Step::Load { list: 0 },
        Step::Load { list: 1 },
        Step::CombinePlain { power: 4 },
    ];
    assert_eq!(plan.steps().collect::<Vec<_>>(), steps);
    assert_eq!(plan.walk(2, 100), Ok(29));
    // Powers 2 and 4, then times the plain 5.
    assert_eq!(plan.heaviest_chain(30, 20), Ok(80));
    assert_eq!(
        trial_walk(
            &head,
            &[1, 2, 3, 4, 5],
            &[4, 5],
            &steps.map(Step::numbers).concat(),
            2,
            100
        ),
        Ok(29)
    );
}

#[test]
fn a_plan_with_a_combine() {
    let plan = full(Monomial, &[3, -1, 4, 1, -5, 9, 2, 6], MinMult);
    assert_eq!(plan.steps().last(), Some(Step::Combine { power: 4 }));
    assert_eq!(
        (plan.head().ct_ct, plan.head().pt_ct, plan.head().depth),
        (4, 6, 4)
    );
}

#[test]
fn magnitudes_at_the_limit() {
    let most = 1 << 30;
    assert!(Plan::new(Monomial, &[most, 0], Full, MinDepth, false).is_ok());
    let above = Plan::new(Monomial, &[most, 1], Full, MinDepth, false);
    assert_eq!(above, Err(Refusal::Magnitude));
}
