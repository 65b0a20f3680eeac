//! Every refusal number, by inputs that give it, the last accepted input beside it where there is one.
//!
//! 12 belongs to the lines of the program `planlines`. No call of this crate reads lines, so its number and sentence alone are tested.
//! 7 of a plan is tested in `tests/interval.rs`, with the interval in its head.
//! 31 is tested in `tests/budgets.rs`, 33 and 34 in `tests/rebuild.rs`, 35 and 36 in `tests/sets.rs`, and 37 and 38 in
//! `tests/conversion.rs`, with the calls that answer them.
//! 43 is the answer to an unknown kind, which the enums cannot say: it is tested in `src/ffi/tests.rs`, below them.

mod common;

use common::{BASES, PARITIES, STRATEGIES};
use firrozun::buffers::{
    chebyshev_interpolate_into, decompose_bsgs_into, fold_parity_into, heaviest_chain, plan_into,
    trial_walk, PlanBuffers,
};
use firrozun::Basis::{Chebyshev, Monomial};
use firrozun::Parity::{Even, Full, Odd};
use firrozun::SplitStrategy::{MinDepth, MinMult};
use firrozun::{
    bsgs_consumed_bits, bsgs_eval_depth, bsgs_op_counts, min_depth_split, min_mult_split,
    split_degree, Basis, Coefficient, Head, Parity, Plan, Polynomial, Refusal, SplitStrategy,
};
use std::error::Error;

const LAST_U32: usize = 4_294_967_295;
const UNIT: (f64, f64) = (-1.0, 1.0);
const ONE_TOO_MANY: usize = 4097;

/// The number of a refusal, and 0 for an answer.
fn number<T>(answer: Result<T, Refusal>) -> u8 {
    answer.err().map_or(0, Refusal::number)
}

fn polynomial<F: Coefficient>(basis: Basis, coeffs: &[F], parity: Parity) -> Polynomial<F> {
    Polynomial::new_with_parity(basis, coeffs.to_vec(), parity)
}

fn fold<F: Coefficient>(basis: Basis, coeffs: &[F], parity: Parity) -> u8 {
    number(polynomial(basis, coeffs, parity).fold_parity())
}

fn lists<F: Coefficient>(
    basis: Basis,
    coeffs: &[F],
    parity: Parity,
    strategy: SplitStrategy,
) -> u8 {
    let p = polynomial(basis, coeffs, parity);
    number(p.decompose_bsgs_with(strategy, |_| Ok::<_, Refusal>(())))
}

fn plan(basis: Basis, coeffs: &[i64], parity: Parity, strategy: SplitStrategy, fold: bool) -> u8 {
    number(Plan::new(basis, coeffs, parity, strategy, fold))
}

fn in_every_setting(test: impl Fn(Basis, Parity, SplitStrategy)) {
    for basis in BASES {
        for parity in PARITIES {
            for strategy in STRATEGIES {
                test(basis, parity, strategy);
            }
        }
    }
}

#[test]
fn refusal_1_degree_zero() {
    in_every_setting(|basis, parity, strategy| {
        for coeffs in [&[][..], &[7]] {
            assert_eq!(plan(basis, coeffs, parity, strategy, false), 1);
            assert_eq!(plan(basis, coeffs, parity, strategy, true), 1);
            assert_eq!(lists(basis, coeffs, parity, strategy), 1);
        }
        assert_eq!(lists::<f64>(basis, &[], parity, strategy), 1);
        assert_eq!(lists(basis, &[f64::NAN], parity, strategy), 1);
        assert_eq!(plan(basis, &[0, 0], parity, strategy, false), 0);
    });
    assert_eq!(number(min_depth_split(0)), 1);
    assert_eq!(min_depth_split(1), Ok(1));
}

#[test]
fn refusal_2_degree_above_the_limit() {
    let (long, last) = (vec![0; ONE_TOO_MANY], vec![0; ONE_TOO_MANY - 1]);
    let (long_f64, last_f64) = (vec![0.0; ONE_TOO_MANY], vec![0.0; ONE_TOO_MANY - 1]);
    in_every_setting(|basis, parity, strategy| {
        assert_eq!(plan(basis, &long, parity, strategy, false), 2);
        assert_eq!(plan(basis, &long, parity, strategy, true), 2);
        assert_eq!(plan(basis, &last, parity, strategy, false), 0);
        assert_eq!(lists(basis, &long, parity, strategy), 2);
        assert_eq!(lists(basis, &last, parity, strategy), 0);
        assert_eq!(lists(basis, &long_f64, parity, strategy), 2);
        assert_eq!(lists(basis, &last_f64, parity, strategy), 0);
        assert_eq!(fold(basis, &long, parity), 2);
        assert_eq!(fold(basis, &long_f64, parity), 2);
        for degree in [4096, LAST_U32, usize::MAX] {
            assert_eq!(number(bsgs_op_counts(degree, strategy, parity, basis)), 2);
            assert_eq!(number(min_mult_split(degree, parity, basis)), 2);
        }
        assert_eq!(number(bsgs_op_counts(4095, strategy, parity, basis)), 0);
        assert_eq!(number(min_mult_split(4095, parity, basis)), 0);
        for degree in [LAST_U32 + 1, usize::MAX] {
            assert_eq!(number(bsgs_eval_depth(degree, strategy)), 2);
            let bits = bsgs_consumed_bits(degree, strategy, parity, basis, 1, 1);
            assert_eq!(number(bits), 2);
        }
        assert_eq!(number(bsgs_eval_depth(LAST_U32, strategy)), 0);
        let bits = bsgs_consumed_bits(LAST_U32, strategy, parity, basis, 65_535, 65_535);
        assert_eq!(number(bits), 0);
    });
    assert_eq!(number(min_depth_split(LAST_U32 + 1)), 2);
    assert_eq!(number(min_depth_split(LAST_U32)), 0);
}

#[test]
fn refusal_3_magnitudes_above_the_limit() {
    let most = 1 << 30;
    in_every_setting(|basis, _, strategy| {
        assert_eq!(plan(basis, &[most, 0], Full, strategy, false), 0);
        for coeffs in [[most, 1], [-most, -1], [i64::MIN, 0], [i64::MIN, i64::MIN]] {
            assert_eq!(plan(basis, &coeffs, Full, strategy, false), 3);
            assert_eq!(lists(basis, &coeffs, Full, strategy), 3);
        }
        assert_eq!(plan(basis, &[most, 0, 0], Even, strategy, true), 0);
        assert_eq!(plan(basis, &[most, 0, 1], Even, strategy, true), 3);
        assert_eq!(fold(basis, &[most, 0, 1], Even), 3);
        assert_eq!(fold(basis, &[most, 0, 0], Even), 0);
    });
    // The fold of a whole polynomial may sum above the limit: the plan takes it, the list call of the fold doesn't.
    let p = polynomial(Chebyshev, &[0, 0, 0, most], Odd);
    assert_eq!(number(p.plan_folded(MinDepth)), 0);
    let folded = p.decompose_bsgs_folded_with(MinDepth, |_| Ok::<_, Refusal>(()));
    assert_eq!(number(folded), 3);
}

#[test]
fn refusal_4_against_the_parity() {
    for basis in BASES {
        for strategy in STRATEGIES {
            for fold in [false, true] {
                assert_eq!(plan(basis, &[1, 2, 3, 0], Even, strategy, fold), 4);
                assert_eq!(plan(basis, &[0, 2, 3, 4], Odd, strategy, fold), 4);
                assert_eq!(plan(basis, &[1, 0, 3, 0], Even, strategy, fold), 0);
                assert_eq!(plan(basis, &[0, 2, 0, 4], Odd, strategy, fold), 0);
            }
        }
        assert_eq!(fold(basis, &[1, 2, 3], Even), 4);
        assert_eq!(fold(basis, &[0.0, 2.0, f64::NAN, 4.0], Odd), 4);
        assert_eq!(fold(basis, &[-0.0, 2.0, -0.0, f64::NAN], Odd), 0);
    }
}

#[test]
fn refusal_5_fold_of_full() {
    for basis in BASES {
        for strategy in STRATEGIES {
            assert_eq!(plan(basis, &[1, 0, 3], Full, strategy, true), 5);
        }
        assert_eq!(fold(basis, &[1, 0, 3], Full), 5);
        assert_eq!(fold::<i64>(basis, &[], Full), 5);
        assert_eq!(fold(basis, &[1.0, 0.0, 3.0], Full), 5);
    }
}

#[test]
fn refusal_6_fold_of_low_degree() {
    for basis in BASES {
        for strategy in STRATEGIES {
            assert_eq!(plan(basis, &[1, 0], Even, strategy, true), 6);
            assert_eq!(plan(basis, &[0, 1], Odd, strategy, true), 6);
            assert_eq!(plan(basis, &[0, 1, 0], Odd, strategy, true), 6);
            assert_eq!(plan(basis, &[1, 0, 1], Even, strategy, true), 0);
            assert_eq!(plan(basis, &[0, 1, 0, 1], Odd, strategy, true), 0);
        }
        assert_eq!(fold::<i64>(basis, &[], Even), 6);
        assert_eq!(fold(basis, &[0.0, 1.0, 0.0], Odd), 6);
    }
}

#[test]
fn refusal_7_interval() {
    let nan = f64::NAN;
    for (a, b) in [
        (1.0, 1.0),
        (1.0, -1.0),
        (nan, 1.0),
        (-1.0, nan),
        (0.0, -0.0),
    ] {
        let none = Polynomial::chebyshev_interpolate(3, a, b, |_| panic!("called for no interval"));
        assert_eq!(number(none), 7);
        let mut out = [9.0; 1];
        let answer = chebyshev_interpolate_into(&[0.0], &[1.0], a, b, &mut out);
        assert_eq!((number(answer), out), (7, [9.0]));
    }
    let wide = Polynomial::chebyshev_interpolate(3, -1.0, f64::INFINITY, |x| x);
    assert_eq!(number(wide), 0);
}

#[test]
fn refusal_8_nodes_and_values() {
    let mut out = vec![9.0; ONE_TOO_MANY];
    let many = vec![0.5; ONE_TOO_MANY];
    for (nodes, values) in [(0, 0), (1, 0), (0, 1), (2, 1), (4097, 4097), (4096, 4097)] {
        let answer =
            chebyshev_interpolate_into(&many[..nodes], &many[..values], 1.0, 0.0, &mut out);
        assert_eq!(number(answer), 8);
    }
    assert!(out.iter().all(|&place| place == 9.0));
    let answer = chebyshev_interpolate_into(&many[1..], &many[1..], 0.0, 1.0, &mut out);
    assert_eq!(number(answer), 0);
    for degree in [4096, usize::MAX] {
        let none =
            Polynomial::chebyshev_interpolate(degree, 0.0, 1.0, |_| panic!("called for too many"));
        assert_eq!(number(none), 8);
    }
    let last = Polynomial::chebyshev_interpolate(4095, 0.0, 1.0, |x| x);
    assert_eq!(last.map(|p| p.degree()), Ok(4095));
}

#[test]
fn refusal_9_index() {
    for n in [0, 1, LAST_U32 + 1, usize::MAX] {
        assert_eq!(number(split_degree(n)), 9);
    }
    assert_eq!(split_degree(2), Ok((1, 1, 0)));
    assert_eq!(split_degree(LAST_U32), Ok(((1 << 31) - 1, 1 << 31, 1)));
}

#[test]
fn refusal_10_scales() {
    in_every_setting(|basis, parity, strategy| {
        let bits = |degree, input, coeff| {
            number(bsgs_consumed_bits(
                degree, strategy, parity, basis, input, coeff,
            ))
        };
        for degree in [0, 1, 4, LAST_U32] {
            assert_eq!(bits(degree, 65_536, 0), 10);
            assert_eq!(bits(degree, 0, 65_536), 10);
            assert_eq!(bits(degree, usize::MAX, usize::MAX), 10);
            assert_eq!(bits(degree, 65_535, 65_535), 0);
        }
    });
    let p = polynomial(Monomial, &[1, 0, 3], Even);
    let bsgs = p.decompose_bsgs_folded_with(MinMult, |_| Ok::<_, Refusal>(()));
    let bsgs = bsgs.expect("a fold of degree 1");
    assert_eq!(number(bsgs.consumed_bits(usize::MAX, 1)), 10);
    assert_eq!(bsgs.consumed_bits(65_535, 65_535), Ok(2 * 65_535));
    let plan = polynomial(Monomial, &[1, 2, 3], Full)
        .plan(MinDepth)
        .expect("a plan");
    for (input, coeff) in [(65_536, 0), (0, 65_536), (usize::MAX, usize::MAX)] {
        assert_eq!(number(plan.heaviest_chain(input, coeff)), 10);
        // 10 is tested ahead of 24.
        assert_eq!(
            number(heaviest_chain(plan.head(), &[], &[], &[], input, coeff)),
            10
        );
    }
    assert_eq!(plan.heaviest_chain(65_535, 65_535), Ok(2 * 65_535));
}

#[test]
fn refusal_11_modulus() {
    let plan = polynomial(Monomial, &[1, 2, 3], Full)
        .plan(MinDepth)
        .expect("a plan");
    for modulus in [0, 1, 2_147_483_648, u64::MAX] {
        assert_eq!(number(plan.walk(5, modulus)), 11);
        // 11 is tested ahead of 24.
        assert_eq!(
            number(trial_walk(plan.head(), &[], &[], &[], 5, modulus)),
            11
        );
    }
    for modulus in [2, 2_147_483_647] {
        assert_eq!(plan.walk(5, modulus), Ok(86 % modulus));
    }
}

#[test]
fn refusal_12_is_of_planlines_lines() {
    let refusal = Refusal::from_number(12).expect("a refusal");
    assert_eq!(refusal, Refusal::Line);
    assert!(refusal
        .to_string()
        .starts_with("refusal 12: the line does not have the form"));
}

#[test]
fn refusal_21_coefficient_buffer() {
    let mut out = [9; 4];
    let (mut boundaries, mut steps) = ([9; 8], [9; 64]);
    let folded = fold_parity_into(Even, Monomial, &[1, 0, 2], &mut out[..1]);
    assert_eq!(number(folded), 21);
    let folded = fold_parity_into(Odd, Chebyshev, &[0.0, 1.0, 0.0, 2.0], &mut []);
    assert_eq!(number(folded), 21);
    for strategy in STRATEGIES {
        let listed =
            decompose_bsgs_into(strategy, Full, Monomial, &[1, 2, 3], &mut out[..2], &mut []);
        assert_eq!(number(listed), 21);
        let listed =
            decompose_bsgs_into(strategy, Full, Monomial, &[1.0, 2.0], &mut [9.0], &mut []);
        assert_eq!(number(listed), 21);
        let buffers = PlanBuffers {
            coefficients: &mut out[..2],
            boundaries: &mut boundaries,
            steps: &mut steps,
        };
        let planned = plan_into(strategy, Full, Chebyshev, false, &[1, 2, 3], UNIT, buffers);
        assert_eq!(number(planned), 21);
    }
    let answer = chebyshev_interpolate_into(&[0.0, 1.0], &[1.0, 2.0], 0.0, 1.0, &mut [9.0]);
    assert_eq!(number(answer), 21);
    assert_eq!((out, boundaries, steps), ([9; 4], [9; 8], [9; 64]));
    // With folding the places of the fold are enough, and those beyond stay.
    let folded = fold_parity_into(Even, Monomial, &[1, 0, 2], &mut out);
    assert_eq!((number(folded), out), (0, [1, 2, 9, 9]));
}

#[test]
fn refusal_22_boundary_buffer() {
    let (mut out, mut boundaries, mut steps) = ([9; 8], [9; 4], [9; 64]);
    let listed = decompose_bsgs_into(
        MinMult,
        Full,
        Monomial,
        &[1, 2, 3],
        &mut out,
        &mut boundaries[..1],
    );
    assert_eq!(number(listed), 22);
    let mut floats = [9.0; 3];
    let listed = decompose_bsgs_into(MinMult, Full, Monomial, &[1.0; 3], &mut floats, &mut []);
    assert_eq!((number(listed), floats), (22, [9.0; 3]));
    let buffers = PlanBuffers {
        coefficients: &mut out,
        boundaries: &mut boundaries[..1],
        steps: &mut steps,
    };
    assert_eq!(
        number(plan_into(
            MinMult,
            Full,
            Monomial,
            false,
            &[1, 2, 3],
            UNIT,
            buffers
        )),
        22
    );
    assert_eq!((out, boundaries, steps), ([9; 8], [9; 4], [9; 64]));
    let listed = decompose_bsgs_into(
        MinMult,
        Full,
        Monomial,
        &[1, 2, 3],
        &mut out,
        &mut boundaries[..2],
    );
    assert_eq!((number(listed), boundaries), (0, [2, 3, 9, 9]));
}

#[test]
fn refusal_23_step_buffer() {
    let (mut out, mut boundaries, mut steps) = ([9; 8], [9; 4], [9; 32]);
    let mut planned = |places: usize| {
        let buffers = PlanBuffers {
            coefficients: &mut out,
            boundaries: &mut boundaries,
            steps: &mut steps[..places],
        };
        let answer = number(plan_into(
            MinDepth,
            Full,
            Monomial,
            false,
            &[1, 2, 3, 4, 5],
            UNIT,
            buffers,
        ));
        (answer, out, boundaries, steps)
    };
    for places in 0..24 {
        assert_eq!(planned(places), (23, [9; 8], [9; 4], [9; 32]));
    }
    let (answer, _, _, steps) = planned(24);
    assert_eq!(
        (answer, &steps[20..]),
        (0, &[4, 4, 0, 0, 9, 9, 9, 9, 9, 9, 9, 9][..])
    );
}

#[test]
fn refusal_24_a_plan_that_cannot_be_walked() {
    let plan = polynomial(Monomial, &[1, 2, 3, 4, 5], Full)
        .plan(MinDepth)
        .expect("a plan");
    let walk = |head: &Head, boundaries: &[u16], steps: &[u16]| {
        let coefficients = plan.coefficients();
        let walked = number(trial_walk(head, coefficients, boundaries, steps, 2, 100));
        // The heaviest chain is refused for the same reasons.
        let weighed = number(heaviest_chain(
            head,
            coefficients,
            boundaries,
            steps,
            30,
            20,
        ));
        assert_eq!(weighed, walked);
        walked
    };
    let (head, boundaries, steps) = (*plan.head(), plan.boundaries(), plan.step_numbers());
    assert_eq!(walk(&head, boundaries, steps), 0);
    let damaged = |place: usize, number: u16| {
        let mut steps = steps.to_vec();
        steps[place] = number;
        walk(&head, boundaries, &steps)
    };
    assert_eq!(damaged(0, 5), 24, "no step has kind 5");
    assert_eq!(damaged(1, 4096), 24, "a power above 4,095");
    assert_eq!(damaged(6, 2), 24, "parts that are not the split");
    assert_eq!(damaged(13, 2), 24, "there is no list 2");
    assert_eq!(damaged(14, 1), 24, "a third number that is not 0");
    assert_eq!(damaged(21, 5), 24, "power 5 was not made");
    assert_eq!(damaged(12, 3), 24, "a combine with nothing waiting");
    assert_eq!(
        walk(&head, boundaries, &steps[..23]),
        24,
        "fewer steps than the head says"
    );
    assert_eq!(
        walk(&head, &[4, 4], steps),
        24,
        "a boundary that does not rise"
    );
    assert_eq!(
        walk(&head, &[4, 6], steps),
        24,
        "a boundary above the coefficients"
    );
    assert_eq!(
        walk(&head, &[4], steps),
        24,
        "fewer boundaries than the head says"
    );
    let more = |head: Head| walk(&head, boundaries, steps);
    assert_eq!(
        more(Head {
            coefficients: 6,
            ..head
        }),
        24
    );
    assert_eq!(
        more(Head {
            lists: usize::MAX,
            ..head
        }),
        24
    );
    assert_eq!(
        more(Head {
            steps: usize::MAX,
            ..head
        }),
        24
    );
    assert_eq!(more(Head { steps: 5, ..head }), 24, "two values are left");
    assert_eq!(more(Head { steps: 0, ..head }), 24, "no value is left");
    assert_eq!(
        more(Head {
            degree: usize::MAX,
            depth: 0,
            ..head
        }),
        0,
        "fields that are not read"
    );
}

#[test]
fn numbers_and_sentences() {
    let numbers: Vec<u8> = Refusal::ALL
        .iter()
        .map(|refusal| refusal.number())
        .collect();
    assert_eq!(
        numbers,
        [1, 2, 3, 4, 5, 6, 7, 8, 9, 10, 11, 12, 21, 22, 23, 24, 31, 33, 34, 35, 36, 37, 38, 43]
    );
    let mut sentences: Vec<String> = Refusal::ALL.iter().map(ToString::to_string).collect();
    for (refusal, sentence) in Refusal::ALL.iter().zip(&sentences) {
        assert!(sentence.starts_with(&format!("refusal {}: ", refusal.number())));
        let error: Box<dyn Error + Send + Sync> = (*refusal).into();
        assert_eq!(error.to_string(), *sentence);
    }
    sentences.sort();
    sentences.dedup();
    assert_eq!(sentences.len(), Refusal::ALL.len());
    for other in (0..=u8::MAX).filter(|n| !numbers.contains(n)) {
        assert_eq!(Refusal::from_number(other), None);
    }
}
