//! The published planner's answer.

use std::cell::Cell;

use super::call::*;
use super::rules::{Refusal, refusal};
use crate::calls::{Basis, Form, Parity, SplitStrategy, ask, bit_len};
use crate::layouts::polynomial_evaluation as rust;
use crate::split::parts;
use crate::walked::{moved, slices};

/// Its answer in words. If it refuses, and where only we do, the number is that of docs/RULES.md.
pub fn answer(call: &Call) -> Answer {
    let number = match refusal(call) {
        Some(Refusal::Ours(number)) => return Answer::Refused(number),
        Some(Refusal::Both(number)) => number,
        None => 0,
    };
    let mut w = Words::default();
    match ask(|| say(call, &mut w)) {
        Some(()) => Answer::Said(w.0),
        None => Answer::Refused(number),
    }
}

fn say(call: &Call, w: &mut Words) -> anyhow::Result<()> {
    let (basis, parity, strategy) = (call.basis, call.parity, call.strategy);
    let (degree, form) = (call.degree, call.form);
    match call.name {
        SplitDegree => {
            // Two numbers of the Rust, and their absolute difference, which it does not answer.
            let (a, b, distance) = parts(degree);
            w.numbers(&[a, b, distance]);
        }
        MinDepthSplit => w.number(rust::min_depth_split(bit_len(degree))),
        MinMultSplit => w.number(rust::min_mult_split(degree, parity, basis)),
        OpCounts => {
            let (ct, pt) = rust::bsgs_op_counts(degree, strategy, parity, basis);
            w.numbers(&[ct, pt]);
        }
        EvalDepth => w.number(rust::bsgs_eval_depth(degree, strategy)),
        ConsumedBits => {
            let (input, coeff) = call.scales;
            let bits = rust::bsgs_consumed_bits(degree, strategy, parity, basis, input, coeff);
            w.number(bits)
        }
        DetectParity => w.number(rust::Polynomial::new(basis, call.c.clone()).parity as usize),
        FoldParity => {
            let (folded, transform) = polynomial(call).fold_parity()?;
            w.numbers(&[transform as usize, folded.parity as usize]);
            w.number(folded.coeffs.len());
            folded.coeffs.iter().for_each(|&x| w.by_form(form, x));
        }
        Evaluate => w.float(rust::evaluate_coeffs(basis, &call.c, call.x)),
        EvaluateOnInterval => w.float(polynomial(call).evaluate_on_interval(call.x)),
        ChangeOfBasis => {
            let (u, v) = rust::change_of_basis(basis, call.ends.0, call.ends.1);
            w.floats(&[u, v]);
        }
        Interpolate => interpolate(call, w)?,
        Decompose | Plan => {
            let copy = |list: &[f64]| Ok(list.to_vec());
            lists(
                call,
                &polynomial(call).decompose_bsgs_with(strategy, copy)?,
                w,
            )
        }
        DecomposeFolded | PlanFolded => {
            let copy = |list: &[f64]| Ok(list.to_vec());
            let lists_of_fold = polynomial(call).decompose_bsgs_folded_with(strategy, copy)?;
            lists(call, &lists_of_fold, w)
        }
    }
    Ok(())
}

fn polynomial(call: &Call) -> rust::Polynomial<f64> {
    rust::Polynomial::new_with_parity(call.basis, call.c.clone(), call.parity)
        .with_interval(call.ends.0, call.ends.1)
}

/// The head, the boundaries, the lists, the interval with its pair; for a plan its counts and its values too.
fn lists(call: &Call, cut: &rust::BSGSPolynomial<Vec<f64>>, w: &mut Words) {
    w.number(cut.basis() as usize);
    w.number(cut.parity() as usize);
    w.number(cut.input_transform() as usize);
    w.numbers(&[cut.degree(), cut.base(), cut.eval_depth()]);
    w.number(cut.baby_steps().len());
    let mut end = 0;
    for list in cut.baby_steps() {
        end += list.len();
        w.number(end);
    }
    let numbers = cut.baby_steps().iter().flatten();
    numbers.for_each(|&x| w.by_form(call.form, x));
    let ((u, v), (a, b)) = (cut.change_of_basis(), cut.interval());
    w.floats(&[u, v, a, b]);
    match call.name {
        Plan | PlanFolded => {
            counts(call.strategy, cut, w);
            let value = |&(x, m): &(i64, u64)| value(call.basis, &call.c, x, m);
            let values = call.walks.iter().map(value);
            values.for_each(|v| w.number(v as usize));
        }
        _ => {
            w.number(cut.log_split());
            w.number(cut.consumed_bits(call.scales.0, call.scales.1));
        }
    }
}

/// The pair that a plan reports: the published estimate, which leaves relisting and the transform out, with both put in, and with the
/// multiplication of a last list of one moved.
fn counts(strategy: SplitStrategy, cut: &rust::BSGSPolynomial<Vec<f64>>, w: &mut Words) {
    let (ct, pt) = rust::bsgs_op_counts(cut.degree(), strategy, cut.parity(), cut.basis());
    let more = cut.baby_steps().len() - slices(cut.degree(), cut.base());
    let less = if cut.parity() == Parity::Odd { 0 } else { more };
    let transform = cut.eval_depth() - rust::bsgs_eval_depth(cut.degree(), strategy);
    let lengths: Vec<usize> = cut.baby_steps().iter().map(|l| l.len()).collect();
    let moved = moved(cut.degree(), &lengths);
    w.number(ct + more + transform - moved);
    w.number(pt - less + moved);
}

/// The remainder of the sum of c_j times power j at the point, exact: a modulus is below 2^31.
pub fn value(basis: Basis, c: &[f64], point: i64, modulus: u64) -> u64 {
    let m = modulus as i64;
    let x = point.rem_euclid(m);
    let (mut power, mut next, mut sum) = (1 % m, x, 0);
    for &c in c {
        sum = (sum + (c as i64).rem_euclid(m) * power) % m;
        let later = match basis {
            Basis::Monomial => x * next % m,
            Basis::Chebyshev => (2 * x * next % m - power).rem_euclid(m),
        };
        (power, next) = (next, later);
    }
    sum as u64
}

/// The published loop asks for a node and then for its value, k = n down to 1.
fn interpolate(call: &Call, w: &mut Words) -> anyhow::Result<()> {
    let (nodes, values) = (Cell::new(0), Cell::new(0));
    let node = |_| call.c[nodes.replace(nodes.get() + 1)];
    let value = |_| call.values[values.replace(values.get() + 1)];
    let (a, b) = call.ends;
    let degree = call.c.len() - 1;
    let p = rust::Polynomial::chebyshev_interpolate_with_cos(degree, a, b, value, node)?;
    assert_eq!((nodes.get(), values.get()), (degree + 1, degree + 1));
    w.number(p.coeffs.len());
    p.coeffs.iter().for_each(|&x| w.by_form(Form::Bits, x));
    w.number(p.parity as usize);
    let ((u, v), (a, b)) = (p.change_of_basis(), p.interval());
    w.floats(&[a, b, u, v]);
    Ok(())
}
