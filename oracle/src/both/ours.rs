//! The proved library's answer, through the crate in bindings/rust.

use firrozun::buffers::{
    Listed, chebyshev_interpolate_into, decompose_bsgs_into, fold_parity_into,
};
use firrozun::{self as lib, Coefficient, Polynomial, PolynomialInputTransform, Refusal};

use super::call::*;
use crate::calls::{Basis, Form, Parity, SplitStrategy};

pub fn answer(call: &Call) -> Answer {
    let mut w = Words::default();
    match say(call, &mut w) {
        Ok(()) => Answer::Said(w.0),
        Err(refusal) => Answer::Refused(refusal.number()),
    }
}

fn say(call: &Call, w: &mut Words) -> Result<(), Refusal> {
    let (basis, parity, strategy) = kinds(call);
    let degree = call.degree;
    match call.name {
        SplitDegree => {
            let (a, b, distance) = lib::split_degree(degree)?;
            w.numbers(&[a, b, distance]);
        }
        MinDepthSplit => w.number(lib::min_depth_split(degree)?),
        MinMultSplit => w.number(lib::min_mult_split(degree, parity, basis)?),
        OpCounts => {
            let (ct, pt) = lib::bsgs_op_counts(degree, strategy, parity, basis)?;
            w.numbers(&[ct, pt]);
        }
        EvalDepth => w.number(lib::bsgs_eval_depth(degree, strategy)?),
        ConsumedBits => {
            let (input, coeff) = call.scales;
            let bits = lib::bsgs_consumed_bits(degree, strategy, parity, basis, input, coeff)?;
            w.number(bits)
        }
        DetectParity => match call.form {
            Form::Bits => w.number(lib::detect_parity(&call.c) as usize),
            Form::Whole => w.number(lib::detect_parity(&call.whole()) as usize),
        },
        FoldParity => match call.form {
            Form::Bits => fold(call, &call.c, 0.0, w, Words::float)?,
            Form::Whole => fold(call, &call.whole(), 0, w, Words::whole)?,
        },
        Evaluate => w.float(lib::evaluate_coeffs(basis, &call.c, call.x)),
        EvaluateOnInterval => {
            let p = Polynomial::new_with_parity(basis, call.c.clone(), parity);
            let p = p.with_interval(call.ends.0, call.ends.1);
            w.float(p.evaluate_on_interval(call.x))
        }
        ChangeOfBasis => {
            let (u, v) = lib::change_of_basis(basis, call.ends.0, call.ends.1);
            w.floats(&[u, v]);
        }
        Interpolate => interpolate(call, w)?,
        Decompose => match call.form {
            Form::Bits => lists(call, &call.c, 0.0, w, Words::float)?,
            Form::Whole => lists(call, &call.whole(), 0, w, Words::whole)?,
        },
        DecomposeFolded => match call.form {
            Form::Bits => folded_lists(call, call.c.clone(), call.ends, w, Words::float)?,
            Form::Whole => {
                let ends = (call.ends.0 as i64, call.ends.1 as i64);
                folded_lists(call, call.whole(), ends, w, Words::whole)?
            }
        },
        Plan => plan(call, false, w)?,
        PlanFolded => plan(call, true, w)?,
    }
    Ok(())
}

fn kinds(call: &Call) -> (lib::Basis, lib::Parity, lib::SplitStrategy) {
    kinds_of(call.basis, call.parity, call.strategy)
}

/// The library's kinds for the published ones.
pub fn kinds_of(
    basis: Basis,
    parity: Parity,
    strategy: SplitStrategy,
) -> (lib::Basis, lib::Parity, lib::SplitStrategy) {
    let basis = match basis {
        Basis::Monomial => lib::Basis::Monomial,
        Basis::Chebyshev => lib::Basis::Chebyshev,
    };
    let parity = match parity {
        Parity::Full => lib::Parity::Full,
        Parity::Even => lib::Parity::Even,
        Parity::Odd => lib::Parity::Odd,
    };
    let strategy = match strategy {
        SplitStrategy::MinDepth => lib::SplitStrategy::MinDepth,
        SplitStrategy::MinMult => lib::SplitStrategy::MinMult,
    };
    (basis, parity, strategy)
}

fn fold<F: Coefficient>(
    call: &Call,
    c: &[F],
    zero: F,
    w: &mut Words,
    put: fn(&mut Words, F),
) -> Result<(), Refusal> {
    let (basis, parity, _) = kinds(call);
    let mut out = vec![zero; c.len()];
    let folded = fold_parity_into(parity, basis, c, &mut out)?;
    w.numbers(&[folded.transform as usize, folded.parity as usize]);
    w.number(folded.count);
    out.iter().take(folded.count).for_each(|&x| put(w, x));
    Ok(())
}

/// By the call on lent buffers, which has the boundaries.
fn lists<F: Coefficient>(
    call: &Call,
    c: &[F],
    zero: F,
    w: &mut Words,
    put: fn(&mut Words, F),
) -> Result<(), Refusal> {
    let (basis, parity, strategy) = kinds(call);
    let mut out = vec![zero; c.len()];
    let mut ends = vec![0; c.len()];
    let cut: Listed = decompose_bsgs_into(strategy, parity, basis, c, &mut out, &mut ends)?;
    w.numbers(&[basis as usize, parity as usize, 0]);
    let depth = lib::bsgs_eval_depth(cut.degree, strategy)?;
    w.numbers(&[cut.degree, cut.base, depth, cut.lists]);
    ends.iter()
        .take(cut.lists)
        .for_each(|&n| w.number(n.into()));
    out.iter().take(cut.coefficients).for_each(|&x| put(w, x));
    let (u, v) = lib::change_of_basis(basis, call.ends.0, call.ends.1);
    w.floats(&[u, v, call.ends.0, call.ends.1]);
    w.number(cut.base.ilog2() as usize);
    let (input, coeff) = call.scales;
    let bits = lib::bsgs_consumed_bits(cut.degree, strategy, parity, basis, input, coeff)?;
    w.number(bits);
    Ok(())
}

/// By the crate's polynomial.
fn folded_lists<F: Coefficient>(
    call: &Call,
    c: Vec<F>,
    ends: (F, F),
    w: &mut Words,
    put: fn(&mut Words, F),
) -> Result<(), Refusal> {
    let (basis, parity, strategy) = kinds(call);
    let p = Polynomial::new_with_parity(basis, c, parity).with_interval(ends.0, ends.1);
    let cut = p.decompose_bsgs_folded_with(strategy, |l| Ok::<_, Refusal>(l.to_vec()))?;
    let (basis, parity) = (cut.basis() as usize, cut.parity() as usize);
    w.numbers(&[basis, parity, cut.input_transform() as usize]);
    let lists = cut.baby_steps();
    w.numbers(&[cut.degree(), cut.base(), cut.eval_depth(), lists.len()]);
    let mut end = 0;
    for list in lists {
        end += list.len();
        w.number(end);
    }
    lists.iter().flatten().for_each(|&x| put(w, x));
    let ((u, v), (a, b)) = (cut.change_of_basis(), cut.interval());
    w.floats(&[u, v, a, b]);
    w.number(cut.log_split());
    w.number(cut.consumed_bits(call.scales.0, call.scales.1)?);
    Ok(())
}

fn plan(call: &Call, fold: bool, w: &mut Words) -> Result<(), Refusal> {
    let (basis, parity, strategy) = kinds(call);
    let plan = lib::Plan::on_interval(basis, &call.whole(), parity, strategy, fold, call.ends)?;
    let head = plan.head();
    assert_eq!(head.strategy, strategy, "the head's strategy");
    let transform: PolynomialInputTransform = head.transform;
    let kinds = [
        head.basis as usize,
        head.parity as usize,
        transform as usize,
    ];
    w.numbers(&kinds);
    w.numbers(&[head.degree, head.base, head.depth, head.lists]);
    plan.boundaries().iter().for_each(|&n| w.number(n.into()));
    plan.coefficients().iter().for_each(|&x| w.whole(x));
    let lib::Interval { a, b, u, w: v } = head.interval;
    w.floats(&[u, v, a, b]);
    w.numbers(&[head.ct_ct, head.pt_ct]);
    for &(point, modulus) in &call.walks {
        w.number(plan.walk(point, modulus)? as usize);
    }
    Ok(())
}

fn interpolate(call: &Call, w: &mut Words) -> Result<(), Refusal> {
    let (a, b) = call.ends;
    let mut out = vec![0.0; call.c.len()];
    let said = chebyshev_interpolate_into(&call.c, &call.values, a, b, &mut out)?;
    w.number(said.count);
    out.iter().take(said.count).for_each(|&x| w.float(x));
    w.number(said.parity as usize);
    let ((a, b), (u, v)) = (said.interval, said.change_of_basis);
    w.floats(&[a, b, u, v]);
    Ok(())
}
