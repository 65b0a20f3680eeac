//! Which refusal docs/RULES.md gives an input, and whether the published code refuses it too.

use super::call::*;
use crate::calls::{Basis, Form, Parity};
use crate::inputs::{MAX_BARE, MAX_DEGREE, MAX_SCALE, MAX_SUM, wrong};

/// A refusal.
#[derive(Clone, Copy)]
pub enum Refusal {
    /// The published code refuses it too.
    Both(u8),
    /// A limit of ours: the published code is not asked.
    Ours(u8),
}

use Refusal::*;

pub fn refusal(call: &Call) -> Option<Refusal> {
    let (degree, scales) = (call.degree, call.scales);
    let tests = match call.name {
        SplitDegree => vec![(degree > MAX_BARE, Ours(9)), (degree < 2, Both(9))],
        MinDepthSplit => vec![(degree > MAX_BARE, Ours(2)), (degree == 0, Both(1))],
        MinMultSplit | OpCounts => vec![(degree > MAX_DEGREE, Ours(2))],
        EvalDepth => vec![(degree > MAX_BARE, Ours(2))],
        ConsumedBits => vec![
            (degree > MAX_BARE, Ours(2)),
            (scales.0.max(scales.1) > MAX_SCALE, Ours(10)),
        ],
        DetectParity | Evaluate | EvaluateOnInterval | ChangeOfBasis => vec![],
        Interpolate => interpolation(call),
        FoldParity => folding(call),
        DecomposeFolded => [folding(call), vec![(fold_is_large(call), Ours(3))]].concat(),
        Decompose => [length(call), vec![large(call)]].concat(),
        Plan => [
            length(call),
            vec![
                (spoilt(call), Ours(4)),
                large(call),
                (!rises(call), Ours(7)),
            ],
        ]
        .concat(),
        PlanFolded => [length(call), folding(call), vec![(!rises(call), Ours(7))]].concat(),
    };
    tests.into_iter().find(|t| t.0).map(|t| t.1)
}

type Test = (bool, Refusal);

fn length(call: &Call) -> Vec<Test> {
    let n = call.c.len();
    vec![(n > MAX_DEGREE + 1, Ours(2)), (n < 2, Both(1))]
}

fn large(call: &Call) -> Test {
    (
        call.form == Form::Whole && sum(&call.c) > MAX_SUM as f64,
        Ours(3),
    )
}

fn folding(call: &Call) -> Vec<Test> {
    let n = call.c.len();
    let least = if call.parity == Parity::Even { 3 } else { 4 };
    vec![
        (n > MAX_DEGREE + 1, Ours(2)),
        (call.parity == Parity::Full, Both(5)),
        (n < least, Both(6)),
        (spoilt(call), Both(4)),
        large(call),
    ]
}

fn interpolation(call: &Call) -> Vec<Test> {
    let (u, v) = (call.c.len(), call.values.len());
    vec![
        (u != v || u == 0 || u > MAX_DEGREE + 1, Ours(8)),
        (!rises(call), Both(7)),
    ]
}

/// Whether the lower end is below the upper one; no NaN is.
fn rises(call: &Call) -> bool {
    call.ends.0 < call.ends.1
}

/// Whether a place that the parity does not allow has another number than zero.
fn spoilt(call: &Call) -> bool {
    let mut places = call.c.iter().enumerate();
    places.any(|(i, &x)| wrong(call.parity, i) && x != 0.0)
}

/// Exact: the sums here are whole and far below 2^53.
fn sum(c: &[f64]) -> f64 {
    c.iter().map(|x| x.abs()).sum()
}

/// Folded lists of whole coefficients are two calls of ours, and the second has the limit again. A plan is one.
fn fold_is_large(call: &Call) -> bool {
    if call.form == Form::Bits || (call.basis, call.parity) != (Basis::Chebyshev, Parity::Odd) {
        return false;
    }
    let odd: Vec<f64> = call.c.iter().skip(1).step_by(2).copied().collect();
    let (mut rest, mut folded) = (0.0, vec![]);
    for c in odd.iter().rev() {
        rest = c - rest;
        folded.push(2.0 * rest);
    }
    sum(&folded) - rest.abs() > MAX_SUM as f64
}
