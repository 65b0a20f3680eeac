//! Random calls of every name, from a seed.

use super::call::*;
use super::sweeps::{bare, scales, walks};
use crate::calls::{BASES, Form, PARITIES, STRATEGIES};
use crate::inputs::*;
use crate::large::{foldable, symmetric, symmetric_whole};

/// A random call, now and then outside our limits.
pub fn call(g: &mut Rng) -> Call {
    let name = NAMES[g.below(NAMES.len())].0;
    let call = match name {
        SplitDegree | MinDepthSplit | EvalDepth | ConsumedBits => {
            let limit = MAX_BARE;
            bare(name, outside(g, limit).unwrap_or_else(|| bare_degree(g)))
        }
        MinMultSplit | OpCounts => {
            let low = length(g, MAX_DEGREE + 1).saturating_sub(1);
            bare(name, outside(g, MAX_DEGREE).unwrap_or(low))
        }
        ChangeOfBasis => Call::new(name),
        Interpolate => interpolation(g),
        _ => on_coefficients(g, name),
    };
    // A fold refuses `Full` unseen, so it is rare; the coefficients have got their parity by now.
    let parity = match name {
        FoldParity | DecomposeFolded | Plan | PlanFolded => call.parity,
        _ => g.pick(&PARITIES),
    };
    let scales = match name {
        ConsumedBits if g.one_in(200) => (MAX_SCALE + g.below(3), g.below(100)),
        _ => scales(g),
    };
    let call = call.at(g.pick(&BASES), parity, g.pick(&STRATEGIES));
    Call {
        scales,
        ..ends(g, call)
    }
}

/// A number just above a limit, or far above it; mostly none.
fn outside(g: &mut Rng, limit: usize) -> Option<usize> {
    let above = limit
        + 1
        + if g.one_in(2) {
            g.below(3)
        } else {
            g.below(1 << 40)
        };
    g.one_in(200).then_some(above)
}

fn on_coefficients(g: &mut Rng, name: Name) -> Call {
    let folds = matches!(name, FoldParity | DecomposeFolded | PlanFolded);
    let parity = if folds {
        foldable(g)
    } else {
        g.pick(&PARITIES)
    };
    let n = if g.one_in(2_000) {
        MAX_DEGREE + 2 + g.below(3)
    } else {
        length(g, MAX_DEGREE + 1)
    };
    let plans = matches!(name, Plan | PlanFolded);
    let values = matches!(name, Evaluate | EvaluateOnInterval);
    let form = if plans || !values && g.one_in(2) {
        Form::Whole
    } else {
        Form::Bits
    };
    let mut c = match form {
        Form::Whole => symmetric_whole(g, parity, n),
        // Lists and values take every number on every place.
        Form::Bits if values || name == Decompose => floats(g, n),
        Form::Bits => symmetric(g, parity, n),
    };
    if form == Form::Whole && n > 0 && g.one_in(200) {
        c[g.below(n)] = (MAX_SUM + 1) as f64;
    }
    let kind = g.pick(&[1, 1, 3, 4]);
    Call {
        parity,
        x: float(g, kind),
        walks: if plans { walks(g) } else { vec![] },
        ..Call::on(name, form, &c)
    }
}

fn interpolation(g: &mut Rng) -> Call {
    let n = length(g, 300);
    let c = if g.one_in(2) { nodes(n) } else { floats(g, n) };
    let other = if g.one_in(100) { n + 1 } else { n };
    Call {
        values: floats(g, other),
        ..Call::on(Interpolate, Form::Bits, &c)
    }
}

/// The interval; whole numbers where the coefficients are, but for a plan.
fn ends(g: &mut Rng, call: Call) -> Call {
    if matches!(call.name, Plan | PlanFolded) {
        let ends = interval(g);
        return Call { ends, ..call };
    }
    let random = match call.name {
        ChangeOfBasis => true,
        EvaluateOnInterval | Interpolate | Decompose | DecomposeFolded => g.one_in(4),
        _ => false,
    };
    let two = match call.form {
        _ if !random => vec![-1.0, 1.0],
        Form::Whole => digits(g, 2),
        Form::Bits => floats(g, 2),
    };
    Call {
        ends: (two[0], two[1]),
        ..call
    }
}
