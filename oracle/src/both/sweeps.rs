//! Every degree in every setting.

use super::call::*;
use crate::calls::{BASES, Basis, Form, PARITIES, Parity, STRATEGIES, SplitStrategy};
use crate::inputs::*;

/// Up to here every index is split.
const SPLITS: usize = 70_000;
const FORMS: [Form; 2] = [Form::Bits, Form::Whole];
/// The greatest modulus of a walk; a prime.
const MAX_MODULUS: u64 = (1 << 31) - 1;

pub fn splits(out: &mut Vec<Call>) {
    out.extend((0..=SPLITS).map(|n| bare(SplitDegree, n)));
}

/// All calls at one degree.
pub fn degree(g: &mut Rng, degree: usize, out: &mut Vec<Call>) {
    out.push(bare(MinDepthSplit, degree));
    for strategy in STRATEGIES {
        out.push(bare(EvalDepth, degree).at(Basis::Monomial, Parity::Full, strategy));
    }
    for basis in BASES {
        numbers(g, basis, degree, out);
        for parity in PARITIES {
            out.push(bare(MinMultSplit, degree).at(basis, parity, SplitStrategy::MinMult));
            for strategy in STRATEGIES {
                setting(g, (basis, parity, strategy), degree, out);
            }
        }
    }
    interpolation(g, degree, out);
}

pub fn bare(name: Name, degree: usize) -> Call {
    Call {
        degree,
        ..Call::new(name)
    }
}

/// Detection, folds and values.
fn numbers(g: &mut Rng, basis: Basis, degree: usize, out: &mut Vec<Call>) {
    for parity in PARITIES {
        for form in FORMS {
            let c = coefficients(g, form, parity, degree + 1);
            for name in [DetectParity, FoldParity] {
                out.push(Call::on(name, form, &c).at(basis, parity, SplitStrategy::MinDepth));
            }
        }
    }
    for name in [Evaluate, EvaluateOnInterval] {
        let c = floats(g, degree + 1);
        let call = Call::on(name, Form::Bits, &c);
        out.push(Call {
            basis,
            x: unit(g),
            ends: (unit(g) - 1.0, unit(g) + 1.0),
            ..call
        });
    }
}

type Setting = (Basis, Parity, SplitStrategy);

fn setting(g: &mut Rng, setting: Setting, degree: usize, out: &mut Vec<Call>) {
    let (basis, parity, strategy) = setting;
    let here = |call: Call| call.at(basis, parity, strategy);
    out.push(here(bare(OpCounts, degree)));
    for _ in 0..2 {
        let scales = scales(g);
        let call = here(bare(ConsumedBits, degree));
        out.push(Call { scales, ..call });
    }
    let floats = coefficients(g, Form::Bits, parity, degree + 1);
    let whole = coefficients(g, Form::Whole, parity, degree + 1);
    let folds = parity != Parity::Full;
    out.push(here(Call::on(Decompose, Form::Bits, &floats)));
    out.push(here(Call::on(Decompose, Form::Whole, &whole)));
    if folds {
        out.push(here(Call::on(DecomposeFolded, Form::Bits, &floats)));
        // Small numbers: the fold stays within the limit on the sum, too.
        let small = shape_whole(parity, digits(g, degree + 1));
        out.push(here(Call::on(DecomposeFolded, Form::Whole, &small)));
    }
    for name in [Plan, PlanFolded] {
        if name == Plan || folds {
            let walks = walks(g);
            // All are accepted, so that each degree is planned in each setting.
            let ends = if g.one_in(4) {
                g.pick(&RISING)
            } else {
                (-1.0, 1.0)
            };
            let call = here(Call::on(name, Form::Whole, &whole));
            out.push(Call {
                walks,
                ends,
                ..call
            });
        }
    }
}

fn interpolation(g: &mut Rng, degree: usize, out: &mut Vec<Call>) {
    let call = Call::on(Interpolate, Form::Bits, &nodes(degree + 1));
    out.push(Call {
        values: floats(g, degree + 1),
        ..call
    });
}

pub fn coefficients(g: &mut Rng, form: Form, parity: Parity, n: usize) -> Vec<f64> {
    match form {
        Form::Bits => {
            let c = floats(g, n);
            shape(g, parity, c)
        }
        Form::Whole => whole(g, parity, n),
    }
}

pub fn scales(g: &mut Rng) -> (usize, usize) {
    let mut scale = || match g.below(4) {
        0 => g.pick(&[0, 1, MAX_SCALE - 1, MAX_SCALE]),
        1 => g.below(MAX_SCALE + 1),
        _ => g.below(100),
    };
    (scale(), scale())
}

/// A small modulus, the greatest one and two random ones; small points, the ends of i64 and random ones.
pub fn walks(g: &mut Rng) -> Vec<(i64, u64)> {
    let end = g.pick(&[i64::MIN, i64::MAX, -1, 0, 1, 2]);
    vec![
        (g.next() as i64, MAX_MODULUS),
        (g.next() as i64, 2 + g.next() % (MAX_MODULUS - 1)),
        (end, 2 + g.next() % (MAX_MODULUS - 1)),
        (g.next() as i64, 2 + g.next() % 1_000),
    ]
}
