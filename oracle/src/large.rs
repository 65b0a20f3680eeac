//! Large recordings with the same file names as the committed ones, for the comparison outside the
//! gate: the calls on a degree for every degree up to 4,095, and random calls of every kind.

use std::path::Path;

use crate::calls::{BASES, Form, PARITIES, Parity, STRATEGIES};
use crate::inputs::*;
use crate::{Rec, gate, recording};

/// About `count` calls in all.
pub fn record(dir: &Path, count: u64, seed: u64) {
    let share = |percent: u64| count * percent / 100;
    recording(dir, "number.tsv", |r| {
        let g = &mut Rng::new(seed);
        (0..=MAX_DEGREE).for_each(|n| r.split_degree(n));
        while r.lines < share(25) {
            r.split_degree(bare_degree(g));
        }
        let g = &mut Rng::new(seed ^ 1 << 32);
        (0..share(30)).for_each(|_| number(r, g));
    });
    recording(dir, "counts.tsv", |r| {
        let g = &mut Rng::new(seed ^ 2 << 32);
        for degree in 0..=MAX_DEGREE {
            gate::settings(r, degree);
            gate::bare(r, g, degree);
        }
        while r.lines < share(30) {
            let degree = bare_degree(g);
            gate::bare(r, g, degree);
        }
    });
    recording(dir, "lists.tsv", |r| {
        let g = &mut Rng::new(seed ^ 3 << 32);
        (1..=MAX_DEGREE).for_each(|degree| lists_of(r, g, degree));
        (0..share(13)).for_each(|_| list(r, g));
    });
    recording(dir, "plans.tsv", |r| {
        let g = &mut Rng::new(seed ^ 4 << 32);
        (0..share(2)).for_each(|_| plan(r, g));
        (1..=MAX_DEGREE).for_each(|degree| gate::plan_values_of(r, g, degree, 7));
        let g = &mut Rng::new(seed ^ 5 << 32);
        (0..share(1)).for_each(|_| gate::any_plan_interval(r, g));
    });
}

fn number(r: &mut Rec, g: &mut Rng) {
    let (basis, parity) = (g.pick(&BASES), g.pick(&PARITIES));
    let n = length(g, MAX_DEGREE + 1);
    match g.below(16) {
        0 | 1 => {
            let c = symmetric(g, parity, n);
            r.parity(Form::Bits, &c)
        }
        2 | 3 => {
            let c = symmetric_whole(g, parity, n);
            r.parity(Form::Whole, &c)
        }
        4..=6 => {
            let parity = foldable(g);
            let c = symmetric(g, parity, n);
            r.fold_parity(Form::Bits, basis, parity, &c)
        }
        7..=9 => {
            let parity = foldable(g);
            let c = symmetric_whole(g, parity, n);
            r.fold_parity(Form::Whole, basis, parity, &c)
        }
        10..=12 => {
            let c = floats(g, n);
            let kind = g.pick(&[1, 1, 3, 4]);
            r.evaluate(basis, &c, float(g, kind))
        }
        13 | 14 => {
            let ends = floats(g, 2);
            r.change_of_basis(basis, ends[0], ends[1])
        }
        _ => {
            let n = length(g, 300).max(1);
            let u = if g.one_in(2) { nodes(n) } else { floats(g, n) };
            let v = floats(g, n);
            let ends = if g.one_in(4) {
                floats(g, 2)
            } else {
                vec![-1.0, 1.0]
            };
            r.interpolate(ends[0], ends[1], &u, &v)
        }
    }
}

/// One degree in every basis and strategy, on small whole numbers so that the file stays short, and once on f64.
fn lists_of(r: &mut Rec, g: &mut Rng, degree: usize) {
    for basis in BASES {
        for strategy in STRATEGIES {
            let c: Vec<f64> = (0..=degree).map(|_| g.below(7) as f64 - 3.0).collect();
            r.decompose(Form::Whole, basis, g.pick(&PARITIES), strategy, &c);
        }
    }
    let c = floats(g, degree + 1);
    let (basis, parity, strategy) = (g.pick(&BASES), g.pick(&PARITIES), g.pick(&STRATEGIES));
    r.decompose(Form::Bits, basis, parity, strategy, &c);
}

fn list(r: &mut Rec, g: &mut Rng) {
    let (basis, parity, strategy) = (g.pick(&BASES), g.pick(&PARITIES), g.pick(&STRATEGIES));
    let n = length(g, MAX_DEGREE + 1);
    match g.below(3) {
        0 => {
            let c = floats(g, n);
            r.decompose(Form::Bits, basis, parity, strategy, &c)
        }
        1 => {
            let shape = g.pick(&PARITIES);
            let c = whole(g, shape, n);
            r.decompose(Form::Whole, basis, parity, strategy, &c)
        }
        _ => {
            let parity = foldable(g);
            let c = symmetric(g, parity, n);
            r.decompose_folded(Form::Bits, basis, parity, strategy, &c)
        }
    }
}

fn plan(r: &mut Rec, g: &mut Rng) {
    let (basis, strategy) = (g.pick(&BASES), g.pick(&STRATEGIES));
    let n = length(g, MAX_DEGREE + 1);
    let parity = foldable(g);
    let c = symmetric_whole(g, parity, n);
    r.decompose_folded(Form::Whole, basis, parity, strategy, &c)
}

/// A fold refuses `Full` unseen, so it is rare.
pub fn foldable(g: &mut Rng) -> Parity {
    if g.one_in(20) {
        Parity::Full
    } else {
        g.pick(&[Parity::Even, Parity::Odd])
    }
}

pub fn symmetric(g: &mut Rng, parity: Parity, n: usize) -> Vec<f64> {
    let c = floats(g, n);
    let mut c = shape(g, parity, c);
    let x = float(g, 3);
    spoil(g, &mut c, x);
    c
}

pub fn symmetric_whole(g: &mut Rng, parity: Parity, n: usize) -> Vec<f64> {
    let mut c = whole(g, parity, n);
    // Only where the limit on the sum leaves room for one more.
    if c.iter().map(|x| x.abs()).sum::<f64>() < MAX_SUM as f64 {
        spoil(g, &mut c, 1.0);
    }
    c
}
