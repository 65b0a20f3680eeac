//! The committed recordings: short inputs exhaustively, edges, special floats, random ones; each
//! file stays under 2 MB, so long inputs are few.

use std::path::Path;

use crate::calls::{BASES, Basis, Form, PARITIES, Parity, STRATEGIES, SplitStrategy};
use crate::inputs::*;
use crate::{Rec, budgets, chains, conversions, damaged, printed, rebuilds, recording, sets};

const SEED: u64 = 1;
const MAX_POINT: i64 = 999_999_999_999_999_999;
const FEW: [f64; 4] = [0.0, -0.0, 1.0, f64::NAN];
const SIGNS: [f64; 3] = [-1.0, 0.0, 1.0];
/// The examples that the scope works out: degrees 5 and 3.
const FIFTH: [f64; 6] = [1.0, 2.0, 3.0, 4.0, 5.0, 6.0];
const THIRD: [f64; 4] = [0.0, 1.0, 0.0, 2.0];
const SYMMETRIC: [Parity; 2] = [Parity::Even, Parity::Odd];

pub fn record(dir: &Path) {
    recording(dir, "number.tsv", |r| {
        split(r);
        parity(r);
        fold(r);
        fold_whole(r);
        evaluate(r);
        change_of_basis(r);
        interpolate(r);
    });
    recording(dir, "counts.tsv", |r| {
        counts(r);
        budgets::record(r);
    });
    recording(dir, "lists.tsv", |r| {
        lists_whole(r);
        lists(r);
        folded(r);
        rebuilds::record(r, &mut rng(14));
    });
    recording(dir, "plans.tsv", |r| {
        folded_whole(r);
        plan_values(r);
        damaged::plans(r);
        plan_intervals(r);
    });
    recording(dir, "sets.tsv", |r| sets::recorded::record(r, &mut rng(15)));
    recording(dir, "conversions.tsv", |r| {
        conversions::recorded::record(r, &mut rng(16))
    });
    printed::record(dir);
    chains::record(dir);
}

/// Every part starts from a seed of its own, so a change of one leaves the others alone.
fn rng(part: u64) -> Rng {
    Rng::new(SEED << 32 | part)
}

fn split(r: &mut Rec) {
    let mut g = rng(0);
    (0..=600).for_each(|n| r.split_degree(n));
    edges(MAX_BARE, 8)
        .into_iter()
        .filter(|&n| n > 600)
        .for_each(|n| r.split_degree(n));
    let random = std::iter::repeat_with(|| bare_degree(&mut g)).filter(|&n| n > 600);
    random.take(700).for_each(|n| r.split_degree(n));
}

fn parity(r: &mut Rec) {
    let g = &mut rng(1);
    for n in 0..=4 {
        all_lists(&FEW, n)
            .iter()
            .for_each(|c| r.parity(Form::Bits, c));
    }
    for n in 1..=2 {
        all_lists(&SPECIAL, n)
            .iter()
            .for_each(|c| r.parity(Form::Bits, c));
    }
    for k in 0..150 {
        let n = length(g, 130);
        let c = floats(g, n);
        let mut c = shape(g, PARITIES[k % 3], c);
        spoil(g, &mut c, f64::NAN);
        r.parity(Form::Bits, &c);
    }
    for (n, parity) in [(1_024, Parity::Even), (1_025, Parity::Odd)] {
        let c = floats(g, n);
        r.parity(Form::Bits, &shape(g, parity, c));
    }
    for n in 0..=5 {
        all_lists(&SIGNS, n)
            .iter()
            .for_each(|c| r.parity(Form::Whole, c));
    }
    for k in 0..150 {
        let n = length(g, 300);
        let mut c = whole(g, PARITIES[k % 3], n);
        // Detection has no limit on the sum: 2^59 has as many digits as a line may hold.
        spoil(g, &mut c, -((1i64 << 59) as f64));
        r.parity(Form::Whole, &c);
    }
    for n in [1_024, 4_095, 4_096, 5_000] {
        r.parity(Form::Whole, &one_place(n, n - 1, -1));
        r.parity(Form::Whole, &one_place(n, n - 2, 1));
    }
}

fn fold(r: &mut Rec) {
    let g = &mut rng(2);
    for basis in BASES {
        for parity in PARITIES {
            for n in 0..=3 {
                all_lists(&FEW, n)
                    .iter()
                    .for_each(|c| r.fold_parity(Form::Bits, basis, parity, c));
            }
        }
        for parity in SYMMETRIC {
            for n in 3..=12 {
                for kind in [3, 3, 5, 2, 6, 7] {
                    let c = (0..n).map(|_| float(g, kind)).collect();
                    let mut c = shape(g, parity, c);
                    spoil(g, &mut c, f64::from_bits(1));
                    r.fold_parity(Form::Bits, basis, parity, &c);
                }
            }
            for degree in edges(64, 0).into_iter().chain([121, 127, 128]) {
                let c = floats(g, degree + 1);
                r.fold_parity(Form::Bits, basis, parity, &shape(g, parity, c));
            }
        }
    }
    for degree in [255, 511, 1_023, MAX_DEGREE] {
        let c = (0..=degree).map(|_| float(g, 4)).collect();
        r.fold_parity(
            Form::Bits,
            Basis::Chebyshev,
            Parity::Odd,
            &shape(g, Parity::Odd, c),
        );
    }
}

fn fold_whole(r: &mut Rec) {
    let g = &mut rng(3);
    r.fold_parity(Form::Whole, Basis::Chebyshev, Parity::Odd, &THIRD);
    for basis in BASES {
        for parity in PARITIES {
            for n in 0..=4 {
                all_lists(&SIGNS, n)
                    .iter()
                    .for_each(|c| r.fold_parity(Form::Whole, basis, parity, c));
            }
        }
        for parity in SYMMETRIC {
            for n in 3..=71 {
                let mut c = shape_whole(parity, digits(g, n));
                spoil(g, &mut c, 1.0);
                r.fold_parity(Form::Whole, basis, parity, &c);
            }
            for degree in [2, 3, 4, 5, 8, 31, 64, 127] {
                r.fold_parity(
                    Form::Whole,
                    basis,
                    parity,
                    &spread(g, parity, degree + 1, MAX_SUM),
                );
                for at in [0, 1, degree / 2, degree - 1, degree] {
                    r.fold_parity(
                        Form::Whole,
                        basis,
                        parity,
                        &one_place(degree + 1, at, MAX_SUM),
                    );
                    r.fold_parity(
                        Form::Whole,
                        basis,
                        parity,
                        &one_place(degree + 1, at, -MAX_SUM),
                    );
                }
            }
            let top = if parity == Parity::Even {
                MAX_DEGREE - 1
            } else {
                MAX_DEGREE
            };
            for degree in [255, 511, top] {
                r.fold_parity(
                    Form::Whole,
                    basis,
                    parity,
                    &shape_whole(parity, digits(g, degree + 1)),
                );
            }
        }
    }
    let n = MAX_DEGREE + 1;
    r.fold_parity(
        Form::Whole,
        Basis::Chebyshev,
        Parity::Odd,
        &one_place(n, n - 1, MAX_SUM),
    );
    r.fold_parity(
        Form::Whole,
        Basis::Chebyshev,
        Parity::Odd,
        &spread(g, Parity::Odd, n, MAX_SUM),
    );
    r.fold_parity(
        Form::Whole,
        Basis::Chebyshev,
        Parity::Even,
        &one_place(n, n - 2, -MAX_SUM),
    );
}

fn evaluate(r: &mut Rec) {
    let g = &mut rng(4);
    r.evaluate(Basis::Chebyshev, &FIFTH, 2.0);
    r.evaluate(Basis::Chebyshev, &THIRD, 2.0);
    for basis in BASES {
        for x in SPECIAL {
            r.evaluate(basis, &[], x);
            SPECIAL.iter().for_each(|&c| r.evaluate(basis, &[c], x));
        }
        for _ in 0..150 {
            let c = [float(g, 3), float(g, 3)];
            r.evaluate(basis, &c, float(g, 3));
        }
        for n in 3..=14 {
            for kind in 0..KINDS {
                let c: Vec<f64> = (0..n).map(|_| float(g, kind)).collect();
                let x = if g.one_in(2) { unit(g) } else { float(g, kind) };
                r.evaluate(basis, &c, x);
            }
        }
        for degree in edges(128, 1) {
            let c = floats(g, degree + 1);
            r.evaluate(basis, &c, unit(g));
        }
    }
    // Evaluation has no limit on the degree.
    for (basis, n) in [(Basis::Monomial, 1_000), (Basis::Chebyshev, 5_000)] {
        let c: Vec<f64> = (0..n).map(|_| unit(g)).collect();
        r.evaluate(basis, &c, unit(g));
    }
}

fn change_of_basis(r: &mut Rec) {
    let g = &mut rng(5);
    for basis in BASES {
        for a in SPECIAL {
            SPECIAL.iter().for_each(|&b| r.change_of_basis(basis, a, b));
        }
        for _ in 0..200 {
            let ends = floats(g, 2);
            r.change_of_basis(basis, ends[0], ends[1]);
        }
    }
}

fn interpolate(r: &mut Rec) {
    let g = &mut rng(6);
    for a in SPECIAL {
        SPECIAL
            .iter()
            .for_each(|&b| r.interpolate(a, b, &[unit(g)], &[unit(g)]));
    }
    for u in SPECIAL {
        SPECIAL
            .iter()
            .for_each(|&v| r.interpolate(-1.0, 1.0, &[u], &[v]));
    }
    for n in 2..=6 {
        for kind in 0..KINDS {
            for _ in 0..4 {
                let u: Vec<f64> = (0..n).map(|_| float(g, kind)).collect();
                let v: Vec<f64> = (0..n).map(|_| float(g, kind)).collect();
                r.interpolate(-1.0, 1.0, &u, &v);
            }
        }
    }
    // Short nodes with few digits, symmetric: the sums are exact and a parity is found.
    for n in 1..=8 {
        let u: Vec<f64> = (0..n)
            .map(|i| (2.0 * i as f64 - (n - 1) as f64) / 8.0)
            .collect();
        let even: Vec<f64> = u.iter().map(|u| u * u).collect();
        let odd: Vec<f64> = u.iter().map(|u| u * u * u).collect();
        let minus: Vec<f64> = u.iter().map(|_| -0.0).collect();
        for v in [&even, &odd, &u, &minus, &vec![0.0; n], &vec![1.0; n]] {
            r.interpolate(-1.0, 1.0, &u, v);
            r.interpolate(1.0, 1.0, &u, v);
        }
    }
    // The nodes that an interpolation of a function has.
    for n in (1..=24).chain([32, 33, 64, 128]) {
        let u = nodes(n);
        let (a, b) = g.pick(&[(-1.0, 1.0), (0.0, 8.0), (-3.5, 0.25)]);
        let x = |u: f64| (a + b) * 0.5 + (b - a) * 0.5 * u;
        r.interpolate(
            a,
            b,
            &u,
            &u.iter()
                .map(|&u| 1.0 / (1.0 + 25.0 * x(u) * x(u)))
                .collect::<Vec<_>>(),
        );
        r.interpolate(
            a,
            b,
            &u,
            &u.iter().map(|&u| x(u) * x(u) * x(u)).collect::<Vec<_>>(),
        );
    }
    let u = nodes(4_096);
    let v: Vec<f64> = u.iter().map(|_| unit(g)).collect();
    r.interpolate(-1.0, 1.0, &u, &v);
}

fn counts(r: &mut Rec) {
    let g = &mut rng(7);
    let limited: Vec<usize> = (0..=600)
        .chain(edges(MAX_DEGREE, 4).into_iter().filter(|&d| d > 600))
        .collect();
    for &degree in &limited {
        settings(r, degree);
        bare(r, g, degree);
    }
    // Where MinMult's depth rises, and around each power of two.
    let rises = (1..=32).map(|b| (1usize << b) - (1usize << ((b - 1) / 2)) + 1);
    let mut wide: Vec<usize> = rises
        .flat_map(|d| [d - 1, d, d + 1])
        .chain(edges(MAX_BARE, 2))
        .collect();
    wide.extend((0..300).map(|_| bare_degree(g)));
    for degree in wide.into_iter().filter(|&d| d <= MAX_BARE) {
        bare(r, g, degree);
    }
    for degree in [
        0,
        1,
        2,
        3,
        4,
        5,
        6,
        7,
        8,
        15,
        31,
        4_095,
        4_096,
        MAX_BARE - 1,
        MAX_BARE,
    ] {
        for strategy in STRATEGIES {
            for input in [0, 1, 20, 30, 100, MAX_SCALE - 1, MAX_SCALE] {
                for coeff in [0, 1, 20, 30, 100, MAX_SCALE - 1, MAX_SCALE] {
                    r.bsgs_consumed_bits(degree, strategy, input, coeff);
                }
            }
        }
    }
}

/// The calls whose degree is at most 4,095, in all settings.
pub fn settings(r: &mut Rec, degree: usize) {
    for basis in BASES {
        for parity in PARITIES {
            r.min_mult_split(degree, parity, basis);
            STRATEGIES
                .iter()
                .for_each(|&s| r.bsgs_op_counts(degree, s, parity, basis));
        }
    }
}

/// The calls on any degree below 2^32, with random scales.
pub fn bare(r: &mut Rec, g: &mut Rng, degree: usize) {
    r.min_depth_split(degree);
    for strategy in STRATEGIES {
        r.bsgs_eval_depth(degree, strategy);
        let top = g.pick(&[64, MAX_SCALE]);
        r.bsgs_consumed_bits(degree, strategy, g.below(top + 1), g.below(top + 1));
    }
}

/// Each power of two with its neighbours and each band's ends with the degrees just outside, above the degrees that are recorded all.
fn near_ends() -> Vec<usize> {
    let powers = (7..=12).flat_map(|k| (1usize << k) - 1..=(1usize << k) + 1);
    let bands = BANDS.into_iter().flat_map(|(a, b)| [a - 1, a, b, b + 1]);
    let mut all: Vec<usize> = powers.chain(bands).collect();
    all.retain(|d| (67..=MAX_DEGREE).contains(d));
    all.sort();
    all.dedup();
    all
}

fn lists_whole(r: &mut Rec) {
    let g = &mut rng(8);
    r.decompose(
        Form::Whole,
        Basis::Chebyshev,
        Parity::Full,
        SplitStrategy::MinMult,
        &FIFTH,
    );
    for basis in BASES {
        for strategy in STRATEGIES {
            for n in 0..=66 {
                for parity in PARITIES {
                    // Lists never test parity, so the other places may hold numbers too.
                    r.decompose(Form::Whole, basis, parity, strategy, &digits(g, n));
                }
            }
            for n in 2..=3 {
                for c in all_lists(&SIGNS, n) {
                    r.decompose(Form::Whole, basis, Parity::Full, strategy, &c);
                }
            }
            for degree in [1, 2, 3, 5, 7, 8, 15, 30, 63, 127] {
                r.decompose(
                    Form::Whole,
                    basis,
                    Parity::Full,
                    strategy,
                    &spread(g, Parity::Full, degree + 1, MAX_SUM),
                );
                for at in [0, 1, degree / 2, degree - 1, degree] {
                    r.decompose(
                        Form::Whole,
                        basis,
                        Parity::Full,
                        strategy,
                        &one_place(degree + 1, at, MAX_SUM),
                    );
                    r.decompose(
                        Form::Whole,
                        basis,
                        Parity::Full,
                        strategy,
                        &one_place(degree + 1, at, -MAX_SUM),
                    );
                }
            }
            // Small numbers, so that the file stays short.
            for degree in near_ends() {
                let c: Vec<f64> = (0..=degree).map(|_| g.below(3) as f64).collect();
                r.decompose(Form::Whole, basis, g.pick(&PARITIES), strategy, &c);
            }
            let parity = g.pick(&PARITIES);
            let at = MAX_DEGREE - g.below(64);
            r.decompose(
                Form::Whole,
                basis,
                parity,
                strategy,
                &one_place(MAX_DEGREE + 1, at, MAX_SUM),
            );
        }
    }
}

/// Plans of every short degree in every setting, and at the ends of bands and powers of two, each at a point and a modulus.
fn plan_values(r: &mut Rec) {
    let g = &mut rng(12);
    for degree in 1..=66 {
        plan_values_of(r, g, degree, 19);
    }
    for degree in near_ends() {
        let (basis, strategy) = (g.pick(&BASES), g.pick(&STRATEGIES));
        let parity = g.pick(&PARITIES);
        let fold = parity != Parity::Full && g.one_in(2);
        plan_value(r, g, basis, parity, strategy, fold, degree, 3);
    }
}

/// One degree in every setting in which it is accepted.
pub fn plan_values_of(r: &mut Rec, g: &mut Rng, degree: usize, most: usize) {
    for basis in BASES {
        for parity in PARITIES {
            for strategy in STRATEGIES {
                plan_value(r, g, basis, parity, strategy, false, degree, most);
                let least = if parity == Parity::Even { 2 } else { 3 };
                if parity != Parity::Full && degree >= least {
                    plan_value(r, g, basis, parity, strategy, true, degree, most);
                }
            }
        }
    }
}

/// Whole coefficients below `most` in magnitude, or, of a short polynomial now and then, with the greatest sum.
#[allow(clippy::too_many_arguments)]
fn plan_value(
    r: &mut Rec,
    g: &mut Rng,
    basis: Basis,
    parity: Parity,
    strategy: SplitStrategy,
    fold: bool,
    degree: usize,
    most: usize,
) {
    let c = if degree < 32 && g.one_in(4) {
        spread(g, parity, degree + 1, MAX_SUM)
    } else {
        let small = (0..=degree).map(|_| g.below(most) as f64 - (most / 2) as f64);
        shape_whole(parity, small.collect())
    };
    // A recording's numbers have at most 18 digits.
    let any = g.next() as i64 % 1_000_000_000_000_000_000;
    let point = g.pick(&[0, 1, -1, 2, -3, 7, MAX_POINT, -MAX_POINT, any]);
    let random = 2 + g.below(2_147_483_646) as u64;
    let modulus = g.pick(&[2, 3, 97, 65_537, 2_147_483_647, random]);
    r.plan_value(basis, parity, strategy, fold, point, modulus, &c);
}

/// The special intervals in both bases, folded and not, and random ones.
fn plan_intervals(r: &mut Rec) {
    let g = &mut rng(13);
    for ends in RISING.into_iter().chain(NOT_RISING) {
        for basis in BASES {
            for fold in [false, true] {
                plan_interval(r, g, basis, fold, ends);
            }
        }
    }
    (0..100).for_each(|_| any_plan_interval(r, g));
}

pub fn any_plan_interval(r: &mut Rec, g: &mut Rng) {
    let (basis, fold, ends) = (g.pick(&BASES), g.one_in(2), interval(g));
    plan_interval(r, g, basis, fold, ends);
}

/// A short polynomial that nothing but its interval can refuse.
fn plan_interval(r: &mut Rec, g: &mut Rng, basis: Basis, fold: bool, ends: (f64, f64)) {
    let parity = if fold {
        g.pick(&SYMMETRIC)
    } else {
        g.pick(&PARITIES)
    };
    let least = match parity {
        _ if !fold => 1,
        Parity::Even => 2,
        _ => 3,
    };
    let degree = least + g.below(9 - least);
    let c = whole(g, parity, degree + 1);
    r.plan_interval(basis, parity, g.pick(&STRATEGIES), fold, ends, &c);
}

fn folded_whole(r: &mut Rec) {
    let g = &mut rng(9);
    // Accepted, though the fold's own numbers sum above 2^30.
    let c = one_place(4, 3, MAX_SUM / 2);
    r.decompose_folded(
        Form::Whole,
        Basis::Chebyshev,
        Parity::Odd,
        SplitStrategy::MinDepth,
        &c,
    );
    for basis in BASES {
        for strategy in STRATEGIES {
            for n in 0..=66 {
                for parity in PARITIES {
                    let mut c = shape_whole(parity, digits(g, n));
                    spoil(g, &mut c, 1.0);
                    r.decompose_folded(Form::Whole, basis, parity, strategy, &c);
                }
            }
            for degree in [2, 3, 5, 7, 8, 15, 30, 63, 127] {
                for parity in SYMMETRIC {
                    let c = spread(g, parity, degree + 1, MAX_SUM);
                    r.decompose_folded(Form::Whole, basis, parity, strategy, &c);
                    for at in [0, 1, degree - 1, degree] {
                        let c = one_place(degree + 1, at, MAX_SUM);
                        r.decompose_folded(Form::Whole, basis, parity, strategy, &c);
                    }
                }
            }
        }
        for parity in SYMMETRIC {
            let c = shape_whole(parity, digits(g, MAX_DEGREE + 1));
            r.decompose_folded(Form::Whole, basis, parity, SplitStrategy::MinDepth, &c);
        }
    }
    let c = one_place(MAX_DEGREE + 1, MAX_DEGREE, MAX_SUM);
    r.decompose_folded(
        Form::Whole,
        Basis::Chebyshev,
        Parity::Odd,
        SplitStrategy::MinDepth,
        &c,
    );
    r.decompose_folded(
        Form::Whole,
        Basis::Chebyshev,
        Parity::Odd,
        SplitStrategy::MinMult,
        &c,
    );
}

fn lists(r: &mut Rec) {
    let g = &mut rng(10);
    for basis in BASES {
        for strategy in STRATEGIES {
            for n in 0..=2 {
                for c in all_lists(&FEW, n) {
                    r.decompose(Form::Bits, basis, g.pick(&PARITIES), strategy, &c);
                }
            }
            for n in 3..=18 {
                for kind in [2, 3, 5, 6, 7] {
                    let c: Vec<f64> = (0..n).map(|_| float(g, kind)).collect();
                    r.decompose(Form::Bits, basis, g.pick(&PARITIES), strategy, &c);
                }
            }
            for degree in edges(129, 1).into_iter().filter(|&d| d > 17) {
                let c = floats(g, degree + 1);
                r.decompose(Form::Bits, basis, g.pick(&PARITIES), strategy, &c);
            }
        }
    }
    // From here on a NaN, which is short, fills the places between the special floats, and the settings take turns.
    for (i, degree) in near_ends().into_iter().enumerate() {
        let mut c = vec![f64::NAN; degree + 1];
        for at in [0, 1, degree / 4, degree / 2, degree - 1, degree] {
            c[at] = float(g, 3);
        }
        let (basis, strategy) = (BASES[i % 2], STRATEGIES[i / 2 % 2]);
        r.decompose(Form::Bits, basis, g.pick(&PARITIES), strategy, &c);
    }
    for degree in [127, MAX_DEGREE] {
        let c: Vec<f64> = (0..=degree).map(|_| float(g, 4)).collect();
        r.decompose(
            Form::Bits,
            Basis::Chebyshev,
            Parity::Full,
            SplitStrategy::MinDepth,
            &c,
        );
    }
}

fn folded(r: &mut Rec) {
    let g = &mut rng(11);
    for basis in BASES {
        for strategy in STRATEGIES {
            for parity in PARITIES {
                for n in 0..=18 {
                    for kind in [3, 5] {
                        let c = (0..n).map(|_| float(g, kind)).collect();
                        let mut c = shape(g, parity, c);
                        spoil(g, &mut c, f64::INFINITY);
                        r.decompose_folded(Form::Bits, basis, parity, strategy, &c);
                    }
                }
            }
            for degree in [29, 30, 31, 32, 61, 62, 63, 64] {
                let parity = SYMMETRIC[degree % 2];
                let c = floats(g, degree + 1);
                r.decompose_folded(Form::Bits, basis, parity, strategy, &shape(g, parity, c));
            }
        }
    }
    for degree in [255, 1_023] {
        let c = (0..=degree).map(|_| float(g, 4)).collect();
        let c = shape(g, Parity::Odd, c);
        r.decompose_folded(
            Form::Bits,
            Basis::Chebyshev,
            Parity::Odd,
            SplitStrategy::MinDepth,
            &c,
        );
    }
}
