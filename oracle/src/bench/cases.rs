//! The cases. Before a case is timed its answers on both sides are compared.

use std::hint::black_box;

use firrozun::buffers::{
    PlanBuffers, decompose_bsgs_into, fold_parity_into, plan_into, trial_walk,
};
use firrozun::{self as lib, Coefficient};

use super::{Bench, INPUTS};
use crate::both::{kinds_of, value};
use crate::calls::{Basis, Parity, SplitStrategy};
use crate::layouts::polynomial_evaluation as rust;

type Published = rust::Polynomial<f64>;

/// The interval of a plan.
pub const ENDS: (f64, f64) = (-1.0, 1.0);
/// The point and the modulus of a walk.
const POINT: i64 = -123_456_789_012;
const MODULUS: u64 = 2_147_483_647;

fn whole(lists: &[Vec<f64>]) -> Vec<Vec<i64>> {
    let list = |c: &Vec<f64>| c.iter().map(|&x| x as i64).collect();
    lists.iter().map(list).collect()
}

fn published(basis: Basis, parity: Parity, lists: &[Vec<f64>]) -> Vec<Published> {
    let one = |c: &Vec<f64>| Published::new_with_parity(basis, c.clone(), parity);
    lists.iter().map(one).collect()
}

/// The published list call, with an encoder that copies each list.
fn cut(p: &Published, strategy: SplitStrategy) -> rust::BSGSPolynomial<Vec<f64>> {
    let lists = p.decompose_bsgs_with(strategy, |list| Ok(list.to_vec()));
    lists.expect("lists")
}

/// Whether lists one after another with these ends are the published ones.
fn same_lists<F: Coefficient>(
    theirs: &rust::BSGSPolynomial<Vec<f64>>,
    numbers: &[F],
    ends: &[u16],
) -> bool {
    let lists = theirs.baby_steps();
    let mut end = 0;
    let sizes = lists.iter().map(|list| {
        end += list.len();
        end as u16
    });
    let flat = lists.iter().flatten().copied();
    ends.iter().copied().eq(sizes) && numbers.iter().map(|x| x.to_f64()).eq(flat)
}

/// The list call on f64 and on whole numbers.
pub fn lists(b: &mut Bench, basis: Basis, strategy: SplitStrategy, degree: usize) {
    let c = b.inputs(Parity::Full, degree);
    let p = published(basis, Parity::Full, &c);
    list_call("list f64", b, strategy, &p, &c, 0.0);
    list_call("list i64", b, strategy, &p, &whole(&c), 0);
}

fn list_call<F: Coefficient>(
    what: &'static str,
    b: &Bench,
    strategy: SplitStrategy,
    p: &[Published],
    c: &[Vec<F>],
    zero: F,
) {
    let (basis, degree) = (p[0].basis, p[0].degree());
    let (our_basis, parity, ours) = kinds_of(basis, Parity::Full, strategy);
    let (mut out, mut ends) = (vec![zero; degree + 1], vec![0; degree + 1]);
    let call = |i: usize, out: &mut [F], ends: &mut [u16]| {
        decompose_bsgs_into(ours, parity, our_basis, &c[i % INPUTS], out, ends).expect("lists")
    };
    for (i, p) in p.iter().enumerate() {
        let n = call(i, &mut out, &mut ends).lists;
        assert!(same_lists(&cut(p, strategy), &out, &ends[..n]), "{what}");
    }
    let case = (what, Some(basis), Some(strategy), degree);
    b.time(
        case,
        |i| cut(&p[i % INPUTS], strategy),
        |i| call(i, &mut out, &mut ends),
    );
}

/// Buffers that are long enough for every plan of so many coefficients.
struct Room(Vec<i64>, Vec<u16>, Vec<u16>);

impl Room {
    fn new(n: usize) -> Self {
        Room(vec![0; n], vec![0; n], vec![0; 12 * n])
    }

    fn lend(&mut self) -> PlanBuffers<'_> {
        PlanBuffers {
            coefficients: &mut self.0,
            boundaries: &mut self.1,
            steps: &mut self.2,
        }
    }
}

/// The whole plan beside the published list call, which makes neither steps nor counts.
pub fn plans(b: &mut Bench, basis: Basis, strategy: SplitStrategy, degree: usize) {
    let c = b.inputs(Parity::Full, degree);
    let p = published(basis, Parity::Full, &c);
    let c = whole(&c);
    let (our_basis, parity, ours) = kinds_of(basis, Parity::Full, strategy);
    let mut room = Room::new(degree + 1);
    let call = |i: usize, room: &mut Room| {
        let c = &c[i % INPUTS];
        plan_into(ours, parity, our_basis, false, c, ENDS, room.lend()).expect("a plan")
    };
    for (i, p) in p.iter().enumerate() {
        let n = call(i, &mut room).lists;
        assert!(same_lists(&cut(p, strategy), &room.0, &room.1[..n]), "plan");
    }
    let case = ("plan", Some(basis), Some(strategy), degree);
    b.time(
        case,
        |i| cut(&p[i % INPUTS], strategy),
        |i| call(i, &mut room),
    );
}

/// The odd Chebyshev fold on f64 and on whole numbers.
pub fn folds(b: &mut Bench, degree: usize) {
    let c = b.inputs(Parity::Odd, degree);
    let p = published(Basis::Chebyshev, Parity::Odd, &c);
    fold_call("odd fold f64", b, &p, &c, 0.0);
    fold_call("odd fold i64", b, &p, &whole(&c), 0);
}

fn fold_call<F: Coefficient>(
    what: &'static str,
    b: &Bench,
    p: &[Published],
    c: &[Vec<F>],
    zero: F,
) {
    let (basis, parity) = (lib::Basis::Chebyshev, lib::Parity::Odd);
    let mut out = vec![zero; p[0].degree() / 2 + 1];
    let call = |i: usize, out: &mut [F]| {
        fold_parity_into(parity, basis, &c[i % INPUTS], out).expect("a fold")
    };
    let fold = |p: &Published| p.fold_parity().expect("a fold");
    for (i, p) in p.iter().enumerate() {
        let n = call(i, &mut out).count;
        let ours = out[..n].iter().map(|x| x.to_f64());
        assert!(ours.eq(fold(p).0.coeffs), "{what}");
    }
    let case = (what, Some(Basis::Chebyshev), None, p[0].degree());
    b.time(case, |i| fold(&p[i % INPUTS]), |i| call(i, &mut out));
}

/// The choice of MinMult alone.
pub fn choice(b: &Bench, basis: Basis, degree: usize) {
    let (our_basis, parity, _) = kinds_of(basis, Parity::Full, SplitStrategy::MinMult);
    let theirs = |d: usize| rust::min_mult_split(d, Parity::Full, basis);
    let ours = |d: usize| lib::min_mult_split(d, parity, our_basis).expect("a split");
    assert_eq!(theirs(degree), ours(degree), "split");
    let case = ("MinMult", Some(basis), Some(SplitStrategy::MinMult), degree);
    // The compiler must not know that the degree is the same each time.
    b.time(
        case,
        |_| theirs(black_box(degree)),
        |_| ours(black_box(degree)),
    );
}

/// Horner's rule and Clenshaw's.
pub fn evaluation(b: &mut Bench, basis: Basis, degree: usize) {
    let c = b.inputs(Parity::Full, degree);
    let (our_basis, ..) = kinds_of(basis, Parity::Full, SplitStrategy::MinDepth);
    let x = |i: usize| (i % 64) as f64 / 64.0 - 0.5;
    let theirs = |i: usize| rust::evaluate_coeffs(basis, &c[i % INPUTS], x(i));
    let ours = |i: usize| lib::evaluate_coeffs(our_basis, &c[i % INPUTS], x(i));
    for i in 0..64 {
        assert_eq!(theirs(i).to_bits(), ours(i).to_bits(), "evaluation");
    }
    let case = ("evaluation", Some(basis), None, degree);
    b.time(case, theirs, ours);
}

/// The trial walk of a plan. The published code has none: beside it stands the value by the basis's recurrence, on remainders.
pub fn walks(b: &mut Bench, basis: Basis, degree: usize) {
    let c = b.inputs(Parity::Full, degree);
    let strategy = SplitStrategy::MinDepth;
    let (our_basis, parity, ours) = kinds_of(basis, Parity::Full, strategy);
    let mut room = Room::new(degree + 1);
    let input = &whole(&c)[0];
    let head = plan_into(ours, parity, our_basis, false, input, ENDS, room.lend()).expect("a plan");
    let Room(numbers, ends, steps) = &room;
    let point = |i: usize| POINT + i as i64;
    let theirs = |i: usize| value(basis, &c[0], point(i), MODULUS);
    let walk = |i: usize| trial_walk(&head, numbers, ends, steps, point(i), MODULUS);
    let ours = |i: usize| walk(i).expect("a walk");
    for i in 0..64 {
        assert_eq!(theirs(i), ours(i), "walk");
    }
    let case = ("trial walk", Some(basis), Some(strategy), degree);
    b.time(case, theirs, ours);
}
