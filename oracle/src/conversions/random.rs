//! Random curves for conversions: accepted ones, such near the border of a refusal, and such beyond it.

use super::borders::{MOST, WAYS, least_whole, magnitude};
use super::{CHEBYSHEV, Call, MONOMIAL};
use crate::calls::Parity;
use crate::inputs::{MAX_SUM, Rng, spread};

type Curve = fn(&mut Rng, usize) -> Vec<i64>;
type Damage = fn(&mut Rng, &mut Call);

/// The curves that are converted, by kinds: name in a table, basis that is asked for, coefficients. Half of those to T_i are made whole.
pub const CURVES: [(&str, u8, Curve); 7] = [
    ("to x^i, any size", MONOMIAL, any),
    ("to x^i, new sums about 2^30", MONOMIAL, about_the_sum),
    ("to x^i, back from whole ones", MONOMIAL, back),
    ("to T_i, whole", CHEBYSHEV, whole),
    ("to T_i, back from small ones", CHEBYSHEV, back_from_small),
    ("to T_i, any", CHEBYSHEV, any),
    ("to T_i, whole but for one place", CHEBYSHEV, one_fraction),
];
/// What can be wrong with a call.
pub const DAMAGES: [(&str, Damage); 4] = [
    ("too many coefficients", lengthen),
    ("a large number", large),
    ("short buffers", shorten),
    ("unknown bases", unknown),
];

/// A call and its row: that of its curve if it is not damaged, and behind these that of its first damage.
pub fn random(g: &mut Rng) -> (usize, Call) {
    let row = g.below(2 * CURVES.len() + DAMAGES.len());
    // Now and then one coefficient too many.
    let n = g.below(MOST + 2);
    // Each kind of curve is as likely as two damages.
    let Some(first) = row.checked_sub(2 * CURVES.len()) else {
        let kind = row / 2;
        return (kind, call(g, kind, n));
    };
    let kind = g.below(CURVES.len());
    let mut call = call(g, kind, n);
    DAMAGES[first].1(g, &mut call);
    // More of them bring the order of the refusals out.
    while g.one_in(3) {
        let (_, damage) = g.pick(&DAMAGES);
        damage(g, &mut call);
    }
    (CURVES.len() + first, call)
}

/// A call with so many coefficients; now and then the buffer has places beyond.
fn call(g: &mut Rng, kind: usize, n: usize) -> Call {
    let (_, to, curve) = CURVES[kind];
    let mut call = Call::new(to, curve(g, n));
    call.room += g.pick(&[0, 0, 1, 7]);
    call
}

/// Magnitudes that sum to 2^30, to one more, or to less, on all places.
fn summed(g: &mut Rng, n: usize) -> Vec<i64> {
    let below = MAX_SUM >> g.below(31);
    let sum = g.pick(&[MAX_SUM, MAX_SUM - 1, MAX_SUM + 1, below, below]);
    let c = spread(g, Parity::Full, n, sum);
    c.iter().map(|&x| x as i64).collect()
}

/// Numbers of up to so many binary digits, now and then with zeros between them.
fn any(g: &mut Rng, n: usize) -> Vec<i64> {
    if g.one_in(3) {
        return summed(g, n);
    }
    let (bits, zeros) = (g.below(32), g.one_in(3));
    let number = |g: &mut Rng| match zeros && g.one_in(2) {
        true => 0,
        false => g.next() as i64 >> (63 - bits),
    };
    (0..n).map(|_| number(g)).collect()
}

/// Each place has a share of a sum that the new magnitudes come near to.
fn about_the_sum(g: &mut Rng, n: usize) -> Vec<i64> {
    let sum = g.pick(&[MAX_SUM, MAX_SUM, 2 * MAX_SUM, MAX_SUM / 2]);
    let places = 1 + g.below(n.max(1));
    let sign = |g: &mut Rng, at: usize| match g.below(8) {
        0 => -1,
        // The same sign as that of the first coefficients of T_n, so that nothing is taken away.
        _ if at / 2 % 2 == 1 => -1,
        _ => 1,
    };
    let mut c = vec![0; n];
    for at in (0..n).rev().take(places) {
        let share = g.below((2 * sum / places as i64) as usize) as i64;
        c[at] = sign(g, at) * (share / magnitude(at));
    }
    c
}

/// The whole multiple of each place's least number, rounded to 0; the first place takes what is lost of the magnitudes.
fn rounded(mut c: Vec<i64>) -> Vec<i64> {
    let mut lost = 0;
    for (at, x) in c.iter_mut().enumerate() {
        let rest = *x % least_whole(CHEBYSHEV, at);
        *x -= rest;
        lost += rest.abs();
    }
    if let Some(first) = c.first_mut() {
        *first += if *first < 0 { -lost } else { lost };
    }
    c
}

fn whole(g: &mut Rng, n: usize) -> Vec<i64> {
    if g.one_in(2) {
        return rounded(summed(g, n));
    }
    let most = g.pick(&[1, 3, 100, 1_000]);
    let multiple = |g: &mut Rng| g.below(2 * most + 1) as i64 - most as i64;
    let number = |at| multiple(g) * least_whole(CHEBYSHEV, at);
    (0..n).map(number).collect()
}

fn one_fraction(g: &mut Rng, n: usize) -> Vec<i64> {
    let mut c = whole(g, n);
    if n > 2 {
        let at = 2 + g.below(n - 2);
        // Half of what is needed, a quarter, and so on.
        c[at] += least_whole(CHEBYSHEV, at) >> (1 + g.below(at - 1));
    }
    c
}

/// A whole curve's coefficients over T_i. Those that are refused stay as they are.
fn back(g: &mut Rng, n: usize) -> Vec<i64> {
    let c = whole(g, n);
    Call::new(CHEBYSHEV, c.clone()).answer().unwrap_or(c)
}

/// A small curve's coefficients by powers of x.
fn back_from_small(g: &mut Rng, n: usize) -> Vec<i64> {
    let c = about_the_sum(g, n);
    let small: Vec<i64> = c.iter().map(|x| x / 4).collect();
    let answer = Call::new(MONOMIAL, small.clone()).answer();
    answer.unwrap_or_else(|_| rounded(small))
}

fn lengthen(g: &mut Rng, call: &mut Call) {
    let n = MOST + 1 + g.below(4);
    let x = g.pick(&[0, 1, -7, 1 << 20]);
    call.room += n.saturating_sub(call.c.len());
    call.c.resize(n.max(call.c.len()), x);
}

fn large(g: &mut Rng, call: &mut Call) {
    let any = g.next() as i64;
    let x = g.pick(&[any, any >> 20, MAX_SUM + 1, i64::MIN, i64::MAX, 1 << 32]);
    if !call.c.is_empty() {
        let at = g.below(call.c.len());
        call.c[at] = x;
    }
}

fn shorten(g: &mut Rng, call: &mut Call) {
    let most = call.c.len().max(1);
    call.room = g.pick(&[0, most - 1, most / 2]);
}

fn unknown(g: &mut Rng, call: &mut Call) {
    let known = WAYS.len();
    call.to = (known + g.below(256 - known)) as u8;
}
