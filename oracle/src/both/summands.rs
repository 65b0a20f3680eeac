//! Pairs of whole curves, and curves with a number to multiply them by: such whose sum or multiple is accepted, and such where it exceeds
//! the limit. The curves themselves are always accepted.

use crate::calls::Parity;
use crate::inputs::{MAX_SUM, Rng, digits, one_place, shape_whole, spread, wrong};

pub type Curve = Vec<i64>;

/// The sum of the magnitudes, exact.
pub fn magnitudes(c: &[i64]) -> i128 {
    c.iter().map(|&x| i128::from(x).abs()).sum()
}

/// Two curves of `n` coefficients, of the parity, whose sum is accepted.
pub fn pair(g: &mut Rng, parity: Parity, n: usize) -> [Curve; 2] {
    match g.below(12) {
        0..3 => [small(g, parity, n), small(g, parity, n)],
        3..5 => adding_up(g, parity, n, MAX_SUM),
        5 | 6 => {
            let sum = g.below(MAX_SUM as usize + 1) as i64;
            adding_up(g, parity, n, sum)
        }
        7..10 => {
            let c = of_sum(g, parity, n, MAX_SUM);
            let d = c.iter().map(|&x| against(g, x)).collect();
            [c, d]
        }
        10 => {
            let c = of_sum(g, parity, n, MAX_SUM);
            let d = c.iter().map(|&x| -x).collect();
            [c, d]
        }
        _ => [of_sum(g, parity, n, MAX_SUM), vec![0; n]],
    }
}

/// Two curves whose sum exceeds the limit, in half of the cases by one.
pub fn exceeding_pair(g: &mut Rng, parity: Parity, n: usize) -> [Curve; 2] {
    let beyond = match g.below(4) {
        0 | 1 => 1,
        2 => 1 + g.below(100),
        _ => 1 + g.below(MAX_SUM as usize),
    };
    adding_up(g, parity, n, MAX_SUM + beyond as i64)
}

/// Two curves with any signs; their sum may be accepted or not.
pub fn any_pair(g: &mut Rng, parity: Parity, n: usize) -> [Curve; 2] {
    let (first, second) = (random_sum(g), random_sum(g));
    [of_sum(g, parity, n, first), of_sum(g, parity, n, second)]
}

/// A curve of `n` coefficients, of the parity, and a number; the multiple is accepted.
pub fn multiple(g: &mut Rng, parity: Parity, n: usize) -> (Curve, i64) {
    let c = match g.below(10) {
        0 => return (vec![0; n], any_number(g)),
        1 | 2 => {
            let sum = random_sum(g);
            return (of_sum(g, parity, n, sum), g.pick(&[0, 1, -1]));
        }
        3..6 => small(g, parity, n),
        _ => {
            let sum = random_sum(g);
            of_sum(g, parity, n, sum)
        }
    };
    let most = MAX_SUM / (magnitudes(&c) as i64).max(1);
    let k = if g.one_in(2) {
        most
    } else {
        g.below(most as usize + 1) as i64
    };
    (c, signed(g, k))
}

/// A curve and a number whose multiple exceeds the limit, while each of its numbers is within i64.
pub fn exceeding_multiple(g: &mut Rng, parity: Parity, n: usize) -> (Curve, i64) {
    // Divisors of 2^30 + 1, so that some multiples exceed the limit by one, and others.
    let sum = if g.one_in(2) {
        g.pick(&[1, 5, 13, 61, 1_321, 13 * 41 * 61])
    } else {
        random_sum(g)
    };
    let c = of_sum(g, parity, n, sum);
    if c.iter().all(|x| [0, 1].contains(x)) && g.one_in(4) {
        return (c, i64::MIN);
    }
    let greatest = c.iter().map(|x| x.abs()).max().expect("a coefficient");
    let (least, most) = (MAX_SUM / sum + 1, i64::MAX / greatest);
    let k = match g.below(4) {
        0 | 1 => least,
        2 => most,
        _ => least + g.below((most - least) as usize) as i64,
    };
    (c, signed(g, k))
}

fn small(g: &mut Rng, parity: Parity, n: usize) -> Curve {
    let c = digits(g, n);
    whole(&shape_whole(parity, c))
}

/// Two curves that have the same sign on each place, so that the magnitudes of their sum sum to `sum`, which is at most twice the limit.
fn adding_up(g: &mut Rng, parity: Parity, n: usize, sum: i64) -> [Curve; 2] {
    let (least, most) = ((sum - MAX_SUM).max(0), sum.min(MAX_SUM));
    let first = least + g.below((most - least) as usize + 1) as i64;
    let c = of_sum(g, parity, n, first);
    let mut d = of_sum(g, parity, n, sum - first);
    for (x, y) in c.iter().zip(&mut d) {
        if *x != 0 {
            *y = x.signum() * y.abs();
        }
    }
    [c, d]
}

/// A number that takes another one away, the whole of it or a part.
fn against(g: &mut Rng, x: i64) -> i64 {
    g.pick(&[-x, -x, -x / 2, x.signum() - x, 0])
}

/// A curve whose magnitudes sum to `sum`: on one place, spread over the lower places, or over all.
fn of_sum(g: &mut Rng, parity: Parity, n: usize, sum: i64) -> Curve {
    let mut c = match g.below(5) {
        0 => {
            let at = allowed(parity, g.below(n));
            let sum = signed(g, sum);
            one_place(n, at, sum)
        }
        1 => {
            let lower = 2 + g.below(n - 1);
            spread(g, parity, lower, sum)
        }
        _ => spread(g, parity, n, sum),
    };
    c.resize(n, 0.0);
    whole(&c)
}

/// This place, or one beside it that the parity allows.
fn allowed(parity: Parity, at: usize) -> usize {
    match wrong(parity, at) {
        true if at == 0 => 1,
        true => at - 1,
        false => at,
    }
}

/// From 1 to the limit, each number of binary digits about as likely as another.
fn random_sum(g: &mut Rng) -> i64 {
    let bits = g.below(31);
    1 + (g.next() & ((1 << bits) - 1)) as i64
}

fn any_number(g: &mut Rng) -> i64 {
    let any = g.next() as i64;
    g.pick(&[i64::MIN, i64::MAX, any, any, any])
}

fn signed(g: &mut Rng, x: i64) -> i64 {
    if g.one_in(2) { x } else { -x }
}

fn whole(c: &[f64]) -> Curve {
    c.iter().map(|&x| x as i64).collect()
}
