//! Calls at the border of each refusal, and such with several things wrong. The refusal of each was worked out by hand; 0 stands for none.

use super::{CHEBYSHEV, Call, LIMIT, MONOMIAL};
use crate::inputs::MAX_SUM;

const MAX: i64 = i64::MAX;
const MIN: i64 = i64::MIN;
pub const WAYS: [u8; 2] = [MONOMIAL, CHEBYSHEV];
/// The most coefficients that are converted.
pub const MOST: usize = LIMIT + 1;

/// A call and its refusal.
pub type Known = (Call, u8);

/// All that follow, in their order.
pub fn all() -> Vec<Known> {
    let parts = [lengths(), handed_in(), fractions(), answered(), orders()];
    parts.concat()
}

/// So many zeros but for one place.
pub fn one_place(n: usize, at: usize, x: i64) -> Vec<i64> {
    let mut c = vec![0; n];
    c[at] = x;
    c
}

/// The least number at a place that gives whole coefficients.
pub fn least_whole(to: u8, at: usize) -> i64 {
    match to {
        CHEBYSHEV if at > 0 => 1 << (at - 1),
        _ => 1,
    }
}

/// The sum of the magnitudes of T_n's coefficients by powers of x. Their signs take turns, so those of 2x T_(n−1) and of −T_(n−2) agree where
/// they meet, and magnitudes are added.
pub fn magnitude(n: usize) -> i64 {
    let (mut sum, mut next) = (1, 1);
    for _ in 0..n {
        (sum, next) = (next, 2 * next + sum);
    }
    sum
}

/// Degrees up to 20 and above it. A last 0 counts.
fn lengths() -> Vec<Known> {
    let mut all = vec![];
    for to in WAYS {
        for n in [0, 1, 2, 20, 21, 22, 23, 42, 64, 128] {
            let refusal = if n > MOST { 37 } else { 0 };
            all.push((Call::new(to, vec![0; n]), refusal));
        }
        let last = |n: usize| one_place(n, n - 1, 5 * least_whole(to, LIMIT));
        all.push((Call::new(to, last(21)), 0));
        all.push((Call::new(to, last(22)), 37));
    }
    all
}

/// Magnitudes that sum to 2^30 and to one more, on one place and on two; and such that a sum of 32 or 64 bits would take for less.
fn handed_in() -> Vec<Known> {
    const ABOVE: [i64; 4] = [MAX_SUM + 1, MIN, -MAX_SUM - 1, MAX];
    let mut all = vec![];
    for to in WAYS {
        for at in 0..=LIMIT {
            // 2^30 T_n has larger coefficients from n = 2 on.
            let larger = to == MONOMIAL && at > 1;
            let greatest = if at % 2 == 0 { MAX_SUM } else { -MAX_SUM };
            let put = |n: usize, x: i64| Call::new(to, one_place(n, at, x));
            all.push((put(MOST, greatest), if larger { 3 } else { 0 }));
            all.push((put(at + 1, ABOVE[at % ABOVE.len()]), 3));
        }
        for (numbers, refusal) in TWO {
            all.push((Call::new(to, numbers.to_vec()), refusal));
        }
        for numbers in WRAPPED {
            all.push((Call::new(to, numbers.to_vec()), 3));
        }
    }
    all
}

const TWO: [([i64; 2], u8); 7] = [
    ([MAX_SUM - 1, 1], 0),
    ([1 - MAX_SUM, 1], 0),
    ([-1, 1 - MAX_SUM], 0),
    ([MAX_SUM / 2, -MAX_SUM / 2], 0),
    ([MAX_SUM, 1], 3),
    ([MAX_SUM, -1], 3),
    ([-1, -MAX_SUM], 3),
];

/// A sum that is taken for less lets the odd number on x^2 through to 38.
const WRAPPED: [[i64; 3]; 10] = [
    [MIN, MIN, 1],
    [MAX, MAX, 3],
    [MIN, MAX, 1],
    [MIN, MIN, MAX_SUM - 1],
    [1 << 31, 1 << 31, 1],
    [-1 << 31, 0, 1],
    [1 << 32, 0, 1],
    [1 << 32, -1 << 33, (1 << 32) + 1],
    [MAX, -MAX, 1],
    [0, MIN, MAX],
];

/// To T_i: at each place the least whole number and half of it, alone and beside others.
fn fractions() -> Vec<Known> {
    let mut all = vec![];
    let mut put = |c: &[i64], refusal| all.push((Call::new(CHEBYSHEV, c.to_vec()), refusal));
    let whole: Vec<i64> = (0..MOST).map(|at| least_whole(CHEBYSHEV, at)).collect();
    put(&whole, 0);
    for at in 2..=LIMIT {
        let least = whole[at];
        put(&one_place(at + 1, at, least), 0);
        put(&one_place(at + 1, at, -least / 2), 38);
        put(&one_place(MOST, at, -3 * least), 0);
        put(&one_place(MOST, at, 3 * least / 2), 38);
        let mut beside = whole.clone();
        beside[at] += least / 2;
        put(&beside, 38);
    }
    // x^2 + 4x^4 is 2 T_0 + 5/2 T_2 + 1/2 T_4: the first halves meet, the others stay.
    put(&[0, 0, 1, 0, 4], 38);
    put(&[0, 0, 1, 0, -4], 38);
    put(&[0, 0, 2, 0, 4], 38);
    put(&[0, 0, 1, 0, 8], 38);
    put(&[0, 0, 2, 0, 8], 0);
    all
}

/// To powers of x: new coefficients whose magnitudes sum to 2^30 and to one more; and such that are within it because numbers take each other
/// away.
fn answered() -> Vec<Known> {
    let mut all = vec![];
    let mut put = |c: Vec<i64>, refusal| all.push((Call::new(MONOMIAL, c), refusal));
    for n in 2..=LIMIT {
        let (times, rest) = (MAX_SUM / magnitude(n), MAX_SUM % magnitude(n));
        // T_n's coefficients of 1 and of x have this sign, or are 0.
        let sign = if n / 2 % 2 == 0 { 1 } else { -1 };
        for (way, at) in [(1, 0), (-1, 1)] {
            let mut c = one_place(n + 1, n, way * times);
            c[at] = way * sign * rest;
            put(c.clone(), 0);
            c[at] += way * sign;
            put(c, 3);
        }
    }
    // 2^29 T_0 + 2^29 T_2 is 2^30 x^2, and 2^29 T_0 − 2^29 T_2 is 2^30 − 2^30 x^2.
    let half = MAX_SUM / 2;
    put(vec![half, 0, half], 0);
    put(vec![-half, 0, -half], 0);
    put(vec![half, 0, -half], 3);
    // 3 · 2^28 T_1 + 2^28 T_3 is 2^30 x^3.
    put(vec![0, 3 * half / 2, 0, half / 2], 0);
    put(vec![0, 3 * half / 2, 0, -half / 2], 3);
    put(vec![1, 3 * half / 2 - 1, 0, half / 2], 3);
    all
}

/// Calls with several things wrong: 37, then 3, then 38, then 3 of the new coefficients, then 21.
fn orders() -> Vec<Known> {
    let half = |n: usize| one_place(n, 2, 1);
    let huge = |n: usize| one_place(n, n - 1, MIN);
    let above = |n: usize| [vec![MAX_SUM, 0, 1], vec![0; n - 3]].concat();
    let large = |n: usize| one_place(n, 2, MAX_SUM);
    let mut all = vec![];
    let n = MOST + 1;
    for (to, c) in both([half(n), huge(n), above(n), large(n), vec![0; n]]) {
        all.extend(rooms(to, &c, [37; 3]));
    }
    for n in [3, 21] {
        for (to, c) in both([huge(n), above(n)]) {
            all.extend(rooms(to, &c, [3; 3]));
        }
        all.extend(rooms(CHEBYSHEV, &half(n), [38; 3]));
        all.extend(rooms(MONOMIAL, &large(n), [3; 3]));
        for (to, c) in both([one_place(n, 2, 2), vec![0; n]]) {
            all.extend(rooms(to, &c, [21, 21, 0]));
        }
    }
    all
}

/// The same curves, both ways.
fn both<const N: usize>(curves: [Vec<i64>; N]) -> Vec<(u8, Vec<i64>)> {
    let ways = |c: Vec<i64>| WAYS.map(|to| (to, c.clone()));
    curves.into_iter().flat_map(ways).collect()
}

/// A curve with no room, one place too few, and one more than it needs, and the refusals of these.
fn rooms(to: u8, c: &[i64], refusals: [u8; 3]) -> impl Iterator<Item = Known> {
    let c = c.to_vec();
    let places = [0, c.len() - 1, c.len() + 1];
    let call = move |room| Call {
        to,
        c: c.clone(),
        room,
    };
    places.into_iter().map(call).zip(refusals)
}
