//! Conversions worked out by hand, and laws that every conversion obeys.

use super::borders::{self, WAYS, least_whole, magnitude, one_place};
use super::random::random;
use super::recorded::{POINTS, worked};
use super::*;
use crate::inputs::Rng;

fn to_powers(c: &[i64]) -> Converted {
    Call::new(MONOMIAL, c.to_vec()).answer()
}

fn to_chebyshev(c: &[i64]) -> Converted {
    Call::new(CHEBYSHEV, c.to_vec()).answer()
}

/// T_0 to T_11 by powers of x, from the published table.
const T: [&[i64]; 12] = [
    &[1],
    &[0, 1],
    &[-1, 0, 2],
    &[0, -3, 0, 4],
    &[1, 0, -8, 0, 8],
    &[0, 5, 0, -20, 0, 16],
    &[-1, 0, 18, 0, -48, 0, 32],
    &[0, -7, 0, 56, 0, -112, 0, 64],
    &[1, 0, -32, 0, 160, 0, -256, 0, 128],
    &[0, 9, 0, -120, 0, 432, 0, -576, 0, 256],
    &[-1, 0, 50, 0, -400, 0, 1_120, 0, -1_280, 0, 512],
    &[0, -11, 0, 220, 0, -1_232, 0, 2_816, 0, -2_816, 0, 1_024],
];

#[test]
fn each_polynomial_of_the_table_both_ways() {
    for (n, &powers) in T.iter().enumerate() {
        let unit = one_place(n + 1, n, 1);
        assert_eq!(to_powers(&unit), Ok(powers.to_vec()), "T_{n}");
        assert_eq!(to_chebyshev(powers), Ok(unit), "T_{n}");
        let magnitudes: i64 = powers.iter().map(|x| x.abs()).sum();
        assert_eq!(magnitude(n), magnitudes, "T_{n}");
    }
}

/// 2^(n−1) x^n over T_i: at T_(n−2k) the binomial number of n and k, and half of it at T_0.
fn power_over_chebyshev(n: usize) -> Vec<i64> {
    let mut new = vec![0; n + 1];
    let mut binomial = 1;
    for k in 0..=n / 2 {
        new[n - 2 * k] = if n == 2 * k { binomial / 2 } else { binomial };
        binomial = binomial * (n - k) as i64 / (k + 1) as i64;
    }
    new
}

#[test]
fn each_power_by_binomial_numbers() {
    assert_eq!(power_over_chebyshev(5), [0, 10, 0, 5, 0, 1]);
    assert_eq!(power_over_chebyshev(6), [10, 0, 15, 0, 6, 0, 1]);
    for n in 1..=LIMIT {
        let least = least_whole(CHEBYSHEV, n);
        let over = power_over_chebyshev(n);
        assert_eq!(to_chebyshev(&one_place(n + 1, n, least)), Ok(over.clone()));
        assert_eq!(to_powers(&over), Ok(one_place(n + 1, n, least)));
        // The multiple that sums to 2^30: 2^30 x^n.
        let times = MAX_SUM / least;
        let most: Vec<i64> = over.iter().map(|x| x * times).collect();
        assert_eq!(to_powers(&most), Ok(one_place(n + 1, n, MAX_SUM)));
        assert_eq!(to_chebyshev(&one_place(n + 1, n, MAX_SUM)), Ok(most));
    }
}

#[test]
fn curves_worked_out_by_hand() {
    for (to, c, new) in worked() {
        assert_eq!(Call::new(to, c.clone()).answer(), Ok(new), "{c:?} to {to}");
    }
    // 2 + 3x + 4x^2 + 8x^3 is 2 + 3 T_1 + 2 T_0 + 2 T_2 + 6 T_1 + 2 T_3.
    assert_eq!(to_chebyshev(&[2, 3, 4, 8]), Ok(vec![4, 9, 2, 2]));
    // A last 0 is kept.
    assert_eq!(to_powers(&[0, 0, 5, 0, 0]), Ok(vec![-5, 0, 10, 0, 0]));
}

#[test]
fn a_fraction_is_refused_wherever_it_stands() {
    for c in [
        &[0, 0, 1][..],
        &[0, 0, -1],
        &[0, 0, 3, 0],
        &[0, 0, 0, 2],
        &[0, 0, 0, 1],
        &[1, 1, 2, 4, 4],
        &[0, 0, 1, 0, 4],
        &[0, 0, 1, 0, 8],
    ] {
        assert_eq!(to_chebyshev(c), Err(38), "{c:?}");
    }
    assert_eq!(to_chebyshev(&[1, 1, 2, 4, 8]), Ok(vec![5, 4, 5, 1, 1]));
}

#[test]
fn refusals_at_their_borders_and_in_their_order() {
    for (call, refusal) in borders::all() {
        let found = call.answer().err().unwrap_or(0);
        assert_eq!(found, refusal, "{call:?}");
    }
    for (call, _) in borders::all() {
        for to in [2, 3, 128, 255] {
            let call = Call { to, ..call.clone() };
            assert_eq!(call.answer(), Err(43), "{call:?}");
        }
    }
}

/// The answers to random calls, with the calls.
fn answers() -> impl Iterator<Item = (Call, Converted)> {
    let mut g = Rng::new(4);
    let call = move || random(&mut g).1;
    let calls = std::iter::repeat_with(call).take(20_000);
    calls.map(|call| (call.clone(), call.answer()))
}

#[test]
fn values_stay_and_the_way_back_gives_the_first_coefficients() {
    let mut accepted = [0; 2];
    for (call, answer) in answers() {
        let Ok(new) = answer else { continue };
        let to = call.basis().expect("a known basis");
        for x in POINTS {
            let values = [value(to, &new, x), value(other(to), &call.c, x)];
            assert_eq!(values[0], values[1], "{call:?} at {x}");
        }
        let back = Call::new(1 - call.to, new).answer();
        assert_eq!(back.as_ref(), Ok(&call.c));
        accepted[call.to as usize] += 1;
    }
    assert!(accepted.into_iter().all(|n| n > 4_000), "{accepted:?}");
}

#[test]
fn whole_exactly_if_each_place_has_its_power_of_two() {
    let mut seen = [0; 2];
    for (call, answer) in answers() {
        let c: Vec<i128> = call.c.iter().map(|&x| x.into()).collect();
        if call.to != CHEBYSHEV || call.c.len() > LIMIT + 1 || !fits(&c) {
            continue;
        }
        let has = |(at, x): (usize, &i64)| x % least_whole(CHEBYSHEV, at) == 0;
        let whole = call.c.iter().enumerate().all(has);
        assert_eq!(answer != Err(38), whole, "{call:?}");
        // The magnitudes don't grow: 3 is never said of the new coefficients.
        assert_ne!(answer, Err(3), "{call:?}");
        seen[whole as usize] += 1;
    }
    assert!(seen.into_iter().all(|n| n > 2_000), "{seen:?}");
}

#[test]
fn each_refusal_comes_both_ways() {
    for to in WAYS {
        let mut refusals: Vec<u8> = answers()
            .filter(|(call, _)| call.to == to)
            .map(|(_, answer)| answer.err().unwrap_or(0))
            .collect();
        refusals.sort();
        refusals.dedup();
        let must: &[u8] = match to {
            MONOMIAL => &[0, 3, 21, 37],
            _ => &[0, 3, 21, 37, 38],
        };
        assert_eq!(refusals, must);
    }
}
