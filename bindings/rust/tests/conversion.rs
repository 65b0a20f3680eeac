//! Chebyshev and monomial, both ways: coefficients worked out by hand, there and back, the same value at every whole number, plans in the
//! other basis, what is kept, and what is refused. 43 is tested in `src/ffi/tests.rs`.

mod common;

use common::{allows, value, Numbers, BASES, PARITIES, STRATEGIES};
use firrozun::buffers::{convert_coeffs_into, CONVERT_LIMIT};
use firrozun::Basis::{Chebyshev, Monomial};
use firrozun::Parity::{Even, Full, Odd};
use firrozun::{
    detect_parity, evaluate_coeffs, Basis, Curve, CurveSet, Parity, Plan, Polynomial, Refusal,
};
use std::collections::BTreeMap;

/// The greatest sum of magnitudes that is accepted.
const MOST: i64 = 1 << 30;
/// What stands in a buffer before a call.
const UNTOUCHED: i64 = -777_777;

/// T_0 to T_6 by powers of x.
const CHEBYSHEV: [&[i64]; 7] = [
    &[1],
    &[0, 1],
    &[-1, 0, 2],
    &[0, -3, 0, 4],
    &[1, 0, -8, 0, 8],
    &[0, 5, 0, -20, 0, 16],
    &[-1, 0, 18, 0, -48, 0, 32],
];

/// 1, x, 2x², 4x³, 8x⁴, 16x⁵ and 32x⁶ by T_0 to T_6: each power times the least number that leaves no fraction.
const POWERS: [(i64, &[i64]); 7] = [
    (1, &[1]),
    (1, &[0, 1]),
    (2, &[1, 0, 1]),
    (4, &[0, 3, 0, 1]),
    (8, &[3, 0, 4, 0, 1]),
    (16, &[0, 10, 0, 5, 0, 1]),
    (32, &[10, 0, 15, 0, 6, 0, 1]),
];

/// T_20 by powers of x.
const T_20: [i64; 21] = [
    1, 0, -200, 0, 6_600, 0, -84_480, 0, 549_120, 0, -2_050_048, 0, 4_659_200, 0, -6_553_600, 0,
    5_570_560, 0, -2_621_440, 0, 524_288,
];

/// 2^19·x^20 by T_0 to T_20: binomials of 20, that of T_0 halved.
const X_20: [i64; 21] = [
    92_378, 0, 167_960, 0, 125_970, 0, 77_520, 0, 38_760, 0, 15_504, 0, 4_845, 0, 1_140, 0, 190, 0,
    20, 0, 1,
];

fn other(basis: Basis) -> Basis {
    match basis {
        Monomial => Chebyshev,
        Chebyshev => Monomial,
    }
}

/// One coefficient at place n, behind zeros.
fn alone(n: usize, coefficient: i64) -> Vec<i64> {
    let mut c = vec![0; n + 1];
    c[n] = coefficient;
    c
}

fn times(k: i64, c: &[i64]) -> Vec<i64> {
    c.iter().map(|a| k * a).collect()
}

/// The sum of the magnitudes.
fn sum(c: &[i64]) -> i128 {
    c.iter().map(|&a| i128::from(a).abs()).sum()
}

/// What the call leaves in so many places. A refusal leaves every place as it was, and an answer those beyond the coefficients.
fn converted_in(places: usize, to: Basis, c: &[i64]) -> Result<Vec<i64>, Refusal> {
    let mut out = vec![UNTOUCHED; places];
    let answer = convert_coeffs_into(to, c, &mut out);
    let count = answer.unwrap_or(0);
    assert!(out[count..].iter().all(|&place| place == UNTOUCHED));
    answer.map(|count| {
        assert_eq!(count, c.len());
        out[..count].to_vec()
    })
}

/// The new coefficients. They are the same with as many places as they take, with more, and by a polynomial.
fn converted(to: Basis, c: &[i64]) -> Result<Vec<i64>, Refusal> {
    let answer = converted_in(c.len(), to, c);
    assert_eq!(converted_in(c.len() + 3, to, c), answer);
    let polynomial = Polynomial::new(other(to), c.to_vec()).to_basis(to);
    if let Ok(polynomial) = &polynomial {
        assert_eq!(polynomial.basis, to);
    }
    assert_eq!(polynomial.map(|p| p.coeffs), answer);
    answer
}

/// The number of the refusal, and 0 for an answer.
fn number(to: Basis, c: &[i64]) -> u8 {
    converted(to, c).err().map_or(0, Refusal::number)
}

fn number_in(places: usize, to: Basis, c: &[i64]) -> u8 {
    let answer = converted_in(places, to, c);
    answer.err().map_or(0, Refusal::number)
}

/// Converts one way and the other, to these coefficients each time.
fn both_ways(by_powers: &[i64], by_chebyshev: &[i64]) {
    assert_eq!(converted(Chebyshev, by_powers), Ok(by_chebyshev.to_vec()));
    assert_eq!(converted(Monomial, by_chebyshev), Ok(by_powers.to_vec()));
}

#[test]
fn chebyshev_polynomials_by_powers() {
    for (n, by_powers) in CHEBYSHEV.into_iter().enumerate() {
        for k in [1, 2, -3, 1_000] {
            both_ways(&times(k, by_powers), &alone(n, k));
        }
    }
    both_ways(&T_20, &alone(20, 1));
}

#[test]
fn powers_by_chebyshev_polynomials() {
    for (n, (scale, by_chebyshev)) in POWERS.into_iter().enumerate() {
        for k in [1, 2, -3, 1_000] {
            both_ways(&alone(n, k * scale), &times(k, by_chebyshev));
        }
    }
    both_ways(&alone(20, 1 << 19), &X_20);
}

#[test]
fn several_coefficients() {
    both_ways(&[-2, -10, 6, 16], &[1, 2, 3, 4]);
    both_ways(&[0, 3, 12, -16, -40, 16, 32], &[1; 7]);
    both_ways(&[1, 1, 2, 4, 8, 16, 32], &[15, 14, 20, 6, 7, 1, 1]);
    // A curve that is even, and one that is odd.
    both_ways(&[5, 0, 2, 0, 8], &[9, 0, 5, 0, 1]);
    both_ways(&[0, -5, 0, 8], &[0, 1, 0, 2]);
}

/// As many coefficients as before, zeros at the end too.
#[test]
fn the_length_is_kept() {
    both_ways(&[], &[]);
    for count in 1..=21 {
        both_ways(&vec![0; count], &vec![0; count]);
    }
    both_ways(&[7], &[7]);
    both_ways(&[7, 5], &[7, 5]);
    both_ways(&[-1, 0, 2, 0, 0, 0], &[0, 0, 1, 0, 0, 0]);
    both_ways(&[0, 0, 2, 0], &[1, 0, 1, 0]);
}

#[test]
fn the_empty_curve() {
    for to in BASES {
        for places in [0, 1, 5] {
            assert_eq!(converted_in(places, to, &[]), Ok(vec![]));
        }
        let empty = Polynomial::new(other(to), vec![]).with_interval(3, 8);
        let expected = Polynomial::new(to, vec![]).with_interval(3, 8);
        assert_eq!(empty.to_basis(to), Ok(expected));
    }
}

/// The magnitudes of all coefficients of T_0 to T_(count − 1) together: those of T_n are twice those of T_(n − 1) and once those of T_(n − 2).
fn magnitudes_of_chebyshev(count: usize) -> i64 {
    let (mut sum, mut last, mut next) = (0, 1, 1);
    for _ in 0..count {
        sum += last;
        (last, next) = (next, 2 * next + last);
    }
    sum
}

/// A curve of a parity, to be converted to a basis: its magnitudes, and those of the new coefficients, sum to 2^30 at most. To Chebyshev
/// coefficient j is a multiple of 2^(j − 1).
fn curve(numbers: &mut Numbers, to: Basis, parity: Parity, count: usize) -> Vec<i64> {
    let place = |j: usize| {
        let (scale, most) = match to {
            Monomial => (1, MOST / magnitudes_of_chebyshev(count)),
            Chebyshev => (least(j), MOST / count as i64 / least(j)),
        };
        scale * numbers.within(most) * i64::from(allows(parity, j))
    };
    (0..count).map(place).collect()
}

/// The least coefficient of x^j that leaves no fraction: 2^(j − 1), and 1 for j = 0.
fn least(j: usize) -> i64 {
    1 << j.saturating_sub(1)
}

/// Curves of every length, parity and basis to be converted to, with the new coefficients.
fn in_every_setting(seed: u64, test: impl Fn(&mut Numbers, Basis, Parity, &[i64], &[i64])) {
    let mut numbers = Numbers(seed);
    for count in 0..=CONVERT_LIMIT + 1 {
        for to in BASES {
            for parity in PARITIES {
                for _ in 0..8 {
                    let c = curve(&mut numbers, to, parity, count);
                    let d = converted(to, &c).expect("new coefficients");
                    test(&mut numbers, to, parity, &c, &d);
                }
            }
        }
    }
}

#[test]
fn there_and_back() {
    in_every_setting(111, |_, to, _, c, d| {
        assert_eq!(converted(other(to), d), Ok(c.to_vec()));
    });
}

/// The value itself, which 128 bits hold at points from −10 to 10.
fn exact(basis: Basis, c: &[i64], x: i128) -> i128 {
    let (mut power, mut next, mut sum) = (1, x, 0);
    for &a in c {
        sum += i128::from(a) * power;
        let after = match basis {
            Monomial => x * next,
            Chebyshev => 2 * x * next - power,
        };
        (power, next) = (next, after);
    }
    sum
}

/// 21 points leave no other polynomial up to degree 20.
#[test]
fn the_same_value_at_every_point() {
    in_every_setting(112, |_, to, _, c, d| {
        for x in -10..=10 {
            assert_eq!(exact(to, d, x), exact(other(to), c, x), "{to:?} {c:?}");
        }
    });
}

fn floats(p: &Polynomial<i64>) -> Polynomial<f64> {
    let coeffs = p.coeffs.iter().map(|&c| c as f64).collect();
    Polynomial::new(p.basis, coeffs).with_interval(p.a as f64, p.b as f64)
}

/// Every number on the way is small enough for an f64 to hold it exactly.
#[test]
fn evaluated_to_the_same_double() {
    for (by_powers, by_chebyshev) in [
        (&[-2, -10, 6, 16][..], &[1, 2, 3, 4][..]),
        (&[0, 3, 12, -16, -40, 16, 32], &[1; 7]),
    ] {
        let p = Polynomial::new(Monomial, by_powers.to_vec()).with_interval(0, 4);
        let q = p.to_basis(Chebyshev).expect("the other basis");
        assert_eq!(q.coeffs, by_chebyshev);
        let (p, q) = (floats(&p), floats(&q));
        for point in -9..=9 {
            let x = f64::from(point);
            let value = exact(Monomial, by_powers, point.into()) as f64;
            assert_eq!((p.evaluate(x), q.evaluate(x)), (value, value));
            assert_eq!(evaluate_coeffs(Chebyshev, &q.coeffs, x), value);
            // Only the Chebyshev basis takes 0 to 4 to −1 to 1.
            assert_eq!(p.evaluate_on_interval(x), value);
            assert_eq!(q.evaluate_on_interval(x), p.evaluate(0.5 * x - 1.0));
        }
    }
}

/// The plan has the value of the first curve at every point.
fn is_walked(plan: &Plan, basis: Basis, c: &[i64], numbers: &mut Numbers) {
    let points = [0, 1, -1, 2, 7, i64::MAX, i64::MIN, numbers.next() as i64];
    for point in points {
        for modulus in [2, 97, 1_000_003, 2_147_483_647] {
            let expected = value(basis, c, point, modulus);
            assert_eq!(plan.walk(point, modulus), Ok(expected), "{c:?} at {point}");
        }
    }
}

#[test]
fn planned_in_the_other_basis() {
    in_every_setting(113, |numbers, to, parity, c, d| {
        let p = Polynomial::new_with_parity(other(to), c.to_vec(), parity).with_interval(-3, 5);
        let q = p.to_basis(to).expect("the other basis");
        assert_eq!(q.coeffs, d);
        for strategy in STRATEGIES {
            match (p.plan(strategy), q.plan(strategy)) {
                (Ok(first), Ok(second)) => {
                    is_walked(&first, p.basis, c, numbers);
                    is_walked(&second, p.basis, c, numbers);
                    assert_eq!((second.head().basis, second.head().parity), (to, parity));
                    assert_eq!(second.polynomial(), Some(q.clone()));
                }
                (first, second) => {
                    assert!(c.len() < 2);
                    assert_eq!(
                        (first, second),
                        (Err(Refusal::NoDegree), Err(Refusal::NoDegree))
                    );
                }
            }
            if parity != Full && c.len() > 3 {
                let folded = q.plan_folded(strategy).expect("a folded plan");
                is_walked(&folded, p.basis, c, numbers);
            }
        }
    });
}

/// A set wants one basis. The pump's curve comes in the other one.
#[test]
fn a_converted_curve_joins_a_set() {
    let pump = Polynomial::new(Monomial, vec![4200, 15, -26, -12, -8]);
    let pipe = Polynomial::new(Chebyshev, vec![1, 4, 6, 2]);
    let unlike = CurveSet::plan(&[Curve::from(&pipe), Curve::from(&pump)]);
    assert_eq!(unlike.err(), Some(Refusal::UnlikeMembers));
    let pump = pump.to_basis(Chebyshev).expect("the pump's curve");
    let set = CurveSet::plan(&[Curve::from(&pipe), Curve::from(&pump)]).expect("a set");
    let values = set.members().map(|member| member.walk(3, 1_000_000));
    // 1 + 4·3 + 6·17 + 2·99, and 4200 + 45 − 26·9 − 12·27 − 8·81.
    assert_eq!(values.collect::<Vec<_>>(), [Ok(313), Ok(3039)]);
}

/// The parity that was said, also a wrong one, and the interval, also an empty one.
#[test]
fn parity_and_interval_are_kept() {
    for to in BASES {
        for parity in PARITIES {
            for (a, b) in [(-1, 1), (0, 4), (5, -5), (i64::MIN, i64::MAX)] {
                for c in [&[][..], &[3], &[1, 2, 4, 8], &[0, 2, 0, 8], &[6, 0, 4]] {
                    let p = Polynomial::new_with_parity(other(to), c.to_vec(), parity);
                    let p = p.with_interval(a, b);
                    let expected = Polynomial {
                        basis: to,
                        coeffs: converted(to, c).expect("new coefficients"),
                        parity,
                        a,
                        b,
                    };
                    assert_eq!(p.to_basis(to), Ok(expected));
                    assert_eq!((p.basis, p.coeffs), (other(to), c.to_vec()));
                }
            }
        }
    }
}

#[test]
fn the_coefficients_have_the_same_parity() {
    in_every_setting(114, |_, _, _, c, d| {
        assert_eq!(detect_parity(d), detect_parity(c), "{c:?}");
    });
    assert_eq!(detect_parity(&X_20), Even);
    assert_eq!(detect_parity(CHEBYSHEV[5]), Odd);
}

/// As it is, and with no test: what could not be converted, too.
#[test]
fn in_the_basis_already() {
    for basis in BASES {
        for c in [
            vec![],
            vec![0, 0, 1],
            vec![i64::MIN, 5, i64::MAX],
            vec![MOST; 22],
            vec![1; 5000],
        ] {
            for parity in PARITIES {
                let p = Polynomial::new_with_parity(basis, c.clone(), parity).with_interval(9, 2);
                assert_eq!(p.to_basis(basis), Ok(p));
            }
        }
    }
}

#[test]
fn refusal_37_above_degree_20() {
    assert_eq!(CONVERT_LIMIT, 20);
    assert_eq!(firrozun::CONVERT_LIMIT, 20);
    for to in BASES {
        for count in 0..=21 {
            assert_eq!(number(to, &vec![0; count]), 0);
        }
        for count in [22, 23, 42, 64, 441, 4096, 4097, 100_000] {
            assert_eq!(number(to, &vec![0; count]), 37);
        }
        let refused = Err(Refusal::ConvertDegree);
        assert_eq!(converted(to, &[0; CONVERT_LIMIT + 2]), refused);
        // Ahead of 3, 38 and 21.
        assert_eq!(number(to, &[i64::MIN; 22]), 37);
        assert_eq!(number(to, &[1; 22]), 37);
        for places in [0, 1, 21] {
            assert_eq!(number_in(places, to, &[0; 22]), 37);
            assert_eq!(number_in(places, to, &[MOST; 22]), 37);
        }
    }
}

#[test]
fn refusal_3_on_the_input() {
    for to in BASES {
        for c in [&[MOST][..], &[-MOST], &[MOST / 2, -MOST / 2], &[0, MOST]] {
            assert_eq!(converted(to, c), Ok(c.to_vec()));
        }
        for c in [
            &[MOST + 1][..],
            &[-MOST - 1],
            &[MOST, 1],
            &[-1, MOST],
            &[MOST / 2, -MOST / 2, 0, 0, -1],
            &[i64::MAX],
            &[i64::MIN],
            &[i64::MIN, i64::MIN],
            &[i64::MAX, 1, 0],
            &[i64::MIN; 21],
            &[MOST; 21],
        ] {
            assert_eq!(number(to, c), 3, "{c:?}");
            // Ahead of 21.
            for places in 0..c.len() {
                assert_eq!(number_in(places, to, c), 3, "{c:?}");
            }
        }
    }
    // The greatest sum at every place that is whole, and one more at place 0.
    for place in 1..=20 {
        let mut c = alone(place, MOST);
        assert_eq!(number(Chebyshev, &c), 0);
        c[0] = 1;
        assert_eq!(number(Chebyshev, &c), 3);
        c[0] = -1;
        assert_eq!(number(Chebyshev, &c), 3);
    }
    // Ahead of 38.
    assert_eq!(number(Chebyshev, &[MOST, 0, 1]), 3);
    assert_eq!(number(Chebyshev, &[MOST - 1, 0, 1]), 38);
}

/// The least coefficient at every place, but another one at one place.
fn all_least_but(place: usize, coefficient: i64) -> Vec<i64> {
    let mut c: Vec<i64> = (0..=20).map(least).collect();
    c[place] = coefficient;
    c
}

#[test]
fn refusal_38_at_each_place() {
    for place in 2..=20 {
        let scale = least(place);
        for multiple in [scale, -scale, 2 * scale, 3 * scale] {
            assert_eq!(number(Chebyshev, &all_least_but(place, multiple)), 0);
        }
        for wrong in [
            1,
            -1,
            scale / 2,
            -scale / 2,
            scale - 1,
            scale + 1,
            5 * scale / 2,
        ] {
            let c = all_least_but(place, wrong);
            for count in place + 1..=21 {
                assert_eq!(number(Chebyshev, &c[..count]), 38, "{wrong} at {place}");
            }
            assert_eq!(number(Chebyshev, &alone(place, wrong)), 38);
            assert_eq!(number(Chebyshev, &c[..place]), 0);
            // Ahead of 21.
            assert_eq!(number_in(0, Chebyshev, &c), 38);
            assert_eq!(number_in(20, Chebyshev, &c), 38);
        }
    }
    assert_eq!(converted(Chebyshev, &[0, 0, 1]), Err(Refusal::NotWhole));
    // Nothing is asked of places 0 and 1.
    assert_eq!(converted(Chebyshev, &[7, -5]), Ok(vec![7, -5]));
}

/// Times 2^(degree − 1) every curve is whole, and its value so many times as large.
#[test]
fn what_to_do_after_38() {
    let mut numbers = Numbers(115);
    for degree in 2..=20 {
        let most = MOST / 21 / least(degree);
        let mut c: Vec<i64> = (0..=degree).map(|_| numbers.within(most)).collect();
        c[degree] |= 1;
        assert_eq!(number(Chebyshev, &c), 38);
        let scale = least(degree);
        let d = converted(Chebyshev, &times(scale, &c)).expect("whole coefficients");
        for x in -10..=10 {
            let expected = i128::from(scale) * exact(Monomial, &c, x);
            assert_eq!(exact(Chebyshev, &d, x), expected);
        }
        // Half as much isn't enough, since the last coefficient is odd.
        assert_eq!(number(Chebyshev, &times(scale / 2, &c)), 38);
    }
}

#[test]
fn to_monomial_all_is_whole() {
    for place in 0..=20 {
        for coefficient in [1, -1, 3, 47] {
            assert_eq!(number(Monomial, &alone(place, coefficient)), 0);
        }
    }
    assert_eq!(number(Monomial, &[1; 21]), 0);
}

/// The third of 2^30 − 1.
const THIRD: i64 = MOST / 3;

#[test]
fn refusal_3_on_the_output() {
    assert_eq!(3 * THIRD + 1, MOST);
    // T_2 = 2x² − 1 has three times the magnitude.
    both_ways(&[-THIRD, 1, 2 * THIRD], &[0, 1, THIRD]);
    both_ways(&[-THIRD - 1, 0, 2 * THIRD], &[-1, 0, THIRD]);
    both_ways(&[THIRD - 1, 2, -2 * THIRD], &[-1, 2, -THIRD]);
    for c in [
        &[0, 2, THIRD][..],
        &[0, -2, -THIRD],
        &[-2, 0, THIRD],
        &[0, 0, THIRD + 1],
        &[0, 0, MOST],
        &[0, 0, -MOST],
    ] {
        assert_eq!(number(Monomial, c), 3, "{c:?}");
        // Ahead of 21.
        for places in 0..c.len() {
            assert_eq!(number_in(places, Monomial, c), 3, "{c:?}");
        }
    }
    // 22,619,537 for one T_20.
    assert_eq!(sum(&T_20), 22_619_537);
    both_ways(&times(47, &T_20), &alone(20, 47));
    assert_eq!(number(Monomial, &alone(20, 48)), 3);
    for place in 2..=20 {
        assert_eq!(number(Monomial, &alone(place, MOST)), 3);
    }
    // To Chebyshev the sum doesn't grow.
    both_ways(&alone(20, MOST), &times(2048, &X_20));
    in_every_setting(116, |_, to, _, c, d| {
        assert!(to == Monomial || sum(d) <= sum(c), "{c:?}");
    });
}

#[test]
fn refusal_21_the_buffer() {
    let mut numbers = Numbers(117);
    for to in BASES {
        for count in 1..=21 {
            let c = curve(&mut numbers, to, Full, count);
            for places in 0..count {
                assert_eq!(number_in(places, to, &c), 21);
            }
            for places in [count, count + 1, 100] {
                assert_eq!(number_in(places, to, &c), 0);
            }
        }
        assert_eq!(number_in(0, to, &[]), 0);
    }
}

/// The new coefficients in 128 bits, times 2^21 so that no half is lost, by Horner's rule or Clenshaw's on whole polynomials.
fn scaled(to: Basis, c: &[i64]) -> Vec<i128> {
    // Place j of x·p.
    let shifted = |p: &[i128], j: usize| {
        let at = |i: usize| p.get(i).copied().unwrap_or(0);
        match (to, j) {
            (Monomial, 0) => 0,
            (Monomial, _) => at(j - 1),
            (Chebyshev, 0) => at(1) / 2,
            (Chebyshev, 1) => at(0) + at(2) / 2,
            (Chebyshev, _) => (at(j - 1) + at(j + 1)) / 2,
        }
    };
    let places = c.len();
    let (mut last, mut before) = (vec![0; places], vec![0; places]);
    for (k, &a) in c.iter().enumerate().rev() {
        let next = |j: usize| {
            let x_times = shifted(&last, j);
            let own = if j == 0 { i128::from(a) << 21 } else { 0 };
            match to {
                Chebyshev => own + x_times,
                Monomial if k == 0 => own + x_times - before[j],
                Monomial => own + 2 * x_times - before[j],
            }
        };
        let p = (0..places).map(next).collect();
        before = std::mem::replace(&mut last, p);
    }
    last
}

/// What the call is to answer, by the request's words.
fn plain(to: Basis, c: &[i64], places: usize) -> Result<Vec<i64>, u8> {
    if c.len() > 21 {
        return Err(37);
    }
    if sum(c) > i128::from(MOST) {
        return Err(3);
    }
    let scaled = scaled(to, c);
    if scaled.iter().any(|a| a % (1 << 21) != 0) {
        return Err(38);
    }
    let new: Vec<i64> = scaled.iter().map(|a| (a >> 21) as i64).collect();
    if sum(&new) > i128::from(MOST) {
        return Err(3);
    }
    if places < c.len() {
        return Err(21);
    }
    Ok(new)
}

/// A call that may be refused for any reason, or for several.
fn any_call(numbers: &mut Numbers) -> (Basis, Vec<i64>, usize) {
    let to = numbers.one_of(&BASES);
    let count = numbers.below(23) as usize;
    let mut c = curve(numbers, to, Full, count);
    for _ in 0..2 {
        let place = numbers.below(23) as usize;
        let change = numbers.one_of(&[0, 0, 0, 1, 4, 1 << 12, 1 << 25, MOST, i64::MIN]);
        if let Some(coefficient) = c.get_mut(place) {
            *coefficient = coefficient.wrapping_add(change);
        }
    }
    let places = (count + 2).saturating_sub(numbers.below(4) as usize);
    (to, c, places)
}

#[test]
fn any_calls() {
    let mut numbers = Numbers(118);
    let mut found = BTreeMap::new();
    for _ in 0..100_000 {
        let (to, c, places) = any_call(&mut numbers);
        let expected = plain(to, &c, places);
        let answer = converted_in(places, to, &c).map_err(Refusal::number);
        assert_eq!(answer, expected, "{to:?} {c:?} in {places}");
        let small = sum(&c) <= i128::from(MOST);
        let kind = (to.number(), expected.err().unwrap_or(0), small);
        *found.entry(kind).or_insert(0) += 1;
    }
    // Each of them often: accepted, 3 on the output and on the input, 21, 37 and 38.
    for kind in [
        (0, 0, true),
        (1, 0, true),
        (0, 3, true),
        (0, 3, false),
        (1, 3, false),
        (0, 21, true),
        (1, 21, true),
        (0, 37, true),
        (1, 37, true),
        (1, 38, true),
    ] {
        assert!(
            found.get(&kind).is_some_and(|&n| n > 500),
            "{kind:?} {found:?}"
        );
    }
    assert!(!found
        .keys()
        .any(|&(to, refusal, _)| (to, refusal) == (0, 38)));
}
