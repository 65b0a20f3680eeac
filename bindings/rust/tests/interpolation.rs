//! Interpolation of a function: nodes, order and sums are those of `docs/RULES.md`, to the last bit.

use firrozun::{Basis, Parity, Polynomial};
use std::cell::RefCell;
use std::f64::consts::PI;

/// The rule written out: nodes cos((k − 1/2)·π/n) for k = n down to 1, one sum for each coefficient, then the scaling.
fn by_rule(degree: usize, a: f64, b: f64, f: fn(f64) -> f64) -> Vec<f64> {
    let n = degree + 1;
    let mut sums = vec![0.0; n];
    for k in (1..=n).rev() {
        let node = ((k as f64 - 0.5) * (PI / n as f64)).cos();
        let value = f((a + b) * 0.5 + ((b - a) * 0.5) * node);
        let (mut power, mut next) = (1.0, node);
        for sum in &mut sums {
            *sum += value * power;
            let after = 2.0 * node * next - power;
            power = next;
            next = after;
        }
    }
    let part = 1.0 / n as f64;
    for (j, sum) in sums.iter_mut().enumerate() {
        *sum *= if j == 0 { part } else { 2.0 * part };
    }
    sums
}

fn bits(numbers: &[f64]) -> Vec<u64> {
    numbers.iter().map(|number| number.to_bits()).collect()
}

#[test]
fn to_the_last_bit() {
    let functions = [f64::sin as fn(f64) -> f64, f64::cos, f64::exp, |x| {
        1.0 / (1.0 + x * x)
    }];
    for degree in (0..70).chain([255, 256, 1000]) {
        for (a, b) in [(-1.0, 1.0), (0.0, 3.0), (-8.0, 8.0)] {
            for f in functions {
                let p = Polynomial::chebyshev_interpolate(degree, a, b, f).expect("a polynomial");
                assert_eq!(bits(&p.coeffs), bits(&by_rule(degree, a, b, f)));
                assert_eq!((p.basis, p.interval()), (Basis::Chebyshev, (a, b)));
                assert_eq!(
                    p.parity,
                    Polynomial::new(Basis::Chebyshev, p.coeffs.clone()).parity
                );
            }
        }
    }
}

#[test]
fn the_caller_has_the_cosine() {
    let angles = RefCell::new(vec![]);
    let cosine = |angle: f64| {
        angles.borrow_mut().push(angle);
        0.0
    };
    let p = Polynomial::chebyshev_interpolate_with_cos(2, 1.0, 3.0, |x| x, cosine)
        .expect("a polynomial");
    assert_eq!(*angles.borrow(), [2.5, 1.5, 0.5].map(|k| k * (PI / 3.0)));
    // Three nodes at 0 stand for the middle of the interval, where the value is 2.
    assert_eq!(
        (p.parity, p.coeffs[0], p.coeffs[1]),
        (Parity::Even, 2.0 * 3.0 * (1.0 / 3.0), 0.0)
    );
}

#[test]
fn it_comes_close() {
    let p = Polynomial::chebyshev_interpolate(40, -3.0, 5.0, |x| (x * 0.5).tanh())
        .expect("a polynomial");
    for i in -30..=50 {
        let x = f64::from(i) * 0.1;
        assert!((p.evaluate_on_interval(x) - (x * 0.5).tanh()).abs() < 1e-6);
    }
}
