//! What several tests use: a seeded generator, and the value of a polynomial worked out directly.
#![allow(dead_code)]

use firrozun::{Basis, Parity, PolynomialInputTransform, SplitStrategy};

pub mod sets;

pub const BASES: [Basis; 2] = [Basis::Monomial, Basis::Chebyshev];
pub const PARITIES: [Parity; 3] = [Parity::Full, Parity::Even, Parity::Odd];
pub const STRATEGIES: [SplitStrategy; 2] = [SplitStrategy::MinDepth, SplitStrategy::MinMult];
pub const TRANSFORMS: [PolynomialInputTransform; 5] = [
    PolynomialInputTransform::Identity,
    PolynomialInputTransform::Square,
    PolynomialInputTransform::SquareTimesInput,
    PolynomialInputTransform::ChebyshevT2,
    PolynomialInputTransform::ChebyshevT2TimesInput,
];

pub type Settings = (SplitStrategy, Parity, Basis, bool);

/// Every setting: 2 strategies, 3 parities, 2 bases, folded or not.
pub fn settings() -> impl Iterator<Item = Settings> {
    STRATEGIES.into_iter().flat_map(|strategy| {
        PARITIES.into_iter().flat_map(move |parity| {
            BASES.into_iter().flat_map(move |basis| {
                [false, true]
                    .into_iter()
                    .map(move |fold| (strategy, parity, basis, fold))
            })
        })
    })
}

/// A generator of numbers (splitmix64). The same seed gives the same numbers.
pub struct Numbers(pub u64);

impl Numbers {
    pub fn next(&mut self) -> u64 {
        self.0 = self.0.wrapping_add(0x9e37_79b9_7f4a_7c15);
        let mut z = self.0;
        z = (z ^ (z >> 30)).wrapping_mul(0xbf58_476d_1ce4_e5b9);
        z = (z ^ (z >> 27)).wrapping_mul(0x94d0_49bb_1331_11eb);
        z ^ (z >> 31)
    }

    /// A number below `end`, which is not 0.
    pub fn below(&mut self, end: u64) -> u64 {
        self.next() % end
    }

    /// A number from −`most` to `most`.
    pub fn within(&mut self, most: i64) -> i64 {
        self.below(2 * most as u64 + 1) as i64 - most
    }

    pub fn one_of<T: Copy>(&mut self, kinds: &[T]) -> T {
        kinds[self.below(kinds.len() as u64) as usize]
    }
}

/// Whether a parity allows a place.
pub fn allows(parity: Parity, place: usize) -> bool {
    match parity {
        Parity::Full => true,
        Parity::Even => place & 1 == 0,
        Parity::Odd => place & 1 == 1,
    }
}

/// The remainder of the polynomial's value at a point: the sum of coefficient times power, each power from the two before it.
pub fn value(basis: Basis, coeffs: &[i64], point: i64, modulus: u64) -> u64 {
    let m = i128::from(modulus);
    let x = i128::from(point).rem_euclid(m);
    let (mut power, mut next, mut sum) = (1 % m, x, 0);
    for &c in coeffs {
        sum = (sum + i128::from(c) * power).rem_euclid(m);
        let after = match basis {
            Basis::Monomial => x * next,
            Basis::Chebyshev => 2 * x * next - power,
        };
        power = next;
        next = after.rem_euclid(m);
    }
    sum as u64
}
