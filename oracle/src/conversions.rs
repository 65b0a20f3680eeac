//! Whole coefficients, written in the other basis. The published planner has no such call: it is worked out here from the words of request Q-11
//! and from the relations of the Chebyshev polynomials, in exact fractions. T_0 is 1, T_1 is x, and T_(n+1) is 2x T_n − T_(n−1); so x T_n is
//! half of T_(n+1) + T_|n−1|.

pub mod borders;
pub mod random;
pub mod recorded;
#[cfg(test)]
mod tests;

use crate::calls::{BASES, Basis};
use crate::inputs::MAX_SUM;

/// The greatest degree that is converted.
pub const LIMIT: usize = 20;
/// The numbers of the two bases.
pub const MONOMIAL: u8 = 0;
pub const CHEBYSHEV: u8 = 1;

/// The new coefficients, or the number of the refusal.
pub type Converted = Result<Vec<i64>, u8>;

/// One call: the number of the basis that is asked for, which may be that of none; the coefficients, in the other basis; and how many places
/// the call may write to.
#[derive(Clone, Debug)]
pub struct Call {
    pub to: u8,
    pub c: Vec<i64>,
    pub room: usize,
}

impl Call {
    /// The call with a buffer that is exactly long enough.
    pub fn new(to: u8, c: Vec<i64>) -> Self {
        let room = c.len();
        Call { to, c, room }
    }

    /// The basis that is asked for; none if its number is unknown.
    pub fn basis(&self) -> Option<Basis> {
        BASES.get(self.to as usize).copied()
    }

    /// Refusals in their order: 43, 37, 3 of the coefficients handed in, 38, 3 of the new ones, 21.
    pub fn answer(&self) -> Converted {
        let to = self.basis().ok_or(43)?;
        let degree = self.c.len().saturating_sub(1);
        if degree > LIMIT {
            return Err(37);
        }
        let c: Vec<i128> = self.c.iter().map(|&x| x.into()).collect();
        if !fits(&c) {
            return Err(3);
        }
        let fractions = match to {
            Basis::Monomial => over_powers(&c),
            Basis::Chebyshev => over_chebyshev(&c),
        };
        let new = fractions.whole().ok_or(38)?;
        if !fits(&new) {
            return Err(3);
        }
        if self.room < new.len() {
            return Err(21);
        }
        // No magnitude is above 2^30.
        Ok(new.iter().map(|&x| x as i64).collect())
    }
}

/// The basis in which the coefficients of a call to this one stand.
pub fn other(basis: Basis) -> Basis {
    match basis {
        Basis::Monomial => Basis::Chebyshev,
        Basis::Chebyshev => Basis::Monomial,
    }
}

/// Whether the magnitudes sum to at most 2^30.
pub fn fits(c: &[i128]) -> bool {
    let sum = c.iter().fold(0, |sum, x| plus(sum, x.abs()));
    sum <= MAX_SUM.into()
}

fn plus(x: i128, y: i128) -> i128 {
    x.checked_add(y).expect("a sum within 128 bits")
}

fn times(x: i128, y: i128) -> i128 {
    x.checked_mul(y).expect("a product within 128 bits")
}

/// Coefficients as exact fractions: whole numbers, all of them over the same power of two.
struct Fractions {
    numerators: Vec<i128>,
    halvings: u32,
}

impl Fractions {
    fn zeros(n: usize) -> Self {
        Fractions {
            numerators: vec![0; n],
            halvings: 0,
        }
    }

    /// A curve over T_i times x: each T_i becomes half of T_(i+1) + T_|i−1|.
    fn times_x(&self) -> Self {
        let mut doubled = vec![0; self.numerators.len()];
        for (i, &x) in self.numerators.iter().enumerate() {
            if x != 0 {
                for at in [i + 1, i.abs_diff(1)] {
                    doubled[at] = plus(doubled[at], x);
                }
            }
        }
        Fractions {
            numerators: doubled,
            halvings: self.halvings + 1,
        }
    }

    fn add_constant(&mut self, x: i128) {
        let numerator = times(x, 1 << self.halvings);
        self.numerators[0] = plus(self.numerators[0], numerator);
    }

    /// The coefficients, if all of them are whole.
    fn whole(&self) -> Option<Vec<i128>> {
        let denominator = 1 << self.halvings;
        let whole = |&x: &i128| (x % denominator == 0).then_some(x / denominator);
        self.numerators.iter().map(whole).collect()
    }
}

/// A curve given by powers of x, over T_i. By Horner's rule, from the last coefficient on: the curve so far times x, plus the next coefficient.
fn over_chebyshev(c: &[i128]) -> Fractions {
    let mut curve = Fractions::zeros(c.len());
    for &x in c.iter().rev() {
        curve = curve.times_x();
        curve.add_constant(x);
    }
    curve
}

/// A curve given over T_i, by powers of x. By Clenshaw's rule, from the last coefficient on: b_k is c_k + 2x b_(k+1) − b_(k+2), and the curve is
/// c_0 + x b_1 − b_2.
fn over_powers(c: &[i128]) -> Fractions {
    let [mut b, mut before] = [vec![0; c.len()], vec![0; c.len()]];
    for (k, &x) in c.iter().enumerate().rev() {
        assert_eq!(b.last(), Some(&0), "a degree below the last");
        let factor = if k == 0 { 1 } else { 2 };
        let shifted = |i: usize| i.checked_sub(1).map_or(x, |i| times(factor, b[i]));
        let next = (0..c.len()).map(|i| plus(shifted(i), -before[i])).collect();
        (b, before) = (next, b);
    }
    Fractions {
        numerators: b,
        halvings: 0,
    }
}

/// The value of a curve at a whole number: the sum of c_j times power j, or times T_j at this number.
pub fn value(basis: Basis, c: &[i64], x: i64) -> i128 {
    let x = i128::from(x);
    let (mut power, mut next, mut sum) = (1, x, 0);
    for &c in c {
        sum = plus(sum, times(c.into(), power));
        let later = match basis {
            Basis::Monomial => times(x, next),
            Basis::Chebyshev => plus(times(2 * x, next), -power),
        };
        (power, next) = (next, later);
    }
    sum
}
