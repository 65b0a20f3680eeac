//! The two types of coefficients.

use crate::ffi;
use crate::ffi::{CFolded, CListed};
use crate::kinds::{Basis, Parity, SplitStrategy};

/// A coefficient: `f64`, or a whole number as `i64`. No other type can have this trait.
///
/// ```
/// fn sum_of_places<F: firrozun::Coefficient>(coeffs: &[F]) -> f64 {
///     coeffs.iter().map(|c| c.to_f64()).sum()
/// }
/// assert_eq!(sum_of_places(&[1, 2]), sum_of_places(&[1.0, 2.0]));
/// ```
pub trait Coefficient: Calls + Copy + PartialEq + std::fmt::Debug {
    /// The nearest f64; for a whole coefficient that a plan takes, the same number.
    ///
    /// ```
    /// use firrozun::Coefficient;
    /// assert_eq!(Coefficient::to_f64(-3), -3.0);
    /// ```
    fn to_f64(self) -> f64;
}

/// The calls that there are for both types.
pub trait Calls: Sized {
    const ZERO: Self;
    const ONE: Self;
    const MINUS_ONE: Self;
    fn detect(coeffs: &[Self]) -> Parity;
    fn fold(parity: Parity, basis: Basis, coeffs: &[Self], out: &mut [Self]) -> CFolded;
    fn list(
        strategy: SplitStrategy,
        parity: Parity,
        basis: Basis,
        coeffs: &[Self],
        out: &mut [Self],
        boundaries: &mut [u16],
    ) -> CListed;
}

impl Coefficient for i64 {
    fn to_f64(self) -> f64 {
        self as f64
    }
}

impl Coefficient for f64 {
    fn to_f64(self) -> f64 {
        self
    }
}

// The calls of both types are the same, under two names each.
macro_rules! calls {
    ($type:ty, $zero:expr, $one:expr, $detect:path, $fold:path, $list:path) => {
        impl Calls for $type {
            const ZERO: Self = $zero;
            const ONE: Self = $one;
            const MINUS_ONE: Self = -$one;

            fn detect(coeffs: &[Self]) -> Parity {
                Parity::of($detect(coeffs))
            }

            fn fold(parity: Parity, basis: Basis, coeffs: &[Self], out: &mut [Self]) -> CFolded {
                $fold(parity.number(), basis.number(), coeffs, out)
            }

            fn list(
                strategy: SplitStrategy,
                parity: Parity,
                basis: Basis,
                coeffs: &[Self],
                out: &mut [Self],
                boundaries: &mut [u16],
            ) -> CListed {
                let (strategy, parity, basis) =
                    (strategy.number(), parity.number(), basis.number());
                $list(strategy, parity, basis, coeffs, out, boundaries)
            }
        }
    };
}

calls!(
    i64,
    0,
    1,
    ffi::detect_parity,
    ffi::fold_parity,
    ffi::decompose_bsgs
);
calls!(
    f64,
    0.0,
    1.0,
    ffi::detect_parity_f64,
    ffi::fold_parity_f64,
    ffi::decompose_bsgs_f64
);
