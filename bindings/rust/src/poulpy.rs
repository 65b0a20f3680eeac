//! The same names with poulpy's answers, for code that was written for poulpy's planner: change its `use` line to this module.
//!
//! Four calls of poulpy answer bare numbers and have no room for a refusal. Here they do too, and panic with the refusal's sentence, as
//! poulpy's own `split_degree` panics. The calls of the crate's root never panic. All else is what stands at the root.
//!
//! ```
//! use firrozun::poulpy::{bsgs_op_counts, split_degree, Basis, Parity, SplitStrategy};
//! assert_eq!(split_degree(9), (7, 2));
//! let (ct_ct, pt_ct) = bsgs_op_counts(7, SplitStrategy::MinMult, Parity::Full, Basis::Monomial);
//! assert_eq!((ct_ct, pt_ct), (4, 6));
//! ```

use crate::calls;
use crate::refusal::Refusal;

pub use crate::bsgs::BSGSPolynomial;
pub use crate::calls::{change_of_basis, evaluate_coeffs};
pub use crate::kinds::{
    Basis, Parity, PolynomialInputTransform, SplitStrategy, DEFAULT_SPLIT_STRATEGY,
};
pub use crate::polynomial::Polynomial;

/// [`firrozun::split_degree`](crate::split_degree), bare and without the distance of the parts.
///
/// # Panics
///
/// On refusal 9: an index below 2, as in poulpy, or above 4,294,967,295.
///
/// ```
/// assert_eq!(firrozun::poulpy::split_degree(5), (3, 2));
/// ```
pub fn split_degree(n: usize) -> (usize, usize) {
    let (a, b, _) = bare(calls::split_degree(n));
    (a, b)
}

/// [`firrozun::bsgs_op_counts`](crate::bsgs_op_counts), bare.
///
/// # Panics
///
/// On refusal 2: a degree above 4,095.
///
/// ```
/// use firrozun::poulpy::{bsgs_op_counts, Basis, Parity, SplitStrategy};
/// assert_eq!(bsgs_op_counts(4, SplitStrategy::MinMult, Parity::Full, Basis::Chebyshev), (3, 3));
/// ```
pub fn bsgs_op_counts(
    degree: usize,
    strategy: SplitStrategy,
    parity: Parity,
    basis: Basis,
) -> (usize, usize) {
    bare(calls::bsgs_op_counts(degree, strategy, parity, basis))
}

/// [`firrozun::bsgs_eval_depth`](crate::bsgs_eval_depth), bare.
///
/// # Panics
///
/// On refusal 2: a degree above 4,294,967,295.
///
/// ```
/// assert_eq!(firrozun::poulpy::bsgs_eval_depth(7, firrozun::SplitStrategy::MinDepth), 3);
/// ```
pub fn bsgs_eval_depth(degree: usize, strategy: SplitStrategy) -> usize {
    bare(calls::bsgs_eval_depth(degree, strategy))
}

/// [`firrozun::bsgs_consumed_bits`](crate::bsgs_consumed_bits), bare.
///
/// # Panics
///
/// On refusal 2, a degree above 4,294,967,295, and 10, a scale above 65,535.
///
/// ```
/// use firrozun::poulpy::{bsgs_consumed_bits, Basis, Parity, SplitStrategy};
/// assert_eq!(bsgs_consumed_bits(4, SplitStrategy::MinDepth, Parity::Full, Basis::Monomial, 30, 20), 80);
/// ```
pub fn bsgs_consumed_bits(
    degree: usize,
    strategy: SplitStrategy,
    parity: Parity,
    basis: Basis,
    input_log_delta: usize,
    coeff_log_delta: usize,
) -> usize {
    bare(calls::bsgs_consumed_bits(
        degree,
        strategy,
        parity,
        basis,
        input_log_delta,
        coeff_log_delta,
    ))
}

#[allow(clippy::panic)]
fn bare<T>(answer: Result<T, Refusal>) -> T {
    match answer {
        Ok(answer) => answer,
        Err(refusal) => panic!("{refusal}"),
    }
}
