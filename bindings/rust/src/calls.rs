//! The calls on numbers and on lent coefficients, in poulpy's names and argument orders where poulpy has them.

use crate::coefficient::Coefficient;
use crate::ffi;
use crate::kinds::{Basis, Parity, SplitStrategy};
use crate::refusal::Refusal;

/// The two powers that make power `n`, a + b = n, and their distance, |a − b|. With the third number T_n = 2·T_a·T_b − T_distance. (poulpy's
/// call of this name answers the first two alone, and so does that of [`poulpy`](crate::poulpy).)
///
/// Refused: 9 for an index below 2 or above 4,294,967,295.
///
/// ```
/// use firrozun::{split_degree, Refusal};
/// assert_eq!(split_degree(3), Ok((1, 2, 1)));
/// assert_eq!(split_degree(8), Ok((4, 4, 0)));
/// assert_eq!(split_degree(9), Ok((7, 2, 5)));
/// assert_eq!(split_degree(1), Err(Refusal::Index));
/// ```
pub fn split_degree(n: usize) -> Result<(usize, usize, usize), Refusal> {
    let answer = ffi::split_degree(n);
    Refusal::test(answer.refusal)?;
    Ok((answer.a, answer.b, answer.distance))
}

/// The split of strategy MinDepth for a degree; the base is 2 to this power. (poulpy's inner call of this name takes the number of
/// binary digits of the degree.)
///
/// Refused: 2 for a degree above 4,294,967,295, 1 for degree 0.
///
/// ```
/// use firrozun::{min_depth_split, Refusal};
/// assert_eq!(min_depth_split(16), Ok(3));
/// assert_eq!(min_depth_split(0), Err(Refusal::NoDegree));
/// ```
pub fn min_depth_split(degree: usize) -> Result<usize, Refusal> {
    let answer = ffi::min_depth_split(degree);
    Refusal::test(answer.refusal)?;
    Ok(answer.split)
}

/// The split of strategy MinMult: the smallest whose pair of counts is least.
///
/// Refused: 2 for a degree above 4,095.
///
/// ```
/// use firrozun::{min_mult_split, Basis, Parity};
/// assert_eq!(min_mult_split(7, Parity::Full, Basis::Monomial), Ok(2));
/// ```
pub fn min_mult_split(degree: usize, parity: Parity, basis: Basis) -> Result<usize, Refusal> {
    let answer = ffi::min_mult_split(parity.number(), basis.number(), degree);
    Refusal::test(answer.refusal)?;
    Ok(answer.split)
}

/// How many multiplications a plan has at the strategy's split: of two encrypted numbers, and of an encrypted and a plain one.
///
/// This is poulpy's estimate. A [`Plan`](crate::Plan) reports the pair of its own steps, which may be another: for `MinDepth` the estimate
/// leaves relisting out, and a last list of one after another list is a plain multiplication in a plan, in the estimate only if the degree
/// is a power of two. With parity `Full` degree 12 has the estimate (7, 9), and its plan reports (6, 10).
///
/// Refused: 2 for a degree above 4,095.
///
/// ```
/// use firrozun::{bsgs_op_counts, Basis, Parity, Refusal, SplitStrategy};
/// let counts = |degree| bsgs_op_counts(degree, SplitStrategy::MinMult, Parity::Full, Basis::Monomial);
/// assert_eq!(counts(7), Ok((4, 6)));
/// assert_eq!(counts(4096), Err(Refusal::Degree));
/// ```
pub fn bsgs_op_counts(
    degree: usize,
    strategy: SplitStrategy,
    parity: Parity,
    basis: Basis,
) -> Result<(usize, usize), Refusal> {
    let answer = ffi::bsgs_op_counts(strategy.number(), parity.number(), basis.number(), degree);
    Refusal::test(answer.refusal)?;
    Ok((answer.ct, answer.pt))
}

/// How many levels of multiplications the evaluation has.
///
/// Refused: 2 for a degree above 4,294,967,295.
///
/// ```
/// use firrozun::{bsgs_eval_depth, SplitStrategy};
/// assert_eq!(bsgs_eval_depth(6, SplitStrategy::MinMult), Ok(3));
/// assert_eq!(bsgs_eval_depth(7, SplitStrategy::MinMult), Ok(4));
/// ```
pub fn bsgs_eval_depth(degree: usize, strategy: SplitStrategy) -> Result<usize, Refusal> {
    let answer = ffi::bsgs_eval_depth(strategy.number(), degree);
    Refusal::test(answer.refusal)?;
    Ok(answer.depth)
}

/// How many bits the evaluation uses up, for the bit scales of the input and of the coefficients. Parity and basis have no influence;
/// they stand here as in poulpy.
///
/// Refused: 2 for a degree above 4,294,967,295, 10 for a scale above 65,535.
///
/// ```
/// use firrozun::{bsgs_consumed_bits, Basis, Parity, SplitStrategy};
/// let bits = bsgs_consumed_bits(5, SplitStrategy::MinMult, Parity::Full, Basis::Monomial, 20, 100);
/// assert_eq!(bits, Ok(120));
/// ```
pub fn bsgs_consumed_bits(
    degree: usize,
    strategy: SplitStrategy,
    _parity: Parity,
    _basis: Basis,
    input_log_delta: usize,
    coeff_log_delta: usize,
) -> Result<usize, Refusal> {
    let answer =
        ffi::bsgs_consumed_bits(strategy.number(), degree, input_log_delta, coeff_log_delta);
    Refusal::test(answer.refusal)?;
    Ok(answer.bits)
}

/// The largest degree for a budget of bits: the greatest from 1 to 4,095 whose [`bsgs_consumed_bits`] are at most the budget, for the
/// bit scales of the input and of the coefficients. Bits need not rise with the degree, so a lower one may take more bits than the
/// budget has. At degree 5 with MinMult an even plan's heaviest chain is above these bits if the input scale is from 1 up and below the
/// coefficient scale: ask [`Plan::heaviest_chain`](crate::Plan::heaviest_chain) there.
///
/// Refused: 10 for a scale above 65,535, 31 for a budget that no degree is within, which is one below the coefficient scale.
///
/// ```
/// use firrozun::{bsgs_consumed_bits, largest_degree, Basis, Parity, Refusal, SplitStrategy};
/// let strategy = SplitStrategy::MinMult;
/// assert_eq!(largest_degree(strategy, 3, 1, 2), Ok(5));
/// assert_eq!(largest_degree(strategy, 1, 1, 2), Err(Refusal::Budget));
/// // Degree 4 takes a bit more than degree 5.
/// let bits = |degree| bsgs_consumed_bits(degree, strategy, Parity::Full, Basis::Monomial, 1, 2);
/// assert_eq!((bits(4), bits(5), bits(6)), (Ok(4), Ok(3), Ok(4)));
/// ```
pub fn largest_degree(
    strategy: SplitStrategy,
    budget: u64,
    input: usize,
    coeff: usize,
) -> Result<usize, Refusal> {
    let answer = ffi::largest_degree(strategy.number(), budget, input, coeff);
    Refusal::test(answer.refusal)?;
    Ok(answer.degree)
}

/// The value at `x`, by Horner's rule or Clenshaw's. It is never refused.
///
/// ```
/// use firrozun::{evaluate_coeffs, Basis};
/// assert_eq!(evaluate_coeffs(Basis::Monomial, &[1.0, 2.0, 3.0], 2.0), 17.0);
/// assert_eq!(evaluate_coeffs(Basis::Chebyshev, &[0.0, 1.0, 0.0, 2.0], 2.0), 54.0);
/// assert_eq!(evaluate_coeffs(Basis::Monomial, &[], 2.0), 0.0);
/// ```
pub fn evaluate_coeffs(basis: Basis, coeffs: &[f64], x: f64) -> f64 {
    ffi::evaluate_coeffs(basis.number(), coeffs, x).value
}

/// The pair (u, w) for which the coefficients on the interval from `a` to `b` are those of a polynomial in u·x + w. It is never
/// refused, and a < b is not tested.
///
/// ```
/// use firrozun::{change_of_basis, Basis};
/// assert_eq!(change_of_basis(Basis::Chebyshev, 0.0, 2.0), (1.0, -1.0));
/// assert_eq!(change_of_basis(Basis::Monomial, 0.0, 2.0), (1.0, 0.0));
/// ```
pub fn change_of_basis(basis: Basis, a: f64, b: f64) -> (f64, f64) {
    let answer = ffi::change_of_basis(basis.number(), a, b);
    (answer.u, answer.w)
}

/// The parity that coefficients have; zeros alone are `Even`, and −0 counts as zero. It is never refused.
///
/// ```
/// use firrozun::{detect_parity, Parity};
/// assert_eq!(detect_parity(&[0, 1, 0, 2]), Parity::Odd);
/// assert_eq!(detect_parity(&[1.0, -0.0, 0.5]), Parity::Even);
/// assert_eq!(detect_parity(&[1, 2]), Parity::Full);
/// ```
pub fn detect_parity<F: Coefficient>(coeffs: &[F]) -> Parity {
    F::detect(coeffs)
}
