//! A polynomial cut into lists, with poulpy's names.

use crate::buffers::Listed;
use crate::calls::{bsgs_consumed_bits, bsgs_eval_depth, change_of_basis};
use crate::kinds::{Basis, Parity, PolynomialInputTransform, SplitStrategy};
use crate::refusal::Refusal;

/// A polynomial cut into lists, each in the form that the caller's encoder gave it. The lowest is list 0.
///
/// [`Polynomial::decompose_bsgs_with`](crate::Polynomial::decompose_bsgs_with) and its folded form make it.
///
/// ```
/// use firrozun::{Basis, BSGSPolynomial, Polynomial, Refusal, SplitStrategy};
/// let p = Polynomial::new(Basis::Monomial, vec![1, 2, 3, 4, 5]);
/// let lengths: BSGSPolynomial<usize> =
///     p.decompose_bsgs_with(SplitStrategy::MinDepth, |list| Ok::<_, Refusal>(list.len()))?;
/// assert_eq!(lengths.baby_steps(), [4, 1]);
/// assert_eq!((lengths.degree(), lengths.base(), lengths.log_split()), (4, 4, 2));
/// assert_eq!(lengths.consumed_bits(30, 20), Ok(80));
/// # Ok::<(), Refusal>(())
/// ```
#[derive(Clone, Debug, PartialEq)]
pub struct BSGSPolynomial<C> {
    basis: Basis,
    degree: usize,
    base: usize,
    depth: usize,
    baby_steps: Vec<C>,
    parity: Parity,
    split_strategy: SplitStrategy,
    input_transform: PolynomialInputTransform,
    interval: (f64, f64),
}

impl<C> BSGSPolynomial<C> {
    pub(crate) fn new(
        basis: Basis,
        parity: Parity,
        split_strategy: SplitStrategy,
        input_transform: PolynomialInputTransform,
        listed: Listed,
        baby_steps: Vec<C>,
        interval: (f64, f64),
    ) -> Result<Self, Refusal> {
        let depth = bsgs_eval_depth(listed.degree, split_strategy)? + input_transform.extra_depth();
        Ok(Self {
            basis,
            degree: listed.degree,
            base: listed.base,
            depth,
            baby_steps,
            parity,
            split_strategy,
            input_transform,
            interval,
        })
    }

    /// The basis.
    ///
    /// ```
    /// # use firrozun::{Basis, Parity, Polynomial, PolynomialInputTransform, Refusal, SplitStrategy};
    /// # let p = Polynomial::new(Basis::Chebyshev, vec![0, 1, 0, 2, 0, 3]).with_interval(0, 2);
    /// # let bsgs = p.decompose_bsgs_folded_with(SplitStrategy::MinMult, |list| Ok::<_, Refusal>(list.to_vec()))?;
    /// assert_eq!(bsgs.basis(), Basis::Chebyshev);
    /// # Ok::<(), Refusal>(())
    /// ```
    pub fn basis(&self) -> Basis {
        self.basis
    }

    /// The degree of what was cut, about half of the polynomial's if it was folded.
    ///
    /// ```
    /// # use firrozun::{Basis, Parity, Polynomial, PolynomialInputTransform, Refusal, SplitStrategy};
    /// # let p = Polynomial::new(Basis::Chebyshev, vec![0, 1, 0, 2, 0, 3]).with_interval(0, 2);
    /// # let bsgs = p.decompose_bsgs_folded_with(SplitStrategy::MinMult, |list| Ok::<_, Refusal>(list.to_vec()))?;
    /// assert_eq!((p.degree(), bsgs.degree()), (5, 2));
    /// # Ok::<(), Refusal>(())
    /// ```
    pub fn degree(&self) -> usize {
        self.degree
    }

    /// The base: a list has at most so many coefficients.
    ///
    /// ```
    /// # use firrozun::{Basis, Parity, Polynomial, PolynomialInputTransform, Refusal, SplitStrategy};
    /// # let p = Polynomial::new(Basis::Chebyshev, vec![0, 1, 0, 2, 0, 3]).with_interval(0, 2);
    /// # let bsgs = p.decompose_bsgs_folded_with(SplitStrategy::MinMult, |list| Ok::<_, Refusal>(list.to_vec()))?;
    /// assert_eq!(bsgs.base(), 2);
    /// # Ok::<(), Refusal>(())
    /// ```
    pub fn base(&self) -> usize {
        self.base
    }

    /// The split: the base is 2 to this power.
    ///
    /// ```
    /// # use firrozun::{Basis, Parity, Polynomial, PolynomialInputTransform, Refusal, SplitStrategy};
    /// # let p = Polynomial::new(Basis::Chebyshev, vec![0, 1, 0, 2, 0, 3]).with_interval(0, 2);
    /// # let bsgs = p.decompose_bsgs_folded_with(SplitStrategy::MinMult, |list| Ok::<_, Refusal>(list.to_vec()))?;
    /// assert_eq!(bsgs.log_split(), 1);
    /// # Ok::<(), Refusal>(())
    /// ```
    pub fn log_split(&self) -> usize {
        self.base.trailing_zeros() as usize
    }

    /// Levels of multiplications, those of the transform too.
    ///
    /// ```
    /// # use firrozun::{Basis, Parity, Polynomial, PolynomialInputTransform, Refusal, SplitStrategy};
    /// # let p = Polynomial::new(Basis::Chebyshev, vec![0, 1, 0, 2, 0, 3]).with_interval(0, 2);
    /// # let bsgs = p.decompose_bsgs_folded_with(SplitStrategy::MinMult, |list| Ok::<_, Refusal>(list.to_vec()))?;
    /// assert_eq!(bsgs.eval_depth(), 4);
    /// # Ok::<(), Refusal>(())
    /// ```
    pub fn eval_depth(&self) -> usize {
        self.depth
    }

    /// Bits that the evaluation uses up, those of the transform too, for the bit scales of the input and of the coefficients.
    ///
    /// Refused: 10 for a scale above 65,535.
    ///
    /// ```
    /// # use firrozun::{Basis, Parity, Polynomial, PolynomialInputTransform, Refusal, SplitStrategy};
    /// # let p = Polynomial::new(Basis::Chebyshev, vec![0, 1, 0, 2, 0, 3]).with_interval(0, 2);
    /// # let bsgs = p.decompose_bsgs_folded_with(SplitStrategy::MinMult, |list| Ok::<_, Refusal>(list.to_vec()))?;
    /// assert_eq!(bsgs.consumed_bits(40, 30), Ok(150));
    /// assert_eq!(bsgs.consumed_bits(65_536, 30), Err(Refusal::Scale));
    /// # Ok::<(), Refusal>(())
    /// ```
    pub fn consumed_bits(
        &self,
        input_log_delta: usize,
        coeff_log_delta: usize,
    ) -> Result<usize, Refusal> {
        let bits = bsgs_consumed_bits(
            self.degree,
            self.split_strategy,
            self.parity,
            self.basis,
            input_log_delta,
            coeff_log_delta,
        )?;
        // Not above 65,535 each, once the library has taken the scales.
        Ok(bits + self.input_transform.extra_depth() * input_log_delta)
    }

    /// The encoded lists, the lowest first.
    ///
    /// ```
    /// # use firrozun::{Basis, Parity, Polynomial, PolynomialInputTransform, Refusal, SplitStrategy};
    /// # let p = Polynomial::new(Basis::Chebyshev, vec![0, 1, 0, 2, 0, 3]).with_interval(0, 2);
    /// # let bsgs = p.decompose_bsgs_folded_with(SplitStrategy::MinMult, |list| Ok::<_, Refusal>(list.to_vec()))?;
    /// assert_eq!(bsgs.baby_steps(), [vec![2, -2], vec![6]]);
    /// # Ok::<(), Refusal>(())
    /// ```
    pub fn baby_steps(&self) -> &[C] {
        &self.baby_steps
    }

    /// Encoded list `i`.
    ///
    /// # Panics
    ///
    /// If there is no list `i`, as in poulpy. `baby_steps().get(i)` does not.
    ///
    /// ```
    /// # use firrozun::{Basis, Parity, Polynomial, PolynomialInputTransform, Refusal, SplitStrategy};
    /// # let p = Polynomial::new(Basis::Chebyshev, vec![0, 1, 0, 2, 0, 3]).with_interval(0, 2);
    /// # let bsgs = p.decompose_bsgs_folded_with(SplitStrategy::MinMult, |list| Ok::<_, Refusal>(list.to_vec()))?;
    /// assert_eq!(bsgs.baby_step(1), &[6]);
    /// # Ok::<(), Refusal>(())
    /// ```
    #[allow(clippy::indexing_slicing)]
    pub fn baby_step(&self, i: usize) -> &C {
        &self.baby_steps[i]
    }

    /// The parity of what was cut: that of the polynomial, and `Full` if it was folded.
    ///
    /// ```
    /// # use firrozun::{Basis, Parity, Polynomial, PolynomialInputTransform, Refusal, SplitStrategy};
    /// # let p = Polynomial::new(Basis::Chebyshev, vec![0, 1, 0, 2, 0, 3]).with_interval(0, 2);
    /// # let bsgs = p.decompose_bsgs_folded_with(SplitStrategy::MinMult, |list| Ok::<_, Refusal>(list.to_vec()))?;
    /// assert_eq!((p.parity, bsgs.parity()), (Parity::Odd, Parity::Full));
    /// # Ok::<(), Refusal>(())
    /// ```
    pub fn parity(&self) -> Parity {
        self.parity
    }

    /// The strategy that chose the split.
    ///
    /// ```
    /// # use firrozun::{Basis, Parity, Polynomial, PolynomialInputTransform, Refusal, SplitStrategy};
    /// # let p = Polynomial::new(Basis::Chebyshev, vec![0, 1, 0, 2, 0, 3]).with_interval(0, 2);
    /// # let bsgs = p.decompose_bsgs_folded_with(SplitStrategy::MinMult, |list| Ok::<_, Refusal>(list.to_vec()))?;
    /// assert_eq!(bsgs.split_strategy(), SplitStrategy::MinMult);
    /// # Ok::<(), Refusal>(())
    /// ```
    pub fn split_strategy(&self) -> SplitStrategy {
        self.split_strategy
    }

    /// What is done with the input before the evaluation, and with its result.
    ///
    /// ```
    /// # use firrozun::{Basis, Parity, Polynomial, PolynomialInputTransform, Refusal, SplitStrategy};
    /// # let p = Polynomial::new(Basis::Chebyshev, vec![0, 1, 0, 2, 0, 3]).with_interval(0, 2);
    /// # let bsgs = p.decompose_bsgs_folded_with(SplitStrategy::MinMult, |list| Ok::<_, Refusal>(list.to_vec()))?;
    /// assert_eq!(bsgs.input_transform(), PolynomialInputTransform::ChebyshevT2TimesInput);
    /// # Ok::<(), Refusal>(())
    /// ```
    pub fn input_transform(&self) -> PolynomialInputTransform {
        self.input_transform
    }

    /// The ends of the polynomial's interval.
    ///
    /// ```
    /// # use firrozun::{Basis, Parity, Polynomial, PolynomialInputTransform, Refusal, SplitStrategy};
    /// # let p = Polynomial::new(Basis::Chebyshev, vec![0, 1, 0, 2, 0, 3]).with_interval(0, 2);
    /// # let bsgs = p.decompose_bsgs_folded_with(SplitStrategy::MinMult, |list| Ok::<_, Refusal>(list.to_vec()))?;
    /// assert_eq!(bsgs.interval(), (0.0, 2.0));
    /// # Ok::<(), Refusal>(())
    /// ```
    pub fn interval(&self) -> (f64, f64) {
        self.interval
    }

    /// The same polynomial with each encoded list mapped.
    ///
    /// ```
    /// # use firrozun::{Basis, Parity, Polynomial, PolynomialInputTransform, Refusal, SplitStrategy};
    /// # let p = Polynomial::new(Basis::Chebyshev, vec![0, 1, 0, 2, 0, 3]).with_interval(0, 2);
    /// # let bsgs = p.decompose_bsgs_folded_with(SplitStrategy::MinMult, |list| Ok::<_, Refusal>(list.to_vec()))?;
    /// let lengths = bsgs.map_baby_steps_ref(|list| list.len());
    /// assert_eq!((lengths.baby_steps(), lengths.degree()), (&[2, 1][..], 2));
    /// # Ok::<(), Refusal>(())
    /// ```
    pub fn map_baby_steps_ref<D>(&self, f: impl FnMut(&C) -> D) -> BSGSPolynomial<D> {
        BSGSPolynomial {
            basis: self.basis,
            degree: self.degree,
            base: self.base,
            depth: self.depth,
            baby_steps: self.baby_steps.iter().map(f).collect(),
            parity: self.parity,
            split_strategy: self.split_strategy,
            input_transform: self.input_transform,
            interval: self.interval,
        }
    }

    /// The pair (u, w) of [`change_of_basis`](crate::change_of_basis) for that interval.
    ///
    /// ```
    /// # use firrozun::{Basis, Parity, Polynomial, PolynomialInputTransform, Refusal, SplitStrategy};
    /// # let p = Polynomial::new(Basis::Chebyshev, vec![0, 1, 0, 2, 0, 3]).with_interval(0, 2);
    /// # let bsgs = p.decompose_bsgs_folded_with(SplitStrategy::MinMult, |list| Ok::<_, Refusal>(list.to_vec()))?;
    /// assert_eq!(bsgs.change_of_basis(), (1.0, -1.0));
    /// # Ok::<(), Refusal>(())
    /// ```
    pub fn change_of_basis(&self) -> (f64, f64) {
        change_of_basis(self.basis, self.interval.0, self.interval.1)
    }
}
