//! Polynomials, with poulpy's names and argument orders.

use crate::bsgs::BSGSPolynomial;
use crate::buffers::{
    chebyshev_interpolate_into, convert_coeffs_into, decompose_bsgs_into, fold_parity_into,
    COEFFICIENT_ROOM, CONVERT_LIMIT,
};
use crate::calls::{change_of_basis, detect_parity, evaluate_coeffs};
use crate::coefficient::Coefficient;
use crate::kinds::{Basis, Parity, PolynomialInputTransform, SplitStrategy};
use crate::plan::{part, Plan};
use crate::refusal::Refusal;
use std::f64::consts::PI;

/// A polynomial in the clear: `coeffs[j]` belongs to x^j, or to T_j(x). `F` is `f64`, or `i64` for whole coefficients, which alone can
/// be planned.
///
/// ```
/// use firrozun::{Basis, Parity, Polynomial};
/// let p = Polynomial::new(Basis::Monomial, vec![1.0, 0.0, 3.0]);
/// assert_eq!(p.parity, Parity::Even);
/// assert_eq!(p.evaluate(2.0), 13.0);
/// ```
#[derive(Clone, Debug, PartialEq)]
pub struct Polynomial<F> {
    /// What the coefficients belong to.
    pub basis: Basis,
    /// The coefficients, from place 0 up.
    pub coeffs: Vec<F>,
    /// The parity, detected by [`new`](Self::new) or said in [`new_with_parity`](Self::new_with_parity).
    pub parity: Parity,
    /// The lower end of the interval; −1 unless set.
    pub a: F,
    /// The upper end of the interval; 1 unless set.
    pub b: F,
}

impl<F: Coefficient> Polynomial<F> {
    /// A polynomial on −1 to 1 whose parity is detected.
    ///
    /// ```
    /// use firrozun::{Basis, Parity, Polynomial};
    /// assert_eq!(Polynomial::new(Basis::Chebyshev, vec![0, 1, 0, 2]).parity, Parity::Odd);
    /// ```
    pub fn new(basis: Basis, coeffs: Vec<F>) -> Self {
        let parity = detect_parity(&coeffs);
        Self::new_with_parity(basis, coeffs, parity)
    }

    /// A polynomial on −1 to 1 whose parity is said, and not tested here. Folding and planning test it.
    ///
    /// ```
    /// use firrozun::{Basis, Parity, Polynomial, Refusal};
    /// let p = Polynomial::new_with_parity(Basis::Monomial, vec![1, 2, 3], Parity::Even);
    /// assert_eq!(p.fold_parity(), Err(Refusal::Parity));
    /// ```
    pub fn new_with_parity(basis: Basis, coeffs: Vec<F>, parity: Parity) -> Self {
        Self {
            basis,
            coeffs,
            parity,
            a: F::MINUS_ONE,
            b: F::ONE,
        }
    }

    /// The same polynomial on the interval from `a` to `b`.
    ///
    /// ```
    /// use firrozun::{Basis, Polynomial};
    /// let p = Polynomial::new(Basis::Chebyshev, vec![0.0, 1.0]).with_interval(0.0, 2.0);
    /// assert_eq!(p.evaluate_on_interval(2.0), 1.0);
    /// ```
    pub fn with_interval(mut self, a: F, b: F) -> Self {
        self.a = a;
        self.b = b;
        self
    }

    /// The ends of the interval.
    ///
    /// ```
    /// use firrozun::{Basis, Polynomial};
    /// assert_eq!(Polynomial::new(Basis::Chebyshev, vec![0.0, 1.0]).interval(), (-1.0, 1.0));
    /// ```
    pub fn interval(&self) -> (F, F) {
        (self.a, self.b)
    }

    /// The pair (u, w) of [`change_of_basis`](crate::change_of_basis) for this polynomial's interval.
    ///
    /// ```
    /// use firrozun::{Basis, Polynomial};
    /// let p = Polynomial::new(Basis::Chebyshev, vec![0.0, 1.0]).with_interval(0.0, 2.0);
    /// assert_eq!(p.change_of_basis(), (1.0, -1.0));
    /// ```
    pub fn change_of_basis(&self) -> (f64, f64) {
        change_of_basis(self.basis, self.a.to_f64(), self.b.to_f64())
    }

    /// The number of coefficients less one, and 0 for none. A last coefficient of 0 counts too.
    ///
    /// ```
    /// use firrozun::{Basis, Polynomial};
    /// assert_eq!(Polynomial::new(Basis::Monomial, vec![1, 2, 0]).degree(), 2);
    /// ```
    pub fn degree(&self) -> usize {
        self.coeffs.len().saturating_sub(1)
    }

    /// Folds an even or odd polynomial to half its degree: its value at x is that of the result at x², or at 2x² − 1 in the Chebyshev
    /// basis, and for an odd one x times that. As in poulpy, the result is on −1 to 1.
    ///
    /// Refused: 2, 5, 6, 4, and for whole coefficients 3, in this order.
    ///
    /// ```
    /// use firrozun::{Basis, Polynomial, PolynomialInputTransform};
    /// let (folded, transform) = Polynomial::new(Basis::Chebyshev, vec![0.0, 1.0, 0.0, 2.0]).fold_parity()?;
    /// assert_eq!(folded.coeffs, [-1.0, 4.0]);
    /// assert_eq!(transform, PolynomialInputTransform::ChebyshevT2TimesInput);
    /// # Ok::<(), firrozun::Refusal>(())
    /// ```
    pub fn fold_parity(&self) -> Result<(Self, PolynomialInputTransform), Refusal> {
        let mut coeffs = vec![F::ZERO; self.coeffs.len().min(COEFFICIENT_ROOM)];
        let folded = fold_parity_into(self.parity, self.basis, &self.coeffs, &mut coeffs)?;
        coeffs.truncate(folded.count);
        coeffs.shrink_to_fit();
        Ok((
            Self::new_with_parity(self.basis, coeffs, folded.parity),
            folded.transform,
        ))
    }

    /// Cuts the polynomial into lists and hands each, the lowest first, to `encode`.
    ///
    /// The error is that of `encode`, of any type that a [`Refusal`] turns into. Where nothing else tells this type, name it as below.
    ///
    /// Refused: 2, 1, and for whole coefficients 3, in this order, before `encode` is called.
    ///
    /// ```
    /// use firrozun::{Basis, Polynomial, Refusal, SplitStrategy};
    /// let p = Polynomial::new(Basis::Chebyshev, vec![1.0, 2.0, 3.0, 4.0, 5.0, 6.0]);
    /// let bsgs = p.decompose_bsgs_with(SplitStrategy::MinMult, |list| Ok::<_, Refusal>(list.to_vec()))?;
    /// assert_eq!(bsgs.baby_steps(), [[1.0, 4.0], [3.0, -4.0], [5.0, 12.0]]);
    /// assert_eq!((bsgs.base(), bsgs.eval_depth()), (2, 3));
    /// # Ok::<(), Refusal>(())
    /// ```
    pub fn decompose_bsgs_with<C, E: From<Refusal>>(
        &self,
        split_strategy: SplitStrategy,
        encode: impl FnMut(&[F]) -> Result<C, E>,
    ) -> Result<BSGSPolynomial<C>, E> {
        self.decompose_transformed(PolynomialInputTransform::Identity, split_strategy, encode)
    }

    /// Folds the polynomial, cuts the result into lists and hands each to `encode`. The interval stays that of this polynomial.
    ///
    /// Refused as [`fold_parity`](Self::fold_parity) is; and with 3 if the magnitudes of a whole fold sum above 2^30, which
    /// [`plan_folded`](Polynomial::plan_folded) takes.
    ///
    /// ```
    /// use firrozun::{Basis, Polynomial, Refusal, SplitStrategy};
    /// let p = Polynomial::new(Basis::Chebyshev, vec![0, 1, 0, 2]);
    /// let bsgs = p.decompose_bsgs_folded_with(SplitStrategy::MinMult, |list| Ok::<_, Refusal>(list.to_vec()))?;
    /// assert_eq!(bsgs.baby_steps(), [[-1, 4]]);
    /// assert_eq!(bsgs.eval_depth(), 3);
    /// # Ok::<(), Refusal>(())
    /// ```
    pub fn decompose_bsgs_folded_with<C, E: From<Refusal>>(
        &self,
        split_strategy: SplitStrategy,
        encode: impl FnMut(&[F]) -> Result<C, E>,
    ) -> Result<BSGSPolynomial<C>, E> {
        let (folded, transform) = self.fold_parity()?;
        folded.with_interval(self.a, self.b).decompose_transformed(
            transform,
            split_strategy,
            encode,
        )
    }

    fn decompose_transformed<C, E: From<Refusal>>(
        &self,
        transform: PolynomialInputTransform,
        strategy: SplitStrategy,
        mut encode: impl FnMut(&[F]) -> Result<C, E>,
    ) -> Result<BSGSPolynomial<C>, E> {
        let places = self.coeffs.len().min(COEFFICIENT_ROOM);
        let mut coefficients = vec![F::ZERO; places];
        let mut boundaries = vec![0; places];
        let listed = decompose_bsgs_into(
            strategy,
            self.parity,
            self.basis,
            &self.coeffs,
            &mut coefficients,
            &mut boundaries,
        )?;
        let baby_steps = (0..listed.lists)
            .filter_map(|i| part(&coefficients, &boundaries, i))
            .map(&mut encode)
            .collect::<Result<Vec<C>, E>>()?;
        let interval = (self.a.to_f64(), self.b.to_f64());
        BSGSPolynomial::new(
            self.basis,
            self.parity,
            strategy,
            transform,
            listed,
            baby_steps,
            interval,
        )
        .map_err(E::from)
    }
}

impl Polynomial<f64> {
    /// The value at `x`.
    ///
    /// ```
    /// use firrozun::{Basis, Polynomial};
    /// assert_eq!(Polynomial::new(Basis::Chebyshev, vec![1.0, 0.0, 3.0]).evaluate(2.0), 22.0);
    /// ```
    pub fn evaluate(&self, x: f64) -> f64 {
        evaluate_coeffs(self.basis, &self.coeffs, x)
    }

    /// The value at `x` of the polynomial's interval: at u·x + w, with the pair of [`change_of_basis`](Self::change_of_basis).
    ///
    /// ```
    /// use firrozun::{Basis, Polynomial};
    /// let p = Polynomial::new(Basis::Chebyshev, vec![0.0, 1.0]).with_interval(0.0, 4.0);
    /// assert_eq!(p.evaluate_on_interval(3.0), 0.5);
    /// ```
    pub fn evaluate_on_interval(&self, x: f64) -> f64 {
        let (u, w) = self.change_of_basis();
        self.evaluate(u * x + w)
    }

    /// The polynomial of this degree, in the Chebyshev basis, that has the values of `f` at the Chebyshev nodes of the interval from
    /// `a` to `b`.
    ///
    /// Refused: 8 for a degree above 4,095, then 7 unless a < b; `f` is not called then.
    ///
    /// ```
    /// use firrozun::{Polynomial, Refusal};
    /// let p = Polynomial::chebyshev_interpolate(15, -2.0, 2.0, f64::sin)?;
    /// assert!((p.evaluate_on_interval(0.5) - 0.5f64.sin()).abs() < 1e-12);
    /// assert_eq!(Polynomial::chebyshev_interpolate(15, 2.0, 2.0, f64::sin), Err(Refusal::Interval));
    /// # Ok::<(), Refusal>(())
    /// ```
    pub fn chebyshev_interpolate<Fun>(
        degree: usize,
        a: f64,
        b: f64,
        f: Fun,
    ) -> Result<Self, Refusal>
    where
        Fun: Fn(f64) -> f64,
    {
        Self::chebyshev_interpolate_with_cos(degree, a, b, f, f64::cos)
    }

    /// The same with a cosine of the caller's for the nodes, which then do not depend on the machine's.
    ///
    /// ```
    /// use firrozun::Polynomial;
    /// let own = Polynomial::chebyshev_interpolate_with_cos(3, 0.0, 1.0, |x| x * x, f64::cos)?;
    /// assert_eq!(own, Polynomial::chebyshev_interpolate(3, 0.0, 1.0, |x| x * x)?);
    /// # Ok::<(), firrozun::Refusal>(())
    /// ```
    pub fn chebyshev_interpolate_with_cos<Fun, Cos>(
        degree: usize,
        a: f64,
        b: f64,
        f: Fun,
        cos: Cos,
    ) -> Result<Self, Refusal>
    where
        Fun: Fn(f64) -> f64,
        Cos: Fn(f64) -> f64,
    {
        let n = degree.saturating_add(1);
        if n > COEFFICIENT_ROOM {
            return Err(Refusal::Nodes);
        }
        let mut nodes = Vec::with_capacity(n);
        let mut values = Vec::with_capacity(n);
        if a < b {
            let (center, radius) = ((a + b) * 0.5, (b - a) * 0.5);
            let angle = PI / n as f64;
            for k in (1..=n).rev() {
                let node = cos((k as f64 - 0.5) * angle);
                nodes.push(node);
                values.push(f(center + radius * node));
            }
        } else {
            // As many nodes and values, so that the library comes to its test of the interval.
            nodes.resize(n, 0.0);
            values.resize(n, 0.0);
        }
        let mut coeffs = vec![0.0; n];
        let answer = chebyshev_interpolate_into(&nodes, &values, a, b, &mut coeffs)?;
        coeffs.truncate(answer.count);
        let (a, b) = answer.interval;
        Ok(Self::new_with_parity(Basis::Chebyshev, coeffs, answer.parity).with_interval(a, b))
    }
}

impl Polynomial<i64> {
    /// This polynomial in the basis `to`, with as many coefficients, the same parity, as it was said, and the same interval. If it is in
    /// this basis already, it is answered as it is, and nothing is tested.
    ///
    /// The value at every whole number is the same, and so at every x; the plans of the two are walked to the same values. On an interval
    /// other than −1 to 1, though, what [`evaluate_on_interval`](Polynomial::evaluate_on_interval) gives isn't: the Chebyshev basis alone
    /// takes the interval to −1 to 1 ([`change_of_basis`](Self::change_of_basis)). There a converted polynomial is to be evaluated at x
    /// itself, not at u·x + w.
    ///
    /// A Chebyshev coefficient may be a fraction. All of them are whole exactly if 2^(j − 1) divides coefficient j for each j from 1 up.
    /// Where the magnitudes allow it, multiply what is refused with 38 by 2^(degree − 1): then it is converted, and its value is so many
    /// times as large. To the monomial basis every coefficient is whole.
    ///
    /// Refused: 37 for a degree above 20, 3 for this polynomial, 38, 3 for the new coefficients, in this order.
    ///
    /// ```
    /// use firrozun::{Basis, Polynomial, Refusal, SplitStrategy};
    /// let curve = Polynomial::new(Basis::Monomial, vec![5, 0, 2, 0, 8]);
    /// let converted = curve.to_basis(Basis::Chebyshev)?;
    /// assert_eq!(converted, Polynomial::new(Basis::Chebyshev, vec![9, 0, 5, 0, 1]));
    /// assert_eq!(converted.to_basis(Basis::Monomial), Ok(curve.clone()));
    /// // 5 + 2·9 + 8·81, by a plan in either basis.
    /// assert_eq!(curve.plan(SplitStrategy::MinMult)?.walk(3, 1000), Ok(671));
    /// assert_eq!(converted.plan(SplitStrategy::MinMult)?.walk(3, 1000), Ok(671));
    /// # Ok::<(), Refusal>(())
    /// ```
    ///
    /// 1 + x² would have halves in the Chebyshev basis. Twice as much hasn't:
    ///
    /// ```
    /// use firrozun::{Basis, Polynomial, Refusal};
    /// let curve = Polynomial::new(Basis::Monomial, vec![1, 0, 1]);
    /// assert_eq!(curve.to_basis(Basis::Chebyshev), Err(Refusal::NotWhole));
    /// let twice = Polynomial::new(Basis::Monomial, vec![2, 0, 2]);
    /// assert_eq!(twice.to_basis(Basis::Chebyshev)?.coeffs, [3, 0, 1]);
    /// # Ok::<(), Refusal>(())
    /// ```
    ///
    /// On 0 to 4 the Chebyshev basis takes 4 to 1, and the monomial basis leaves it:
    ///
    /// ```
    /// use firrozun::{Basis, Polynomial, Refusal};
    /// let curve = Polynomial::new(Basis::Monomial, vec![0, 0, 2]).with_interval(0, 4);
    /// let converted = curve.to_basis(Basis::Chebyshev)?;
    /// assert_eq!((converted.interval(), converted.parity), (curve.interval(), curve.parity));
    /// let floats = |p: &Polynomial<i64>| {
    ///     let coeffs = p.coeffs.iter().map(|&c| c as f64).collect();
    ///     Polynomial::new(p.basis, coeffs).with_interval(p.a as f64, p.b as f64)
    /// };
    /// let (curve, converted) = (floats(&curve), floats(&converted));
    /// assert_eq!((curve.evaluate(4.0), converted.evaluate(4.0)), (32.0, 32.0));
    /// assert_eq!(curve.evaluate_on_interval(4.0), 32.0);
    /// assert_eq!(converted.evaluate_on_interval(4.0), 2.0);
    /// # Ok::<(), Refusal>(())
    /// ```
    pub fn to_basis(&self, to: Basis) -> Result<Self, Refusal> {
        if self.basis == to {
            return Ok(self.clone());
        }
        let mut coeffs = vec![0; self.coeffs.len().min(CONVERT_LIMIT + 1)];
        convert_coeffs_into(to, &self.coeffs, &mut coeffs)?;
        Ok(Self {
            basis: to,
            coeffs,
            ..*self
        })
    }

    /// The plan of this polynomial, as it is, on its interval. The ends are taken as the nearest f64.
    ///
    /// Refused: 2, 1, 4, 3, 7, in this order. Two ends above 2^53 may have one nearest f64, which is 7 too.
    ///
    /// ```
    /// use firrozun::{Basis, Polynomial, Refusal, SplitStrategy};
    /// let curve = Polynomial::new(Basis::Monomial, vec![1, 2, 3, 4, 5]).with_interval(0, 4);
    /// let plan = curve.plan(SplitStrategy::MinDepth)?;
    /// assert_eq!((plan.head().interval.a, plan.head().interval.b), (0.0, 4.0));
    /// assert_eq!(plan.walk(2, 100), Ok(29));
    /// assert_eq!(curve.with_interval(4, 4).plan(SplitStrategy::MinDepth), Err(Refusal::Interval));
    /// # Ok::<(), firrozun::Refusal>(())
    /// ```
    pub fn plan(&self, split_strategy: SplitStrategy) -> Result<Plan, Refusal> {
        self.planned(split_strategy, false)
    }

    /// The plan of this polynomial's fold, on this polynomial's interval. Walked, it gives the value of this polynomial all the same.
    ///
    /// Refused: 2, 1, 5, 6, 4, 3, 7, in this order.
    ///
    /// ```
    /// use firrozun::{Basis, Polynomial, SplitStrategy};
    /// let plan = Polynomial::new(Basis::Chebyshev, vec![0, 1, 0, 2]).plan_folded(SplitStrategy::MinDepth)?;
    /// assert_eq!((plan.coefficients(), plan.walk(2, 1000)), (&[-1, 4][..], Ok(54)));
    /// # Ok::<(), firrozun::Refusal>(())
    /// ```
    pub fn plan_folded(&self, split_strategy: SplitStrategy) -> Result<Plan, Refusal> {
        self.planned(split_strategy, true)
    }

    fn planned(&self, strategy: SplitStrategy, fold: bool) -> Result<Plan, Refusal> {
        let interval = (self.a.to_f64(), self.b.to_f64());
        Plan::on_interval(
            self.basis,
            &self.coeffs,
            self.parity,
            strategy,
            fold,
            interval,
        )
    }
}
