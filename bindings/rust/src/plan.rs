//! A plan with memory of its own, and its steps.

use crate::buffers::{heaviest_chain, plan_into, plan_sizes, rebuild_into, trial_walk};
use crate::buffers::{Head, Lists, PlanBuffers};
use crate::kinds::{Basis, Parity, PolynomialInputTransform, SplitStrategy};
use crate::polynomial::Polynomial;
use crate::refusal::Refusal;

/// A plan: lists of coefficients, and the steps that make the polynomial's value from them and from x.
///
/// ```
/// use firrozun::{Basis, Parity, Plan, SplitStrategy, Step};
/// let plan = Plan::new(Basis::Monomial, &[1, 2, 3, 4, 5], Parity::Full, SplitStrategy::MinDepth, false)?;
/// assert_eq!(plan.lists().collect::<Vec<_>>(), [&[1, 2, 3, 4][..], &[5]]);
/// assert_eq!(
///     plan.steps().collect::<Vec<_>>(),
///     [
///         Step::Power { n: 2, a: 1, b: 1 },
///         Step::Power { n: 3, a: 1, b: 2 },
///         Step::Power { n: 4, a: 2, b: 2 },
///         Step::Load { list: 0 },
///         Step::Load { list: 1 },
///         Step::CombinePlain { power: 4 },
///     ]
/// );
/// assert_eq!(plan.walk(2, 100), Ok(29)); // 129 modulo 100
/// # Ok::<(), firrozun::Refusal>(())
/// ```
#[derive(Clone, Debug, PartialEq, Eq)]
pub struct Plan {
    head: Head,
    coefficients: Vec<i64>,
    boundaries: Vec<u16>,
    steps: Vec<u16>,
}

impl Plan {
    /// Plans the polynomial with these whole coefficients on −1 to 1, folded or not.
    ///
    /// Refused: 2, 1, with folding 5, 6, then 4, 3, in this order.
    ///
    /// ```
    /// use firrozun::{Basis, Parity, Plan, Refusal, SplitStrategy};
    /// let folded = |coeffs: &[i64]| Plan::new(Basis::Chebyshev, coeffs, Parity::Odd, SplitStrategy::MinMult, true);
    /// assert_eq!(folded(&[0, 1, 0, 2])?.coefficients(), [-1, 4]);
    /// assert_eq!(folded(&[0, 1]), Err(Refusal::FoldLow));
    /// # Ok::<(), Refusal>(())
    /// ```
    pub fn new(
        basis: Basis,
        coeffs: &[i64],
        parity: Parity,
        strategy: SplitStrategy,
        fold: bool,
    ) -> Result<Self, Refusal> {
        Self::on_interval(basis, coeffs, parity, strategy, fold, (-1.0, 1.0))
    }

    /// The same on an interval, from its first number to its second. It goes into the head: lists and steps are the same on every
    /// interval.
    ///
    /// Refused: 2, 1, with folding 5, 6, then 4, 3, 7, in this order.
    ///
    /// ```
    /// use firrozun::{Basis, Interval, Parity, Plan, Refusal, SplitStrategy};
    /// let on = |ends| Plan::on_interval(Basis::Chebyshev, &[1, 2, 3], Parity::Full, SplitStrategy::MinMult, false, ends);
    /// assert_eq!(on((0.0, 4.0))?.head().interval, Interval { a: 0.0, b: 4.0, u: 0.5, w: -1.0 });
    /// assert_eq!(on((0.0, 4.0))?.walk(2, 100), on((-1.0, 1.0))?.walk(2, 100));
    /// assert_eq!(on((4.0, 4.0)), Err(Refusal::Interval));
    /// # Ok::<(), Refusal>(())
    /// ```
    pub fn on_interval(
        basis: Basis,
        coeffs: &[i64],
        parity: Parity,
        strategy: SplitStrategy,
        fold: bool,
        interval: (f64, f64),
    ) -> Result<Self, Refusal> {
        // What refuses the sizes refuses the plan, with the same number and ahead of all else.
        let degree = coeffs.len().saturating_sub(1);
        let sizes = plan_sizes(strategy, parity, basis, fold, degree)?;
        let mut coefficients = vec![0; sizes.coefficients];
        let mut boundaries = vec![0; sizes.lists];
        let mut steps = vec![0; sizes.step_places()];
        let buffers = PlanBuffers {
            coefficients: &mut coefficients,
            boundaries: &mut boundaries,
            steps: &mut steps,
        };
        let head = plan_into(strategy, parity, basis, fold, coeffs, interval, buffers)?;
        Ok(Self {
            head,
            coefficients,
            boundaries,
            steps,
        })
    }

    /// The plan of a member of a set, with the set's power steps ahead of its own.
    pub(crate) fn composed(
        head: Head,
        coefficients: &[i64],
        boundaries: &[u16],
        steps: Vec<u16>,
    ) -> Self {
        Self {
            head,
            coefficients: coefficients.to_vec(),
            boundaries: boundaries.to_vec(),
            steps,
        }
    }

    /// The plan's settings, cost, sizes and interval.
    ///
    /// ```
    /// # use firrozun::{Basis, Parity, Plan, SplitStrategy};
    /// # let plan = Plan::new(Basis::Monomial, &[1, 2, 3, 4, 5], Parity::Full, SplitStrategy::MinDepth, false)?;
    /// assert_eq!((plan.head().degree, plan.head().base, plan.head().depth), (4, 4, 3));
    /// # Ok::<(), firrozun::Refusal>(())
    /// ```
    pub fn head(&self) -> &Head {
        &self.head
    }

    /// The coefficients of all lists, one list after another.
    ///
    /// ```
    /// # use firrozun::{Basis, Parity, Plan, SplitStrategy};
    /// # let plan = Plan::new(Basis::Monomial, &[1, 2, 3, 4, 5], Parity::Full, SplitStrategy::MinDepth, false)?;
    /// assert_eq!(plan.coefficients(), [1, 2, 3, 4, 5]);
    /// # Ok::<(), firrozun::Refusal>(())
    /// ```
    pub fn coefficients(&self) -> &[i64] {
        &self.coefficients
    }

    /// For each list the first place after it.
    ///
    /// ```
    /// # use firrozun::{Basis, Parity, Plan, SplitStrategy};
    /// # let plan = Plan::new(Basis::Monomial, &[1, 2, 3, 4, 5], Parity::Full, SplitStrategy::MinDepth, false)?;
    /// assert_eq!(plan.boundaries(), [4, 5]);
    /// # Ok::<(), firrozun::Refusal>(())
    /// ```
    pub fn boundaries(&self) -> &[u16] {
        &self.boundaries
    }

    /// The steps as numbers, four for each.
    ///
    /// ```
    /// # use firrozun::{Basis, Parity, Plan, SplitStrategy};
    /// # let plan = Plan::new(Basis::Monomial, &[1, 2, 3, 4, 5], Parity::Full, SplitStrategy::MinDepth, false)?;
    /// assert_eq!(plan.step_numbers()[..4], [1, 2, 1, 1]);
    /// # Ok::<(), firrozun::Refusal>(())
    /// ```
    pub fn step_numbers(&self) -> &[u16] {
        &self.steps
    }

    /// List `i`, counted from 0, if there is one.
    ///
    /// ```
    /// # use firrozun::{Basis, Parity, Plan, SplitStrategy};
    /// # let plan = Plan::new(Basis::Monomial, &[1, 2, 3, 4, 5], Parity::Full, SplitStrategy::MinDepth, false)?;
    /// assert_eq!(plan.list(1), Some(&[5][..]));
    /// assert_eq!(plan.list(2), None);
    /// # Ok::<(), firrozun::Refusal>(())
    /// ```
    pub fn list(&self, i: usize) -> Option<&[i64]> {
        part(&self.coefficients, &self.boundaries, i)
    }

    /// The lists, in the order of their numbers.
    ///
    /// ```
    /// # use firrozun::{Basis, Parity, Plan, SplitStrategy};
    /// # let plan = Plan::new(Basis::Monomial, &[1, 2, 3, 4, 5], Parity::Full, SplitStrategy::MinDepth, false)?;
    /// assert_eq!(plan.lists().map(|list| list.len()).collect::<Vec<_>>(), [4, 1]);
    /// # Ok::<(), firrozun::Refusal>(())
    /// ```
    pub fn lists(&self) -> impl Iterator<Item = &[i64]> + '_ {
        parts(&self.coefficients, &self.boundaries)
    }

    /// The steps, in the order in which they are done.
    ///
    /// ```
    /// # use firrozun::{Basis, Parity, Plan, SplitStrategy, Step};
    /// # let plan = Plan::new(Basis::Monomial, &[1, 2, 3, 4, 5], Parity::Full, SplitStrategy::MinDepth, false)?;
    /// let loads = plan.steps().filter(|step| matches!(step, Step::Load { .. }));
    /// assert_eq!(loads.count(), 2);
    /// # Ok::<(), firrozun::Refusal>(())
    /// ```
    pub fn steps(&self) -> impl Iterator<Item = Step> + '_ {
        steps_of(&self.steps)
    }

    /// The polynomial that was planned, rebuilt from the lists: planned with the head's strategy, it gives this plan again.
    ///
    /// It is `None` for a folded plan, whose lists are those of another polynomial: [`folded_polynomial`](Self::folded_polynomial) gives
    /// that one. It is `None`, too, for a plan on an interval that a `Polynomial<i64>` can't have, because an end isn't a whole number of
    /// 64 bits: [`rebuild_into`] gives the coefficients on every interval. An end above 2^53 comes back as the nearest f64, which the head
    /// has, and −0 as 0.
    ///
    /// ```
    /// use firrozun::{Basis, Parity, Plan, Polynomial, SplitStrategy};
    /// let strategy = SplitStrategy::MinMult;
    /// let curve = Polynomial::new(Basis::Chebyshev, vec![1, 2, 3, 4, 5, 6]).with_interval(0, 4);
    /// let plan = curve.plan(strategy)?;
    /// assert_eq!(plan.coefficients(), [1, 4, 3, -4, 5, 12]);
    /// assert_eq!(plan.polynomial(), Some(curve));
    ///
    /// let odd = Polynomial::new(Basis::Chebyshev, vec![0, 1, 0, 2]);
    /// assert_eq!(odd.plan_folded(strategy)?.polynomial(), None);
    /// let plan = Plan::on_interval(Basis::Monomial, &[1, 2], Parity::Full, strategy, false, (0.5, 2.5))?;
    /// assert_eq!(plan.polynomial(), None);
    /// # Ok::<(), firrozun::Refusal>(())
    /// ```
    pub fn polynomial(&self) -> Option<Polynomial<i64>> {
        if self.is_folded() {
            return None;
        }
        let interval = self.head.interval;
        let (a, b) = (whole(interval.a)?, whole(interval.b)?);
        Some(self.rebuilt()?.with_interval(a, b))
    }

    /// The fold that was planned, rebuilt from the lists of a folded plan, and what is done with its input and result: what
    /// [`fold_parity`](Polynomial::fold_parity) answers of the polynomial that was folded. It is a polynomial in x², or in 2x² − 1 in the
    /// Chebyshev basis, and on −1 to 1.
    ///
    /// It is `None` for a plan that isn't folded: [`polynomial`](Self::polynomial) is for those.
    ///
    /// ```
    /// use firrozun::{Basis, Polynomial, SplitStrategy};
    /// let curve = Polynomial::new(Basis::Chebyshev, vec![0, 1, 0, 2]);
    /// let plan = curve.plan_folded(SplitStrategy::MinMult)?;
    /// assert_eq!(plan.folded_polynomial(), Some(curve.fold_parity()?));
    /// assert_eq!(curve.plan(SplitStrategy::MinMult)?.folded_polynomial(), None);
    /// # Ok::<(), firrozun::Refusal>(())
    /// ```
    pub fn folded_polynomial(&self) -> Option<(Polynomial<i64>, PolynomialInputTransform)> {
        if !self.is_folded() {
            return None;
        }
        Some((self.rebuilt()?, self.head.transform))
    }

    fn is_folded(&self) -> bool {
        self.head.transform != PolynomialInputTransform::Identity
    }

    /// What was planned, be it the polynomial or its fold, on −1 to 1. The lists are as the plan call left them, and so never refused.
    fn rebuilt(&self) -> Option<Polynomial<i64>> {
        let head = &self.head;
        let lists = Lists {
            degree: head.degree,
            base: head.base,
            coefficients: &self.coefficients,
            boundaries: &self.boundaries,
        };
        let mut coeffs = vec![0; self.coefficients.len()];
        rebuild_into(head.strategy, head.parity, head.basis, lists, &mut coeffs).ok()?;
        Some(Polynomial::new_with_parity(head.basis, coeffs, head.parity))
    }

    /// Walks the plan at a point, modulo a number: the remainder, from 0 up, of the polynomial's value there.
    ///
    /// Refused: 11 for a modulus below 2 or above 2,147,483,647.
    ///
    /// ```
    /// use firrozun::{Basis, Parity, Plan, Refusal, SplitStrategy};
    /// let plan = Plan::new(Basis::Monomial, &[1, 2], Parity::Full, SplitStrategy::MinDepth, false)?;
    /// assert_eq!(plan.walk(-3, 7), Ok(2)); // −5
    /// assert_eq!(plan.walk(-3, 1), Err(Refusal::Modulus));
    /// # Ok::<(), Refusal>(())
    /// ```
    pub fn walk(&self, point: i64, modulus: u64) -> Result<u64, Refusal> {
        trial_walk(
            &self.head,
            &self.coefficients,
            &self.boundaries,
            &self.steps,
            point,
            modulus,
        )
    }

    /// The weight of the plan's heaviest chain, for the bit scales of the input and of the coefficients: the greatest over all paths of
    /// multiplications that end in the polynomial's value, those of the transform too.
    ///
    /// A multiplication of two encrypted numbers weighs the input scale, one of an encrypted number and a plain one the coefficient
    /// scale.
    ///
    /// Refused: 10 for a scale above 65,535.
    ///
    /// ```
    /// use firrozun::{Basis, Parity, Plan, Refusal, SplitStrategy};
    /// let plan = Plan::new(Basis::Chebyshev, &[0, 1, 0, 2], Parity::Odd, SplitStrategy::MinMult, true)?;
    /// assert_eq!(plan.heaviest_chain(40, 30), Ok(110)); // 2x² − 1, times the plain 4, times x
    /// assert_eq!(plan.heaviest_chain(65_536, 30), Err(Refusal::Scale));
    /// # Ok::<(), Refusal>(())
    /// ```
    pub fn heaviest_chain(
        &self,
        input_scale: usize,
        coefficient_scale: usize,
    ) -> Result<u64, Refusal> {
        heaviest_chain(
            &self.head,
            &self.coefficients,
            &self.boundaries,
            &self.steps,
            input_scale,
            coefficient_scale,
        )
    }
}

/// The whole number whose nearest f64 is `end`, if there is one.
fn whole(end: f64) -> Option<i64> {
    let number = end as i64;
    (number as f64 == end).then_some(number)
}

/// The part of list `i` among coefficients that boundaries part.
pub(crate) fn part<'a, F>(coefficients: &'a [F], boundaries: &[u16], i: usize) -> Option<&'a [F]> {
    let end = usize::from(*boundaries.get(i)?);
    let start = match i.checked_sub(1) {
        None => 0,
        Some(before) => usize::from(*boundaries.get(before)?),
    };
    coefficients.get(start..end)
}

/// The lists that coefficients are parted into.
pub(crate) fn parts<'a>(
    coefficients: &'a [i64],
    boundaries: &'a [u16],
) -> impl Iterator<Item = &'a [i64]> + 'a {
    (0..boundaries.len()).filter_map(move |i| part(coefficients, boundaries, i))
}

/// The steps of numbers as they stand in a step buffer.
pub(crate) fn steps_of(numbers: &[u16]) -> impl Iterator<Item = Step> + '_ {
    numbers.chunks_exact(4).filter_map(|numbers| {
        let numbers = numbers.try_into().ok()?;
        Step::from_numbers(numbers)
    })
}

/// One step of a plan. Values wait on a stack; power 0 is 1 and power 1 is the input.
///
/// ```
/// use firrozun::Step;
/// assert_eq!(Step::from_numbers([1, 3, 1, 2]), Some(Step::Power { n: 3, a: 1, b: 2 }));
/// assert_eq!(Step::Combine { power: 4 }.numbers(), [3, 4, 0, 0]);
/// ```
#[derive(Clone, Copy, Debug, PartialEq, Eq, Hash)]
pub enum Step {
    /// Makes power n: X_a · X_b, and in the Chebyshev basis 2 · T_a · T_b − T_c with c = |a − b|, the third number of
    /// [`split_degree`](crate::split_degree).
    Power {
        /// The power that is made.
        n: u16,
        /// The first power that makes it.
        a: u16,
        /// The second.
        b: u16,
    },
    /// Pushes the value of a list: its coefficients, the first times power 0, the second times power 1, and so on.
    Load {
        /// The list's number, from 0.
        list: u16,
    },
    /// Takes high, then low, and pushes high · (power) + low. It counts as a multiplication of two encrypted numbers, even where high is
    /// plain because the parity leaves its list nothing but a constant, as the last list 3 0 of the even polynomial 1 0 2 0 3 0.
    Combine {
        /// The power that high is multiplied by.
        power: u16,
    },
    /// The same, where high is the last list alone and that a constant, so that the multiplication is of an encrypted number and a plain one.
    CombinePlain {
        /// The power that high is multiplied by.
        power: u16,
    },
}

impl Step {
    /// The step of four numbers as they stand in a step buffer, if they are one.
    ///
    /// ```
    /// use firrozun::Step;
    /// assert_eq!(Step::from_numbers([2, 7, 0, 0]), Some(Step::Load { list: 7 }));
    /// assert_eq!(Step::from_numbers([2, 7, 0, 1]), None);
    /// assert_eq!(Step::from_numbers([5, 7, 0, 0]), None);
    /// ```
    pub fn from_numbers(numbers: [u16; 4]) -> Option<Self> {
        match numbers {
            [1, n, a, b] => Some(Self::Power { n, a, b }),
            [2, list, 0, 0] => Some(Self::Load { list }),
            [3, power, 0, 0] => Some(Self::Combine { power }),
            [4, power, 0, 0] => Some(Self::CombinePlain { power }),
            _ => None,
        }
    }

    /// The step's four numbers.
    ///
    /// ```
    /// assert_eq!(firrozun::Step::CombinePlain { power: 4 }.numbers(), [4, 4, 0, 0]);
    /// ```
    pub fn numbers(self) -> [u16; 4] {
        match self {
            Self::Power { n, a, b } => [1, n, a, b],
            Self::Load { list } => [2, list, 0, 0],
            Self::Combine { power } => [3, power, 0, 0],
            Self::CombinePlain { power } => [4, power, 0, 0],
        }
    }
}
