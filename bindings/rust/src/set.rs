//! A set of curves of one reading, planned together, with memory of its own.

use crate::buffers::{heaviest_chain, plan_set_into, set_sizes, trial_walk};
use crate::buffers::{Head, Member, PlanBuffers, PlanSizes, SetHead};
use crate::calls::detect_parity;
use crate::coefficient::Coefficient;
use crate::kinds::{Basis, Parity, SplitStrategy, DEFAULT_SPLIT_STRATEGY};
use crate::plan::{part, parts, steps_of, Plan, Step};
use crate::polynomial::Polynomial;
use crate::refusal::Refusal;

/// A curve that goes into a [`CurveSet`]: whole coefficients, lent, and its settings.
///
/// ```
/// use firrozun::{Basis, Curve, CurveSet, SplitStrategy};
/// let loss = Curve::new(Basis::Chebyshev, &[3, 0, 5]).with_strategy(SplitStrategy::MinMult).with_interval(0.0, 2.5);
/// let set = CurveSet::plan(&[loss.folded(), Curve::new(Basis::Chebyshev, &[1, 0, 2, 0, 3]).folded()])?;
/// assert_eq!(set.len(), 2);
/// # Ok::<(), firrozun::Refusal>(())
/// ```
#[derive(Clone, Copy, Debug, PartialEq)]
pub struct Curve<'a> {
    /// What the coefficients belong to. All curves of a set have the same.
    pub basis: Basis,
    /// The coefficients, from place 0 up.
    pub coeffs: &'a [i64],
    /// The parity. All curves of a set that are folded have the same.
    pub parity: Parity,
    /// The strategy.
    pub strategy: SplitStrategy,
    /// Whether the curve is folded. All curves of a set are, or none.
    pub fold: bool,
    /// The interval, from its first number to its second.
    pub interval: (f64, f64),
}

impl<'a> Curve<'a> {
    /// A curve on −1 to 1 whose parity is detected, to be planned by the [default strategy](DEFAULT_SPLIT_STRATEGY) and not folded.
    ///
    /// ```
    /// use firrozun::{Basis, Curve, Parity, SplitStrategy};
    /// let curve = Curve::new(Basis::Monomial, &[0, 1, 0, 2]);
    /// assert_eq!((curve.parity, curve.strategy, curve.fold), (Parity::Odd, SplitStrategy::MinDepth, false));
    /// assert_eq!(curve.interval, (-1.0, 1.0));
    /// ```
    pub fn new(basis: Basis, coeffs: &'a [i64]) -> Self {
        Self {
            basis,
            coeffs,
            parity: detect_parity(coeffs),
            strategy: DEFAULT_SPLIT_STRATEGY,
            fold: false,
            interval: (-1.0, 1.0),
        }
    }

    /// The same curve with a parity that is said, and not tested here. Planning tests it.
    ///
    /// ```
    /// use firrozun::{Basis, Curve, CurveSet, Parity, Refusal};
    /// let curve = Curve::new(Basis::Monomial, &[1, 2, 3]).with_parity(Parity::Even);
    /// assert_eq!(CurveSet::plan(&[curve]), Err(Refusal::Parity));
    /// ```
    pub fn with_parity(self, parity: Parity) -> Self {
        Self { parity, ..self }
    }

    /// The same curve, to be planned by this strategy.
    ///
    /// ```
    /// use firrozun::{Basis, Curve, SplitStrategy};
    /// let curve = Curve::new(Basis::Monomial, &[1, 2, 3]).with_strategy(SplitStrategy::MinMult);
    /// assert_eq!(curve.strategy, SplitStrategy::MinMult);
    /// ```
    pub fn with_strategy(self, strategy: SplitStrategy) -> Self {
        Self { strategy, ..self }
    }

    /// The same curve on the interval from `a` to `b`.
    ///
    /// ```
    /// use firrozun::{Basis, Curve};
    /// assert_eq!(Curve::new(Basis::Chebyshev, &[1, 2, 3]).with_interval(0.0, 2.5).interval, (0.0, 2.5));
    /// ```
    pub fn with_interval(self, a: f64, b: f64) -> Self {
        let interval = (a, b);
        Self { interval, ..self }
    }

    /// The same curve, to be planned folded.
    ///
    /// ```
    /// use firrozun::{Basis, Curve, CurveSet, PolynomialInputTransform};
    /// let set = CurveSet::plan(&[Curve::new(Basis::Monomial, &[1, 0, 3]).folded()])?;
    /// assert_eq!(set.head().members()[0].transform, PolynomialInputTransform::Square);
    /// # Ok::<(), firrozun::Refusal>(())
    /// ```
    pub fn folded(self) -> Self {
        Self { fold: true, ..self }
    }

    fn member(&self) -> Member {
        Member {
            strategy: self.strategy,
            parity: self.parity,
            basis: self.basis,
            fold: self.fold,
            interval: self.interval,
            count: self.coeffs.len(),
        }
    }
}

/// The polynomial's coefficients, parity and interval, with the default strategy and not folded. The ends are taken as the nearest f64.
///
/// ```
/// use firrozun::{Basis, Curve, CurveSet, Polynomial, SplitStrategy};
/// let flow = Polynomial::new(Basis::Monomial, vec![1, 2, 3, 4, 5]).with_interval(0, 4);
/// let set = CurveSet::plan(&[Curve::from(&flow)])?;
/// assert_eq!(set.members().next().map(|member| member.to_plan()), Some(flow.plan(SplitStrategy::MinDepth)?));
/// # Ok::<(), firrozun::Refusal>(())
/// ```
impl<'a> From<&'a Polynomial<i64>> for Curve<'a> {
    fn from(p: &'a Polynomial<i64>) -> Self {
        Self {
            basis: p.basis,
            coeffs: &p.coeffs,
            parity: p.parity,
            strategy: DEFAULT_SPLIT_STRATEGY,
            fold: false,
            interval: (p.a.to_f64(), p.b.to_f64()),
        }
    }
}

/// A set of 1 to 16 curves of one reading, planned together: the powers that they need are made once, and then each curve, a member of the
/// set, has its own lists, loads and combines.
///
/// ```
/// use firrozun::{Basis, Curve, CurveSet, Polynomial, SplitStrategy, Step};
/// let (flow, power) = ([1, 2, 3, 4, 5], [1, 2, 3, 4]);
/// let set = CurveSet::plan(&[Curve::new(Basis::Monomial, &flow), Curve::new(Basis::Monomial, &power)])?;
/// assert_eq!(
///     set.powers().collect::<Vec<_>>(),
///     [
///         Step::Power { n: 2, a: 1, b: 1 },
///         Step::Power { n: 3, a: 1, b: 2 },
///         Step::Power { n: 4, a: 2, b: 2 },
///     ]
/// );
/// assert_eq!((set.ct_ct(), set.pt_ct()), (4, 6));
/// // Planned by themselves, the two make power 2 twice.
/// let alone = |coeffs: &[i64]| Polynomial::new(Basis::Monomial, coeffs.to_vec()).plan(SplitStrategy::MinDepth);
/// assert_eq!((alone(&flow)?.head().ct_ct, alone(&power)?.head().ct_ct), (3, 2));
///
/// let values: Result<Vec<u64>, _> = set.members().map(|member| member.walk(2, 1000)).collect();
/// assert_eq!(values?, [129, 49]);
/// # Ok::<(), firrozun::Refusal>(())
/// ```
#[derive(Clone, Debug, PartialEq, Eq)]
pub struct CurveSet {
    head: SetHead,
    coefficients: Vec<i64>,
    boundaries: Vec<u16>,
    steps: Vec<u16>,
}

impl CurveSet {
    /// Plans the curves as a set, in their order.
    ///
    /// Refused: 35 for no curve or more than 16; 36 for curves that differ in basis or folding or, when folded, in parity; then of each
    /// curve, in their order, 2, 1, with folding 5, 6, then 4, 3, 7.
    ///
    /// ```
    /// use firrozun::{Basis, Curve, CurveSet, Refusal};
    /// let curve = Curve::new(Basis::Monomial, &[1, 2, 3, 4, 5]);
    /// assert_eq!(CurveSet::plan(&[curve; 16])?.ct_ct(), 3); // the plain multiplications are 16 times those of one curve
    /// assert_eq!(CurveSet::plan(&[curve; 17]), Err(Refusal::Members));
    /// assert_eq!(CurveSet::plan(&[]), Err(Refusal::Members));
    /// let other = Curve::new(Basis::Chebyshev, &[1, 2, 3]);
    /// assert_eq!(CurveSet::plan(&[curve, other]), Err(Refusal::UnlikeMembers));
    /// # Ok::<(), firrozun::Refusal>(())
    /// ```
    pub fn plan(curves: &[Curve<'_>]) -> Result<Self, Refusal> {
        let members: Vec<Member> = curves.iter().map(Curve::member).collect();
        let coeffs: Vec<i64> = curves
            .iter()
            .flat_map(|curve| curve.coeffs)
            .copied()
            .collect();
        // What refuses the sizes refuses the set ahead of its buffers, though it may be by an earlier test, of coefficients or of an
        // interval. So the set is asked for all the same, with none.
        let sizes = set_sizes(&members).unwrap_or(PlanSizes {
            coefficients: 0,
            lists: 0,
            steps: 0,
        });
        let mut coefficients = vec![0; sizes.coefficients];
        let mut boundaries = vec![0; sizes.lists];
        let mut steps = vec![0; sizes.step_places()];
        let buffers = PlanBuffers {
            coefficients: &mut coefficients,
            boundaries: &mut boundaries,
            steps: &mut steps,
        };
        let head = plan_set_into(&members, &coeffs, buffers)?;
        Ok(Self {
            head,
            coefficients,
            boundaries,
            steps,
        })
    }

    /// The set's cost, the number of its power steps, and the heads of its members.
    ///
    /// ```
    /// # use firrozun::{Basis, Curve, CurveSet};
    /// # let set = CurveSet::plan(&[Curve::new(Basis::Monomial, &[1, 2, 3, 4, 5]), Curve::new(Basis::Monomial, &[1, 2, 3, 4])])?;
    /// assert_eq!(set.head().powers, 3);
    /// # Ok::<(), firrozun::Refusal>(())
    /// ```
    pub fn head(&self) -> &SetHead {
        &self.head
    }

    /// Multiplications of two encrypted numbers over all members, each power step once.
    ///
    /// ```
    /// # use firrozun::{Basis, Curve, CurveSet};
    /// let set = CurveSet::plan(&[Curve::new(Basis::Chebyshev, &[0, 1, 0, 2]).folded(); 3])?;
    /// assert_eq!(set.ct_ct(), 4); // 2x² − 1 once, and times x for each of the three
    /// # Ok::<(), firrozun::Refusal>(())
    /// ```
    pub fn ct_ct(&self) -> usize {
        self.head.ct_ct
    }

    /// Multiplications of an encrypted number and a plain one, over all members.
    ///
    /// ```
    /// # use firrozun::{Basis, Curve, CurveSet};
    /// # let set = CurveSet::plan(&[Curve::new(Basis::Monomial, &[1, 2, 3, 4, 5]), Curve::new(Basis::Monomial, &[1, 2, 3, 4])])?;
    /// assert_eq!(set.pt_ct(), 6);
    /// # Ok::<(), firrozun::Refusal>(())
    /// ```
    pub fn pt_ct(&self) -> usize {
        self.head.pt_ct
    }

    /// The power steps, which all members have in common, by rising powers. They are done first.
    ///
    /// ```
    /// # use firrozun::{Basis, Curve, CurveSet, Step};
    /// # let set = CurveSet::plan(&[Curve::new(Basis::Monomial, &[1, 2, 3, 4, 5]), Curve::new(Basis::Monomial, &[1, 2, 3, 4])])?;
    /// assert_eq!(set.powers().next(), Some(Step::Power { n: 2, a: 1, b: 1 }));
    /// # Ok::<(), firrozun::Refusal>(())
    /// ```
    pub fn powers(&self) -> impl Iterator<Item = Step> + '_ {
        steps_of(self.power_numbers())
    }

    fn power_numbers(&self) -> &[u16] {
        let places = self.head.power_places();
        self.steps.get(places).unwrap_or_default()
    }

    /// How many members the set has: 1 to 16.
    ///
    /// ```
    /// # use firrozun::{Basis, Curve, CurveSet};
    /// # let set = CurveSet::plan(&[Curve::new(Basis::Monomial, &[1, 2, 3, 4, 5]), Curve::new(Basis::Monomial, &[1, 2, 3, 4])])?;
    /// assert_eq!(set.len(), 2);
    /// # Ok::<(), firrozun::Refusal>(())
    /// ```
    pub fn len(&self) -> usize {
        self.head.members().len()
    }

    /// Whether the set has no member, which no set is planned without.
    ///
    /// ```
    /// # use firrozun::{Basis, Curve, CurveSet};
    /// # let set = CurveSet::plan(&[Curve::new(Basis::Monomial, &[1, 2, 3, 4, 5]), Curve::new(Basis::Monomial, &[1, 2, 3, 4])])?;
    /// assert!(!set.is_empty());
    /// # Ok::<(), firrozun::Refusal>(())
    /// ```
    pub fn is_empty(&self) -> bool {
        self.len() == 0
    }

    /// Member `i`, counted from 0 in the order of the curves, if there is one.
    ///
    /// ```
    /// # use firrozun::{Basis, Curve, CurveSet};
    /// # let set = CurveSet::plan(&[Curve::new(Basis::Monomial, &[1, 2, 3, 4, 5]), Curve::new(Basis::Monomial, &[1, 2, 3, 4])])?;
    /// assert_eq!(set.member(1).map(|member| member.coefficients()), Some(&[1, 2, 3, 4][..]));
    /// assert_eq!(set.member(2), None);
    /// # Ok::<(), firrozun::Refusal>(())
    /// ```
    pub fn member(&self, i: usize) -> Option<MemberPlan<'_>> {
        let places = self.head.places(i)?;
        Some(MemberPlan {
            head: self.head.members().get(i)?,
            powers: self.power_numbers(),
            coefficients: self.coefficients.get(places.coefficients)?,
            boundaries: self.boundaries.get(places.boundaries)?,
            steps: self.steps.get(places.steps)?,
        })
    }

    /// The members, in the order of the curves.
    ///
    /// ```
    /// # use firrozun::{Basis, Curve, CurveSet};
    /// # let set = CurveSet::plan(&[Curve::new(Basis::Monomial, &[1, 2, 3, 4, 5]), Curve::new(Basis::Monomial, &[1, 2, 3, 4])])?;
    /// assert_eq!(set.members().map(|member| member.head().degree).collect::<Vec<_>>(), [4, 3]);
    /// # Ok::<(), firrozun::Refusal>(())
    /// ```
    pub fn members(&self) -> impl Iterator<Item = MemberPlan<'_>> + '_ {
        (0..self.len()).filter_map(|i| self.member(i))
    }

    /// The coefficients of all members' lists, one member's after another's.
    ///
    /// ```
    /// # use firrozun::{Basis, Curve, CurveSet};
    /// # let set = CurveSet::plan(&[Curve::new(Basis::Monomial, &[1, 2, 3, 4, 5]), Curve::new(Basis::Monomial, &[1, 2, 3, 4])])?;
    /// assert_eq!(set.coefficients(), [1, 2, 3, 4, 5, 1, 2, 3, 4]);
    /// # Ok::<(), firrozun::Refusal>(())
    /// ```
    pub fn coefficients(&self) -> &[i64] {
        &self.coefficients
    }

    /// The boundaries of all members, one member's after another's. Those of each member begin anew, with its own coefficients.
    ///
    /// ```
    /// # use firrozun::{Basis, Curve, CurveSet};
    /// # let set = CurveSet::plan(&[Curve::new(Basis::Monomial, &[1, 2, 3, 4, 5]), Curve::new(Basis::Monomial, &[1, 2, 3, 4])])?;
    /// assert_eq!(set.boundaries(), [4, 5, 2, 4]);
    /// # Ok::<(), firrozun::Refusal>(())
    /// ```
    pub fn boundaries(&self) -> &[u16] {
        &self.boundaries
    }

    /// All steps as numbers, four for each: the power steps, then those of each member.
    ///
    /// ```
    /// # use firrozun::{Basis, Curve, CurveSet};
    /// # let set = CurveSet::plan(&[Curve::new(Basis::Monomial, &[1, 2, 3, 4, 5]), Curve::new(Basis::Monomial, &[1, 2, 3, 4])])?;
    /// assert_eq!(set.step_numbers().len(), 4 * (3 + 3 + 3));
    /// # Ok::<(), firrozun::Refusal>(())
    /// ```
    pub fn step_numbers(&self) -> &[u16] {
        &self.steps
    }
}

/// The plan of one member of a set: the common power steps, and lists, loads and combines of its own.
///
/// ```
/// use firrozun::{Basis, Curve, CurveSet, Step};
/// let set = CurveSet::plan(&[
///     Curve::new(Basis::Monomial, &[1, 2, 3, 4, 5]),
///     Curve::new(Basis::Monomial, &[6, 7, 8, 9]),
/// ])?;
/// let member = set.member(1).ok_or("no member 1")?;
/// assert_eq!(member.lists().collect::<Vec<_>>(), [[6, 7], [8, 9]]);
/// assert_eq!(
///     member.own_steps().collect::<Vec<_>>(),
///     [Step::Load { list: 0 }, Step::Load { list: 1 }, Step::Combine { power: 2 }]
/// );
/// assert_eq!(member.walk(10, 100_000), Ok(9876));
/// # Ok::<(), Box<dyn std::error::Error>>(())
/// ```
#[derive(Clone, Copy, Debug, PartialEq, Eq)]
pub struct MemberPlan<'a> {
    head: &'a Head,
    powers: &'a [u16],
    coefficients: &'a [i64],
    boundaries: &'a [u16],
    steps: &'a [u16],
}

impl<'a> MemberPlan<'a> {
    /// The head of the member as it is planned alone, its costs too. Its `steps` are counted without power steps.
    ///
    /// ```
    /// # use firrozun::{Basis, Curve, CurveSet};
    /// # let set = CurveSet::plan(&[Curve::new(Basis::Monomial, &[1, 2, 3, 4, 5]), Curve::new(Basis::Monomial, &[6, 7, 8, 9])])?;
    /// # let member = set.member(1).ok_or("no member 1")?;
    /// assert_eq!((member.head().ct_ct, member.head().pt_ct, member.head().steps), (2, 2, 3));
    /// # Ok::<(), Box<dyn std::error::Error>>(())
    /// ```
    pub fn head(&self) -> &'a Head {
        self.head
    }

    /// The coefficients of the member's lists, one list after another.
    ///
    /// ```
    /// # use firrozun::{Basis, Curve, CurveSet};
    /// # let set = CurveSet::plan(&[Curve::new(Basis::Monomial, &[1, 2, 3, 4, 5]), Curve::new(Basis::Monomial, &[6, 7, 8, 9])])?;
    /// # let member = set.member(1).ok_or("no member 1")?;
    /// assert_eq!(member.coefficients(), [6, 7, 8, 9]);
    /// # Ok::<(), Box<dyn std::error::Error>>(())
    /// ```
    pub fn coefficients(&self) -> &'a [i64] {
        self.coefficients
    }

    /// For each list of the member the first place after it, among the member's coefficients.
    ///
    /// ```
    /// # use firrozun::{Basis, Curve, CurveSet};
    /// # let set = CurveSet::plan(&[Curve::new(Basis::Monomial, &[1, 2, 3, 4, 5]), Curve::new(Basis::Monomial, &[6, 7, 8, 9])])?;
    /// # let member = set.member(1).ok_or("no member 1")?;
    /// assert_eq!(member.boundaries(), [2, 4]);
    /// # Ok::<(), Box<dyn std::error::Error>>(())
    /// ```
    pub fn boundaries(&self) -> &'a [u16] {
        self.boundaries
    }

    /// List `i` of the member, counted from 0, if there is one.
    ///
    /// ```
    /// # use firrozun::{Basis, Curve, CurveSet};
    /// # let set = CurveSet::plan(&[Curve::new(Basis::Monomial, &[1, 2, 3, 4, 5]), Curve::new(Basis::Monomial, &[6, 7, 8, 9])])?;
    /// # let member = set.member(1).ok_or("no member 1")?;
    /// assert_eq!(member.list(1), Some(&[8, 9][..]));
    /// assert_eq!(member.list(2), None);
    /// # Ok::<(), Box<dyn std::error::Error>>(())
    /// ```
    pub fn list(&self, i: usize) -> Option<&'a [i64]> {
        part(self.coefficients, self.boundaries, i)
    }

    /// The member's lists, in the order of their numbers.
    ///
    /// ```
    /// # use firrozun::{Basis, Curve, CurveSet};
    /// # let set = CurveSet::plan(&[Curve::new(Basis::Monomial, &[1, 2, 3, 4, 5]), Curve::new(Basis::Monomial, &[6, 7, 8, 9])])?;
    /// # let member = set.member(1).ok_or("no member 1")?;
    /// assert_eq!(member.lists().count(), 2);
    /// # Ok::<(), Box<dyn std::error::Error>>(())
    /// ```
    pub fn lists(&self) -> impl Iterator<Item = &'a [i64]> + 'a {
        parts(self.coefficients, self.boundaries)
    }

    /// The power steps of the set, those that only other members need too.
    ///
    /// ```
    /// # use firrozun::{Basis, Curve, CurveSet};
    /// # let set = CurveSet::plan(&[Curve::new(Basis::Monomial, &[1, 2, 3, 4, 5]), Curve::new(Basis::Monomial, &[6, 7, 8, 9])])?;
    /// # let member = set.member(1).ok_or("no member 1")?;
    /// assert!(member.powers().eq(set.powers()));
    /// # Ok::<(), Box<dyn std::error::Error>>(())
    /// ```
    pub fn powers(&self) -> impl Iterator<Item = Step> + 'a {
        steps_of(self.powers)
    }

    /// The member's own steps, its loads and combines, in the order in which they are done. They come after the power steps.
    ///
    /// ```
    /// # use firrozun::{Basis, Curve, CurveSet, Step};
    /// # let set = CurveSet::plan(&[Curve::new(Basis::Monomial, &[1, 2, 3, 4, 5]), Curve::new(Basis::Monomial, &[6, 7, 8, 9])])?;
    /// # let member = set.member(1).ok_or("no member 1")?;
    /// assert_eq!(member.own_steps().last(), Some(Step::Combine { power: 2 }));
    /// # Ok::<(), Box<dyn std::error::Error>>(())
    /// ```
    pub fn own_steps(&self) -> impl Iterator<Item = Step> + 'a {
        steps_of(self.steps)
    }

    /// All steps that make the member's value: the power steps of the set, then the member's own.
    ///
    /// ```
    /// # use firrozun::{Basis, Curve, CurveSet};
    /// # let set = CurveSet::plan(&[Curve::new(Basis::Monomial, &[1, 2, 3, 4, 5]), Curve::new(Basis::Monomial, &[6, 7, 8, 9])])?;
    /// # let member = set.member(1).ok_or("no member 1")?;
    /// assert!(member.steps().eq(member.powers().chain(member.own_steps())));
    /// # Ok::<(), Box<dyn std::error::Error>>(())
    /// ```
    pub fn steps(&self) -> impl Iterator<Item = Step> + 'a {
        self.powers().chain(self.own_steps())
    }

    /// The head with the power steps among its steps, and the numbers of all these steps.
    fn composed(&self) -> (Head, Vec<u16>) {
        let steps = [self.powers, self.steps].concat();
        let head = Head {
            steps: steps.len() / 4,
            ..*self.head
        };
        (head, steps)
    }

    /// Walks the member's plan at a point, modulo a number: the remainder, from 0 up, of the curve's value there.
    ///
    /// Refused: 11 for a modulus below 2 or above 2,147,483,647.
    ///
    /// ```
    /// # use firrozun::{Basis, Curve, CurveSet, Refusal};
    /// # let set = CurveSet::plan(&[Curve::new(Basis::Monomial, &[1, 2, 3, 4, 5]), Curve::new(Basis::Monomial, &[6, 7, 8, 9])])?;
    /// # let member = set.member(1).ok_or("no member 1")?;
    /// assert_eq!(member.walk(-1, 100), Ok(98)); // −2
    /// assert_eq!(member.walk(-1, 1), Err(Refusal::Modulus));
    /// # Ok::<(), Box<dyn std::error::Error>>(())
    /// ```
    pub fn walk(&self, point: i64, modulus: u64) -> Result<u64, Refusal> {
        let (head, steps) = self.composed();
        let (lists, ends) = (self.coefficients, self.boundaries);
        trial_walk(&head, lists, ends, &steps, point, modulus)
    }

    /// The weight of the member's heaviest chain, for the bit scales of the input and of the coefficients. It is that of the curve's plan
    /// alone: powers that only other members need are on no path to this member's value.
    ///
    /// Refused: 10 for a scale above 65,535.
    ///
    /// ```
    /// # use firrozun::{Basis, Curve, CurveSet, Refusal};
    /// # let set = CurveSet::plan(&[Curve::new(Basis::Monomial, &[1, 2, 3, 4, 5]), Curve::new(Basis::Monomial, &[6, 7, 8, 9])])?;
    /// # let member = set.member(1).ok_or("no member 1")?;
    /// assert_eq!(member.heaviest_chain(30, 40), Ok(70)); // times the plain 9, then times power 2
    /// assert_eq!(member.heaviest_chain(30, 65_536), Err(Refusal::Scale));
    /// # Ok::<(), Box<dyn std::error::Error>>(())
    /// ```
    pub fn heaviest_chain(
        &self,
        input_scale: usize,
        coefficient_scale: usize,
    ) -> Result<u64, Refusal> {
        let (head, steps) = self.composed();
        let (lists, ends) = (self.coefficients, self.boundaries);
        heaviest_chain(&head, lists, ends, &steps, input_scale, coefficient_scale)
    }

    /// The member's plan with memory of its own. It has all power steps of the set, those that only other members need too; the costs in
    /// its head are those of the curve planned alone.
    ///
    /// ```
    /// # use firrozun::{Basis, Curve, CurveSet};
    /// # let set = CurveSet::plan(&[Curve::new(Basis::Monomial, &[1, 2, 3, 4, 5]), Curve::new(Basis::Monomial, &[6, 7, 8, 9])])?;
    /// # let member = set.member(1).ok_or("no member 1")?;
    /// let plan = member.to_plan();
    /// assert_eq!((plan.head().steps, plan.head().ct_ct), (6, 2)); // alone there is no power 3 and no power 4
    /// assert_eq!(plan.walk(10, 100_000), Ok(9876));
    /// assert_eq!(plan.polynomial().map(|p| p.coeffs), Some(vec![6, 7, 8, 9]));
    /// # Ok::<(), Box<dyn std::error::Error>>(())
    /// ```
    pub fn to_plan(&self) -> Plan {
        let (head, steps) = self.composed();
        Plan::composed(head, self.coefficients, self.boundaries, steps)
    }
}
