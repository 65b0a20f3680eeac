//! The calls on buffers that the caller lends. They reserve no memory. A refused call changes no buffer, and a call that answers fills
//! the first places and leaves the others as they were.
//!
//! poulpy has no such calls. Their arguments stand in the library's order: strategy, parity, basis, fold, what is read, what is
//! written.

use crate::coefficient::Coefficient;
use crate::ffi;
use crate::ffi::{CHead, CSizes, Settings};
use crate::interval::Interval;
use crate::kinds::{Basis, Parity, PolynomialInputTransform, SplitStrategy};
use crate::refusal::Refusal;

mod set;

pub use set::{plan_set_into, set_sizes, Member, MemberPlaces, SetHead};

/// Places that are enough in a coefficient buffer, for every call but that of a set.
///
/// ```
/// assert_eq!(firrozun::buffers::COEFFICIENT_ROOM, 4096);
/// ```
pub const COEFFICIENT_ROOM: usize = 4096;
/// Places that are enough in a boundary buffer, for every call but that of a set.
///
/// ```
/// assert_eq!(firrozun::buffers::BOUNDARY_ROOM, 4096);
/// ```
pub const BOUNDARY_ROOM: usize = 4096;
/// Places that are enough in a step buffer, for every plan: four for each step.
///
/// ```
/// assert_eq!(firrozun::buffers::STEP_ROOM, 4 * 3 * 4096);
/// ```
pub const STEP_ROOM: usize = 49_152;

/// The greatest degree that is converted to the other basis.
///
/// ```
/// use firrozun::buffers::{convert_coeffs_into, CONVERT_LIMIT};
/// use firrozun::{Basis, Refusal};
/// let (most, more) = ([0; CONVERT_LIMIT + 1], [0; CONVERT_LIMIT + 2]);
/// assert_eq!(convert_coeffs_into(Basis::Chebyshev, &most, &mut [0; 32]), Ok(21));
/// assert_eq!(convert_coeffs_into(Basis::Chebyshev, &more, &mut [0; 32]), Err(Refusal::ConvertDegree));
/// ```
pub const CONVERT_LIMIT: usize = 20;

/// The most members of a set.
///
/// ```
/// assert_eq!(firrozun::buffers::SET_MEMBERS, 16);
/// ```
pub const SET_MEMBERS: usize = 16;
/// Places that are enough in the coefficient buffer of every set.
///
/// ```
/// use firrozun::buffers::{COEFFICIENT_ROOM, SET_COEFFICIENT_ROOM, SET_MEMBERS};
/// assert_eq!(SET_COEFFICIENT_ROOM, SET_MEMBERS * COEFFICIENT_ROOM);
/// ```
pub const SET_COEFFICIENT_ROOM: usize = 65_536;
/// Places that are enough in the boundary buffer of every set.
///
/// ```
/// use firrozun::buffers::{BOUNDARY_ROOM, SET_BOUNDARY_ROOM, SET_MEMBERS};
/// assert_eq!(SET_BOUNDARY_ROOM, SET_MEMBERS * BOUNDARY_ROOM);
/// ```
pub const SET_BOUNDARY_ROOM: usize = 65_536;
/// Places that are enough in the step buffer of every set: four for each step.
///
/// ```
/// use firrozun::buffers::{SET_MEMBERS, SET_STEP_ROOM, STEP_ROOM};
/// assert_eq!(SET_STEP_ROOM, SET_MEMBERS * STEP_ROOM);
/// ```
pub const SET_STEP_ROOM: usize = 786_432;

/// What a fold call answers.
///
/// ```
/// use firrozun::buffers::{fold_parity_into, Folded};
/// use firrozun::{Basis, Parity, PolynomialInputTransform};
/// let folded = fold_parity_into(Parity::Even, Basis::Monomial, &[1, 0, 3], &mut [0; 2])?;
/// assert_eq!(folded, Folded { transform: PolynomialInputTransform::Square, parity: Parity::Full, count: 2 });
/// # Ok::<(), firrozun::Refusal>(())
/// ```
#[derive(Clone, Copy, Debug, PartialEq, Eq)]
pub struct Folded {
    /// What is done with the input and the result of the folded polynomial.
    pub transform: PolynomialInputTransform,
    /// The parity of the result, which is `Full`.
    pub parity: Parity,
    /// How many coefficients were written.
    pub count: usize,
}

/// What a list call answers.
///
/// ```
/// use firrozun::buffers::{decompose_bsgs_into, Listed};
/// use firrozun::{Basis, Parity, SplitStrategy};
/// let (mut out, mut ends) = ([0; 5], [0; 5]);
/// let listed = decompose_bsgs_into(
///     SplitStrategy::MinDepth, Parity::Full, Basis::Monomial, &[1, 2, 3, 4, 5], &mut out, &mut ends,
/// )?;
/// assert_eq!(listed, Listed { degree: 4, base: 4, coefficients: 5, lists: 2 });
/// # Ok::<(), firrozun::Refusal>(())
/// ```
#[derive(Clone, Copy, Debug, PartialEq, Eq)]
pub struct Listed {
    /// The degree of the polynomial.
    pub degree: usize,
    /// The base: a list has at most so many coefficients.
    pub base: usize,
    /// How many coefficients were written.
    pub coefficients: usize,
    /// How many boundaries were written: boundary i is the first place after list i.
    pub lists: usize,
}

/// The lists of a plan, lent to be read: what a list call or a plan call left, and the two numbers of its answer.
///
/// ```
/// use firrozun::buffers::Lists;
/// use firrozun::{Basis, Parity, Plan, SplitStrategy};
/// let plan = Plan::new(Basis::Monomial, &[1, 2, 3, 4, 5], Parity::Full, SplitStrategy::MinDepth, false)?;
/// let lists = Lists {
///     degree: plan.head().degree,
///     base: plan.head().base,
///     coefficients: plan.coefficients(),
///     boundaries: plan.boundaries(),
/// };
/// assert_eq!(lists, Lists { degree: 4, base: 4, coefficients: &[1, 2, 3, 4, 5], boundaries: &[4, 5] });
/// # Ok::<(), firrozun::Refusal>(())
/// ```
#[derive(Clone, Copy, Debug, PartialEq, Eq)]
pub struct Lists<'a> {
    /// The degree of what was listed.
    pub degree: usize,
    /// The base: a list has at most so many coefficients.
    pub base: usize,
    /// The coefficients of the lists, one list after another. Places beyond them aren't read.
    pub coefficients: &'a [i64],
    /// For each list the first place after it. Places beyond them aren't read.
    pub boundaries: &'a [u16],
}

/// What an interpolation answers.
///
/// ```
/// use firrozun::buffers::chebyshev_interpolate_into;
/// let answer = chebyshev_interpolate_into(&[-0.5, 0.5], &[1.0, 2.0], -1.0, 3.0, &mut [0.0; 2])?;
/// assert_eq!((answer.interval, answer.change_of_basis), ((-1.0, 3.0), (0.5, -0.5)));
/// # Ok::<(), firrozun::Refusal>(())
/// ```
#[derive(Clone, Copy, Debug, PartialEq)]
pub struct Interpolated {
    /// How many coefficients were written.
    pub count: usize,
    /// Their parity.
    pub parity: Parity,
    /// The interval, from a to b.
    pub interval: (f64, f64),
    /// The pair (u, w) of [`change_of_basis`](crate::change_of_basis) for it.
    pub change_of_basis: (f64, f64),
}

/// The head of a plan: its settings, its cost, how much of each buffer it has, and the interval that it was made on.
///
/// ```
/// use firrozun::{Basis, Polynomial, PolynomialInputTransform, SplitStrategy};
/// let plan = Polynomial::new(Basis::Monomial, vec![1, 0, 3, 0, 5]).plan_folded(SplitStrategy::MinMult)?;
/// let head = plan.head();
/// assert_eq!((head.transform, head.degree), (PolynomialInputTransform::Square, 2));
/// assert_eq!((head.ct_ct, head.pt_ct, head.depth), (2, 2, 3));
/// assert_eq!((head.interval.a, head.interval.b), (-1.0, 1.0));
/// # Ok::<(), firrozun::Refusal>(())
/// ```
#[derive(Clone, Copy, Debug, PartialEq, Eq)]
pub struct Head {
    /// The basis.
    pub basis: Basis,
    /// The parity of what is planned: that of the polynomial, and `Full` when it is folded.
    pub parity: Parity,
    /// The strategy.
    pub strategy: SplitStrategy,
    /// What is done with the input before the steps, and with their result.
    pub transform: PolynomialInputTransform,
    /// The degree of what is planned, about half of the polynomial's when it is folded.
    pub degree: usize,
    /// The base: a list has at most so many coefficients.
    pub base: usize,
    /// Multiplications of two encrypted numbers, those of the transform too.
    pub ct_ct: usize,
    /// Multiplications of an encrypted number and a plain one.
    pub pt_ct: usize,
    /// Levels of multiplications, those of the transform too.
    pub depth: usize,
    /// How many coefficients the plan has.
    pub coefficients: usize,
    /// How many lists, and boundaries, it has.
    pub lists: usize,
    /// How many steps it has, each of four numbers.
    pub steps: usize,
    /// The interval of the polynomial, also when it is folded. No call reads it: to a head that was stored without one, add any.
    pub interval: Interval,
}

impl Head {
    fn from_c(head: CHead) -> Self {
        Self {
            basis: Basis::of(head.basis),
            parity: Parity::of(head.parity),
            strategy: SplitStrategy::of(head.strategy),
            transform: PolynomialInputTransform::of(head.transform),
            degree: head.degree,
            base: head.base,
            ct_ct: head.ct,
            pt_ct: head.pt,
            depth: head.depth,
            coefficients: head.coefficients,
            lists: head.lists,
            steps: head.steps,
            interval: Interval::from_c(head.interval),
        }
    }

    fn to_c(self) -> CHead {
        CHead {
            basis: self.basis.number(),
            parity: self.parity.number(),
            strategy: self.strategy.number(),
            transform: self.transform.number(),
            degree: self.degree,
            base: self.base,
            ct: self.ct_ct,
            pt: self.pt_ct,
            depth: self.depth,
            coefficients: self.coefficients,
            lists: self.lists,
            steps: self.steps,
            interval: self.interval.to_c(),
        }
    }
}

/// How many coefficients, lists and steps a plan or a set has: what its buffers must hold.
///
/// ```
/// use firrozun::buffers::{plan_sizes, PlanSizes};
/// use firrozun::{Basis, Parity, SplitStrategy};
/// let sizes = plan_sizes(SplitStrategy::MinDepth, Parity::Full, Basis::Monomial, false, 4)?;
/// assert_eq!(sizes, PlanSizes { coefficients: 5, lists: 2, steps: 6 });
/// # Ok::<(), firrozun::Refusal>(())
/// ```
#[derive(Clone, Copy, Debug, PartialEq, Eq)]
pub struct PlanSizes {
    /// Places of the coefficient buffer.
    pub coefficients: usize,
    /// Places of the boundary buffer.
    pub lists: usize,
    /// Steps, each of four numbers: [`step_places`](Self::step_places) is what the step buffer needs.
    pub steps: usize,
}

impl PlanSizes {
    fn from_c(answer: CSizes) -> Result<Self, Refusal> {
        Refusal::test(answer.refusal)?;
        Ok(Self {
            coefficients: answer.coefficients,
            lists: answer.lists,
            steps: answer.steps,
        })
    }

    /// Places of the step buffer: four for each step.
    ///
    /// ```
    /// # use firrozun::buffers::plan_sizes;
    /// # use firrozun::{Basis, Parity, SplitStrategy};
    /// let sizes = plan_sizes(SplitStrategy::MinDepth, Parity::Full, Basis::Monomial, false, 4)?;
    /// assert_eq!(sizes.step_places(), 24);
    /// # Ok::<(), firrozun::Refusal>(())
    /// ```
    pub fn step_places(self) -> usize {
        self.steps.saturating_mul(4)
    }
}

/// The three buffers of a plan or of a set, lent to be written.
///
/// ```
/// use firrozun::buffers::{plan_into, PlanBuffers};
/// use firrozun::{Basis, Parity, Refusal, SplitStrategy};
/// let (mut coefficients, mut boundaries, mut steps) = ([0; 2], [0; 1], [0; 3]);
/// let buffers = PlanBuffers { coefficients: &mut coefficients, boundaries: &mut boundaries, steps: &mut steps };
/// let ends = (-1.0, 1.0);
/// let planned = plan_into(SplitStrategy::MinDepth, Parity::Full, Basis::Monomial, false, &[1, 2], ends, buffers);
/// assert_eq!(planned, Err(Refusal::StepBuffer)); // one step wants four places
/// ```
#[derive(Debug)]
pub struct PlanBuffers<'a> {
    /// The coefficients of the lists, one list after another.
    pub coefficients: &'a mut [i64],
    /// For each list the first place after it.
    pub boundaries: &'a mut [u16],
    /// Four numbers for each step; [`Step::from_numbers`](crate::Step::from_numbers) reads them.
    pub steps: &'a mut [u16],
}

/// Folds a polynomial of parity `Even` or `Odd` to half its degree, into `out`.
///
/// Refused: 2, 5, 6, 4, for whole coefficients 3, then 21, in this order.
///
/// ```
/// use firrozun::{buffers::fold_parity_into, Basis, Parity, PolynomialInputTransform};
/// let mut out = [0; 8];
/// let folded = fold_parity_into(Parity::Odd, Basis::Chebyshev, &[0, 1, 0, 2], &mut out)?;
/// assert_eq!(folded.transform, PolynomialInputTransform::ChebyshevT2TimesInput);
/// assert_eq!(out[..folded.count], [-1, 4]);
/// # Ok::<(), firrozun::Refusal>(())
/// ```
pub fn fold_parity_into<F: Coefficient>(
    parity: Parity,
    basis: Basis,
    coeffs: &[F],
    out: &mut [F],
) -> Result<Folded, Refusal> {
    let answer = F::fold(parity, basis, coeffs, out);
    Refusal::test(answer.refusal)?;
    Ok(Folded {
        transform: PolynomialInputTransform::of(answer.transform),
        parity: Parity::of(answer.parity),
        count: answer.count,
    })
}

/// Writes whole coefficients in the basis `to`, into `out`, and answers how many there are: as many as were handed in. `coeffs` are given
/// in the basis that is not `to`. The value at every whole number is the same, and so at every x.
/// [`Polynomial::to_basis`](crate::Polynomial::to_basis) is the same of a polynomial.
///
/// To `Monomial` every new coefficient is whole. To `Chebyshev` all of them are whole exactly if 2^(j − 1) divides coefficient j for each
/// j from 1 up. Where the magnitudes allow it, multiply what is refused with 38 by 2^(degree − 1): then every new coefficient is whole,
/// and the value so many times as large. There and back gives the first coefficients again where both calls accept.
///
/// Refused: 37 for more than 21 coefficients, 3 for `coeffs`, 38, 3 for the new coefficients, then 21, in this order.
///
/// ```
/// use firrozun::buffers::convert_coeffs_into;
/// use firrozun::{Basis, Refusal};
/// let mut out = [0; 5];
/// // 8x⁴ = 3T_0 + 4T_2 + T_4
/// assert_eq!(convert_coeffs_into(Basis::Chebyshev, &[0, 0, 0, 0, 8], &mut out), Ok(5));
/// assert_eq!(out, [3, 0, 4, 0, 1]);
/// // 1 + 2T_1 + 3T_2 + 4T_3 = −2 − 10x + 6x² + 16x³
/// assert_eq!(convert_coeffs_into(Basis::Monomial, &[1, 2, 3, 4], &mut out), Ok(4));
/// assert_eq!(out, [-2, -10, 6, 16, 1]);
/// // x² is half of T_0 + T_2.
/// assert_eq!(convert_coeffs_into(Basis::Chebyshev, &[0, 0, 1], &mut out), Err(Refusal::NotWhole));
/// ```
pub fn convert_coeffs_into(to: Basis, coeffs: &[i64], out: &mut [i64]) -> Result<usize, Refusal> {
    let answer = ffi::convert_coeffs(to.number(), coeffs, out);
    Refusal::test(answer.refusal)?;
    Ok(answer.count)
}

/// Writes the lists of a polynomial, one after another, into `out`, and their ends into `boundaries`.
///
/// Refused: 2, 1, for whole coefficients 3, then 21, 22, in this order.
///
/// ```
/// use firrozun::{buffers::decompose_bsgs_into, Basis, Parity, SplitStrategy};
/// let (mut out, mut boundaries) = ([0; 8], [0; 8]);
/// let listed = decompose_bsgs_into(
///     SplitStrategy::MinMult, Parity::Full, Basis::Chebyshev, &[1, 2, 3, 4, 5, 6], &mut out, &mut boundaries,
/// )?;
/// assert_eq!(out[..listed.coefficients], [1, 4, 3, -4, 5, 12]);
/// assert_eq!(boundaries[..listed.lists], [2, 4, 6]);
/// # Ok::<(), firrozun::Refusal>(())
/// ```
pub fn decompose_bsgs_into<F: Coefficient>(
    strategy: SplitStrategy,
    parity: Parity,
    basis: Basis,
    coeffs: &[F],
    out: &mut [F],
    boundaries: &mut [u16],
) -> Result<Listed, Refusal> {
    let answer = F::list(strategy, parity, basis, coeffs, out, boundaries);
    Refusal::test(answer.refusal)?;
    Ok(Listed {
        degree: answer.degree,
        base: answer.base,
        coefficients: answer.coefficients,
        lists: answer.lists,
    })
}

/// Writes the coefficients that were cut into these lists, with these settings, into `out`, and answers how many there are: it is
/// [`decompose_bsgs_into`] the other way around. [`Plan::polynomial`](crate::Plan::polynomial) is the same of a plan.
///
/// The lists of a folded plan give the coefficients of the fold, with the parity `Full` of its head. These are not the polynomial that
/// was folded: they belong to y, which the head's transform makes from x.
///
/// Lists that were damaged may still be those of another polynomial, which is then the answer: in the monomial basis every number is
/// taken. A degree that is named too low may be taken, too, because places beyond its lists aren't read. Nor is the parity of the
/// coefficients tested. Plan what was rebuilt to test parity and magnitudes.
///
/// Refused: 2, 1, 33, 34, 21, in this order.
///
/// ```
/// use firrozun::buffers::{rebuild_into, Lists};
/// use firrozun::{Basis, Parity, Refusal, SplitStrategy};
/// let rebuild = |coefficients: &[i64], out: &mut [i64]| {
///     let lists = Lists { degree: 5, base: 2, coefficients, boundaries: &[2, 4, 6] };
///     rebuild_into(SplitStrategy::MinMult, Parity::Full, Basis::Chebyshev, lists, out)
/// };
/// let mut out = [0; 8];
/// assert_eq!(rebuild(&[1, 4, 3, -4, 5, 12], &mut out), Ok(6));
/// assert_eq!(out, [1, 2, 3, 4, 5, 6, 0, 0]);
/// // The last number belongs to a doubled coefficient, and those are even.
/// assert_eq!(rebuild(&[1, 4, 3, -4, 5, 13], &mut out), Err(Refusal::NoPolynomial));
/// ```
pub fn rebuild_into(
    strategy: SplitStrategy,
    parity: Parity,
    basis: Basis,
    lists: Lists<'_>,
    out: &mut [i64],
) -> Result<usize, Refusal> {
    let answer = ffi::rebuild(
        strategy.number(),
        parity.number(),
        basis.number(),
        (lists.degree, lists.base),
        lists.coefficients,
        lists.boundaries,
        out,
    );
    Refusal::test(answer.refusal)?;
    Ok(answer.coefficients)
}

/// The sizes of every plan of this degree with these settings, before there are coefficients and an interval.
///
/// A polynomial that is not refused otherwise, its interval neither, is planned exactly if its buffers are at least so long.
///
/// Refused: 2, 1, with folding 5, 6, in this order. Then [`plan_into`], too, refuses every polynomial of this degree, on every interval.
///
/// ```
/// use firrozun::buffers::{plan_into, plan_sizes, PlanBuffers};
/// use firrozun::{Basis, Parity, Refusal, SplitStrategy};
/// let odd = |degree| plan_sizes(SplitStrategy::MinMult, Parity::Odd, Basis::Chebyshev, true, degree);
/// let sizes = odd(3)?;
/// let (mut coefficients, mut boundaries) = (vec![0; sizes.coefficients], vec![0; sizes.lists]);
/// let mut steps = vec![0; sizes.step_places()];
/// let buffers = PlanBuffers { coefficients: &mut coefficients, boundaries: &mut boundaries, steps: &mut steps };
/// let (curve, ends) = ([0, 1, 0, 2], (-1.0, 1.0));
/// let head = plan_into(SplitStrategy::MinMult, Parity::Odd, Basis::Chebyshev, true, &curve, ends, buffers)?;
/// assert_eq!((head.coefficients, head.lists, head.steps), (sizes.coefficients, sizes.lists, sizes.steps));
/// assert_eq!(odd(2), Err(Refusal::FoldLow));
/// # Ok::<(), firrozun::Refusal>(())
/// ```
pub fn plan_sizes(
    strategy: SplitStrategy,
    parity: Parity,
    basis: Basis,
    fold: bool,
    degree: usize,
) -> Result<PlanSizes, Refusal> {
    let settings = settings(strategy, parity, basis, fold);
    PlanSizes::from_c(ffi::plan_sizes(settings, degree))
}

fn settings(strategy: SplitStrategy, parity: Parity, basis: Basis, fold: bool) -> Settings {
    Settings {
        strategy: strategy.number(),
        parity: parity.number(),
        basis: basis.number(),
        fold: u8::from(fold),
    }
}

/// Plans a polynomial with whole coefficients, on an interval, into lent buffers. [`Plan`](crate::Plan) is the same with buffers of its
/// own.
///
/// The interval, from its first number to its second, goes into the head alone: the buffers get the same on every interval.
///
/// Refused: 2, 1, with folding 5, 6, then 4, 3, 7, 21, 22, 23, in this order.
///
/// ```
/// use firrozun::buffers::{plan_into, trial_walk, PlanBuffers};
/// use firrozun::{Basis, Parity, SplitStrategy};
/// let (mut coefficients, mut boundaries, mut steps) = ([0; 8], [0; 8], [0; 64]);
/// let head = plan_into(
///     SplitStrategy::MinDepth,
///     Parity::Full,
///     Basis::Monomial,
///     false,
///     &[1, 2, 3, 4, 5],
///     (0.0, 4.0),
///     PlanBuffers { coefficients: &mut coefficients, boundaries: &mut boundaries, steps: &mut steps },
/// )?;
/// assert_eq!((head.ct_ct, head.pt_ct, head.depth), (3, 4, 3));
/// assert_eq!((head.interval.a, head.interval.b), (0.0, 4.0));
/// assert_eq!(trial_walk(&head, &coefficients, &boundaries, &steps, 2, 100), Ok(29));
/// # Ok::<(), firrozun::Refusal>(())
/// ```
pub fn plan_into(
    strategy: SplitStrategy,
    parity: Parity,
    basis: Basis,
    fold: bool,
    coeffs: &[i64],
    interval: (f64, f64),
    buffers: PlanBuffers<'_>,
) -> Result<Head, Refusal> {
    let answer = ffi::plan(
        settings(strategy, parity, basis, fold),
        coeffs,
        interval,
        buffers.coefficients,
        buffers.boundaries,
        buffers.steps,
    );
    Refusal::test(answer.refusal)?;
    Ok(Head::from_c(answer.head))
}

/// Walks a plan at a point, modulo a number: the remainder, from 0 up, of the value of the polynomial that was planned.
///
/// Any head and any buffers may be handed in, damaged ones too. The head's interval is not read.
///
/// Refused: 11 for a modulus below 2 or above 2,147,483,647, then 24 for a plan that cannot be walked.
///
/// ```
/// use firrozun::{buffers::trial_walk, Plan, Refusal};
/// use firrozun::{Basis, Parity, SplitStrategy};
/// let plan = Plan::new(Basis::Monomial, &[1, 2, 3, 4, 5], Parity::Full, SplitStrategy::MinDepth, false)?;
/// let walk = |steps: &[u16]| trial_walk(plan.head(), plan.coefficients(), plan.boundaries(), steps, 2, 100);
/// assert_eq!(walk(plan.step_numbers()), Ok(29));
/// assert_eq!(walk(&[]), Err(Refusal::Unwalkable));
/// # Ok::<(), Refusal>(())
/// ```
pub fn trial_walk(
    head: &Head,
    coefficients: &[i64],
    boundaries: &[u16],
    steps: &[u16],
    point: i64,
    modulus: u64,
) -> Result<u64, Refusal> {
    let answer = ffi::trial_walk(head.to_c(), coefficients, boundaries, steps, point, modulus);
    Refusal::test(answer.refusal)?;
    Ok(answer.remainder)
}

/// Weighs the heaviest chain of a plan, for the bit scales of the input and of the coefficients: the greatest weight over all paths of
/// multiplications that end in the plan's value.
///
/// A multiplication of two encrypted numbers weighs the input scale, one of an encrypted number and a plain one the coefficient scale.
/// Those of a list and of the transform count too. The weight is exact for every plan that can be walked, and at most 30 times the
/// greater scale.
///
/// Any head and any buffers may be handed in, damaged ones too. The head's interval is not read.
///
/// Refused: 10 for a scale above 65,535, then 24 for a plan that cannot be walked.
///
/// ```
/// use firrozun::{buffers::heaviest_chain, Plan, Refusal};
/// use firrozun::{Basis, Parity, SplitStrategy};
/// let plan = Plan::new(Basis::Monomial, &[1, 2, 3, 4, 5], Parity::Full, SplitStrategy::MinDepth, false)?;
/// let weigh = |steps: &[u16], input| {
///     heaviest_chain(plan.head(), plan.coefficients(), plan.boundaries(), steps, input, 20)
/// };
/// assert_eq!(weigh(plan.step_numbers(), 30), Ok(80)); // powers 2 and 4, then times the plain 5
/// assert_eq!(weigh(&[], 30), Err(Refusal::Unwalkable));
/// assert_eq!(weigh(&[], 65_536), Err(Refusal::Scale));
/// # Ok::<(), Refusal>(())
/// ```
pub fn heaviest_chain(
    head: &Head,
    coefficients: &[i64],
    boundaries: &[u16],
    steps: &[u16],
    input: usize,
    coeff: usize,
) -> Result<u64, Refusal> {
    let answer = ffi::heaviest_chain(head.to_c(), coefficients, boundaries, steps, input, coeff);
    Refusal::test(answer.refusal)?;
    Ok(answer.weight)
}

/// Writes the Chebyshev coefficients of the polynomial through nodes and values into `out`. Both come for k = n down to 1; poulpy's
/// nodes are cos((k − 1/2)·π/n), and any are taken.
///
/// Refused: 8, 7, 21, in this order.
///
/// ```
/// use firrozun::{buffers::chebyshev_interpolate_into, Parity};
/// let mut out = [0.0; 4];
/// let answer = chebyshev_interpolate_into(&[0.0], &[3.0], 0.0, 2.0, &mut out)?;
/// assert_eq!((answer.count, answer.parity, out[0]), (1, Parity::Even, 3.0));
/// assert_eq!(answer.change_of_basis, (1.0, -1.0));
/// # Ok::<(), firrozun::Refusal>(())
/// ```
pub fn chebyshev_interpolate_into(
    nodes: &[f64],
    values: &[f64],
    a: f64,
    b: f64,
    out: &mut [f64],
) -> Result<Interpolated, Refusal> {
    let answer = ffi::chebyshev_interpolate(nodes, values, a, b, out);
    Refusal::test(answer.refusal)?;
    Ok(Interpolated {
        count: answer.count,
        parity: Parity::of(answer.parity),
        interval: (answer.a, answer.b),
        change_of_basis: (answer.u, answer.w),
    })
}
