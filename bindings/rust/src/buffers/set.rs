//! The calls on a set of curves, with lent buffers.

use super::{Head, PlanBuffers, PlanSizes, SET_MEMBERS};
use crate::ffi;
use crate::ffi::{CCurveSet, CMember, CMembers};
use crate::kinds::{Basis, Parity, SplitStrategy};
use crate::refusal::Refusal;
use std::ops::Range;

/// A member of a set: the settings of a curve, its interval, and how many coefficients it has. The coefficients of all members are lent
/// together.
///
/// ```
/// use firrozun::buffers::{set_sizes, Member};
/// use firrozun::{Basis, Parity, SplitStrategy};
/// let member = Member {
///     strategy: SplitStrategy::MinDepth,
///     parity: Parity::Full,
///     basis: Basis::Monomial,
///     fold: false,
///     interval: (0.0, 4.0),
///     count: 5,
/// };
/// assert_eq!(set_sizes(&[member, Member { count: 4, ..member }])?.steps, 9);
/// # Ok::<(), firrozun::Refusal>(())
/// ```
#[derive(Clone, Copy, Debug, PartialEq)]
pub struct Member {
    /// The strategy, which may be another for each member.
    pub strategy: SplitStrategy,
    /// The parity of the curve. Members that are folded have the same.
    pub parity: Parity,
    /// The basis, which is the same for all members.
    pub basis: Basis,
    /// Whether the curve is folded, which all members are or none.
    pub fold: bool,
    /// The interval, from its first number to its second.
    pub interval: (f64, f64),
    /// How many coefficients the curve has.
    pub count: usize,
}

impl Member {
    /// What stands in the places beyond the members, which the library doesn't read.
    const NONE: CMember = CMember {
        strategy: 0,
        parity: 0,
        basis: 0,
        fold: 0,
        a: 0.0,
        b: 0.0,
        count: 0,
    };

    fn to_c(self) -> CMember {
        CMember {
            strategy: self.strategy.number(),
            parity: self.parity.number(),
            basis: self.basis.number(),
            fold: u8::from(self.fold),
            a: self.interval.0,
            b: self.interval.1,
            count: self.count,
        }
    }

    /// The members as the library takes them: the number of all, and the first 16. It refuses with 35 if there are more.
    fn all_to_c(members: &[Self]) -> CMembers {
        let mut places = [Self::NONE; SET_MEMBERS];
        for (place, member) in places.iter_mut().zip(members) {
            *place = member.to_c();
        }
        CMembers {
            count: members.len(),
            members: places,
        }
    }
}

/// The head of a set: its cost, the number of its power steps, and the head of each member.
///
/// ```
/// use firrozun::{Basis, Curve, CurveSet};
/// let set = CurveSet::plan(&[
///     Curve::new(Basis::Monomial, &[1, 2, 3, 4, 5]),
///     Curve::new(Basis::Monomial, &[1, 2, 3, 4]),
/// ])?;
/// let head = set.head();
/// assert_eq!((head.ct_ct, head.pt_ct, head.powers), (4, 6, 3));
/// let alone: Vec<_> = head.members().iter().map(|head| (head.ct_ct, head.pt_ct)).collect();
/// assert_eq!(alone, [(3, 4), (2, 2)]);
/// # Ok::<(), firrozun::Refusal>(())
/// ```
#[derive(Clone, Copy, Debug, PartialEq, Eq)]
pub struct SetHead {
    /// Multiplications of two encrypted numbers over all members: each power step once, and one for a common transform.
    pub ct_ct: usize,
    /// Multiplications of an encrypted number and a plain one, over all members.
    pub pt_ct: usize,
    /// How many power steps the members have in common. They stand ahead of all other steps.
    pub powers: usize,
    /// The head of each member as it is planned alone, its costs too, but for its `steps`: these are counted without power steps. All
    /// numbers of the heads beyond the members are 0.
    pub heads: [Head; SET_MEMBERS],
}

impl SetHead {
    fn from_c(set: CCurveSet) -> Self {
        Self {
            ct_ct: set.ct,
            pt_ct: set.pt,
            powers: set.powers,
            heads: set.heads.map(Head::from_c),
        }
    }

    /// The heads of the members. A member's degree isn't 0, so the first head with degree 0 is beyond them.
    ///
    /// ```
    /// # use firrozun::{Basis, Curve, CurveSet};
    /// # let set = CurveSet::plan(&[Curve::new(Basis::Monomial, &[1, 2, 3, 4, 5]), Curve::new(Basis::Monomial, &[1, 2, 3, 4])])?;
    /// assert_eq!(set.head().members().len(), 2);
    /// assert_eq!(set.head().members()[1].degree, 3);
    /// # Ok::<(), firrozun::Refusal>(())
    /// ```
    pub fn members(&self) -> &[Head] {
        let count = self.heads.iter().take_while(|head| head.degree > 0).count();
        self.heads.get(..count).unwrap_or_default()
    }

    /// The head of member `i`, counted from 0, with the power steps among its `steps`: the one to walk or to weigh the member with.
    ///
    /// ```
    /// # use firrozun::{Basis, Curve, CurveSet};
    /// # let set = CurveSet::plan(&[Curve::new(Basis::Monomial, &[1, 2, 3, 4, 5]), Curve::new(Basis::Monomial, &[1, 2, 3, 4])])?;
    /// let head = set.head();
    /// assert_eq!(head.members()[1].steps, 3);
    /// assert_eq!(head.composed(1).map(|head| head.steps), Some(6));
    /// assert_eq!(head.composed(2), None);
    /// # Ok::<(), firrozun::Refusal>(())
    /// ```
    pub fn composed(&self, i: usize) -> Option<Head> {
        let head = self.members().get(i)?;
        Some(Head {
            steps: head.steps.saturating_add(self.powers),
            ..*head
        })
    }

    /// Where the power steps stand in the step buffer, four numbers for each.
    ///
    /// ```
    /// # use firrozun::{Basis, Curve, CurveSet};
    /// # let set = CurveSet::plan(&[Curve::new(Basis::Monomial, &[1, 2, 3, 4, 5]), Curve::new(Basis::Monomial, &[1, 2, 3, 4])])?;
    /// assert_eq!(set.head().power_places(), 0..12);
    /// # Ok::<(), firrozun::Refusal>(())
    /// ```
    pub fn power_places(&self) -> Range<usize> {
        0..self.powers.saturating_mul(4)
    }

    /// Where the parts of member `i`, counted from 0, stand in the buffers of the set.
    ///
    /// ```
    /// use firrozun::buffers::MemberPlaces;
    /// # use firrozun::{Basis, Curve, CurveSet};
    /// # let set = CurveSet::plan(&[Curve::new(Basis::Monomial, &[1, 2, 3, 4, 5]), Curve::new(Basis::Monomial, &[1, 2, 3, 4])])?;
    /// let places = MemberPlaces { coefficients: 5..9, boundaries: 2..4, steps: 24..36 };
    /// assert_eq!(set.head().places(1), Some(places));
    /// assert_eq!(set.head().places(2), None);
    /// # Ok::<(), firrozun::Refusal>(())
    /// ```
    pub fn places(&self, i: usize) -> Option<MemberPlaces> {
        let members = self.members();
        let (head, before) = (members.get(i)?, members.get(..i)?);
        let range = |start: usize, count| start..start.saturating_add(count);
        let sum = |of: fn(&Head) -> usize| before.iter().map(of).fold(0, usize::saturating_add);
        let steps = sum(|head| head.steps).saturating_add(self.powers);
        Some(MemberPlaces {
            coefficients: range(sum(|head| head.coefficients), head.coefficients),
            boundaries: range(sum(|head| head.lists), head.lists),
            steps: range(steps.saturating_mul(4), head.steps.saturating_mul(4)),
        })
    }
}

/// Where a member's own parts stand in the buffers of its set.
///
/// ```
/// use firrozun::{Basis, Curve, CurveSet};
/// let set = CurveSet::plan(&[
///     Curve::new(Basis::Monomial, &[1, 2, 3, 4, 5]),
///     Curve::new(Basis::Monomial, &[6, 7, 8, 9]),
/// ])?;
/// let places = set.head().places(1).ok_or("no member 1")?;
/// assert_eq!(set.coefficients()[places.coefficients], [6, 7, 8, 9]);
/// assert_eq!(set.boundaries()[places.boundaries], [2, 4]); // in these four coefficients
/// assert_eq!(set.step_numbers()[places.steps][..4], [2, 0, 0, 0]); // load the member's first list
/// # Ok::<(), Box<dyn std::error::Error>>(())
/// ```
#[derive(Clone, Debug, PartialEq, Eq)]
pub struct MemberPlaces {
    /// Of the coefficients.
    pub coefficients: Range<usize>,
    /// Of the boundaries, each the place after a list, counted from the beginning of the member's own coefficients.
    pub boundaries: Range<usize>,
    /// Of the member's loads and combines, four numbers for each. List numbers begin at 0.
    pub steps: Range<usize>,
}

/// The sizes of every set with these settings and lengths, before there are coefficients: the intervals aren't read. The power steps count
/// once.
///
/// A set that is not refused otherwise is planned exactly if its buffers are at least so long.
///
/// Refused: 35 for no member or more than 16, 36, then of each member, in their order, 2, 1, with folding 5, 6. Then [`plan_set_into`],
/// too, refuses every set with these settings and lengths, though it may be by the number of an earlier test.
///
/// ```
/// use firrozun::buffers::{set_sizes, Member, PlanSizes};
/// use firrozun::{Basis, Parity, Refusal, SplitStrategy};
/// let member = |count| Member {
///     strategy: SplitStrategy::MinDepth,
///     parity: Parity::Full,
///     basis: Basis::Monomial,
///     fold: false,
///     interval: (-1.0, 1.0),
///     count,
/// };
/// let sizes = set_sizes(&[member(5), member(4)])?;
/// assert_eq!(sizes, PlanSizes { coefficients: 9, lists: 4, steps: 9 });
/// assert_eq!(set_sizes(&[member(5), member(1)]), Err(Refusal::NoDegree));
/// assert_eq!(set_sizes(&[member(5); 17]), Err(Refusal::Members));
/// # Ok::<(), firrozun::Refusal>(())
/// ```
pub fn set_sizes(members: &[Member]) -> Result<PlanSizes, Refusal> {
    PlanSizes::from_c(ffi::set_sizes(Member::all_to_c(members)))
}

/// Plans a set of 1 to 16 curves of one reading into lent buffers: power steps once for all of them, then the loads and combines of each.
/// [`CurveSet`](crate::CurveSet) is the same with buffers of its own.
///
/// `coeffs` has the coefficients of the members one after another; places beyond aren't read. Lists, boundaries and steps of the members
/// stand one member's after another's, too: [`SetHead::places`] tells where. A member is walked with [`SetHead::composed`], its
/// coefficients, its boundaries, and its own steps behind the power steps.
///
/// Refused: 35, 36, then of each member, in their order, 2, 1, with folding 5, 6, then 4, 3, 7, and for all of them together 21, 22, 23.
///
/// ```
/// use firrozun::buffers::{plan_set_into, trial_walk, Member, PlanBuffers};
/// use firrozun::{Basis, Parity, SplitStrategy};
/// let member = |count| Member {
///     strategy: SplitStrategy::MinDepth,
///     parity: Parity::Full,
///     basis: Basis::Monomial,
///     fold: false,
///     interval: (-1.0, 1.0),
///     count,
/// };
/// let (mut coefficients, mut boundaries, mut steps) = ([0; 9], [0; 4], [0; 36]);
/// let set = plan_set_into(
///     &[member(5), member(4)],
///     &[1, 2, 3, 4, 5, 1, 2, 3, 4],
///     PlanBuffers { coefficients: &mut coefficients, boundaries: &mut boundaries, steps: &mut steps },
/// )?;
/// assert_eq!((set.ct_ct, set.pt_ct, set.powers), (4, 6, 3));
/// assert_eq!(steps[..12], [1, 2, 1, 1, 1, 3, 1, 2, 1, 4, 2, 2]); // powers 2, 3 and 4
///
/// let (head, places) = (set.composed(1).ok_or("no member 1")?, set.places(1).ok_or("no member 1")?);
/// let steps = [&steps[set.power_places()], &steps[places.steps]].concat();
/// let (lists, ends) = (&coefficients[places.coefficients], &boundaries[places.boundaries]);
/// assert_eq!(trial_walk(&head, lists, ends, &steps, 2, 100), Ok(49));
/// # Ok::<(), Box<dyn std::error::Error>>(())
/// ```
pub fn plan_set_into(
    members: &[Member],
    coeffs: &[i64],
    buffers: PlanBuffers<'_>,
) -> Result<SetHead, Refusal> {
    let answer = ffi::plan_set(
        Member::all_to_c(members),
        coeffs,
        buffers.coefficients,
        buffers.boundaries,
        buffers.steps,
    );
    Refusal::test(answer.refusal)?;
    Ok(SetHead::from_c(answer.set))
}
