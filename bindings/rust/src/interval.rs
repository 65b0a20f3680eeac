//! The interval in the head of a plan.

use crate::ffi::CHeadInterval;

/// The interval from a to b that a plan was made on, and its pair (u, w) of [`change_of_basis`](crate::change_of_basis).
///
/// Two are equal if all four numbers have the same bits, where one NaN counts as any other: 0 and −0 are different ends, and a head
/// is equal to itself whatever it holds.
///
/// ```
/// use firrozun::{Basis, Interval, Polynomial, SplitStrategy};
/// let curve = Polynomial::new(Basis::Chebyshev, vec![0, 1, 0, 2]).with_interval(0, 4);
/// let plan = curve.plan_folded(SplitStrategy::MinMult)?;
/// assert_eq!(plan.head().interval, Interval { a: 0.0, b: 4.0, u: 0.5, w: -1.0 });
/// # Ok::<(), firrozun::Refusal>(())
/// ```
#[derive(Clone, Copy, Debug)]
pub struct Interval {
    /// The lower end.
    pub a: f64,
    /// The upper end.
    pub b: f64,
    /// What x is multiplied by.
    pub u: f64,
    /// What is added to u·x.
    pub w: f64,
}

impl Interval {
    pub(crate) fn from_c(interval: CHeadInterval) -> Self {
        let CHeadInterval { a, b, u, w } = interval;
        Self { a, b, u, w }
    }

    pub(crate) fn to_c(self) -> CHeadInterval {
        let Self { a, b, u, w } = self;
        CHeadInterval { a, b, u, w }
    }

    fn bits(&self) -> [u64; 4] {
        [self.a, self.b, self.u, self.w].map(|x| if x.is_nan() { f64::NAN } else { x }.to_bits())
    }
}

impl PartialEq for Interval {
    fn eq(&self, other: &Self) -> bool {
        self.bits() == other.bits()
    }
}

impl Eq for Interval {}
