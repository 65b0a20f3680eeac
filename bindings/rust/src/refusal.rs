//! Refusals: why a call gave no answer.

use std::error::Error;
use std::fmt;

/// Why a call gave no answer. A refused call has changed no buffer.
///
/// 1 to 12 are said of the input, 21 to 24 of what is lent, 31 of a budget, 33 and 34 of lists, 35 and 36 of a set, 37 and 38 of a
/// conversion; they are the numbers of `docs/RULES.md`. The sentence says what is wrong, and what to do.
///
/// ```
/// use firrozun::{split_degree, Refusal};
/// let refusal = split_degree(1).unwrap_err();
/// assert_eq!(refusal, Refusal::Index);
/// assert_eq!(refusal.number(), 9);
/// assert_eq!(
///     refusal.to_string(),
///     "refusal 9: the index to split is below 2 or above 4,294,967,295; give one in between"
/// );
/// ```
#[derive(Clone, Copy, Debug, PartialEq, Eq, Hash)]
pub enum Refusal {
    /// 1: there is no coefficient or one, for a plan or lists, or the degree is 0 for [`min_depth_split`](crate::min_depth_split) or
    /// [`rebuild_into`](crate::buffers::rebuild_into).
    NoDegree,
    /// 2: the degree is above the limit of the call, mostly 4,095.
    Degree,
    /// 3: the magnitudes of whole coefficients sum above 2^30. A conversion says it of the new coefficients, too.
    Magnitude,
    /// 4: at a place that the parity does not allow stands a coefficient other than 0.
    Parity,
    /// 5: folding is asked for with [`Parity::Full`](crate::Parity::Full).
    FoldFull,
    /// 6: folding is asked for of a degree below 2 for `Even`, or below 3 for `Odd`.
    FoldLow,
    /// 7: a < b does not hold for the interval from a to b.
    Interval,
    /// 8: nodes and values differ in number, or there are none, or more than 4,096.
    Nodes,
    /// 9: the index to split is below 2 or above 4,294,967,295.
    Index,
    /// 10: a bit scale is above 65,535.
    Scale,
    /// 11: the modulus of a walk is below 2 or above 2,147,483,647.
    Modulus,
    /// 12: a line of the program `planlines` does not have its form. No call of this crate reads lines, so none answers it.
    Line,
    /// 21: the coefficient buffer is too short.
    CoefficientBuffer,
    /// 22: the boundary buffer is too short.
    BoundaryBuffer,
    /// 23: the step buffer is too short.
    StepBuffer,
    /// 24: the plan cannot be walked: head or buffers are not as the plan call left them.
    Unwalkable,
    /// 31: no degree from 1 to 4,095 has bits within the budget of [`largest_degree`](crate::largest_degree).
    Budget,
    /// 33: for [`rebuild_into`](crate::buffers::rebuild_into), the base or the lengths of the lists aren't those of the settings, or the
    /// coefficients or the boundaries end too early.
    OtherSettings,
    /// 34: no polynomial with whole coefficients of 64 bits has the lists, because a doubled coefficient is odd or a rebuilt one is beyond
    /// an i64.
    NoPolynomial,
    /// 35: a set has no member, or more than 16; or, for [`plan_set_into`](crate::buffers::plan_set_into), its members have more
    /// coefficients together than are lent.
    Members,
    /// 36: the members of a set differ in what they must have in common: the basis, whether they are folded and, if they are, the parity.
    UnlikeMembers,
    /// 37: the degree is above 20, the greatest that is converted to the other basis
    /// ([`CONVERT_LIMIT`](crate::buffers::CONVERT_LIMIT)).
    ConvertDegree,
    /// 38: a coefficient in the Chebyshev basis would not be whole, since 2^(j − 1) doesn't divide coefficient j for some j.
    NotWhole,
    /// 43: the number of a kind is unknown. The enums of this crate have no such number, so no safe call answers it.
    UnknownKind,
}

impl Refusal {
    /// Every refusal, in the order of the numbers.
    ///
    /// ```
    /// use firrozun::Refusal;
    /// assert_eq!(Refusal::ALL.len(), 24);
    /// assert!(Refusal::ALL.iter().all(|&r| Refusal::from_number(r.number()) == Some(r)));
    /// ```
    pub const ALL: [Refusal; 24] = [
        Self::NoDegree,
        Self::Degree,
        Self::Magnitude,
        Self::Parity,
        Self::FoldFull,
        Self::FoldLow,
        Self::Interval,
        Self::Nodes,
        Self::Index,
        Self::Scale,
        Self::Modulus,
        Self::Line,
        Self::CoefficientBuffer,
        Self::BoundaryBuffer,
        Self::StepBuffer,
        Self::Unwalkable,
        Self::Budget,
        Self::OtherSettings,
        Self::NoPolynomial,
        Self::Members,
        Self::UnlikeMembers,
        Self::ConvertDegree,
        Self::NotWhole,
        Self::UnknownKind,
    ];

    /// The number: 1 to 12, 21 to 24, 31, 33 to 38, or 43.
    ///
    /// ```
    /// assert_eq!(firrozun::Refusal::StepBuffer.number(), 23);
    /// ```
    pub fn number(self) -> u8 {
        match self {
            Self::NoDegree => 1,
            Self::Degree => 2,
            Self::Magnitude => 3,
            Self::Parity => 4,
            Self::FoldFull => 5,
            Self::FoldLow => 6,
            Self::Interval => 7,
            Self::Nodes => 8,
            Self::Index => 9,
            Self::Scale => 10,
            Self::Modulus => 11,
            Self::Line => 12,
            Self::CoefficientBuffer => 21,
            Self::BoundaryBuffer => 22,
            Self::StepBuffer => 23,
            Self::Unwalkable => 24,
            Self::Budget => 31,
            Self::OtherSettings => 33,
            Self::NoPolynomial => 34,
            Self::Members => 35,
            Self::UnlikeMembers => 36,
            Self::ConvertDegree => 37,
            Self::NotWhole => 38,
            Self::UnknownKind => 43,
        }
    }

    /// The refusal of a number, if it has one: `planlines` prints such numbers.
    ///
    /// ```
    /// use firrozun::Refusal;
    /// assert_eq!(Refusal::from_number(12), Some(Refusal::Line));
    /// assert_eq!(Refusal::from_number(0), None);
    /// ```
    pub fn from_number(number: u8) -> Option<Self> {
        Self::ALL
            .into_iter()
            .find(|refusal| refusal.number() == number)
    }

    /// What the library's number says: 0 is no refusal. Its contracts leave no number but those above.
    pub(crate) fn test(number: u8) -> Result<(), Self> {
        match number {
            0 => Ok(()),
            _ => Err(Self::from_number(number).unwrap_or(Self::UnknownKind)),
        }
    }

    fn sentence(self) -> &'static str {
        match self {
            Self::NoDegree => {
                "the degree is 0 (no coefficient or one); a constant needs no plan, but with a 0 behind it, it gets one"
            }
            Self::Degree => {
                "the degree is above the limit of the call; remove zeros at the end, or approximate by a lower degree"
            }
            Self::Magnitude => {
                "the magnitudes of the whole coefficients sum above 2^30; divide all by one number and round"
            }
            Self::Parity => {
                "where the parity wants 0, a coefficient is not 0; name the right parity, or Full and no folding"
            }
            Self::FoldFull => "folding is asked for with parity Full; fold only what is Even or Odd",
            Self::FoldLow => {
                "folding is asked for, and the degree is below 2 for Even or below 3 for Odd; plan it unfolded"
            }
            Self::Interval => {
                "a < b does not hold for the interval from a to b; give one where it does, without a NaN"
            }
            Self::Nodes => {
                "nodes and values differ in number, or there are none, or more than 4,096; give as many values as nodes"
            }
            Self::Index => "the index to split is below 2 or above 4,294,967,295; give one in between",
            Self::Scale => "a bit scale is above 65,535; give scales up to that",
            Self::Modulus => "the modulus is below 2 or above 2,147,483,647; give one in between",
            Self::Line => "the line does not have the form of a line of planlines; its README has the form",
            Self::CoefficientBuffer => {
                "the coefficient buffer is too short; 4,096 places are enough for every call, but for a set 65,536"
            }
            Self::BoundaryBuffer => {
                "the boundary buffer is too short; 4,096 places are enough for every call, but for a set 65,536"
            }
            Self::StepBuffer => {
                "the step buffer has fewer than four places for each step; 49,152 places are enough for every plan, and 786,432 for every set"
            }
            Self::Unwalkable => {
                "the plan cannot be walked; hand in its head and its buffers as the plan call left them"
            }
            Self::Budget => {
                "no degree from 1 to 4,095 has bits within the budget; give more bits, or a lower coefficient scale"
            }
            Self::OtherSettings => {
                "base or list lengths are not those of the settings, or lists or boundaries end too early; give all as they were answered"
            }
            Self::NoPolynomial => {
                "no whole polynomial of 64 bits has these lists; take them from an undamaged copy, with the settings that they were cut with"
            }
            Self::Members => {
                "the set has no member, or more than 16, or its members have more coefficients than are lent; give 1 to 16, with all of theirs"
            }
            Self::UnlikeMembers => {
                "basis, folding or the parity of a fold is not the same for all members; make a set of each kind"
            }
            Self::ConvertDegree => {
                "the degree is above 20, the greatest that is converted; remove zeros at the end, or plan the curve in its own basis"
            }
            Self::NotWhole => {
                "a Chebyshev coefficient would be a fraction; multiply all coefficients by 2^(degree - 1), which multiplies the value too"
            }
            Self::UnknownKind => "the number of a basis, parity, strategy, transform or fold is unknown",
        }
    }
}

impl fmt::Display for Refusal {
    fn fmt(&self, f: &mut fmt::Formatter<'_>) -> fmt::Result {
        write!(f, "refusal {}: {}", self.number(), self.sentence())
    }
}

impl Error for Refusal {}
