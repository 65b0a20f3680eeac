//! The kinds: enums with poulpy's names, numbered as document 01 numbers them.

/// The polynomials that coefficients belong to.
///
/// ```
/// use firrozun::Basis;
/// assert_eq!(Basis::Chebyshev.number(), 1);
/// ```
#[derive(Clone, Copy, Debug, PartialEq, Eq, Hash)]
pub enum Basis {
    /// Powers of x: 1, x, x², … Number 0.
    Monomial,
    /// Chebyshev polynomials T_0, T_1, T_2, … Number 1.
    Chebyshev,
}

/// The places at which a coefficient other than 0 may stand.
///
/// ```
/// use firrozun::Parity;
/// assert_eq!(Parity::Odd.number(), 2);
/// ```
#[derive(Clone, Copy, Debug, PartialEq, Eq, Hash)]
pub enum Parity {
    /// All places. Number 0.
    Full,
    /// Places 0, 2, 4, … Number 1.
    Even,
    /// Places 1, 3, 5, … Number 2.
    Odd,
}

/// What a plan saves.
///
/// ```
/// use firrozun::SplitStrategy;
/// assert_eq!(SplitStrategy::MinMult.number(), 1);
/// ```
#[derive(Clone, Copy, Debug, PartialEq, Eq, Hash)]
pub enum SplitStrategy {
    /// Levels of multiplications. Number 0.
    MinDepth,
    /// Multiplications, those of two encrypted numbers first. Number 1.
    MinMult,
}

/// The strategy that poulpy takes where none is named.
///
/// ```
/// assert_eq!(firrozun::DEFAULT_SPLIT_STRATEGY, firrozun::SplitStrategy::MinDepth);
/// ```
pub const DEFAULT_SPLIT_STRATEGY: SplitStrategy = SplitStrategy::MinDepth;

/// What is done with the input x before a plan and with its result after it. Only a folded plan has another than `Identity`.
///
/// ```
/// use firrozun::PolynomialInputTransform;
/// assert_eq!(PolynomialInputTransform::default(), PolynomialInputTransform::Identity);
/// assert_eq!(PolynomialInputTransform::ChebyshevT2TimesInput.number(), 4);
/// ```
#[derive(Clone, Copy, Debug, Default, PartialEq, Eq, Hash)]
pub enum PolynomialInputTransform {
    /// The plan begins with x. Number 0.
    #[default]
    Identity,
    /// The plan begins with x². Number 1.
    Square,
    /// The plan begins with x², and its result is multiplied by x. Number 2.
    SquareTimesInput,
    /// The plan begins with 2x² − 1. Number 3.
    ChebyshevT2,
    /// The plan begins with 2x² − 1, and its result is multiplied by x. Number 4.
    ChebyshevT2TimesInput,
}

impl Basis {
    /// The number of document 01: 0 or 1.
    ///
    /// ```
    /// use firrozun::Basis;
    /// assert_eq!(Basis::Monomial.number(), 0);
    /// ```
    pub fn number(self) -> u8 {
        self as u8
    }

    pub(crate) fn of(number: u8) -> Self {
        match number {
            0 => Self::Monomial,
            _ => Self::Chebyshev,
        }
    }
}

impl Parity {
    /// The number of document 01: 0, 1 or 2.
    ///
    /// ```
    /// use firrozun::Parity;
    /// assert_eq!(Parity::Even.number(), 1);
    /// ```
    pub fn number(self) -> u8 {
        self as u8
    }

    pub(crate) fn of(number: u8) -> Self {
        match number {
            0 => Self::Full,
            1 => Self::Even,
            _ => Self::Odd,
        }
    }
}

impl SplitStrategy {
    /// The number of document 01: 0 or 1.
    ///
    /// ```
    /// use firrozun::SplitStrategy;
    /// assert_eq!(SplitStrategy::MinDepth.number(), 0);
    /// ```
    pub fn number(self) -> u8 {
        self as u8
    }

    pub(crate) fn of(number: u8) -> Self {
        match number {
            0 => Self::MinDepth,
            _ => Self::MinMult,
        }
    }
}

impl PolynomialInputTransform {
    /// The number of document 01: 0 to 4.
    ///
    /// ```
    /// use firrozun::PolynomialInputTransform;
    /// assert_eq!(PolynomialInputTransform::ChebyshevT2.number(), 3);
    /// ```
    pub fn number(self) -> u8 {
        self as u8
    }

    /// How many multiplications of two encrypted numbers the transform costs, one after another: 0, 1 or 2.
    ///
    /// ```
    /// use firrozun::PolynomialInputTransform;
    /// assert_eq!(PolynomialInputTransform::Square.extra_depth(), 1);
    /// assert_eq!(PolynomialInputTransform::SquareTimesInput.extra_depth(), 2);
    /// ```
    pub fn extra_depth(self) -> usize {
        match self {
            Self::Identity => 0,
            Self::Square | Self::ChebyshevT2 => 1,
            Self::SquareTimesInput | Self::ChebyshevT2TimesInput => 2,
        }
    }

    pub(crate) fn of(number: u8) -> Self {
        match number {
            0 => Self::Identity,
            1 => Self::Square,
            2 => Self::SquareTimesInput,
            3 => Self::ChebyshevT2,
            _ => Self::ChebyshevT2TimesInput,
        }
    }
}
