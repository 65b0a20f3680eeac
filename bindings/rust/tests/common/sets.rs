//! Curves that go into a set, and the call on lent buffers.

use super::{allows, Numbers, Settings, BASES, PARITIES, STRATEGIES};
use firrozun::buffers::{plan_set_into, Member, PlanBuffers, SetHead};
use firrozun::Basis::Monomial;
use firrozun::Parity::{Even, Full, Odd};
use firrozun::SplitStrategy::{MinDepth, MinMult};
use firrozun::{Curve, CurveSet, Parity, Plan, Refusal};

pub const UNIT: (f64, f64) = (-1.0, 1.0);

pub const INTERVALS: [(f64, f64); 4] = [UNIT, (0.5, 2.25), (-0.0, 4.0), (-3.0, f64::INFINITY)];

pub const MODULI: [u64; 4] = [2, 97, 1_000_003, 2_147_483_647];

/// The greatest sum of magnitudes that is accepted.
pub const MOST: i64 = 1 << 30;

/// A curve that goes into a set, with coefficients of its own.
#[derive(Clone, Debug, PartialEq)]
pub struct Given {
    pub settings: Settings,
    pub ends: (f64, f64),
    pub coeffs: Vec<i64>,
}

impl Given {
    pub fn new(settings: Settings, coeffs: &[i64]) -> Self {
        Self {
            settings,
            ends: UNIT,
            coeffs: coeffs.to_vec(),
        }
    }

    pub fn on(self, a: f64, b: f64) -> Self {
        let ends = (a, b);
        Self { ends, ..self }
    }

    pub fn curve(&self) -> Curve<'_> {
        let (strategy, parity, basis, fold) = self.settings;
        let curve = Curve::new(basis, &self.coeffs)
            .with_parity(parity)
            .with_strategy(strategy)
            .with_interval(self.ends.0, self.ends.1);
        if fold {
            curve.folded()
        } else {
            curve
        }
    }

    pub fn member(&self) -> Member {
        let (strategy, parity, basis, fold) = self.settings;
        Member {
            strategy,
            parity,
            basis,
            fold,
            interval: self.ends,
            count: self.coeffs.len(),
        }
    }

    pub fn alone(&self) -> Result<Plan, Refusal> {
        let (strategy, parity, basis, fold) = self.settings;
        Plan::on_interval(basis, &self.coeffs, parity, strategy, fold, self.ends)
    }
}

pub fn curves(given: &[Given]) -> Vec<Curve<'_>> {
    given.iter().map(Given::curve).collect()
}

pub fn members(given: &[Given]) -> Vec<Member> {
    given.iter().map(Given::member).collect()
}

pub fn coeffs(given: &[Given]) -> Vec<i64> {
    given
        .iter()
        .flat_map(|given| given.coeffs.clone())
        .collect()
}

pub fn planned(given: &[Given]) -> CurveSet {
    CurveSet::plan(&curves(given)).expect("an accepted set")
}

/// What the call on lent buffers answers and leaves in so many places, which have held nines.
pub struct Lent {
    pub answer: Result<SetHead, Refusal>,
    pub coefficients: Vec<i64>,
    pub boundaries: Vec<u16>,
    pub steps: Vec<u16>,
}

impl Lent {
    pub fn ask(members: &[Member], coeffs: &[i64], places: (usize, usize, usize)) -> Self {
        let mut coefficients = vec![9; places.0];
        let mut boundaries = vec![9; places.1];
        let mut steps = vec![9; places.2];
        let buffers = PlanBuffers {
            coefficients: &mut coefficients,
            boundaries: &mut boundaries,
            steps: &mut steps,
        };
        let answer = plan_set_into(members, coeffs, buffers);
        Self {
            answer,
            coefficients,
            boundaries,
            steps,
        }
    }

    /// The number of the refusal, and 0 for an answer. A refusal has left every place as it was.
    pub fn number(&self) -> u8 {
        let Err(refusal) = self.answer else {
            return 0;
        };
        assert!(self.coefficients.iter().all(|&place| place == 9));
        let others = self.boundaries.iter().chain(&self.steps);
        assert!(others.into_iter().all(|&place| place == 9));
        refusal.number()
    }
}

pub fn refusal_in(given: &[Given], places: (usize, usize, usize)) -> u8 {
    Lent::ask(&members(given), &coeffs(given), places).number()
}

/// Coefficients of a parity whose magnitudes sum to 2^30 at most.
pub fn random_coeffs(numbers: &mut Numbers, parity: Parity, count: usize) -> Vec<i64> {
    let most = MOST / count.max(1) as i64;
    let most = numbers.one_of(&[1, 9, most]).min(most);
    (0..count)
        .map(|j| numbers.within(most) * i64::from(allows(parity, j)))
        .collect()
}

/// So many curves that may stand in one set, with degrees below `end`.
pub fn random_set(numbers: &mut Numbers, count: usize, end: u64) -> Vec<Given> {
    let (basis, fold) = (numbers.one_of(&BASES), numbers.one_of(&[false, true]));
    let parity_of_folds = numbers.one_of(&[Even, Odd]);
    (0..count)
        .map(|_| {
            let parity = match fold {
                true => parity_of_folds,
                false => numbers.one_of(&PARITIES),
            };
            let least = if fold { 4 } else { 2 };
            let length = least + numbers.below(end) as usize;
            let settings = (numbers.one_of(&STRATEGIES), parity, basis, fold);
            let (a, b) = numbers.one_of(&INTERVALS);
            let coeffs = random_coeffs(numbers, parity, length.min(4096));
            Given::new(settings, &coeffs).on(a, b)
        })
        .collect()
}

pub const D: Settings = (MinDepth, Full, Monomial, false);

pub const M: Settings = (MinMult, Full, Monomial, false);
