//! Times of the published planner and of the proved library, on the same inputs in one process. bench/README.md says what is timed.

mod budgets;
mod cases;
mod clock;
mod rebuilds;
mod sets;

use crate::calls::{
    BASES, Basis, Parity, STRATEGIES, SplitStrategy, basis_letter, strategy_letter,
};
use crate::inputs::{Rng, shape_whole};
use clock::Times;

const DEGREES: [usize; 4] = [31, 255, 1_023, 4_095];
/// How many polynomials a case has. They are taken by turns.
const INPUTS: usize = 8;

/// Prints one line for each case: what, basis, strategy, degree, and nanoseconds a call, of the Rust and of ours.
pub fn run(rounds: usize, seed: u64) {
    let mut b = Bench {
        rounds,
        rng: Rng::new(seed),
    };
    for degree in DEGREES {
        for basis in BASES {
            for strategy in STRATEGIES {
                cases::lists(&mut b, basis, strategy, degree);
                cases::plans(&mut b, basis, strategy, degree);
                sets::sets(&mut b, basis, strategy, degree);
                rebuilds::rebuilds(&mut b, basis, strategy, degree);
            }
            cases::choice(&b, basis, degree);
            cases::evaluation(&mut b, basis, degree);
            cases::walks(&mut b, basis, degree);
        }
        cases::folds(&mut b, degree);
        for strategy in STRATEGIES {
            budgets::fitting(&b, strategy, degree);
        }
    }
    budgets::none_fits(&b);
}

struct Bench {
    rounds: usize,
    rng: Rng,
}

impl Bench {
    /// Polynomials of this degree and parity, with whole coefficients from -999 to 999.
    fn inputs(&mut self, parity: Parity, degree: usize) -> Vec<Vec<f64>> {
        let g = &mut self.rng;
        let mut list = || {
            (0..=degree)
                .map(|_| g.below(1_999) as f64 - 999.0)
                .collect()
        };
        let lists = (0..INPUTS).map(|_| shape_whole(parity, list()));
        lists.collect()
    }

    fn time<A, B>(&self, case: Case, rust: impl FnMut(usize) -> A, ours: impl FnMut(usize) -> B) {
        let Times { rust, ours } = clock::best(self.rounds, rust, ours);
        let (what, basis, strategy, degree) = case;
        let basis = basis.map_or('-', basis_letter);
        let strategy = strategy.map_or('-', strategy_letter);
        println!("{what}\t{basis}\t{strategy}\t{degree}\t{rust:.1}\t{ours:.1}");
    }
}

/// What is timed, basis, strategy and degree.
type Case = (&'static str, Option<Basis>, Option<SplitStrategy>, usize);
