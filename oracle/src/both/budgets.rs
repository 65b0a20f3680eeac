//! The largest degree for a budget by the proved library and by a scan over all degrees with the published bits.

use std::process::exit;

use firrozun::{SplitStrategy, largest_degree};

use super::chains::scale;
use super::ours::kinds_of;
use super::parts::{self, PART};
use crate::budgets::{BUDGETS, Largest, SCALES, all_bits, bits, largest};
use crate::calls::{Basis, Parity, STRATEGIES};
use crate::inputs::{MAX_DEGREE, MAX_SCALE, Rng, bare_degree};

const ROWS: [&str; 2] = ["every budget to 2,000", "random"];
const REFUSALS: [u8; 4] = [0, 10, 31, 43];
const SWEEPS: usize = SCALES.len() * STRATEGIES.len();

/// For each row how many calls each refusal had.
type Tally = parts::Tally<{ ROWS.len() }>;

#[repr(C)]
struct CDegree {
    refusal: u8,
    degree: usize,
}

// By include/firrozun.h: the crate in bindings/rust takes no unknown strategy.
unsafe extern "C" {
    fn firrozun_largest_degree(strategy: u8, budget: u64, input: usize, coeff: usize) -> CDegree;
}

/// A call with the answer that it must have.
struct Case {
    row: usize,
    /// By its number, which may be that of none.
    strategy: u8,
    budget: u64,
    scales: (usize, usize),
    expected: Largest,
}

impl Case {
    /// The answer of the function for C.
    fn ours(&self) -> Largest {
        let (input, coeff) = self.scales;
        // SAFETY: numbers are passed by value, and any number may be.
        let answer = unsafe { firrozun_largest_degree(self.strategy, self.budget, input, coeff) };
        (answer.refusal, answer.degree)
    }

    /// The answer of the crate in bindings/rust; none if it can't be asked.
    fn by_crate(&self) -> Option<Largest> {
        let strategy = library_strategy(self.strategy)?;
        let (input, coeff) = self.scales;
        let answer = largest_degree(strategy, self.budget, input, coeff);
        Some(answer.map_or_else(|refusal| (refusal.number(), 0), |degree| (0, degree)))
    }

    fn differs(&self) -> bool {
        self.ours() != self.expected || self.by_crate().is_some_and(|a| a != self.expected)
    }
}

fn library_strategy(number: u8) -> Option<SplitStrategy> {
    let strategy = STRATEGIES.get(number as usize)?;
    Some(kinds_of(Basis::Monomial, Parity::Full, *strategy).2)
}

/// One part of the work: first each pair of scales and strategy, then the random calls.
fn part(k: usize, count: u64, seed: u64) -> Vec<Case> {
    if k < SWEEPS {
        return sweep(SCALES[k / STRATEGIES.len()], k % STRATEGIES.len());
    }
    let g = &mut Rng::new(seed ^ (k as u64) << 32);
    let here = PART.min(count - (k - SWEEPS) as u64 * PART);
    (0..here).map(|_| random(g)).collect()
}

fn sweep(scales: (usize, usize), strategy: usize) -> Vec<Case> {
    let bits = all_bits(STRATEGIES[strategy], scales);
    let case = |budget| Case {
        row: 0,
        strategy: strategy as u8,
        budget,
        scales,
        expected: largest(budget, |d| bits[d]),
    };
    (0..=BUDGETS).map(case).collect()
}

fn random(g: &mut Rng) -> Case {
    let strategy = if g.one_in(20) {
        2 + g.below(254)
    } else {
        g.below(2)
    } as u8;
    let scales = (scale(g), scale(g));
    let budget = budget(g, strategy, scales);
    Case {
        row: 1,
        strategy,
        budget,
        scales,
        expected: expected(strategy, budget, scales),
    }
}

/// By docs/RULES.md: 43, then 10; else the scan.
fn expected(strategy: u8, budget: u64, scales: (usize, usize)) -> Largest {
    match STRATEGIES.get(strategy as usize) {
        None => (43, 0),
        Some(_) if scales.0.max(scales.1) > MAX_SCALE => (10, 0),
        Some(&strategy) => largest(budget, |d| bits(strategy, d, scales)),
    }
}

/// Mostly the bits of some degree or a number near them.
fn budget(g: &mut Rng, strategy: u8, scales: (usize, usize)) -> u64 {
    let degree = 1 + bare_degree(g) % MAX_DEGREE;
    // Beyond the limits, where the published code is not asked, those of others do.
    let strategy = STRATEGIES[strategy as usize % 2];
    let scales = (scales.0.min(MAX_SCALE), scales.1.min(MAX_SCALE));
    let bits = bits(strategy, degree, scales);
    match g.below(12) {
        0 => 0,
        1 => u64::MAX,
        2 => g.next() >> g.below(64),
        3 => g.below(100) as u64,
        4..7 => bits,
        7..10 => bits.saturating_sub(1),
        _ => (bits + g.below(7) as u64).saturating_sub(3),
    }
}

/// Compares every budget to 2,000 at each pair of scales, and `count` random calls. At the first difference it says the call and
/// ends with status 1.
pub fn compare(count: u64, seed: u64) {
    let parts = SWEEPS + count.div_ceil(PART) as usize;
    let agrees = |case: &Case, _: usize, tally: &mut Tally| {
        let agrees = !case.differs();
        if agrees {
            let place = REFUSALS.iter().position(|&r| r == case.expected.0);
            tally[case.row][place.expect("a refusal of the call")] += 1;
        }
        agrees
    };
    match parts::compare(parts, |k| part(k, count, seed), agrees) {
        Ok(total) => summary(&total, seed),
        Err(case) => stop(&case, seed),
    }
}

fn stop(case: &Case, seed: u64) -> ! {
    println!("a difference, seed {seed}, {}", ROWS[case.row]);
    println!(
        "largest_degree strategy={} budget={} scales={:?}",
        case.strategy, case.budget, case.scales
    );
    println!("refusal and degree");
    println!("the scan: {:?}", case.expected);
    println!("Firrozun: {:?}", case.ours());
    if let Some(answer) = case.by_crate() {
        println!("by the crate in bindings/rust: {answer:?}");
    }
    exit(1)
}

fn summary(total: &Tally, seed: u64) {
    println!("| budgets | accepted | refused by 10 | by 31 | by 43 |");
    let calls = parts::table(&ROWS, total);
    println!("seed {seed}: {calls} calls, no difference");
}
