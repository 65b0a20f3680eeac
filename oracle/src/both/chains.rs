//! The heaviest chain of lent plans by the proved library and by src/chain.rs: of planned ones in every setting, of random ones
//! that can be walked, and of damaged ones.

use std::process::exit;

use super::lent::{damage, interval, limits, random};
use super::parts::{self, PART};
use crate::chain::{Head, Interval};
use crate::chains::Lent;
use crate::inputs::{MAX_DEGREE, MAX_SCALE, Rng, length};
use crate::printed::{plan, settings};

const ROWS: [&str; 5] = [
    "planned",
    "planned, damaged",
    "random",
    "random, damaged",
    "at limits",
];
const REFUSALS: [u8; 4] = [0, 10, 24, 43];

/// For each row how many plans each refusal had.
type Tally = parts::Tally<{ ROWS.len() }>;

#[repr(C)]
struct CChain {
    refusal: u8,
    weight: u64,
}

#[repr(C)]
struct CTrial {
    refusal: u8,
    _remainder: u64,
}

// By include/firrozun.h: the crate in bindings/rust takes no head with an unknown kind.
unsafe extern "C" {
    fn firrozun_heaviest_chain(
        head: Head,
        coefficients: *const i64,
        coefficients_len: usize,
        bounds: *const u16,
        bounds_len: usize,
        steps: *const u16,
        steps_len: usize,
        input: usize,
        coeff: usize,
    ) -> CChain;
    fn firrozun_trial_walk(
        head: Head,
        coefficients: *const i64,
        coefficients_len: usize,
        bounds: *const u16,
        bounds_len: usize,
        steps: *const u16,
        steps_len: usize,
        point: i64,
        modulus: u64,
    ) -> CTrial;
}

/// A plan with its row and the bit scales of input and coefficients.
#[derive(Clone)]
struct Case {
    row: usize,
    plan: Lent,
    scales: (usize, usize),
}

impl Case {
    /// The library's refusal and weight, and the refusal of its trial walk.
    fn ours(&self) -> ((u8, u64), u8) {
        let Lent {
            head,
            c,
            bounds,
            numbers,
        } = &self.plan;
        // SAFETY: pointers and lengths are those of three vectors that live through the call, which only reads them; the head
        // is passed by value, and any head may be.
        let chain = unsafe {
            firrozun_heaviest_chain(
                *head,
                c.as_ptr(),
                c.len(),
                bounds.as_ptr(),
                bounds.len(),
                numbers.as_ptr(),
                numbers.len(),
                self.scales.0,
                self.scales.1,
            )
        };
        // SAFETY: the same.
        let trial = unsafe {
            firrozun_trial_walk(
                *head,
                c.as_ptr(),
                c.len(),
                bounds.as_ptr(),
                bounds.len(),
                numbers.as_ptr(),
                numbers.len(),
                3,
                97,
            )
        };
        ((chain.refusal, chain.weight), trial.refusal)
    }

    /// What src/chain.rs says. The trial walk refuses what the chain of scales 0 refuses.
    fn expected(&self) -> ((u8, u64), u8) {
        (self.plan.chain(self.scales), self.plan.chain((0, 0)).0)
    }

    fn differs(&self) -> bool {
        self.ours() != self.expected()
    }

    /// What gets less when a case is made smaller.
    fn size(&self) -> (usize, usize, Option<u16>, (usize, usize)) {
        let (bounds, steps) = (&self.plan.bounds, &self.plan.numbers);
        (
            steps.len(),
            bounds.len(),
            bounds.last().copied(),
            self.scales,
        )
    }
}

/// One part of the work: first each degree from 1 in every setting, and with the last one the plans at limits; then the random plans.
fn part(k: usize, count: u64, seed: u64) -> Vec<Case> {
    let g = &mut Rng::new(seed ^ (k as u64) << 32);
    let mut cases = vec![];
    if k + 1 == MAX_DEGREE {
        cases.extend(limits().into_iter().map(|plan| case(g, 4, plan)));
    }
    if k < MAX_DEGREE {
        for settings in settings() {
            // A fold of degree 1, and an odd one of degree 2, is refused.
            if let Some(plan) = planned(g, &settings, k + 1) {
                cases.push(case(g, 0, plan.clone()));
                cases.push(damaged(g, 0, plan));
            }
        }
        return cases;
    }
    let all = settings();
    let here = PART.min(count - (k - MAX_DEGREE) as u64 * PART);
    for _ in 0..here {
        let degree = length(g, MAX_DEGREE + 1).saturating_sub(1);
        let settings = &all[g.below(all.len())];
        let (row, plan) = match planned(g, settings, degree) {
            Some(plan) if g.one_in(2) => (0, plan),
            _ => (2, random(g)),
        };
        cases.push(if g.one_in(3) {
            case(g, row, plan)
        } else {
            damaged(g, row, plan)
        });
    }
    cases
}

fn planned(g: &mut Rng, settings: &str, degree: usize) -> Option<Lent> {
    let line = plan(g, settings, degree, 19);
    Lent::of(std::str::from_utf8(&line).expect("a line is ASCII"))
}

fn case(g: &mut Rng, row: usize, mut plan: Lent) -> Case {
    let scales = (scale(g), scale(g));
    plan.head.interval = interval(g);
    Case { row, plan, scales }
}

fn damaged(g: &mut Rng, row: usize, plan: Lent) -> Case {
    let mut case = case(g, row + 1, plan);
    damage(g, &mut case.plan);
    while g.one_in(3) {
        damage(g, &mut case.plan);
    }
    case
}

/// Now and then above the limit.
pub fn scale(g: &mut Rng) -> usize {
    match g.below(40) {
        0 => g.pick(&[
            MAX_SCALE + 1,
            MAX_SCALE + 2,
            1 << 32,
            usize::MAX - 1,
            usize::MAX,
        ]),
        1 => MAX_SCALE + 1 + g.next() as usize % (1 << 40),
        2..8 => g.pick(&[0, 1, MAX_SCALE - 1, MAX_SCALE]),
        8..20 => g.below(MAX_SCALE + 1),
        _ => g.below(100),
    }
}

/// Compares every degree and setting, and `count` random plans. At the first difference it says a small plan that shows one and
/// ends with status 1.
pub fn compare(count: u64, seed: u64) {
    let parts = MAX_DEGREE + count.div_ceil(PART) as usize;
    let agrees = |case: &Case, _: usize, tally: &mut Tally| {
        let expected = case.expected();
        let agrees = case.ours() == expected;
        if agrees {
            let place = REFUSALS.iter().position(|&r| r == expected.0.0);
            tally[case.row][place.expect("a refusal of the chain")] += 1;
        }
        agrees
    };
    match parts::compare(parts, |k| part(k, count, seed), agrees) {
        Ok(total) => summary(&total, seed),
        Err(case) => stop(case, seed),
    }
}

/// The same with a shorter last list or without it, without a step, at lower scales or with zeros for the interval, as long as a
/// difference stays.
fn smallest(mut case: Case) -> Case {
    loop {
        let size = case.size();
        for less in [1, 2, 3] {
            take(&mut case, |c| {
                let last = c.plan.bounds.last_mut();
                last.is_some_and(|end| lower(end, (*end as u32 * less / 4) as u16))
            });
        }
        take(&mut case, |c| {
            c.plan.head.lists = c.plan.head.lists.wrapping_sub(1);
            c.plan.bounds.pop().is_some()
        });
        for i in (0..case.plan.numbers.len() / 4).rev() {
            take(&mut case, |c| {
                c.plan.numbers.drain(4 * i..4 * i + 4);
                c.plan.head.steps = c.plan.head.steps.wrapping_sub(1);
                true
            });
        }
        for scale in [0, 1] {
            take(&mut case, |c| lower(&mut c.scales.0, scale));
            take(&mut case, |c| lower(&mut c.scales.1, scale));
        }
        take(&mut case, |c| {
            let before = std::mem::take(&mut c.plan.head.interval);
            before != Interval::default()
        });
        if case.size() == size {
            return case;
        }
    }
}

/// Whether the number gets lower.
fn lower<N: Copy + PartialOrd>(at: &mut N, n: N) -> bool {
    std::mem::replace(at, n) > n
}

/// Takes an edit that makes the case simpler if the difference stays.
fn take(case: &mut Case, edit: impl FnOnce(&mut Case) -> bool) {
    let mut next = case.clone();
    if edit(&mut next) && next.differs() {
        *case = next;
    }
}

fn stop(case: Case, seed: u64) -> ! {
    let small = smallest(case);
    let Lent {
        head,
        c,
        bounds,
        numbers,
    } = &small.plan;
    println!("a difference, seed {seed}, {}", ROWS[small.row]);
    println!("{head:?}");
    println!("{} coefficients, boundaries {bounds:?}", c.len());
    println!("steps {:?}", numbers.chunks(4).collect::<Vec<_>>());
    println!("scales {:?}", small.scales);
    println!("refusal and weight, refusal of the trial walk");
    println!("src/chain.rs: {:?}", small.expected());
    println!("Firrozun: {:?}", small.ours());
    exit(1)
}

fn summary(total: &Tally, seed: u64) {
    println!("| plans | accepted | refused by 10 | by 24 | by 43 |");
    let chains = parts::table(&ROWS, total);
    println!("seed {seed}: {chains} chains, no difference");
}
