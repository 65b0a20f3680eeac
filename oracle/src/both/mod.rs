//! The published planner and the proved library in one process: the same calls to both, answer against answer.

pub mod budgets;
mod call;
pub mod chains;
pub mod conversions;
mod lent;
mod ours;
mod parts;
mod random;
pub mod rebuilds;
mod rules;
mod set_calls;
pub mod sets;
mod smaller;
mod summands;
pub mod sums;
mod sweeps;
mod theirs;

use std::process::exit;

use crate::inputs::{MAX_DEGREE, Rng};
use call::{Call, NAMES, row_name};
pub use ours::kinds_of;
use parts::PART;
use rules::{Refusal, refusal};
pub use theirs::value;

const ROWS: usize = 2 * NAMES.len();

/// For each row: calls compared in the sweeps and at random; how many of them both sides refused; and, beside these,
/// inputs outside limits that the published code has not, where only our refusal is looked at.
type Tally = parts::Tally<ROWS>;

/// One part of the work: part 0 has the splits and degree 0, then comes each degree, then the random calls.
fn part(k: usize, count: u64, seed: u64) -> Vec<Call> {
    let g = &mut Rng::new(seed ^ (k as u64) << 32);
    let mut calls = vec![];
    if k == 0 {
        sweeps::splits(&mut calls);
    }
    if k <= MAX_DEGREE {
        sweeps::degree(g, k, &mut calls);
    } else {
        let before = (k - MAX_DEGREE - 1) as u64 * PART;
        let here = PART.min(count - before);
        calls.extend((0..here).map(|_| random::call(g)));
    }
    calls
}

/// Any whole number, or a special one, for a walk.
fn point(g: &mut Rng) -> i64 {
    let any = g.next() as i64;
    g.pick(&[any, any, any, i64::MIN, i64::MAX, 0, 1, -1, 2, -3])
}

/// Any modulus, or a special one, for a walk.
fn modulus(g: &mut Rng) -> u64 {
    let any = 2 + g.below(2_147_483_646) as u64;
    g.pick(&[any, any, any, 2_147_483_647, 65_537, 3, 2])
}

pub fn differs(call: &Call) -> bool {
    theirs::answer(call) != ours::answer(call)
}

/// Compares the sweeps and `count` random calls. At the first difference it says the smallest input and ends with status 1.
pub fn compare(count: u64, seed: u64) {
    let parts = MAX_DEGREE + 1 + count.div_ceil(PART) as usize;
    let agrees = |call: &Call, k: usize, tally: &mut Tally| {
        let agrees = !differs(call);
        if agrees {
            count_in(&mut tally[call.row()], call, k > MAX_DEGREE);
        }
        agrees
    };
    match parts::compare(parts, |k| part(k, count, seed), agrees) {
        Ok(total) => summary(&total, seed),
        Err(call) => stop(call, seed),
    }
}

fn count_in(row: &mut [u64; 4], call: &Call, random: bool) {
    match refusal(call) {
        Some(Refusal::Ours(_)) => row[3] += 1,
        Some(Refusal::Both(_)) => {
            row[random as usize] += 1;
            row[2] += 1
        }
        None => row[random as usize] += 1,
    }
}

fn stop(call: Call, seed: u64) -> ! {
    let small = smaller::smallest(call.clone());
    println!("a difference, seed {seed}");
    println!("call: {small}");
    let (theirs, ours) = (theirs::answer(&small), ours::answer(&small));
    println!("the Rust: {theirs}");
    println!("Firrozun: {ours}");
    println!("{}", theirs.place(&ours));
    println!(
        "found with {} coefficients, degree {}",
        call.c.len(),
        call.degree
    );
    exit(1)
}

fn summary(total: &Tally, seed: u64) {
    println!("| call | sweeps | random | refused by both | our limits |");
    println!("|---|---|---|---|---|");
    let mut all = [0; 4];
    for (row, counts) in total.iter().enumerate() {
        if counts.iter().sum::<u64>() > 0 {
            line(&format!("`{}`", row_name(row)), counts);
        }
        (all.iter_mut().zip(counts)).for_each(|(a, n)| *a += n);
    }
    line("all", &all);
    println!("seed {seed}: {} calls, no difference", all[0] + all[1]);
}

fn line(name: &str, counts: &[u64; 4]) {
    let [swept, random, refused, limits] = counts;
    println!("| {name} | {swept} | {random} | {refused} | {limits} |");
}
