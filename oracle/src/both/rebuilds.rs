//! Coefficients rebuilt from lists, by the proved library and by src/rebuild.rs: from the lists of every degree in every setting, from
//! the same ones damaged, and from random ones.

use std::process::exit;

use super::parts::{self, PART};
use crate::inputs::{MAX_DEGREE, Rng, digits, length, whole};
use crate::rebuild::{Call, Kinds, Rebuilt, all_kinds, settings};
use crate::rebuilds::random::{DAMAGES, NUMBERS, random};

/// There and back, sound and damaged; then the random calls' rows.
const ROWS: usize = 2 + NUMBERS.len() + DAMAGES.len();
/// 0 is an accepted call.
const REFUSALS: [u8; 7] = [0, 1, 2, 21, 33, 34, 43];

/// For each row how many calls each refusal had.
type Tally = parts::Tally<ROWS, { REFUSALS.len() }>;

#[repr(C)]
struct CRebuilt {
    refusal: u8,
    coefficients: usize,
}

// By include/firrozun.h: the crate in bindings/rust takes no unknown kind.
unsafe extern "C" {
    fn firrozun_rebuild(
        strategy: u8,
        parity: u8,
        basis: u8,
        degree: usize,
        base: usize,
        lists: *const i64,
        lists_len: usize,
        bounds: *const u16,
        bounds_len: usize,
        out: *mut i64,
        out_len: usize,
    ) -> CRebuilt;
}

/// The library's call, which writes to `out` whatever room the call has: refusal and number of coefficients.
pub fn rebuild_into(call: &Call, out: &mut [i64]) -> (u8, usize) {
    let [strategy, parity, basis] = call.kinds;
    // SAFETY: pointers and lengths are those of three slices that live through the call; it reads two of them and writes to the
    // third, which nothing else refers to. Numbers are passed by value, and any number may be.
    let answer = unsafe {
        firrozun_rebuild(
            strategy,
            parity,
            basis,
            call.degree,
            call.base,
            call.lists.as_ptr(),
            call.lists.len(),
            call.bounds.as_ptr(),
            call.bounds.len(),
            out.as_mut_ptr(),
            out.len(),
        )
    };
    (answer.refusal, answer.coefficients)
}

/// Refusal, number of coefficients and the whole buffer.
type Answer = (u8, usize, Vec<i64>);

/// A call with its row and, where they are known, the coefficients that it must rebuild.
#[derive(Clone)]
struct Case {
    row: usize,
    call: Call,
    known: Option<Vec<i64>>,
}

/// What the first place of a buffer holds before the call; each place behind it holds one less.
const UNTOUCHED: i64 = -0x5a5a_5a5a_5a5a_0000;

/// A buffer of so many places before the call.
fn before(room: usize) -> Vec<i64> {
    (0..room).map(|i| UNTOUCHED - i as i64).collect()
}

/// The answer in a buffer: a refusal leaves it as it was, and so do coefficients the places behind them.
fn lent(rebuilt: Rebuilt, room: usize) -> Answer {
    let mut out = before(room);
    match rebuilt {
        Ok(c) => {
            out[..c.len()].copy_from_slice(&c);
            (0, c.len(), out)
        }
        Err(refusal) => (refusal, 0, out),
    }
}

impl Case {
    /// The library's answer.
    fn ours(&self) -> Answer {
        let mut out = before(self.call.room);
        let (refusal, count) = rebuild_into(&self.call, &mut out);
        (refusal, count, out)
    }

    /// What src/rebuild.rs says.
    fn expected(&self) -> Answer {
        lent(self.call.answer(), self.call.room)
    }

    /// Whether the library's answer is this one, and that of the known coefficients too.
    fn agrees(&self, expected: &Answer) -> bool {
        let known = |c: &Vec<i64>| lent(Ok(c.clone()), self.call.room) == *expected;
        self.ours() == *expected && self.known.as_ref().is_none_or(known)
    }

    fn differs(&self) -> bool {
        !self.agrees(&self.expected())
    }
}

/// One part of the work: first each degree from 1 in every setting, then the random calls.
fn part(k: usize, count: u64, seed: u64) -> Vec<Case> {
    let g = &mut Rng::new(seed ^ (k as u64) << 32);
    if k < MAX_DEGREE {
        let both = all_kinds().flat_map(|kinds| there_and_back(g, kinds, k + 1));
        return both.collect();
    }
    let here = PART.min(count - (k - MAX_DEGREE) as u64 * PART);
    (0..here).map(|_| any(g)).collect()
}

/// The published lists of a polynomial, and the same once damaged.
fn there_and_back(g: &mut Rng, kinds: Kinds, degree: usize) -> [Case; 2] {
    let (_, parity, _) = settings(kinds).expect("known kinds");
    // Lists never test parity, so each place may hold a number.
    let c = match g.one_in(2) {
        true => digits(g, degree + 1),
        false => whole(g, parity, degree + 1),
    };
    let call = Call::of(kinds, &c);
    let mut damaged = call.clone();
    let (_, damage) = g.pick(&DAMAGES);
    damage(g, &mut damaged);
    [
        Case {
            row: 0,
            call,
            known: Some(c.iter().map(|&x| x as i64).collect()),
        },
        Case {
            row: 1,
            call: damaged,
            known: None,
        },
    ]
}

fn any(g: &mut Rng) -> Case {
    let degree = length(g, MAX_DEGREE + 1).max(2) - 1;
    let (row, call) = random(g, degree);
    Case {
        row: 2 + row,
        call,
        known: None,
    }
}

/// Compares every degree and setting, there and back and damaged, and `count` random calls. At the first difference it says a
/// small call that shows one and ends with status 1.
pub fn compare(count: u64, seed: u64) {
    let parts = MAX_DEGREE + count.div_ceil(PART) as usize;
    let agrees = |case: &Case, _: usize, tally: &mut Tally| {
        let expected = case.expected();
        let agrees = case.agrees(&expected);
        if agrees {
            let place = REFUSALS.iter().position(|&r| r == expected.0);
            tally[case.row][place.expect("a refusal of the call")] += 1;
        }
        agrees
    };
    match parts::compare(parts, |k| part(k, count, seed), agrees) {
        Ok(total) => summary(&total, seed),
        Err(case) => stop(case, seed),
    }
}

fn row_name(row: usize) -> &'static str {
    let names = NUMBERS.iter().map(|n| n.0).chain(DAMAGES.map(|d| d.0));
    let there = ["there and back", "there and back, damaged"].into_iter();
    there.chain(names).nth(row).expect("a row")
}

/// The same with zeros in place of numbers and without what stands beyond, as long as a difference stays.
fn smallest(mut case: Case) -> Case {
    let places = case.call.degree.saturating_add(1);
    take(&mut case, |call| call.lists.truncate(places));
    take(&mut case, |call| call.room = call.room.min(places));
    for ends in 0..case.call.bounds.len() {
        take(&mut case, |call| call.bounds.truncate(ends));
    }
    let mut block = case.call.lists.len().next_power_of_two();
    while block > 0 {
        for from in (0..case.call.lists.len()).step_by(block) {
            take(&mut case, |call| {
                call.lists
                    .iter_mut()
                    .skip(from)
                    .take(block)
                    .for_each(|x| *x = 0)
            });
        }
        block /= 2;
    }
    case
}

/// Takes an edit if a difference stays. The known coefficients are none of the edited call's.
fn take(case: &mut Case, edit: impl FnOnce(&mut Call)) {
    let mut next = Case {
        known: None,
        ..case.clone()
    };
    edit(&mut next.call);
    if next.differs() {
        *case = next;
    }
}

fn stop(case: Case, seed: u64) -> ! {
    println!("a difference, seed {seed}, {}", row_name(case.row));
    let small = smallest(case);
    let (call, places) = (&small.call, small.call.lists.len());
    println!("strategy, parity and basis {:?}", call.kinds);
    println!("degree {}, base {}", call.degree, call.base);
    let numbers = by_place(&call.lists, |_| 0);
    println!("{places} numbers; by place those that are not 0: {numbers:?}");
    println!("boundaries {:?}, room {}", call.bounds, call.room);
    say("src/rebuild.rs", &small.expected());
    say("Firrozun", &small.ours());
    if let Some(known) = &small.known {
        let known = lent(Ok(known.clone()), call.room);
        say("the listed coefficients", &known);
    }
    exit(1)
}

/// The numbers that are not the usual ones of their places, with these.
fn by_place(list: &[i64], usual: impl Fn(usize) -> i64) -> Vec<(usize, i64)> {
    let all = list.iter().copied().enumerate();
    all.filter(|&(i, x)| x != usual(i)).collect()
}

/// Prints an answer; of the buffer those coefficients that are not 0, and behind them the places that have changed.
fn say(who: &str, (refusal, count, out): &Answer) {
    let before = before(out.len());
    let usual = |i: usize| if i < *count { 0 } else { before[i] };
    let changed = by_place(out, usual);
    println!("{who}: refusal {refusal}, {count} coefficients, in the buffer by place {changed:?}");
}

fn summary(total: &Tally, seed: u64) {
    println!("| rebuilt | accepted | refused by 1 | by 2 | by 21 | by 33 | by 34 | by 43 |");
    let names: [&str; ROWS] = std::array::from_fn(row_name);
    let calls = parts::table(&names, total);
    if let Some(column) = parts::empty_column(total) {
        println!("seed {seed}: no call had refusal {}", REFUSALS[column]);
        exit(1)
    }
    println!("seed {seed}: {calls} calls, no difference");
}
