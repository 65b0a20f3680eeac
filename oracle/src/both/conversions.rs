//! Coefficients in the other basis, by the proved library and by src/conversions.rs: unit vectors of every length, every length of buffer, the
//! borders of the refusals, and random curves. What is accepted is converted back, evaluated in both bases, planned and walked.

use std::process::exit;
use std::ptr;
use std::sync::atomic::{AtomicU64, Ordering};

use firrozun::Plan;

use super::ours::kinds_of;
use super::parts::{self, PART};
use super::{modulus, point, value as remainder};
use crate::calls::{Basis, Parity, STRATEGIES, SplitStrategy};
use crate::conversions::borders::{self, Known, MOST, WAYS, least_whole, magnitude, one_place};
use crate::conversions::random::{CURVES, DAMAGES, random};
use crate::conversions::recorded::POINTS;
use crate::conversions::{CHEBYSHEV, Call, Converted, fits, other, value};
use crate::inputs::{MAX_SUM, Rng, wrong};

/// The sweeps; then the rows of the random calls.
const FIRST: [&str; 4] = [
    "unit vectors",
    "buffers of every length",
    "borders of the refusals",
    "unknown bases, every number",
];
const ROWS: usize = FIRST.len() + CURVES.len() + DAMAGES.len();
const COLUMNS: [&str; 7] = [
    "accepted",
    "refused by 37",
    "by 3, handed in",
    "by 38",
    "by 3, new",
    "by 21",
    "by 43",
];
/// The lengths of unit vectors: a part of the work each, ahead of the other sweeps.
const LENGTHS: usize = 25;
const SWEEPS: usize = LENGTHS + FIRST.len() - 1;

/// For each row how many calls were accepted, and how many each refusal had.
type Tally = parts::Tally<ROWS, { COLUMNS.len() }>;

#[repr(C)]
struct CConverted {
    refusal: u8,
    count: usize,
}

// By include/firrozun.h: the crate in bindings/rust takes no unknown basis.
unsafe extern "C" {
    fn firrozun_convert_coeffs(
        to: u8,
        c: *const i64,
        c_len: usize,
        out: *mut i64,
        out_len: usize,
    ) -> CConverted;
}

/// The library's call: refusal and number of coefficients. An empty buffer goes by NULL.
fn convert_into(to: u8, c: &[i64], out: &mut [i64]) -> (u8, usize) {
    let empty = (c.is_empty(), out.is_empty());
    let from = if empty.0 { ptr::null() } else { c.as_ptr() };
    let into = if empty.1 {
        ptr::null_mut()
    } else {
        out.as_mut_ptr()
    };
    // SAFETY: pointers and lengths are those of two slices that live through the call, or NULL and 0; it reads one of them and writes to the
    // other, which nothing else refers to. The basis is passed by value, and any number may be.
    let answer = unsafe { firrozun_convert_coeffs(to, from, c.len(), into, out.len()) };
    (answer.refusal, answer.count)
}

/// Refusal, number of coefficients, and what is left in the buffer and in the places behind it.
type Answer = (u8, usize, Vec<i64>);

/// What the first place of a buffer holds before the call; each place behind it holds one less.
const UNTOUCHED: i64 = -0x5a5a_5a5a_5a5a_0000;
/// Places behind the buffers that are not lent.
const BEHIND: usize = 3;

fn before(room: usize) -> Vec<i64> {
    let places = 0..(room + BEHIND) as i64;
    places.map(|i| UNTOUCHED - i).collect()
}

/// The library's answer. Behind the coefficients handed in stand numbers that it must not read.
fn ours(call: &Call) -> Answer {
    let lent = [&call.c[..], &[i64::MIN; BEHIND]].concat();
    let mut out = before(call.room);
    let (c, places) = (&lent[..call.c.len()], &mut out[..call.room]);
    let (refusal, count) = convert_into(call.to, c, places);
    (refusal, count, out)
}

/// The answer as a buffer has it: a refusal leaves it as it was, and so do coefficients the places behind them.
fn lent(converted: &Converted, room: usize) -> Answer {
    let mut out = before(room);
    match converted {
        Ok(c) => {
            out[..c.len()].copy_from_slice(c);
            (0, c.len(), out)
        }
        Err(refusal) => (*refusal, 0, out),
    }
}

/// Says both answers to a call, if the library's is not the one that it must be.
fn right(call: &Call, must: &Converted) -> Result<(), String> {
    let (ours, must) = (ours(call), lent(must, call.room));
    if ours == must {
        return Ok(());
    }
    let (must, ours) = (text(&must), text(&ours));
    Err(format!("src/conversions.rs: {must}\nFirrozun: {ours}"))
}

/// An answer; of the buffer the coefficients, and behind them the places that have changed.
fn text((refusal, count, out): &Answer) -> String {
    let (c, behind) = out.split_at((*count).min(out.len()));
    let untouched = before(out.len());
    let places = (c.len()..).zip(behind);
    let changed: Vec<_> = places.filter(|&(i, x)| *x != untouched[i]).collect();
    format!("refusal {refusal}, {count} coefficients {c:?}, changed behind them {changed:?}")
}

/// A call with its row, a seed for points and moduli, and the refusal that it must have, where it is known.
#[derive(Clone)]
struct Case {
    row: usize,
    call: Call,
    points: u64,
    known: Option<u8>,
}

impl Case {
    fn new(g: &mut Rng, row: usize, call: Call, known: Option<u8>) -> Self {
        let points = g.next();
        Case {
            row,
            call,
            points,
            known,
        }
    }

    /// The column, and how many walks there were; or what is wrong.
    fn judged(&self) -> Result<(usize, u64), String> {
        let must = self.call.answer();
        let refusal = must.as_ref().err().copied().unwrap_or(0);
        if self.known.is_some_and(|known| known != refusal) {
            return Err(format!("src/conversions.rs: refusal {refusal}"));
        }
        right(&self.call, &must)?;
        let Ok(new) = must else {
            return Ok((self.column(refusal), 0));
        };
        self.comes_back(&new)?;
        self.has_values(&new)?;
        Ok((self.column(0), self.walks(&new)?))
    }

    fn column(&self, refusal: u8) -> usize {
        let c: Vec<i128> = self.call.c.iter().map(|&x| x.into()).collect();
        match refusal {
            0 => 0,
            37 => 1,
            3 if !fits(&c) => 2,
            38 => 3,
            3 => 4,
            21 => 5,
            _ => 6,
        }
    }

    /// There and back gives the first coefficients.
    fn comes_back(&self, new: &[i64]) -> Result<(), String> {
        let back = Call::new(1 - self.call.to, new.to_vec());
        let first = Ok(self.call.c.clone());
        if back.answer() != first {
            return Err(format!("src/conversions.rs: {new:?} and not back"));
        }
        right(&back, &first).map_err(|wrong| format!("the way back, from {new:?}\n{wrong}"))
    }

    /// The basis that is asked for and the one of the coefficients handed in.
    fn bases(&self) -> (Basis, Basis) {
        let to = self.call.basis().expect("a known basis");
        (to, other(to))
    }

    /// The values in both bases: small ones whole, and large ones by their remainders.
    fn has_values(&self, new: &[i64]) -> Result<(), String> {
        let (to, from) = self.bases();
        let differs = |&x: &i64| value(to, new, x) != value(from, &self.call.c, x);
        if let Some(x) = POINTS.into_iter().find(differs) {
            return Err(format!("{new:?}: another value at {x}"));
        }
        let (first, new) = (floats(&self.call.c), floats(new));
        let g = &mut Rng::new(self.points);
        for m in PRIMES {
            let x = point(g);
            if remainder(to, &new, x, m) != remainder(from, &first, x, m) {
                return Err(format!("{new:?}: another value at {x} modulo {m}"));
            }
        }
        Ok(())
    }

    /// Walks the plans of the new curve to the first one's value; answers how many walks there were. Degree 0 has no plan.
    fn walks(&self, new: &[i64]) -> Result<u64, String> {
        let g = &mut Rng::new(!self.points);
        let mut walks = 0;
        for (parity, fold) in shapes(new) {
            for strategy in STRATEGIES {
                walks += self.walked(g, new, parity, strategy, fold)?;
            }
        }
        Ok(walks)
    }

    fn walked(
        &self,
        g: &mut Rng,
        new: &[i64],
        parity: Parity,
        strategy: SplitStrategy,
        fold: bool,
    ) -> Result<u64, String> {
        let (to, from) = self.bases();
        let first = floats(&self.call.c);
        let wrong = |what: String| {
            let settings = format!("{to:?} {parity:?} {strategy:?}, fold {fold}");
            Err(format!("the plan of {new:?}, {settings}: {what}"))
        };
        let (basis, parity, strategy) = kinds_of(to, parity, strategy);
        let plan = Plan::on_interval(basis, new, parity, strategy, fold, (-1.0, 1.0));
        let plan = match plan {
            Ok(plan) if new.len() > 1 => plan,
            Err(refusal) if new.len() < 2 && refusal.number() == 1 => return Ok(0),
            Ok(_) => return wrong("accepted".to_string()),
            Err(refusal) => return wrong(format!("refused by {}", refusal.number())),
        };
        for _ in 0..2 {
            let (x, m) = (point(g), modulus(g));
            let must = remainder(from, &first, x, m);
            match plan.walk(x, m) {
                Ok(ours) if ours == must => {}
                ours => return wrong(format!("at {x} modulo {m} {ours:?}, not {must}")),
            }
        }
        Ok(2)
    }
}

const PRIMES: [u64; 5] = [2_147_483_647, 2_147_483_629, 1_000_000_007, 65_537, 101];

/// The parities in which a curve can be planned, and whether it is folded.
fn shapes(c: &[i64]) -> Vec<(Parity, bool)> {
    let mut all = vec![(Parity::Full, false)];
    for (parity, least) in [(Parity::Even, 3), (Parity::Odd, 4)] {
        let zero = |(i, &x): (usize, &i64)| x == 0 || !wrong(parity, i);
        if c.iter().enumerate().all(zero) {
            all.push((parity, false));
            if c.len() >= least {
                all.push((parity, true));
            }
        }
    }
    all
}

fn floats(c: &[i64]) -> Vec<f64> {
    c.iter().map(|&x| x as f64).collect()
}

/// One part of the work: unit vectors of each length, then the other sweeps, then the random calls.
fn part(k: usize, count: u64, seed: u64) -> Vec<Case> {
    let g = &mut Rng::new(seed ^ (k as u64) << 32);
    if k >= SWEEPS {
        let here = PART.min(count - (k - SWEEPS) as u64 * PART);
        return (0..here).map(|_| any(g)).collect();
    }
    let row = k.saturating_sub(LENGTHS - 1);
    let known = match row {
        0 => units(k),
        1 => buffers(g),
        2 => borders::all(),
        _ => unknown(),
    };
    let cases = known.into_iter();
    let case = |(call, refusal)| Case::new(g, row, call, Some(refusal));
    cases.map(case).collect()
}

fn any(g: &mut Rng) -> Case {
    let (row, call) = random(g);
    Case::new(g, FIRST.len() + row, call, None)
}

/// The numbers of unit vectors, of both signs.
fn numbers() -> Vec<i64> {
    let powers = (0..=20).map(|k| 1 << k);
    let others = [0, 3, 5, 1 << 29, MAX_SUM - 1, MAX_SUM, MAX_SUM + 1, 1 << 31];
    let sizes = powers.chain(others).chain([1 << 32, i64::MAX]);
    let signed = sizes.flat_map(|x| [x, -x]);
    signed.chain([i64::MIN]).collect()
}

/// Each number at each place of so many, both ways.
fn units(n: usize) -> Vec<Known> {
    let mut all = vec![];
    for to in WAYS {
        if n == 0 {
            all.push((Call::new(to, vec![]), 0));
        }
        for at in 0..n {
            let call = |x| Call::new(to, one_place(n, at, x));
            let refusal = |x| refusal_of_unit(to, n, at, x);
            all.extend(numbers().into_iter().map(|x| (call(x), refusal(x))));
        }
    }
    all
}

/// What a number at one place of so many is refused with.
fn refusal_of_unit(to: u8, n: usize, at: usize, x: i64) -> u8 {
    let most = MAX_SUM as u64;
    if n > MOST {
        37
    } else if x.unsigned_abs() > most {
        3
    } else if to == CHEBYSHEV {
        if x % least_whole(to, at) == 0 { 0 } else { 38 }
    } else if x.unsigned_abs() * magnitude(at) as u64 > most {
        3
    } else {
        0
    }
}

/// Curves of each length that are accepted, with buffers of every length up to a few places beyond.
fn buffers(g: &mut Rng) -> Vec<Known> {
    let mut all = vec![];
    for (to, n) in WAYS
        .into_iter()
        .flat_map(|to| (0..=MOST).map(move |n| (to, n)))
    {
        for room in (0..=n + 3).chain([64, 4_096]) {
            let digit = |g: &mut Rng| g.below(19) as i64 - 9;
            let c = (0..n).map(|at| digit(g) * least_whole(to, at)).collect();
            let refusal = if room < n { 21 } else { 0 };
            all.push((Call { to, c, room }, refusal));
        }
    }
    all
}

/// Every number that is no basis, with an accepted curve and ahead of each refusal.
fn unknown() -> Vec<Known> {
    let curves = [
        vec![],
        vec![1, 2, 4, 8],
        vec![0; MOST + 1],
        one_place(MOST, 3, i64::MIN),
        one_place(3, 2, 1),
        one_place(MOST, MOST - 1, MAX_SUM),
    ];
    let mut all = vec![];
    for to in WAYS.len() as u8..=u8::MAX {
        for c in curves.clone() {
            let short = c.len().saturating_sub(1);
            for room in [c.len(), short] {
                let c = c.clone();
                all.push((Call { to, c, room }, 43));
            }
        }
    }
    all
}

/// Compares the sweeps and `count` random calls. At the first difference it says a small call that shows one and ends with status 1.
pub fn compare(count: u64, seed: u64) {
    let parts = SWEEPS + count.div_ceil(PART) as usize;
    let walked = AtomicU64::new(0);
    let agrees = |case: &Case, _: usize, tally: &mut Tally| {
        let Ok((column, walks)) = case.judged() else {
            return false;
        };
        tally[case.row][column] += 1;
        walked.fetch_add(walks, Ordering::Relaxed);
        true
    };
    match parts::compare(parts, |k| part(k, count, seed), agrees) {
        Ok(total) => summary(&total, walked.into_inner(), seed),
        Err(case) => stop(case, seed),
    }
}

fn row_name(row: usize) -> &'static str {
    let names = CURVES.iter().map(|c| c.0).chain(DAMAGES.map(|d| d.0));
    let names = FIRST.into_iter().chain(names);
    names.into_iter().nth(row).expect("a row")
}

/// The same with fewer coefficients, zeros or smaller numbers in their places, and a buffer that is exactly long enough, as long as a difference
/// stays.
fn smallest(mut case: Case) -> Case {
    for n in 0..case.call.c.len() {
        take(&mut case, |call| shorten(call, n));
    }
    take(&mut case, |call| call.room = call.c.len());
    for at in 0..case.call.c.len() {
        take(&mut case, |call| call.c[at] = 0);
        while case.call.c[at] != 0 && take(&mut case, |call| call.c[at] /= 2) {}
    }
    case
}

/// Leaves the first coefficients only; the buffer has as many places beyond them, or too few for them, as it had.
fn shorten(call: &mut Call, n: usize) {
    let fewer = call.c.len().saturating_sub(n);
    call.c.truncate(n);
    call.room = call.room.saturating_sub(fewer);
}

/// Takes an edit if a difference stays, and says whether it does. The known refusal is none of the edited call's.
fn take(case: &mut Case, edit: impl FnOnce(&mut Call)) -> bool {
    let mut next = Case {
        known: None,
        ..case.clone()
    };
    edit(&mut next.call);
    let differs = next.judged().is_err();
    if differs {
        *case = next;
    }
    differs
}

fn stop(case: Case, seed: u64) -> ! {
    println!("a difference, seed {seed}, {}", row_name(case.row));
    let small = smallest(case);
    let Call { to, c, room } = &small.call;
    println!("to basis {to}, coefficients {c:?}, {room} places");
    match small.judged() {
        Err(wrong) => println!("{wrong}"),
        Ok(_) => println!("the difference did not come again"),
    }
    exit(1)
}

fn summary(total: &Tally, walks: u64, seed: u64) {
    println!("| conversions | {} |", COLUMNS.join(" | "));
    let names: [&str; ROWS] = std::array::from_fn(row_name);
    let calls = parts::table(&names, total);
    if let Some(column) = parts::empty_column(total) {
        println!("seed {seed}: no call was {}", COLUMNS[column]);
        exit(1)
    }
    println!("{walks} walks of plans of converted curves");
    println!("seed {seed}: {calls} conversions, no difference");
}
