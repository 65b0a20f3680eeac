//! Sums and multiples of curves, planned and listed by the proved library: their lists are the sums and multiples of the lists, place by
//! place, and all else is equal. They are held against the published lists too.

use std::process::exit;

use firrozun::buffers::{Head, Listed, PlanBuffers, decompose_bsgs_into, plan_into, plan_sizes};

use super::call::Name::{self, *};
use super::ours::kinds_of;
use super::parts::{self, PART};
use super::summands::{self, Curve, magnitudes};
use crate::calls::{
    BASES, Basis, PARITIES, Parity, STRATEGIES, SplitStrategy, ask, basis_letter, parity_letter,
    strategy_letter,
};
use crate::inputs::{MAX_DEGREE, MAX_SUM, RISING, Rng, length};
use crate::layouts::polynomial_evaluation::{BSGSPolynomial, Polynomial};

const NAMES: [Name; 3] = [Plan, PlanFolded, Decompose];
/// For each name sums and multiples, at every degree and at random.
const ROWS: [&str; 4 * NAMES.len()] = [
    "plans of sums, every degree",
    "plans of sums, random",
    "plans of multiples, every degree",
    "plans of multiples, random",
    "folded plans of sums, every degree",
    "folded plans of sums, random",
    "folded plans of multiples, every degree",
    "folded plans of multiples, random",
    "lists of sums, every degree",
    "lists of sums, random",
    "lists of multiples, every degree",
    "lists of multiples, random",
];
/// By the sum of the magnitudes of the sum or multiple.
const COLUMNS: [&str; 4] = [
    "accepted below 2^30",
    "accepted at 2^30",
    "refused by 3 at 2^30 + 1",
    "refused by 3 above",
];

/// For each row how many sums and multiples each column had.
type Tally = parts::Tally<{ ROWS.len() }, { COLUMNS.len() }>;

/// What the answer to a plan call has beside its buffers, or the answer to a list call.
#[derive(Clone, Copy, Debug, PartialEq)]
enum Top {
    Plan(Head),
    Lists(Listed),
}

impl Top {
    fn degree_and_base(&self) -> (usize, usize) {
        match self {
            Top::Plan(head) => (head.degree, head.base),
            Top::Lists(listed) => (listed.degree, listed.base),
        }
    }

    /// How many coefficients, boundaries and numbers of steps there are.
    fn filled(&self) -> [usize; 3] {
        match self {
            Top::Plan(head) => [head.coefficients, head.lists, 4 * head.steps],
            Top::Lists(listed) => [listed.coefficients, listed.lists, 0],
        }
    }
}

/// The buffers that are lent to a call. A list call takes no steps.
#[derive(Clone)]
struct Lent {
    lists: Vec<i64>,
    bounds: Vec<u16>,
    steps: Vec<u16>,
}

impl Lent {
    /// An answer in these buffers, with these coefficients and with the boundaries and steps of another one; places beyond stay.
    fn filled(&self, top: Top, lists: &[i64], other: &Lent) -> Answer {
        let [_, bounds, steps] = top.filled();
        let mut left = self.clone();
        left.lists[..lists.len()].copy_from_slice(lists);
        left.bounds[..bounds].copy_from_slice(&other.bounds[..bounds]);
        left.steps[..steps].copy_from_slice(&other.steps[..steps]);
        Answer {
            said: Ok(top),
            left,
        }
    }
}

/// The answer, or its refusal, and what the call left in its buffers.
#[derive(Clone)]
struct Answer {
    said: Result<Top, u8>,
    left: Lent,
}

impl Answer {
    fn text(&self) -> String {
        match &self.said {
            Ok(top) => format!("accepted, {top:?}"),
            Err(refusal) => format!("refused by {refusal}"),
        }
    }

    /// Where this answer is not the one that it must be; none if it is.
    fn difference(&self, must: &Answer) -> Option<String> {
        if self.said != must.said {
            return Some(format!("{}, not {}", self.text(), must.text()));
        }
        let (left, must) = (&self.left, &must.left);
        place("coefficient", &left.lists, &must.lists)
            .or_else(|| place("boundary", &left.bounds, &must.bounds))
            .or_else(|| place("number of the steps", &left.steps, &must.steps))
    }
}

/// The first place at which two lists of numbers differ.
pub fn place<T: PartialEq + ToString>(what: &str, ours: &[T], must: &[T]) -> Option<String> {
    let at = (0..ours.len().max(must.len())).find(|&i| ours.get(i) != must.get(i))?;
    let text = |list: &[T]| list.get(at).map_or("none".to_string(), T::to_string);
    Some(format!(
        "{what} at place {at}: {}, not {}",
        text(ours),
        text(must)
    ))
}

/// What a curve is added to, or multiplied by.
#[derive(Clone)]
enum With {
    Curve(Curve),
    Number(i64),
}

impl With {
    fn makes(&self) -> &'static str {
        match self {
            With::Curve(_) => "the sum",
            With::Number(_) => "the multiple",
        }
    }
}

/// A curve, what it is added to or multiplied by, and the call that is asked.
#[derive(Clone)]
struct Case {
    name: Name,
    basis: Basis,
    parity: Parity,
    strategy: SplitStrategy,
    ends: (f64, f64),
    c: Curve,
    with: With,
    random: bool,
}

/// How many places each buffer has beyond those that a call fills.
const BEYOND: usize = 2;

impl Case {
    /// The sum or the multiple.
    fn made(&self) -> Curve {
        let times = |x: &i64, k: &i64| x.checked_mul(*k).expect("a multiple within i64");
        match &self.with {
            With::Curve(d) => self.c.iter().zip(d).map(|(x, y)| x + y).collect(),
            With::Number(k) => self.c.iter().map(|x| times(x, k)).collect(),
        }
    }

    fn folds(&self) -> bool {
        self.name == PlanFolded
    }

    /// The buffers before a call: no two neighbours are equal.
    fn before(&self) -> Lent {
        let (basis, parity, strategy) = kinds_of(self.basis, self.parity, self.strategy);
        let sizes = plan_sizes(strategy, parity, basis, self.folds(), self.c.len() - 1);
        let sizes = sizes.expect("the sizes of a plan of this degree");
        let numbers = |count| (0..count).map(|i| 0xa5a5 ^ i as u16).collect();
        Lent {
            lists: (0..sizes.coefficients + BEYOND)
                .map(|i| i64::MIN + i as i64)
                .collect(),
            bounds: numbers(sizes.lists + BEYOND),
            steps: numbers(sizes.step_places() + BEYOND),
        }
    }

    /// The library's answer to a curve, in buffers like these.
    fn ours(&self, c: &[i64], before: &Lent) -> Answer {
        let (basis, parity, strategy) = kinds_of(self.basis, self.parity, self.strategy);
        let mut left = before.clone();
        let (lists, bounds) = (&mut left.lists, &mut left.bounds);
        let said = if self.name == Decompose {
            decompose_bsgs_into(strategy, parity, basis, c, lists, bounds).map(Top::Lists)
        } else {
            let buffers = PlanBuffers {
                coefficients: lists,
                boundaries: bounds,
                steps: &mut left.steps,
            };
            plan_into(strategy, parity, basis, self.folds(), c, self.ends, buffers).map(Top::Plan)
        };
        Answer {
            said: said.map_err(|refusal| refusal.number()),
            left,
        }
    }

    /// The published lists of a curve; none if it is refused.
    fn theirs(&self, c: &[i64]) -> Option<BSGSPolynomial<Vec<f64>>> {
        let c = c.iter().map(|&x| x as f64).collect();
        let p = Polynomial::new_with_parity(self.basis, c, self.parity);
        let copy = |list: &[f64]| Ok(list.to_vec());
        ask(|| match self.folds() {
            true => p.decompose_bsgs_folded_with(self.strategy, copy),
            false => p.decompose_bsgs_with(self.strategy, copy),
        })
    }

    /// Tests the answers to the curves and to their sum, or to the curve and its multiple; else it says what is wrong.
    fn judged(&self) -> Result<(), String> {
        let before = self.before();
        let first = self.ours(&self.c, &before);
        let top = first.said.map_err(|r| format!("c: refused by {r}"))?;
        let lists = &first.left.lists[..top.filled()[0]];
        let like_first = |lists: &[i64]| before.filled(top, lists, &first.left);
        right("c", &first, &like_first(lists))?;
        let joined: Option<Vec<i64>> = match &self.with {
            With::Curve(d) => {
                let second = self.ours(d, &before);
                let others = &second.left.lists[..lists.len()];
                right("d", &second, &like_first(others))?;
                let both = lists.iter().zip(others);
                both.map(|(x, y)| x.checked_add(*y)).collect()
            }
            With::Number(k) => lists.iter().map(|x| x.checked_mul(*k)).collect(),
        };
        let (what, made) = (self.with.makes(), self.made());
        let ours = self.ours(&made, &before);
        if magnitudes(&made) > MAX_SUM.into() {
            let said = Err(3);
            return right(what, &ours, &Answer { said, left: before });
        }
        let joined = joined.ok_or("a number that its lists must have is beyond i64")?;
        right(what, &ours, &like_first(&joined))?;
        self.published("c", &self.c, &first)?;
        self.published(what, &made, &ours)
    }

    /// Holds the lists of an accepted curve against the published ones.
    fn published(&self, what: &str, c: &[i64], ours: &Answer) -> Result<(), String> {
        let wrong = match &ours.said {
            Ok(top) => self.unlike_published(c, top, &ours.left),
            Err(refusal) => Some(format!("refused by {refusal}")),
        };
        wrong.map_or(Ok(()), |wrong| Err(format!("{what}: {wrong}")))
    }

    /// Where the library's lists are not the published ones; none if they are.
    fn unlike_published(&self, c: &[i64], top: &Top, left: &Lent) -> Option<String> {
        let Some(cut) = self.theirs(c) else {
            return Some("refused by the Rust".to_string());
        };
        let (ours, theirs) = (top.degree_and_base(), (cut.degree(), cut.base()));
        if ours != theirs {
            return Some(format!("degree and base {ours:?}, the Rust's {theirs:?}"));
        }
        let all = cut.baby_steps().iter().flatten();
        let Some(numbers) = all.map(|&x| whole(x)).collect::<Option<Vec<i64>>>() else {
            return Some("a number in the Rust's lists is not whole".to_string());
        };
        let mut ends: Vec<u16> = vec![];
        for list in cut.baby_steps() {
            ends.push(ends.last().unwrap_or(&0) + list.len() as u16);
        }
        let [coefficients, bounds, _] = top.filled();
        let (lists, bounds) = (&left.lists[..coefficients], &left.bounds[..bounds]);
        place("beside the Rust's lists, coefficient", lists, &numbers)
            .or_else(|| place("beside the Rust's lists, boundary", bounds, &ends))
    }

    fn row(&self) -> usize {
        let name = NAMES.iter().position(|n| *n == self.name);
        let multiple = matches!(self.with, With::Number(_));
        4 * name.expect("a name") + 2 * multiple as usize + self.random as usize
    }

    fn column(&self) -> usize {
        let above = magnitudes(&self.made()) - i128::from(MAX_SUM);
        (1 + above.clamp(-1, 2)) as usize
    }
}

/// Says where an answer is not the one that it must be.
fn right(what: &str, ours: &Answer, must: &Answer) -> Result<(), String> {
    let wrong = ours.difference(must);
    wrong.map_or(Ok(()), |wrong| Err(format!("{what}: {wrong}")))
}

/// A published number; none if it is not whole, or is a negative zero.
fn whole(x: f64) -> Option<i64> {
    let whole = x as i64;
    ((whole as f64).to_bits() == x.to_bits()).then_some(whole)
}

/// One part of the work: first each degree from 1 in every setting, then the random cases.
fn part(k: usize, count: u64, seed: u64) -> Vec<Case> {
    let g = &mut Rng::new(seed ^ (k as u64) << 32);
    if k < MAX_DEGREE {
        return degree(g, k + 1);
    }
    let here = PART.min(count - (k - MAX_DEGREE) as u64 * PART);
    (0..here).map(|_| random(g)).collect()
}

/// A sum and a multiple that are accepted, and ones that are not, in every setting: planned and listed, and planned folded.
fn degree(g: &mut Rng, degree: usize) -> Vec<Case> {
    let mut cases = vec![];
    for (basis, parity, strategy) in settings() {
        for name in [Plan, PlanFolded] {
            if degree + 1 < least(name, parity) {
                continue;
            }
            for case in four(g, parity, degree + 1) {
                let case = Case {
                    name,
                    basis,
                    parity,
                    strategy,
                    ends: ends(g),
                    c: case.0,
                    with: case.1,
                    random: false,
                };
                if name == Plan {
                    cases.push(Case {
                        name: Decompose,
                        ..case.clone()
                    });
                }
                cases.push(case);
            }
        }
    }
    cases
}

fn settings() -> impl Iterator<Item = (Basis, Parity, SplitStrategy)> {
    let kinds = |k: usize| (BASES[k / 6], PARITIES[k / 2 % 3], STRATEGIES[k % 2]);
    (0..12).map(kinds)
}

/// The fewest coefficients that are not refused for their number.
fn least(name: Name, parity: Parity) -> usize {
    match (name, parity) {
        (PlanFolded, Parity::Full) => usize::MAX,
        (PlanFolded, Parity::Even) => 3,
        (PlanFolded, Parity::Odd) => 4,
        _ => 2,
    }
}

fn four(g: &mut Rng, parity: Parity, n: usize) -> [(Curve, With); 4] {
    [
        sum(summands::pair(g, parity, n)),
        sum(summands::exceeding_pair(g, parity, n)),
        multiple(summands::multiple(g, parity, n)),
        multiple(summands::exceeding_multiple(g, parity, n)),
    ]
}

fn sum([c, d]: [Curve; 2]) -> (Curve, With) {
    (c, With::Curve(d))
}

fn multiple((c, k): (Curve, i64)) -> (Curve, With) {
    (c, With::Number(k))
}

fn ends(g: &mut Rng) -> (f64, f64) {
    if g.one_in(4) {
        g.pick(&RISING)
    } else {
        (-1.0, 1.0)
    }
}

fn random(g: &mut Rng) -> Case {
    let name = g.pick(&NAMES);
    let parity = match name {
        PlanFolded => g.pick(&[Parity::Even, Parity::Odd]),
        _ => g.pick(&PARITIES),
    };
    let n = length(g, MAX_DEGREE + 1).max(least(name, parity));
    // Lists never test parity, so each place may hold a number.
    let shape = match name {
        Decompose if g.one_in(2) => Parity::Full,
        _ => parity,
    };
    let (c, with) = match g.below(9) {
        0..3 => sum(summands::pair(g, shape, n)),
        3 => sum(summands::exceeding_pair(g, shape, n)),
        4 => sum(summands::any_pair(g, shape, n)),
        5..8 => multiple(summands::multiple(g, shape, n)),
        _ => multiple(summands::exceeding_multiple(g, shape, n)),
    };
    Case {
        name,
        basis: g.pick(&BASES),
        parity,
        strategy: g.pick(&STRATEGIES),
        ends: ends(g),
        c,
        with,
        random: true,
    }
}

/// Compares sums and multiples at every degree in every setting, and `count` random ones. At the first difference it says a small case
/// that shows one and ends with status 1.
pub fn compare(count: u64, seed: u64) {
    let parts = MAX_DEGREE + count.div_ceil(PART) as usize;
    let agrees = |case: &Case, _: usize, tally: &mut Tally| {
        let agrees = case.judged().is_ok();
        if agrees {
            tally[case.row()][case.column()] += 1;
        }
        agrees
    };
    match parts::compare(parts, |k| part(k, count, seed), agrees) {
        Ok(total) => summary(&total, seed),
        Err(case) => stop(case, seed),
    }
}

/// A shorter case, and then one with zeros in place of numbers, as long as a difference stays.
fn smallest(mut case: Case) -> Case {
    for n in least(case.name, case.parity)..case.c.len() {
        take(&mut case, |curve| curve.truncate(n));
    }
    let mut block = case.c.len().next_power_of_two();
    while block > 0 {
        for from in (0..case.c.len()).step_by(block) {
            let zero = |curve: &mut Curve| {
                let places = curve.iter_mut().skip(from).take(block);
                places.for_each(|x| *x = 0)
            };
            take(&mut case, zero);
        }
        block /= 2;
    }
    case
}

/// Takes an edit of each curve if a difference stays.
fn take(case: &mut Case, edit: impl Fn(&mut Curve)) {
    let mut next = case.clone();
    edit(&mut next.c);
    if let With::Curve(d) = &mut next.with {
        edit(d);
    }
    if next.judged().is_err() {
        *case = next;
    }
}

fn stop(case: Case, seed: u64) -> ! {
    println!("a difference, seed {seed}, {}", ROWS[case.row()]);
    let small = smallest(case);
    let basis = basis_letter(small.basis);
    let parity = parity_letter(small.parity);
    let strategy = strategy_letter(small.strategy);
    println!(
        "basis={basis} parity={parity} strategy={strategy} interval={:?}",
        small.ends
    );
    say("c", &small.c);
    match &small.with {
        With::Curve(d) => say("d", d),
        With::Number(k) => println!("k: {k}"),
    }
    match small.judged() {
        Err(wrong) => println!("{wrong}"),
        Ok(()) => println!("the difference did not come again"),
    }
    exit(1)
}

fn say(what: &str, c: &[i64]) {
    let numbers: Vec<(usize, &i64)> = c.iter().enumerate().filter(|(_, x)| **x != 0).collect();
    let n = c.len();
    println!("{what}: {n} coefficients; by place those that are not 0: {numbers:?}");
}

fn summary(total: &Tally, seed: u64) {
    println!("| sums and multiples | {} |", COLUMNS.join(" | "));
    let cases = parts::table(&ROWS, total);
    if let Some(column) = parts::empty_column(total) {
        println!("seed {seed}: none was {}", COLUMNS[column]);
        exit(1)
    }
    println!("seed {seed}: {cases} sums and multiples, no difference");
}
