//! Adding two curves: the lists of a sum are the sums of the lists, place by place, and all else in the answer is that of either curve. A
//! curve times a whole number is listed likewise. A sum or a multiple whose magnitudes sum above 2^30 is refused with 3.

mod common;

use common::{allows, settings, value, Numbers, BASES, PARITIES, STRATEGIES};
use firrozun::buffers::{
    decompose_bsgs_into, plan_into, plan_sizes, trial_walk, Head, Listed, PlanBuffers,
};
use firrozun::Basis::Chebyshev;
use firrozun::Parity::{Even, Full, Odd};
use firrozun::SplitStrategy::MinMult;
use firrozun::{Basis, Parity, Plan, Refusal, SplitStrategy};
use std::collections::HashMap;
use std::path::Path;

/// The greatest sum of magnitudes that is accepted.
const MOST: i64 = 1 << 30;
/// What curves are multiplied by.
const FACTORS: [i64; 5] = [-1, 0, 2, 3, -7];
/// Intervals of plans, ordinary ones and such with an unusual pair in the head.
const INTERVALS: [(f64, f64); 5] = [
    (-1.0, 1.0),
    (0.5, 2.25),
    (-0.0, 4.0),
    (0.0, f64::MIN_POSITIVE),
    (f64::NEG_INFINITY, f64::INFINITY),
];
const POINTS: [i64; 6] = [0, 1, -1, 3, i64::MAX, i64::MIN];
const MODULI: [u64; 4] = [2, 97, 1_000_003, 2_147_483_647];

/// The calls that leave lists.
#[derive(Clone, Copy, Debug, PartialEq, Eq)]
enum Call {
    List,
    Plan,
    FoldedPlan,
}

/// Strategy, parity and basis.
type Unfolded = (SplitStrategy, Parity, Basis);

/// A call with its settings. The list call doesn't take the interval.
#[derive(Clone, Copy, Debug)]
struct Asked {
    call: Call,
    settings: Unfolded,
    ends: (f64, f64),
}

/// Every call in each of its settings.
fn every_call() -> impl Iterator<Item = Asked> {
    settings().flat_map(|(strategy, parity, basis, fold)| {
        let calls: &[Call] = match (fold, parity) {
            (false, _) => &[Call::List, Call::Plan],
            (true, Full) => &[],
            (true, _) => &[Call::FoldedPlan],
        };
        let settings = (strategy, parity, basis);
        calls.iter().map(move |&call| Asked::new(call, settings))
    })
}

/// The lists of a curve, one after another, and where each of them ends.
#[derive(Clone, Debug, PartialEq)]
struct Cut {
    degree: usize,
    base: usize,
    boundaries: Vec<u16>,
    lists: Vec<i64>,
}

impl Cut {
    fn holding(&self, lists: Vec<i64>) -> Self {
        Self {
            lists,
            boundaries: self.boundaries.clone(),
            ..*self
        }
    }

    /// Both, added place by place. All else must be equal.
    fn plus(&self, other: &Self) -> Self {
        let sum = self.holding(plus(&self.lists, &other.lists));
        assert_eq!(sum, other.holding(sum.lists.clone()));
        sum
    }

    fn times(&self, k: i64) -> Self {
        self.holding(times(k, &self.lists))
    }
}

/// What a call leaves of a curve. The list call leaves neither head nor steps.
#[derive(Clone, Debug, PartialEq)]
struct Answer {
    cut: Cut,
    head: Option<Head>,
    steps: Vec<u16>,
}

impl Answer {
    fn holding(&self, cut: Cut) -> Self {
        Self {
            cut,
            head: self.head,
            steps: self.steps.clone(),
        }
    }

    /// Both, with their lists added place by place. All else must be equal.
    fn plus(&self, other: &Self) -> Self {
        let sum = self.holding(self.cut.plus(&other.cut));
        assert_eq!(sum, other.holding(sum.cut.clone()));
        sum
    }

    fn times(&self, k: i64) -> Self {
        self.holding(self.cut.times(k))
    }
}

fn plus(c: &[i64], d: &[i64]) -> Vec<i64> {
    assert_eq!(c.len(), d.len());
    c.iter().zip(d).map(|(a, b)| a + b).collect()
}

fn times(k: i64, c: &[i64]) -> Vec<i64> {
    c.iter().map(|a| k * a).collect()
}

/// What was written into a buffer of nines. Every place beyond it is as it was.
fn written<T: Clone + PartialEq + From<u8>>(buffer: &[T], count: usize) -> Vec<T> {
    assert!(buffer[count..].iter().all(|place| *place == T::from(9)));
    buffer[..count].to_vec()
}

impl Asked {
    fn new(call: Call, settings: Unfolded) -> Self {
        Self {
            call,
            settings,
            ends: (-1.0, 1.0),
        }
    }

    fn parity(&self) -> Parity {
        self.settings.1
    }

    /// Asks for a curve, with more room than it takes. A refusal leaves the buffers as they were.
    fn ask(&self, curve: &[i64]) -> Result<Answer, Refusal> {
        match self.call {
            Call::List => self.list(curve),
            Call::Plan => self.plan(curve, false),
            Call::FoldedPlan => self.plan(curve, true),
        }
    }

    fn list(&self, curve: &[i64]) -> Result<Answer, Refusal> {
        let (strategy, parity, basis) = self.settings;
        let (mut lists, mut boundaries) = (vec![9; curve.len() + 2], vec![9; curve.len() + 2]);
        let (to, ends) = (&mut lists, &mut boundaries);
        let answer = decompose_bsgs_into(strategy, parity, basis, curve, to, ends);
        let nothing = Listed {
            degree: 0,
            base: 0,
            coefficients: 0,
            lists: 0,
        };
        let listed = answer.unwrap_or(nothing);
        let cut = Cut {
            degree: listed.degree,
            base: listed.base,
            boundaries: written(&boundaries, listed.lists),
            lists: written(&lists, listed.coefficients),
        };
        answer.map(|_| Answer {
            cut,
            head: None,
            steps: Vec::new(),
        })
    }

    fn plan(&self, curve: &[i64], fold: bool) -> Result<Answer, Refusal> {
        let (strategy, parity, basis) = self.settings;
        let degree = curve.len().saturating_sub(1);
        let sizes = plan_sizes(strategy, parity, basis, fold, degree)?;
        let mut lists = vec![9; sizes.coefficients + 2];
        let mut boundaries = vec![9; sizes.lists + 2];
        let mut steps = vec![9; sizes.step_places() + 2];
        let buffers = PlanBuffers {
            coefficients: &mut lists,
            boundaries: &mut boundaries,
            steps: &mut steps,
        };
        let answer = plan_into(strategy, parity, basis, fold, curve, self.ends, buffers);
        let head = answer.ok();
        let count = |places: fn(&Head) -> usize| head.as_ref().map_or(0, places);
        let cut = Cut {
            degree: count(|head| head.degree),
            base: count(|head| head.base),
            boundaries: written(&boundaries, count(|head| head.lists)),
            lists: written(&lists, count(|head| head.coefficients)),
        };
        let steps = written(&steps, count(|head| 4 * head.steps));
        answer.map(|_| Answer { cut, head, steps })
    }

    /// Asks for a sum or a multiple of accepted curves. Magnitudes alone decide about it: `None` is refusal 3, exactly if they sum above
    /// 2^30.
    fn ask_for_made(&self, curve: &[i64]) -> Option<Answer> {
        let magnitudes: u64 = curve.iter().map(|c| c.unsigned_abs()).sum();
        let answer = self.ask(curve);
        let refusal = answer.as_ref().err().map_or(0, |refusal| refusal.number());
        let expected = if magnitudes > MOST as u64 { 3 } else { 0 };
        assert_eq!(refusal, expected, "{self:?} {curve:?}");
        answer.ok()
    }

    /// Whether a degree is high enough for the call.
    fn takes(&self, degree: usize) -> bool {
        let least = match (self.call, self.parity()) {
            (Call::FoldedPlan, Even) => 2,
            (Call::FoldedPlan, Odd) => 3,
            _ => 1,
        };
        degree >= least
    }
}

/// An accepted curve, with what was answered of it, and the lists that the published Rust cut it into, if they are recorded.
#[derive(Clone, Debug)]
struct Curve {
    coeffs: Vec<i64>,
    answer: Answer,
    published: Option<Cut>,
}

impl Curve {
    fn accepted(asked: &Asked, coeffs: Vec<i64>) -> Self {
        let answer = asked.ask(&coeffs).expect("an accepted curve");
        Self {
            coeffs,
            answer,
            published: None,
        }
    }
}

/// How many sums and multiples were accepted and compared, how many of each with published lists, and how many were refused.
#[derive(Debug, Default)]
struct Counts {
    sums: usize,
    published_sums: usize,
    multiples: usize,
    published_multiples: usize,
    refused: usize,
}

impl Counts {
    /// The sum of two curves is answered with the sums of their lists, or it is too large. Answers whether it was accepted.
    fn adds(&mut self, asked: &Asked, c: &Curve, d: &Curve) -> bool {
        let Some(sum) = asked.ask_for_made(&plus(&c.coeffs, &d.coeffs)) else {
            self.refused += 1;
            return false;
        };
        assert_eq!(sum, c.answer.plus(&d.answer), "{asked:?} {c:?} {d:?}");
        if let (Some(of_c), Some(of_d)) = (&c.published, &d.published) {
            assert_eq!(sum.cut, of_c.plus(of_d), "{asked:?} {c:?} {d:?}");
            self.published_sums += 1;
        }
        self.sums += 1;
        true
    }

    /// A multiple of a curve is answered with the multiples of its lists, or it is too large. Answers whether it was accepted.
    fn multiplies(&mut self, asked: &Asked, k: i64, c: &Curve) -> bool {
        let Some(multiple) = asked.ask_for_made(&times(k, &c.coeffs)) else {
            self.refused += 1;
            return false;
        };
        assert_eq!(multiple, c.answer.times(k), "{asked:?} {k} times {c:?}");
        if let Some(published) = &c.published {
            let expected = published.times(k);
            assert_eq!(multiple.cut, expected, "{asked:?} {k} times {c:?}");
            self.published_multiples += 1;
        }
        self.multiples += 1;
        true
    }
}

/// A whole curve in a recording, with the lists that were recorded with it.
struct Recorded {
    settings: Unfolded,
    coeffs: Vec<i64>,
    unfolded: Option<Cut>,
    folded: Option<Cut>,
}

fn letter<T: Copy>(letters: &str, kinds: &[T], field: &str) -> T {
    kinds[letters.find(field).expect("a kind's letter")]
}

fn number(field: &str) -> i64 {
    field.parse().expect("a whole number")
}

/// The lists in an answer, behind degree, base, of a fold its transform, and the number of lists. `None` for a refusal.
fn published(answered: &str, folded: bool) -> Option<Cut> {
    if answered == "refused" {
        return None;
    }
    let mut numbers = answered.split('\t').map(number);
    let mut next = || numbers.next().expect("one more number");
    let (degree, base) = (next() as usize, next() as usize);
    if folded {
        next();
    }
    let (mut boundaries, mut lists) = (Vec::new(), Vec::new());
    for _ in 0..next() {
        for _ in 0..next() {
            lists.push(next());
        }
        boundaries.push(lists.len() as u16);
    }
    assert_eq!(numbers.next(), None, "numbers left over: {answered}");
    Some(Cut {
        degree,
        base,
        boundaries,
        lists,
    })
}

/// The curve of a line, if it is one of a plan call or a list call with whole coefficients.
fn recorded_in(line: &str) -> Option<Recorded> {
    let (called, answered) = line.split_once("\t=\t").expect("an answer");
    let fields: Vec<&str> = called.split('\t').collect();
    let count = match fields[0] {
        "decompose_whole" | "decompose_folded_whole" => 4,
        "plan_value" | "plan_interval" => 7,
        "plan_refused" => 8,
        _ => return None,
    };
    let coeffs: Vec<i64> = fields[count + 1..].iter().map(|c| number(c)).collect();
    assert_eq!(number(fields[count]), coeffs.len() as i64, "{line}");
    let cut = |call, folded| match fields[0] == call {
        true => published(answered, folded),
        false => None,
    };
    Some(Recorded {
        settings: (
            letter("DM", &STRATEGIES, fields[3]),
            letter("FEO", &PARITIES, fields[2]),
            letter("MC", &BASES, fields[1]),
        ),
        coeffs,
        unfolded: cut("decompose_whole", false),
        folded: cut("decompose_folded_whole", true),
    })
}

/// The whole curves of the recordings that the gate replays.
fn recorded() -> Vec<Recorded> {
    let crates = Path::new(env!("CARGO_MANIFEST_DIR")).join("../../crates");
    let read = |program| {
        let path = crates.join(program).join("stdin");
        std::fs::read_to_string(path).expect("a recording")
    };
    let recordings = [read("replay_lists"), read("replay_plans")];
    let lines = recordings.iter().flat_map(|recording| recording.lines());
    lines.filter_map(recorded_in).collect()
}

/// The recorded curves that a call accepts, those of the same settings and length together.
fn alike(call: Call) -> HashMap<(Unfolded, usize), Vec<Curve>> {
    let mut alike: HashMap<_, Vec<Curve>> = HashMap::new();
    for recorded in recorded() {
        let asked = Asked::new(call, recorded.settings);
        let Ok(answer) = asked.ask(&recorded.coeffs) else {
            continue;
        };
        let key = (recorded.settings, recorded.coeffs.len());
        let published = match call {
            Call::FoldedPlan => recorded.folded,
            _ => recorded.unfolded,
        };
        alike.entry(key).or_default().push(Curve {
            coeffs: recorded.coeffs,
            answer,
            published,
        });
    }
    alike
}

/// Adds every two recorded curves of the same settings and length, each to itself too, and multiplies each.
fn of_recorded(call: Call) -> Counts {
    let mut counts = Counts::default();
    for ((settings, _), curves) in alike(call) {
        let asked = Asked::new(call, settings);
        for (i, c) in curves.iter().enumerate() {
            for d in &curves[i..] {
                counts.adds(&asked, c, d);
            }
            for k in FACTORS {
                counts.multiplies(&asked, k, c);
            }
        }
    }
    counts
}

#[test]
fn recorded_curves_by_the_list_call() {
    let counts = of_recorded(Call::List);
    assert!(counts.sums > 11_000 && counts.published_sums > 3500);
    assert!(counts.multiples > 17_000 && counts.published_multiples > 6000);
    assert!(counts.refused > 11_000);
}

#[test]
fn recorded_curves_by_the_plan_call() {
    let counts = of_recorded(Call::Plan);
    assert!(counts.sums > 8700 && counts.published_sums > 2900);
    assert!(counts.multiples > 14_000 && counts.published_multiples > 3000);
    assert!(counts.refused > 9000);
}

#[test]
fn recorded_curves_by_the_folded_plan_call() {
    let counts = of_recorded(Call::FoldedPlan);
    assert!(counts.sums > 3700 && counts.published_sums > 500);
    assert!(counts.multiples > 8000 && counts.published_multiples > 2800);
    assert!(counts.refused > 2900);
}

/// Coefficients where a parity allows them, whose magnitudes sum to `most` at most.
fn random_curve(numbers: &mut Numbers, parity: Parity, degree: usize, most: i64) -> Vec<i64> {
    let each = most / (degree as i64 + 1);
    let places = (0..=degree).map(|j| numbers.within(each) * i64::from(allows(parity, j)));
    places.collect()
}

/// Zeros, but for one place.
fn at_one_place(degree: usize, place: usize, number: i64) -> Vec<i64> {
    let mut coeffs = vec![0; degree + 1];
    coeffs[place] = number;
    coeffs
}

/// Every degree to 200, and some of the largest.
fn degrees() -> impl Iterator<Item = usize> {
    (1..=200).chain([511, 1023, 2047, 4095])
}

/// Curves to be added to one: another one, its negative, and one that is not 0 at a single place.
fn summands(numbers: &mut Numbers, parity: Parity, coeffs: &[i64]) -> [Vec<i64>; 3] {
    let degree = coeffs.len() - 1;
    let most = numbers.one_of(&[MOST, MOST / 2, 9 * coeffs.len() as i64]);
    let places: Vec<usize> = (0..=degree).filter(|&j| allows(parity, j)).collect();
    let (place, unit) = (numbers.one_of(&places), numbers.one_of(&[1, -1]));
    [
        random_curve(numbers, parity, degree, most),
        times(-1, coeffs),
        at_one_place(degree, place, unit),
    ]
}

#[test]
fn random_curves_in_every_setting() {
    let numbers = &mut Numbers(90);
    let mut counts = Counts::default();
    for asked in every_call() {
        for degree in degrees().filter(|&degree| asked.takes(degree)) {
            let ends = numbers.one_of(&INTERVALS);
            let asked = Asked { ends, ..asked };
            // The list call doesn't test the parity.
            let parity = match asked.call {
                Call::List => numbers.one_of(&[asked.parity(), Full]),
                _ => asked.parity(),
            };
            let most = numbers.one_of(&[MOST, MOST / 2, MOST / 7]);
            let coeffs = random_curve(numbers, parity, degree, most);
            let c = Curve::accepted(&asked, coeffs);
            for d in summands(numbers, parity, &c.coeffs) {
                counts.adds(&asked, &c, &Curve::accepted(&asked, d));
            }
            for k in FACTORS.into_iter().chain([numbers.within(9)]) {
                counts.multiplies(&asked, k, &c);
            }
        }
    }
    // Every degree by 32 calls, but for folds of Even at degree 1 and of Odd at degrees 1 and 2: three sums and six multiples each.
    let all = 9 * (32 * 204 - 4 - 8);
    assert_eq!(counts.sums + counts.multiples + counts.refused, all);
    assert!(counts.sums > 19_000 && counts.multiples > 32_000 && counts.refused > 6000);
}

/// The last place that a parity allows.
fn last_place(parity: Parity, degree: usize) -> usize {
    degree - usize::from(!allows(parity, degree))
}

/// A curve whose magnitudes sum to 2^30, with a number above 0 at the last place.
fn curve_at_the_limit(numbers: &mut Numbers, parity: Parity, degree: usize) -> Vec<i64> {
    let mut coeffs = random_curve(numbers, parity, degree, MOST / 2);
    let place = last_place(parity, degree);
    coeffs[place] = 0;
    coeffs[place] = MOST - coeffs.iter().map(|c| c.abs()).sum::<i64>();
    coeffs
}

/// Two magnitudes that sum to 2^30 are accepted, and such as sum to one more refused, be they at one place or at two.
fn adds_to_the_limit(asked: &Asked, (i, j): (usize, usize), degree: usize) {
    let counts = &mut Counts::default();
    for sign in [1, -1] {
        let at = |place, number| Curve::accepted(asked, at_one_place(degree, place, sign * number));
        for part in [1, MOST / 2, MOST / 2 + 5, MOST - 1, MOST] {
            let c = at(i, part);
            assert!(counts.adds(asked, &c, &at(j, MOST - part)));
            assert!(!counts.adds(asked, &c, &at(j, MOST - part + 1)));
        }
        // Numbers of opposite signs at one place.
        for part in [1, MOST / 2, MOST] {
            assert!(counts.adds(asked, &at(i, MOST), &at(i, -part)));
        }
    }
}

#[test]
fn sums_at_the_limit() {
    for asked in every_call() {
        for degree in [1, 2, 3, 5, 7, 12, 31, 64, 200, 4095] {
            if !asked.takes(degree) {
                continue;
            }
            let first = usize::from(!allows(asked.parity(), 0));
            let last = last_place(asked.parity(), degree);
            for places in [(first, first), (first, last), (last, first), (last, last)] {
                adds_to_the_limit(&asked, places, degree);
            }
        }
    }
}

/// The same with numbers at all places.
#[test]
fn spread_sums_at_the_limit() {
    let numbers = &mut Numbers(91);
    let counts = &mut Counts::default();
    for asked in every_call() {
        for degree in (3..=33).chain([64, 200, 4095]) {
            let sum = curve_at_the_limit(numbers, asked.parity(), degree);
            // A part of each number, from an eighth to the whole.
            let part = |a: &i64| a * (1 + numbers.below(8) as i64) / 8;
            let c: Vec<i64> = sum.iter().map(part).collect();
            let mut d = plus(&sum, &times(-1, &c));
            let c = Curve::accepted(&asked, c);
            assert!(counts.adds(&asked, &c, &Curve::accepted(&asked, d.clone())));
            d[last_place(asked.parity(), degree)] += 1;
            assert!(!counts.adds(&asked, &c, &Curve::accepted(&asked, d)));
        }
    }
    assert_eq!((counts.sums, counts.refused), (32 * 34, 32 * 34));
}

/// The greatest multiple that is accepted, and the next one, on both sides of 0.
#[test]
fn multiples_at_the_limit() {
    let counts = &mut Counts::default();
    for asked in every_call() {
        for degree in [3, 5, 7, 12, 31, 64, 4095] {
            for place in (degree - 1..=degree).filter(|&place| allows(asked.parity(), place)) {
                for number in [1, -2, 3, MOST / 3, MOST / 2, -(MOST / 2 + 1), -MOST] {
                    let c = Curve::accepted(&asked, at_one_place(degree, place, number));
                    for k in [MOST / number, -MOST / number] {
                        assert!(counts.multiplies(&asked, k, &c));
                        assert!(!counts.multiplies(&asked, k + k.signum(), &c));
                    }
                }
            }
        }
    }
    assert_eq!(counts.multiples, counts.refused);
}

/// Walks lists with boundaries, steps and head of a plan.
fn walk(plan: &Answer, lists: &[i64], point: i64, modulus: u64) -> Result<u64, Refusal> {
    let head = plan.head.expect("a plan's head");
    let boundaries = &plan.cut.boundaries;
    trial_walk(&head, lists, boundaries, &plan.steps, point, modulus)
}

/// Summed lists, and multiplied ones, walked at a point with all else of the first plan.
fn walks(basis: Basis, c: &Curve, d: &Curve, k: i64, point: i64, modulus: u64) {
    let (plan, lists) = (&c.answer, &c.answer.cut.lists);
    let of = |curve: &Curve| value(basis, &curve.coeffs, point, modulus);
    let sum = (of(c) + of(d)) % modulus;
    let summed = plus(lists, &d.answer.cut.lists);
    let walked = walk(plan, &summed, point, modulus);
    assert_eq!(walked, Ok(sum), "at {point} modulo {modulus}: {c:?} {d:?}");
    let multiple = (k * of(c) as i64).rem_euclid(modulus as i64) as u64;
    let walked = walk(plan, &times(k, lists), point, modulus);
    assert_eq!(
        walked,
        Ok(multiple),
        "at {point} modulo {modulus}: {k} times {c:?}"
    );
}

/// A walk takes any numbers in its lists, so it doesn't matter whether the sum is accepted.
#[test]
fn summed_lists_are_walked_to_the_value_of_the_sum() {
    let numbers = &mut Numbers(92);
    let (mut accepted, mut refused) = (0, 0);
    for asked in every_call().filter(|asked| asked.call != Call::List) {
        let (_, parity, basis) = asked.settings;
        for degree in (1..=70).chain([127, 200, 511, 1023, 4095]) {
            if !asked.takes(degree) {
                continue;
            }
            let c = curve_at_the_limit(numbers, parity, degree);
            let d = curve_at_the_limit(numbers, parity, degree);
            let d = times(numbers.one_of(&[1, -1]), &d);
            let sum = asked.ask_for_made(&plus(&c, &d));
            let (c, d) = (Curve::accepted(&asked, c), Curve::accepted(&asked, d));
            for point in POINTS.into_iter().chain([numbers.next() as i64]) {
                let (k, modulus) = (numbers.within(9), numbers.one_of(&MODULI));
                walks(basis, &c, &d, k, point, modulus);
            }
            accepted += usize::from(sum.is_some());
            refused += usize::from(sum.is_none());
        }
    }
    // 75 degrees in 20 settings, but for the folds that are refused.
    assert_eq!(accepted + refused, 20 * 75 - 4 - 8);
    assert!(accepted > 600 && refused > 600);
}

/// The lists of 1 2 3 4 5 6 are recorded, and 0 0 0 1 0 1 was cut by hand.
#[test]
fn an_example() {
    let plan = |coeffs: &[i64]| Plan::new(Chebyshev, coeffs, Full, MinMult, false).expect("a plan");
    let (c, d) = (plan(&[1, 2, 3, 4, 5, 6]), plan(&[0, 0, 0, 1, 0, 1]));
    let (sum, multiple) = (plan(&[1, 2, 3, 5, 5, 7]), plan(&[-2, -4, -6, -8, -10, -12]));
    assert_eq!(c.coefficients(), [1, 4, 3, -4, 5, 12]);
    assert_eq!(d.coefficients(), [0, 0, 0, 0, 0, 2]);
    assert_eq!(sum.coefficients(), [1, 4, 3, -4, 5, 14]);
    assert_eq!(multiple.coefficients(), [-2, -8, -6, 8, -10, -24]);
    for plan in [&d, &sum, &multiple] {
        assert_eq!(plan.head(), c.head());
        assert_eq!(plan.boundaries(), c.boundaries());
        assert_eq!(plan.step_numbers(), c.step_numbers());
    }
}
