//! Back from lists to the curve: round trips, and lists that are nobody's held against a plain rebuild in 128 bits.

mod common;

use common::{allows, settings, Numbers, STRATEGIES};
use firrozun::buffers::{decompose_bsgs_into, rebuild_into, Lists};
use firrozun::Basis::{Chebyshev, Monomial};
use firrozun::Parity::{Even, Full, Odd};
use firrozun::SplitStrategy::{MinDepth, MinMult};
use firrozun::{Basis, Parity, Plan, Polynomial, Refusal, SplitStrategy};

/// Strategy, parity and basis.
type Unfolded = (SplitStrategy, Parity, Basis);

fn unfolded() -> impl Iterator<Item = Unfolded> {
    settings()
        .filter(|(_, _, _, fold)| !fold)
        .map(|(strategy, parity, basis, _)| (strategy, parity, basis))
}

/// Every degree to 200, and some of the largest.
fn degrees() -> impl Iterator<Item = usize> {
    (1..=200).chain([511, 1023, 2047, 4095])
}

/// Coefficients of a parity whose magnitudes sum to 2^30 at most.
fn curve(numbers: &mut Numbers, parity: Parity, degree: usize) -> Vec<i64> {
    let most = (1 << 30) / (degree as i64 + 1);
    let places = (0..=degree).map(|j| numbers.within(most) * i64::from(allows(parity, j)));
    places.collect()
}

/// Lists with memory of their own.
#[derive(Clone, Debug, PartialEq)]
struct Stored {
    settings: Unfolded,
    degree: usize,
    base: usize,
    coefficients: Vec<i64>,
    boundaries: Vec<u16>,
}

impl Stored {
    /// What the list call leaves of a curve.
    fn of(settings: Unfolded, curve: &[i64]) -> Self {
        let (strategy, parity, basis) = settings;
        let (mut coefficients, mut boundaries) = (vec![0; curve.len()], vec![0; curve.len()]);
        let (to, ends) = (&mut coefficients, &mut boundaries);
        let listed = decompose_bsgs_into(strategy, parity, basis, curve, to, ends).expect("lists");
        boundaries.truncate(listed.lists);
        Self {
            settings,
            degree: listed.degree,
            base: listed.base,
            coefficients,
            boundaries,
        }
    }

    /// What a plan has. Of a folded plan these are the settings of the fold.
    fn of_plan(plan: &Plan) -> Self {
        let head = plan.head();
        Self {
            settings: (head.strategy, head.parity, head.basis),
            degree: head.degree,
            base: head.base,
            coefficients: plan.coefficients().to_vec(),
            boundaries: plan.boundaries().to_vec(),
        }
    }

    /// The lists of the zero curve, with other numbers in them.
    fn holding(settings: Unfolded, coefficients: &[i64]) -> Self {
        let zeros = vec![0; coefficients.len()];
        Self {
            coefficients: coefficients.to_vec(),
            ..Self::of(settings, &zeros)
        }
    }

    /// What the call leaves in so many places. A refusal leaves every place as it was, and an answer those beyond the coefficients.
    fn rebuilt_in(&self, places: usize) -> Result<Vec<i64>, Refusal> {
        let (strategy, parity, basis) = self.settings;
        let lists = Lists {
            degree: self.degree,
            base: self.base,
            coefficients: &self.coefficients,
            boundaries: &self.boundaries,
        };
        let mut out = vec![9; places];
        let answer = rebuild_into(strategy, parity, basis, lists, &mut out);
        let count = answer.unwrap_or(0);
        assert!(out[count..].iter().all(|&place| place == 9));
        answer.map(|count| {
            assert_eq!(count, self.degree + 1);
            out[..count].to_vec()
        })
    }

    /// The same with more room than it takes.
    fn rebuilt(&self) -> Result<Vec<i64>, Refusal> {
        self.rebuilt_in(self.degree + 3)
    }

    /// The number of the refusal in so many places, and 0 for an answer.
    fn number_in(&self, places: usize) -> u8 {
        self.rebuilt_in(places).err().map_or(0, Refusal::number)
    }
}

/// The plain rebuild: a part with a boundary inside was cut at the greatest power of two below its length, and each half of the cut is
/// rebuilt first. `None` is refusal 34.
fn plain(basis: Basis, lists: &[i64], boundaries: &[u16]) -> Option<Vec<i64>> {
    let mut c: Vec<i128> = lists.iter().map(|&number| number.into()).collect();
    undo(basis, &mut c, 0, boundaries)?;
    c.into_iter().map(|number| number.try_into().ok()).collect()
}

fn undo(basis: Basis, c: &mut [i128], from: usize, boundaries: &[u16]) -> Option<()> {
    let inside = |end: &u16| (from + 1..from + c.len()).contains(&usize::from(*end));
    if !boundaries.iter().any(inside) {
        return Some(());
    }
    let p = 1 << (c.len() - 1).ilog2();
    undo(basis, &mut c[..p], from, boundaries)?;
    undo(basis, &mut c[p..], from + p, boundaries)?;
    if basis == Chebyshev {
        for j in 1..c.len() - p {
            let half = c[p + j] / 2;
            let sum = c[p - j] + half;
            if 2 * half != c[p + j] || i64::try_from(sum).is_err() {
                return None;
            }
            (c[p - j], c[p + j]) = (sum, half);
        }
    }
    Some(())
}

/// The call says of lists what the plain rebuild says. Answers the refusal's number, or 0.
fn agrees(stored: &Stored) -> u8 {
    let (_, _, basis) = stored.settings;
    let expected = plain(basis, &stored.coefficients, &stored.boundaries);
    let rebuilt = stored.rebuilt();
    assert_eq!(rebuilt, expected.ok_or(Refusal::NoPolynomial), "{stored:?}");
    rebuilt.err().map_or(0, Refusal::number)
}

/// Lists back to the curve, and the curve to the plan again.
fn goes_round(settings: Unfolded, coeffs: &[i64]) {
    let (strategy, parity, basis) = settings;
    let p = Polynomial::new_with_parity(basis, coeffs.to_vec(), parity).with_interval(-3, 5);
    let plan = p.plan(strategy).expect("a plan");
    let back = plan.polynomial().expect("a polynomial");
    assert_eq!(back, p, "{strategy:?}");
    assert_eq!(back.plan(strategy), Ok(plan.clone()));
    assert_eq!(plan.folded_polynomial(), None);
    let listed = Stored::of(settings, coeffs);
    assert_eq!(listed, Stored::of_plan(&plan));
    assert_eq!(listed.rebuilt().as_deref(), Ok(coeffs));
    assert_eq!(agrees(&listed), 0);
}

#[test]
fn round_trips_in_every_setting() {
    let numbers = &mut Numbers(80);
    let mut trips = 0;
    for settings in unfolded() {
        for degree in degrees() {
            goes_round(settings, &curve(numbers, settings.1, degree));
            trips += 1;
        }
    }
    assert_eq!(trips, 12 * 204);
}

/// The greatest magnitude that a plan takes, at each place that the parity allows.
#[test]
fn round_trips_at_the_limit() {
    for settings in unfolded() {
        for degree in [1, 2, 5, 7, 12, 31, 64, 4095] {
            let last = (degree - 1..=degree).chain(0..degree.min(65));
            for place in last.filter(|&place| allows(settings.1, place)) {
                for most in [1 << 30, -(1 << 30)] {
                    let mut coeffs = vec![0; degree + 1];
                    coeffs[place] = most;
                    goes_round(settings, &coeffs);
                }
            }
        }
    }
}

/// A folded plan gives its fold, and never passes it off as the polynomial.
fn gives_its_fold(p: &Polynomial<i64>) {
    let (fold, transform) = p.fold_parity().expect("a fold");
    for strategy in STRATEGIES {
        let plan = p.plan_folded(strategy).expect("a plan");
        assert_eq!(plan.polynomial(), None);
        assert_eq!(Stored::of_plan(&plan).rebuilt(), Ok(fold.coeffs.clone()));
        let expected = Some((fold.clone(), transform));
        assert_eq!(plan.folded_polynomial(), expected);
    }
}

#[test]
fn folded_plans() {
    let numbers = &mut Numbers(81);
    for basis in common::BASES {
        for (parity, least) in [(Even, 2), (Odd, 3)] {
            for degree in degrees().filter(|&degree| degree >= least) {
                let coeffs = curve(numbers, parity, degree);
                let p = Polynomial::new_with_parity(basis, coeffs, parity).with_interval(0, 2);
                gives_its_fold(&p);
            }
        }
    }
}

/// The fold of T_n for an odd n is 2, −2, 2, … times its coefficient, which may sum above what the plan call takes unfolded.
#[test]
fn folds_beyond_the_limit() {
    for degree in [3, 5, 63, 129, 1023, 4095] {
        for most in [1 << 30, -(1 << 30)] {
            let mut coeffs = vec![0; degree + 1];
            coeffs[degree] = most;
            let p = Polynomial::new_with_parity(Chebyshev, coeffs, Odd);
            gives_its_fold(&p);
            let (fold, _) = p.fold_parity().expect("a fold");
            assert_eq!(fold.plan(MinDepth), Err(Refusal::Magnitude));
        }
    }
}

/// Even numbers, or any, up to a magnitude of 1 to 63 bits.
fn list_numbers(numbers: &mut Numbers, count: usize) -> Vec<i64> {
    let (bits, zeros) = (numbers.below(63), numbers.below(14));
    let number = |_| (numbers.next() as i64 >> bits) & (-1 << zeros);
    (0..count).map(number).collect()
}

/// Whatever the numbers are, and what the planner takes of the answers is listed as it was.
#[test]
fn any_lists() {
    let numbers = &mut Numbers(82);
    let (mut refused, mut accepted, mut planned) = (0, 0, 0);
    for settings in unfolded() {
        let (strategy, parity, basis) = settings;
        for degree in (1..=70).chain([127, 200, 512, 1023]) {
            for _ in 0..20 {
                let stored = Stored::holding(settings, &list_numbers(numbers, degree + 1));
                let Ok(coeffs) = stored.rebuilt() else {
                    assert_eq!((agrees(&stored), basis), (34, Chebyshev));
                    refused += 1;
                    continue;
                };
                assert_eq!(agrees(&stored), 0);
                accepted += 1;
                if let Ok(plan) = Plan::new(basis, &coeffs, parity, strategy, false) {
                    assert_eq!(Stored::of_plan(&plan), stored);
                    planned += 1;
                }
            }
        }
    }
    assert_eq!(refused + accepted, 12 * 74 * 20);
    assert!(refused > 1000 && accepted > 10_000 && planned > 1000);
}

/// One more at one place: refused exactly where a cut, an inner one too, had doubled the number.
#[test]
fn one_more_at_each_place() {
    let numbers = &mut Numbers(83);
    for settings in unfolded() {
        for degree in [2, 3, 5, 7, 8, 12, 23, 31, 64, 100] {
            let whole = Stored::of(settings, &curve(numbers, settings.1, degree));
            for place in 0..=degree {
                let mut damaged = whole.clone();
                damaged.coefficients[place] += 1;
                agrees(&damaged);
            }
        }
    }
    // The two cuts of this curve are at 2, inside the first four places, and at 4: they double the numbers at 3 and at 5.
    let whole = Stored::of((MinMult, Full, Chebyshev), &[1, 2, 3, 4, 5, 6]);
    assert_eq!(whole.coefficients, [1, 4, 3, -4, 5, 12]);
    for (place, number) in [0, 0, 0, 34, 0, 34].into_iter().enumerate() {
        for odd in [-1, 1, 5] {
            let mut damaged = whole.clone();
            damaged.coefficients[place] += odd;
            assert_eq!(agrees(&damaged), number, "place {place}");
        }
    }
}

/// The same lists: place 1 gets half of place 3 at the inner cut, then place 3, halved, half of place 5 at the outer one.
#[test]
fn sums_at_the_ends_of_64_bits() {
    let rebuilt = |lists: [i64; 6]| {
        let stored = Stored::holding((MinMult, Full, Chebyshev), &lists);
        agrees(&stored);
        stored.rebuilt()
    };
    let (least, most) = (i64::MIN, i64::MAX);
    for half in [1, 2, 77, 1 << 61, (1 << 62) - 1] {
        let twice = 2 * half;
        let inner = |low, high| rebuilt([0, low, 0, high, 0, 0]);
        assert_eq!(inner(most - half, twice), Ok(vec![0, most, 0, half, 0, 0]));
        assert_eq!(
            inner(least + half, -twice),
            Ok(vec![0, least, 0, -half, 0, 0])
        );
        assert_eq!(inner(most - half + 1, twice), Err(Refusal::NoPolynomial));
        assert_eq!(inner(least + half - 1, -twice), Err(Refusal::NoPolynomial));
        assert_eq!(
            inner(least, twice),
            Ok(vec![0, least + half, 0, half, 0, 0])
        );
        assert_eq!(
            inner(most, -twice),
            Ok(vec![0, most - half, 0, -half, 0, 0])
        );
    }
    // Half of i64::MIN is taken too.
    let half = least / 2;
    assert_eq!(
        rebuilt([0, half, 0, least, 0, 0]),
        Ok(vec![0, least, 0, half, 0, 0])
    );
    assert_eq!(
        rebuilt([0, half - 1, 0, least, 0, 0]),
        Err(Refusal::NoPolynomial)
    );
    assert_eq!(
        rebuilt([0, 0, 0, least, 0, least]),
        Ok(vec![0, half, 0, least, 0, half])
    );
    // Here an outer cut alone, at 4, reaches place 3 by half of place 5.
    let outer = |low, high| {
        let lists = [0, 0, 0, low, 0, high, 0];
        let stored = Stored::holding((MinDepth, Full, Chebyshev), &lists);
        assert_eq!(stored.boundaries, [4, 7]);
        agrees(&stored);
        stored.rebuilt()
    };
    assert_eq!(outer(most - 1, 2), Ok(vec![0, 0, 0, most, 0, 1, 0]));
    assert_eq!(outer(most, 2), Err(Refusal::NoPolynomial));
    assert_eq!(outer(least + 1, -2), Ok(vec![0, 0, 0, least, 0, -1, 0]));
    assert_eq!(outer(least, -2), Err(Refusal::NoPolynomial));
}

/// Numbers that no cut has doubled, and that get no half, come back as they are, the least one too.
#[test]
fn the_ends_of_64_bits_are_kept() {
    for settings in unfolded() {
        for degree in [1, 2, 5, 7, 31, 4095] {
            for end in [i64::MIN, i64::MAX] {
                let mut lists = vec![0; degree + 1];
                lists[0] = end;
                let stored = Stored::holding(settings, &lists);
                assert_eq!(stored.rebuilt(), Ok(lists));
                if settings.2 == Monomial {
                    let lists = vec![end; degree + 1];
                    let stored = Stored::holding(settings, &lists);
                    assert_eq!(stored.rebuilt(), Ok(lists));
                }
            }
        }
    }
}

#[test]
fn places_beyond_are_not_read() {
    let numbers = &mut Numbers(84);
    for settings in unfolded() {
        for degree in [1, 2, 5, 7, 8, 64, 200, 4095] {
            let coeffs = curve(numbers, settings.1, degree);
            let mut stored = Stored::of(settings, &coeffs);
            for junk in [1, 2, 5000] {
                stored
                    .coefficients
                    .extend((0..junk).map(|_| numbers.next() as i64));
                stored
                    .boundaries
                    .extend((0..junk).map(|_| numbers.next() as u16));
                assert_eq!(stored.rebuilt().as_ref(), Ok(&coeffs));
            }
        }
    }
}

/// Settings and a degree, with all else wrong that a later refusal asks about.
fn all_wrong(settings: Unfolded, degree: usize) -> Stored {
    Stored {
        settings,
        degree,
        base: 3,
        coefficients: Vec::new(),
        boundaries: Vec::new(),
    }
}

#[test]
fn refusals_2_and_1_come_first() {
    for settings in unfolded() {
        for degree in [4096, 1 << 32, usize::MAX] {
            assert_eq!(all_wrong(settings, degree).number_in(0), 2);
        }
        assert_eq!(all_wrong(settings, 0).number_in(0), 1);
        for degree in [1, 2, 4095] {
            assert_eq!(all_wrong(settings, degree).number_in(0), 33);
        }
        // Base, lists and boundaries that suit, and room.
        let mut stored = Stored::of(settings, &[0; 4096]);
        assert_eq!(stored.number_in(4096), 0);
        stored.degree = 4096;
        assert_eq!(stored.number_in(5000), 2);
        stored.degree = 0;
        assert_eq!(stored.number_in(5000), 1);
    }
}

/// The same lists with one thing that is not of their settings, or with one that ends too early.
fn with_other_settings(whole: &Stored) -> Vec<Stored> {
    let changed = |change: &dyn Fn(&mut Stored)| {
        let mut other = whole.clone();
        change(&mut other);
        other
    };
    let (base, lists) = (whole.base, whole.boundaries.len());
    let mut others = vec![
        changed(&|other| other.coefficients.clear()),
        changed(&|other| other.coefficients.truncate(whole.degree)),
        changed(&|other| other.boundaries.clear()),
        changed(&|other| other.boundaries.truncate(lists - 1)),
        changed(&|other| other.boundaries.insert(0, 0)),
    ];
    for base in [0, 1, base - 1, base + 1, 2 * base, usize::MAX] {
        others.push(changed(&|other| other.base = base));
    }
    for list in 0..lists {
        let end = whole.boundaries[list];
        for end in [end - 1, end + 1, 0, u16::MAX] {
            others.push(changed(&|other| other.boundaries[list] = end));
        }
    }
    others
}

#[test]
fn refusal_33_ahead_of_34_and_21() {
    for settings in unfolded() {
        for degree in [1, 2, 5, 7, 8, 12, 31, 100] {
            // In the Chebyshev basis the cuts of odd numbers can't be undone.
            for number in [0, 1] {
                let whole = Stored::holding(settings, &vec![number; degree + 1]);
                for other in with_other_settings(&whole) {
                    for places in [0, degree, degree + 1] {
                        assert_eq!(other.number_in(places), 33, "{other:?}");
                    }
                }
            }
        }
    }
}

/// Lists that are named with another strategy, parity or basis are refused where these have other list lengths or another base.
#[test]
fn refusal_33_for_the_lists_of_others() {
    let mut others = 0;
    for degree in [4, 5, 7, 12, 31, 100] {
        let zeros = vec![0; degree + 1];
        for own in unfolded() {
            let stored = Stored::of(own, &zeros);
            for named in unfolded() {
                let right = Stored::of(named, &zeros);
                let same = (right.base, &right.boundaries) == (stored.base, &stored.boundaries);
                let named = Stored {
                    settings: named,
                    ..stored.clone()
                };
                assert_eq!(named.number_in(degree + 1), if same { 0 } else { 33 });
                others += usize::from(!same);
            }
        }
    }
    assert!(others > 100);
}

/// A degree that is named too high is always refused. One too low is accepted where its lists stand at the front of these, because
/// places beyond are not read.
#[test]
fn refusal_33_for_another_degree() {
    for settings in unfolded() {
        for degree in 2..=100 {
            let stored = Stored::of(settings, &vec![0; degree + 1]);
            let named = |degree| {
                let stored = stored.clone();
                Stored { degree, ..stored }.number_in(200)
            };
            assert_eq!((named(degree), named(degree + 1)), (0, 33));
            for low in 1..degree {
                let right = Stored::of(settings, &vec![0; low + 1]);
                let front = stored.boundaries.starts_with(&right.boundaries);
                let same = front && right.base == stored.base;
                assert_eq!(named(low), if same { 0 } else { 33 });
            }
        }
    }
    // 1 + 2x + 3x², its lists 1 2 and 3, named as of degree 1.
    let mut stored = Stored::of((MinMult, Full, Monomial), &[1, 2, 3]);
    assert_eq!((stored.base, &stored.boundaries[..]), (2, &[2, 3][..]));
    stored.degree = 1;
    assert_eq!(stored.rebuilt(), Ok(vec![1, 2]));
}

#[test]
fn refusal_34_ahead_of_21_and_21_last() {
    for settings in unfolded() {
        for degree in [1, 2, 5, 7, 8, 12, 31, 100] {
            let odd = Stored::holding(settings, &vec![1; degree + 1]);
            let number = agrees(&odd);
            assert!(number == 0 || settings.2 == Chebyshev);
            let even = Stored::holding(settings, &vec![0; degree + 1]);
            for places in 0..=degree {
                assert_eq!(odd.number_in(places), if number == 0 { 21 } else { 34 });
                assert_eq!(even.number_in(places), 21);
            }
            assert_eq!(odd.number_in(degree + 1), number);
            assert_eq!(even.number_in(degree + 1), 0);
        }
    }
    let odd = Stored::holding((MinMult, Full, Chebyshev), &[1; 6]);
    assert_eq!((odd.number_in(5), odd.number_in(6)), (34, 34));
}

/// It is not tested that what was rebuilt is of the parity, or small enough: the planner does that.
#[test]
fn what_only_the_planner_refuses() {
    for strategy in STRATEGIES {
        for basis in common::BASES {
            let replanned = |parity, lists: &[i64]| {
                let rebuilt = Stored::holding((strategy, parity, basis), lists).rebuilt();
                let coeffs = rebuilt.expect("coefficients");
                Plan::new(basis, &coeffs, parity, strategy, false).map(|_| ())
            };
            assert_eq!(replanned(Even, &[2, 4, 6, 8]), Err(Refusal::Parity));
            assert_eq!(replanned(Odd, &[2, 4, 6, 8]), Err(Refusal::Parity));
            assert_eq!(replanned(Full, &[2, 4, 6, 8]), Ok(()));
            assert_eq!(
                replanned(Full, &[1 << 30, 2, 6, 8]),
                Err(Refusal::Magnitude)
            );
        }
    }
}

/// A plan gives back a polynomial only on an interval that the polynomial can have.
#[test]
fn the_interval_of_what_was_rebuilt() {
    let on = |a, b| {
        let plan = Plan::on_interval(Monomial, &[1, 2, 3], Full, MinMult, false, (a, b));
        let plan = plan.expect("a plan");
        assert_eq!(Stored::of_plan(&plan).rebuilt(), Ok(vec![1, 2, 3]));
        plan.polynomial().map(|p| {
            let again = p.plan(MinMult).expect("a plan");
            assert_eq!(again.head().interval.a, a);
            assert_eq!(again.head().interval.b, b);
            p.interval()
        })
    };
    let large = 9_007_199_254_740_992.0;
    assert_eq!(on(-1.0, 1.0), Some((-1, 1)));
    assert_eq!(on(-0.0, 4.0), Some((0, 4)));
    assert_eq!(on(-large, large + 2.0), Some((-(1 << 53), (1 << 53) + 2)));
    assert_eq!(
        on(i64::MIN as f64, i64::MAX as f64),
        Some((i64::MIN, i64::MAX))
    );
    for (a, b) in [
        (0.5, 2.0),
        (0.0, 2.5),
        (-1.0, f64::INFINITY),
        (f64::NEG_INFINITY, 1.0),
        (-1e19, 1.0),
        (0.0, 1e19),
        (0.0, f64::MIN_POSITIVE),
    ] {
        assert_eq!(on(a, b), None, "from {a} to {b}");
    }
}
