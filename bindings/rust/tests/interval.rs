//! The interval in a plan's head: the bits of `change_of_basis`, folded or not; refusal 7 in its place; and nothing else of a plan that
//! depends on it.

mod common;

use common::{allows, settings, value, Numbers, Settings};
use firrozun::buffers::{heaviest_chain, plan_into, trial_walk, PlanBuffers};
use firrozun::{change_of_basis, Basis, Head, Interval, Parity, Plan, Polynomial, Refusal};
use firrozun::{SplitStrategy, SplitStrategy::MinDepth};

type Ends = (f64, f64);

const SPECIAL: [f64; 19] = [
    f64::NAN,
    f64::INFINITY,
    f64::NEG_INFINITY,
    0.0,
    -0.0,
    f64::from_bits(1),
    f64::from_bits(1 << 63 | 1),
    f64::from_bits(0x000f_ffff_ffff_ffff),
    f64::MIN_POSITIVE,
    f64::MAX,
    f64::MIN,
    // Their difference overflows.
    1.7e308,
    -1.7e308,
    1.0,
    -1.0,
    1.0 + f64::EPSILON,
    0.1,
    -3.5,
    1e300,
];

/// Every pair of special numbers, and random ones, of any bits and near one another.
fn all_ends() -> Vec<Ends> {
    let mut all: Vec<Ends> = SPECIAL
        .into_iter()
        .flat_map(|a| SPECIAL.map(|b| (a, b)))
        .collect();
    let numbers = &mut Numbers(21);
    for _ in 0..300 {
        let bits = numbers.next();
        all.push((f64::from_bits(bits), f64::from_bits(numbers.next())));
        all.push((f64::from_bits(bits), f64::from_bits(bits ^ 1)));
        all.push((numbers.within(9) as f64, numbers.within(9) as f64));
    }
    all
}

fn bits(numbers: [f64; 4]) -> [u64; 4] {
    numbers.map(|x| if x.is_nan() { f64::NAN } else { x }.to_bits())
}

/// The settings that a polynomial of degree 5 is planned in, each with one.
fn accepted() -> impl Iterator<Item = (Settings, Vec<i64>)> {
    settings()
        .filter(|&(_, parity, _, fold)| !fold || parity != Parity::Full)
        .map(|settings| {
            let place = |j: usize| {
                if allows(settings.1, j) {
                    j as i64 - 7
                } else {
                    0
                }
            };
            (settings, (0..6).map(place).collect())
        })
}

fn on(settings: Settings, coeffs: &[i64], ends: Ends) -> Result<Plan, Refusal> {
    let (strategy, parity, basis, fold) = settings;
    Plan::on_interval(basis, coeffs, parity, strategy, fold, ends)
}

#[test]
fn the_bits_of_change_of_basis() {
    let (mut planned, mut refused) = (0, 0);
    for ends in all_ends() {
        for (settings, coeffs) in accepted() {
            let (a, b) = ends;
            let plan = on(settings, &coeffs, ends);
            if a < b {
                let (u, w) = change_of_basis(settings.2, a, b);
                let head = plan.expect("a plan").head().interval;
                assert_eq!(
                    bits([head.a, head.b, head.u, head.w]),
                    bits([a, b, u, w]),
                    "{ends:?} in {settings:?}"
                );
                assert_eq!(head, Interval { a, b, u, w });
                planned += 1;
            } else {
                assert_eq!(plan, Err(Refusal::Interval), "{ends:?}");
                refused += 1;
            }
        }
    }
    assert!(planned > 8000 && refused > 8000, "{planned} and {refused}");
}

/// Lower and upper end come back as they are, also where their difference overflows or has no finite reciprocal.
#[test]
fn the_widest_and_the_narrowest() {
    for (ends, u) in [
        ((-1.7e308, 1.7e308), 0.0),
        ((f64::MIN, f64::MAX), 0.0),
        ((f64::NEG_INFINITY, f64::INFINITY), 0.0),
        ((-0.0, f64::from_bits(1)), f64::INFINITY),
    ] {
        let settings = (MinDepth, Parity::Even, Basis::Chebyshev, true);
        let plan = on(settings, &[1, 0, 2], ends).expect("a plan");
        let interval = plan.head().interval;
        assert_eq!(
            bits([interval.a, interval.b, interval.u, 0.0]),
            bits([ends.0, ends.1, u, 0.0])
        );
        // 2·(2x² − 1) + 1 at 3.
        assert_eq!(plan.walk(3, 1000), Ok(35));
    }
}

#[test]
fn new_plans_on_minus_one_to_one() {
    for ((strategy, parity, basis, fold), coeffs) in accepted() {
        let plan = Plan::new(basis, &coeffs, parity, strategy, fold).expect("a plan");
        let unit = on((strategy, parity, basis, fold), &coeffs, (-1.0, 1.0));
        assert_eq!(Ok(&plan), unit.as_ref());
        let (u, w) = change_of_basis(basis, -1.0, 1.0);
        let (a, b) = (-1.0, 1.0);
        assert_eq!(plan.head().interval, Interval { a, b, u, w });
    }
}

/// A number of any bits, a NaN of any bits among them.
fn any(numbers: &mut Numbers) -> f64 {
    let nan = f64::from_bits(0x7ff0_0000_0000_0001 | numbers.next());
    let bits = f64::from_bits(numbers.next());
    let special = numbers.one_of(&SPECIAL);
    numbers.one_of(&[nan, bits, special])
}

/// The same plan but for the interval, and the same answers of walk and chain, whatever the head has in place of it.
#[test]
fn nothing_else_depends_on_it() {
    let numbers = &mut Numbers(22);
    for (settings, coeffs) in accepted() {
        let unit = on(settings, &coeffs, (-1.0, 1.0)).expect("a plan");
        let (point, modulus) = (numbers.within(1 << 40), 1_000_003);
        let walked = Ok(value(settings.2, &coeffs, point, modulus));
        let weight = unit.heaviest_chain(30, 20);
        assert_eq!(unit.walk(point, modulus), walked);
        for ends in all_ends() {
            let Ok(plan) = on(settings, &coeffs, ends) else {
                continue;
            };
            let head = Head {
                interval: unit.head().interval,
                ..*plan.head()
            };
            assert_eq!(head, *unit.head());
            assert_eq!(plan.coefficients(), unit.coefficients());
            assert_eq!(plan.boundaries(), unit.boundaries());
            assert_eq!(plan.step_numbers(), unit.step_numbers());
            assert_eq!(plan.walk(point, modulus), walked);
            assert_eq!(plan.heaviest_chain(30, 20), weight);
        }
        let (c, bounds, steps) = (unit.coefficients(), unit.boundaries(), unit.step_numbers());
        for _ in 0..200 {
            let [a, b, u, w] = [(); 4].map(|()| any(numbers));
            let head = Head {
                interval: Interval { a, b, u, w },
                ..*unit.head()
            };
            let walk = |modulus| trial_walk(&head, c, bounds, steps, point, modulus);
            assert_eq!(walk(modulus), walked);
            assert_eq!(walk(1), Err(Refusal::Modulus));
            let weigh = |steps| heaviest_chain(&head, c, bounds, steps, 30, 20);
            assert_eq!(weigh(steps), weight);
            assert_eq!(weigh(&steps[1..]), Err(Refusal::Unwalkable));
        }
    }
}

/// What the plan call answers in so many places of each buffer, which stay as they are after a refusal.
fn in_places(
    settings: Settings,
    coeffs: &[i64],
    ends: Ends,
    places: [usize; 3],
) -> Result<Head, Refusal> {
    let (strategy, parity, basis, fold) = settings;
    let (mut out, mut bounds, mut steps) =
        (vec![9; places[0]], vec![9; places[1]], vec![9; places[2]]);
    let buffers = PlanBuffers {
        coefficients: &mut out,
        boundaries: &mut bounds,
        steps: &mut steps,
    };
    let answer = plan_into(strategy, parity, basis, fold, coeffs, ends, buffers);
    if answer.is_err() {
        assert!(out.iter().all(|&place| place == 9));
        assert!(bounds.iter().chain(&steps).all(|&place| place == 9));
    }
    answer
}

const WRONG: [Ends; 7] = [
    (1.0, 1.0),
    (1.0, -1.0),
    (f64::NAN, 1.0),
    (-1.0, f64::NAN),
    (f64::NAN, f64::NAN),
    (-0.0, 0.0),
    (f64::INFINITY, f64::INFINITY),
];

#[test]
fn refusal_7_after_3() {
    let long = vec![0; 4097];
    let large = [0, 0, 0, (1 << 30) + 1];
    for ends in WRONG {
        for strategy in [MinDepth, SplitStrategy::MinMult] {
            for basis in common::BASES {
                let number = |parity, fold, coeffs: &[i64]| {
                    let settings = (strategy, parity, basis, fold);
                    let planned = on(settings, coeffs, ends).expect_err("a refusal");
                    let lent = in_places(settings, coeffs, ends, [4096, 4096, 49_152]);
                    assert_eq!(lent, Err(planned));
                    planned.number()
                };
                assert_eq!(number(Parity::Full, false, &long), 2);
                assert_eq!(number(Parity::Full, false, &[1]), 1);
                assert_eq!(number(Parity::Full, true, &[1, 2, 3]), 5);
                assert_eq!(number(Parity::Odd, true, &[0, 1, 0]), 6);
                assert_eq!(number(Parity::Odd, true, &[1, 1, 0, 1]), 4);
                assert_eq!(number(Parity::Odd, false, &large), 3);
                assert_eq!(number(Parity::Odd, true, &large), 3);
                assert_eq!(number(Parity::Odd, false, &[0, 1, 0, 2]), 7);
                assert_eq!(number(Parity::Odd, true, &[0, 1, 0, 2]), 7);
            }
        }
    }
}

#[test]
fn refusal_7_ahead_of_the_buffers() {
    for (settings, coeffs) in accepted() {
        let plan = on(settings, &coeffs, (-1.0, 1.0)).expect("a plan");
        let head = plan.head();
        let enough = [head.coefficients, head.lists, 4 * head.steps];
        let number = |ends, places| {
            let answer = in_places(settings, &coeffs, ends, places);
            answer.err().map_or(0, Refusal::number)
        };
        for short in 0..3 {
            let mut places = enough;
            places[short] -= 1;
            assert_eq!(number((-1.0, 1.0), places), 21 + short as u8);
            for ends in WRONG {
                assert_eq!(number(ends, places), 7);
            }
        }
        for ends in WRONG {
            assert_eq!(number(ends, [0, 0, 0]), 7);
            assert_eq!(number(ends, enough), 7);
        }
        assert_eq!(number((-1.0, 1.0), enough), 0);
    }
}

/// A polynomial is planned on its own interval.
#[test]
fn the_interval_of_a_polynomial() {
    let odd = Polynomial::new(Basis::Chebyshev, vec![0, 1, 0, 2]);
    let large = 1 << 53;
    for (a, b) in [(-1, 1), (0, 2), (-3, 5), (i64::MIN, i64::MAX), (0, large)] {
        let p = odd.clone().with_interval(a, b);
        for plan in [p.plan(MinDepth), p.plan_folded(MinDepth)] {
            let (u, w) = p.change_of_basis();
            let (a, b) = (a as f64, b as f64);
            let interval = plan.map(|plan| plan.head().interval);
            assert_eq!(interval, Ok(Interval { a, b, u, w }));
        }
    }
    // The last ends are different whole numbers, and one f64.
    for (a, b) in [(1, 1), (2, 1), (large, large + 1)] {
        let p = odd.clone().with_interval(a, b);
        assert_eq!(p.plan(MinDepth), Err(Refusal::Interval));
        assert_eq!(p.plan_folded(MinDepth), Err(Refusal::Interval));
    }
    let p = Polynomial::new(Basis::Monomial, vec![1]).with_interval(1, 1);
    assert_eq!(p.plan(MinDepth), Err(Refusal::NoDegree));
}

#[test]
fn equal_by_bits_with_one_nan_as_any_other() {
    let of = |a, b| {
        let (u, w) = (1.0, 0.0);
        Interval { a, b, u, w }
    };
    let other = f64::from_bits(0xfff0_0000_0000_0001);
    assert!(other.is_nan());
    assert_eq!(of(f64::NAN, 1.0), of(other, 1.0));
    assert_ne!(of(0.0, 1.0), of(-0.0, 1.0));
    assert_ne!(of(1.0, f64::NAN), of(f64::NAN, 1.0));
    let plan = Plan::new(Basis::Monomial, &[1, 2], Parity::Full, MinDepth, false).expect("a plan");
    let mut head = *plan.head();
    head.interval.w = f64::NAN;
    assert_eq!(head, head.clone());
    assert_ne!(head, *plan.head());
    head.interval.w = -0.0;
    assert_ne!(head, *plan.head());
}
