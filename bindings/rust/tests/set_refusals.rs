//! What a set is refused for: 35 and 36, ahead of the members' own refusals in their order. 21 to 23 are tested in `tests/sets.rs`, with each
//! set that is planned, and 43 in `src/ffi/tests/sets.rs`.

mod common;

use common::sets::*;
use common::{settings, Numbers, Settings, BASES, PARITIES, STRATEGIES};
use firrozun::buffers::{plan_sizes, set_sizes, Member};
use firrozun::Basis::{Chebyshev, Monomial};
use firrozun::Parity::{Even, Full, Odd};
use firrozun::SplitStrategy::{MinDepth, MinMult};
use firrozun::{CurveSet, Refusal};
use std::collections::BTreeMap;
use std::slice::from_ref;

/// Refused with this number by every call on a set, with no room, with little and with enough.
fn is_refused(given: &[Given], number: u8) {
    for places in [(0, 0, 0), (3, 3, 3), (100, 100, 1000)] {
        assert_eq!(refusal_in(given, places), number, "{given:?}");
    }
    let refusal = CurveSet::plan(&curves(given)).expect_err("a refusal");
    assert_eq!(refusal.number(), number, "{given:?}");
}

fn sizes_number(given: &[Given]) -> u8 {
    let sizes = set_sizes(&members(given));
    sizes.err().map_or(0, Refusal::number)
}

#[test]
fn refusal_35_numbers_of_members() {
    is_refused(&[], 35);
    assert_eq!(sizes_number(&[]), 35);
    let one = Given::new(D, &[1, 2, 3]);
    for count in [17, 18, 32, 100, 1000] {
        let mut given = vec![one.clone(); count];
        is_refused(&given, 35);
        assert_eq!(sizes_number(&given), 35);
        // Ahead of all else, wherever it stands.
        for place in [0, 7, 15, 16, count - 1] {
            let whole = given[place].clone();
            given[place].settings.2 = Chebyshev;
            is_refused(&given, 35);
            assert_eq!(sizes_number(&given), 35);
            given[place] = whole.clone();
            given[place].coeffs.clear();
            is_refused(&given, 35);
            assert_eq!(sizes_number(&given), 35);
            given[place] = whole;
        }
    }
    for count in 1..=16 {
        let given = vec![one.clone(); count];
        assert_eq!(planned(&given).len(), count);
        assert_eq!(sizes_number(&given), 0);
    }
}

#[test]
fn refusal_35_lengths_beyond_the_coefficients() {
    let member = Given::new(D, &[1; 5]).member();
    for count in 1..=16 {
        let members = vec![member; count];
        let most = vec![1; 5 * count];
        for length in 0..5 * count {
            let lent = Lent::ask(&members, &most[..length], (80, 40, 400));
            assert_eq!(lent.number(), 35);
        }
        assert_eq!(Lent::ask(&members, &most, (80, 40, 400)).number(), 0);
    }
    // Lengths of any size, such as come around to a small sum in 64 bits too.
    for counts in [
        &[usize::MAX][..],
        &[usize::MAX, 6],
        &[6, usize::MAX - 5],
        &[1 << 63, 1 << 63],
        &[1 << 60; 16],
        &[5, 5, 6],
        &[6, 5, 5],
    ] {
        let members: Vec<Member> = counts
            .iter()
            .map(|&count| Member { count, ..member })
            .collect();
        assert_eq!(Lent::ask(&members, &[1; 15], (15, 15, 90)).number(), 35);
    }
}

/// The second setting is unlike the first: basis, folding, and the parity of folds.
const UNLIKE: [(Settings, Settings); 8] = [
    (D, (MinDepth, Full, Chebyshev, false)),
    (
        (MinMult, Even, Chebyshev, false),
        (MinMult, Even, Monomial, false),
    ),
    (
        (MinDepth, Even, Monomial, true),
        (MinDepth, Even, Chebyshev, true),
    ),
    (
        (MinDepth, Even, Monomial, true),
        (MinDepth, Even, Monomial, false),
    ),
    (
        (MinMult, Odd, Chebyshev, false),
        (MinMult, Odd, Chebyshev, true),
    ),
    (
        (MinDepth, Even, Monomial, true),
        (MinDepth, Odd, Monomial, true),
    ),
    (
        (MinMult, Odd, Chebyshev, true),
        (MinMult, Full, Chebyshev, true),
    ),
    (
        (MinDepth, Full, Chebyshev, true),
        (MinMult, Even, Chebyshev, true),
    ),
];

/// Zeros of degree 4: every parity and every setting but a fold of `Full` takes them.
fn zeros(settings: Settings) -> Given {
    Given::new(settings, &[0; 5])
}

#[test]
fn refusal_36_members_that_differ() {
    for (settings, other) in UNLIKE {
        for count in [2, 3, 16] {
            for place in 0..count {
                let mut given = vec![zeros(settings); count];
                given[place] = zeros(other);
                is_refused(&given, 36);
                assert_eq!(sizes_number(&given), 36);
                // Ahead of every refusal of a member.
                for (coeffs, ends) in [
                    (vec![0; 4097], UNIT),
                    (vec![7], UNIT),
                    (vec![i64::MAX; 5], UNIT),
                    (vec![1; 5], (1.0, 1.0)),
                ] {
                    for at in [0, count / 2, count - 1] {
                        let mut given = given.clone();
                        given[at].coeffs = coeffs.clone();
                        given[at].ends = ends;
                        is_refused(&given, 36);
                        assert_eq!(sizes_number(&given), 36);
                    }
                }
                // After 35: a coefficient fewer than the members have.
                let fewer = vec![0; 5 * count - 1];
                let lent = Lent::ask(&members(&given), &fewer, (80, 40, 400));
                assert_eq!(lent.number(), 35);
            }
        }
    }
}

/// Curves that are refused alone, with the number: of the settings that are handed in, as far as these can have it.
fn refused_alone(settings: Settings) -> Vec<(Given, u8)> {
    let (_, parity, _, fold) = settings;
    let given = |coeffs: &[i64]| Given::new(settings, coeffs);
    let long = vec![0; 4097];
    let mut refused = vec![
        (given(&long), 2),
        (given(&[]), 1),
        (given(&[7]), 1),
        // With all that comes later, too.
        (given(&vec![i64::MIN; 4097]).on(1.0, 0.0), 2),
        (given(&[i64::MAX]).on(1.0, 0.0), 1),
    ];
    if fold && parity == Full {
        refused.push((given(&[0; 5]), 5));
        refused.push((given(&[i64::MAX; 2]).on(f64::NAN, 0.0), 5));
        return refused;
    }
    if fold {
        refused.push((given(&[0, 0]), 6));
        refused.push((given(&[i64::MIN, 1]).on(2.0, 0.0), 6));
    }
    match parity {
        Full => {}
        Even => {
            refused.push((given(&[0, 1, 0, 0]), 4));
            refused.push((given(&[MOST, 1, MOST, 0]).on(2.0, 0.0), 4));
        }
        Odd => {
            refused.push((given(&[0, 0, 0, 0, -1]), 4));
            refused.push((given(&[1, MOST, 0, MOST]).on(2.0, 0.0), 4));
        }
    }
    let place = usize::from(parity == Odd);
    let mut large = vec![0; 6];
    large[place] = MOST;
    large[place + 2] = 1;
    refused.push((given(&large), 3));
    refused.push((given(&large).on(1.0, 1.0), 3));
    large[place] = i64::MIN;
    refused.push((given(&large), 3));
    for (a, b) in [(1.0, 1.0), (1.0, 0.0), (f64::NAN, 1.0), (0.0, f64::NAN)] {
        refused.push((given(&[0; 5]).on(a, b), 7));
    }
    refused
}

/// Each refusal of a member, at each place of the set.
#[test]
fn refusals_of_each_member() {
    let mut seen = Vec::new();
    for settings in settings() {
        let (_, parity, _, fold) = settings;
        for (refused, number) in refused_alone(settings) {
            let alone = refused.alone().expect_err("a refusal alone");
            assert_eq!(alone.number(), number, "{refused:?}");
            seen.push(number);
            is_refused(from_ref(&refused), number);
            if fold && parity == Full {
                // No member beside it is planned. Those before it are refused with 5.
                is_refused(&[refused.clone(), zeros(settings)], number);
                is_refused(&[zeros(settings), refused.clone()], 5);
                continue;
            }
            for count in [2, 3, 16] {
                for place in [0, 1, count / 2, count - 1] {
                    let mut given = vec![zeros(settings); count];
                    given[place] = refused.clone();
                    is_refused(&given, number);
                }
            }
        }
    }
    seen.sort();
    seen.dedup();
    assert_eq!(seen, [1, 2, 3, 4, 5, 6, 7]);
}

/// Of two members that are refused, the first decides, whatever its number.
#[test]
fn the_first_refused_member_decides() {
    let mut pairs = 0;
    for settings in settings() {
        let refused = refused_alone(settings);
        for (first, number) in &refused {
            for (second, _) in &refused {
                is_refused(&[first.clone(), second.clone()], *number);
                pairs += 1;
                if settings.3 && settings.1 == Full {
                    continue;
                }
                let between = [
                    zeros(settings),
                    first.clone(),
                    zeros(settings),
                    second.clone(),
                ];
                is_refused(&between, *number);
            }
        }
    }
    assert!(pairs > 2000);
}

/// What the rules say of a set, from its members alone.
fn ruled(given: &[Given]) -> (u8, u8) {
    if given.is_empty() || given.len() > 16 {
        return (35, 35);
    }
    let (_, parity, basis, fold) = given[0].settings;
    let unlike = |given: &Given| {
        let (_, other, other_basis, other_fold) = given.settings;
        basis != other_basis || fold != other_fold || (fold && parity != other)
    };
    if given.iter().any(unlike) {
        return (36, 36);
    }
    let number = |refusal: Refusal| refusal.number();
    let of_plans = given.iter().find_map(|given| given.alone().err());
    let of_sizes = given.iter().find_map(|given| {
        let (strategy, parity, basis, fold) = given.settings;
        let degree = given.coeffs.len().saturating_sub(1);
        plan_sizes(strategy, parity, basis, fold, degree).err()
    });
    (of_plans.map_or(0, number), of_sizes.map_or(0, number))
}

/// Damaged sets of any kind are refused as the rules say, and those that are not damaged are planned.
#[test]
fn random_refusals() {
    let numbers = &mut Numbers(112);
    let mut seen = BTreeMap::new();
    for _ in 0..6000 {
        let count = 1 + numbers.below(6) as usize;
        let mut given = random_set(numbers, count, 12);
        for _ in 0..numbers.below(4) {
            let place = numbers.below(given.len() as u64) as usize;
            let damaged = &mut given[place];
            match numbers.below(12) {
                0 => damaged.coeffs.truncate(numbers.below(4) as usize),
                1 => damaged.coeffs.resize(4096 + numbers.below(3) as usize, 0),
                2 => damaged.coeffs.push(1),
                3 => damaged
                    .coeffs
                    .push(numbers.one_of(&[MOST, i64::MIN, i64::MAX])),
                4 => damaged.ends = numbers.one_of(&[(1.0, 1.0), (2.0, 1.0), (f64::NAN, 0.0)]),
                5 => damaged.settings.2 = numbers.one_of(&BASES),
                6 => damaged.settings.3 = !damaged.settings.3,
                7 => damaged.settings.1 = numbers.one_of(&PARITIES),
                8 => given.iter_mut().for_each(|given| given.settings.1 = Full),
                9 => given = given.iter().cycle().take(17).cloned().collect(),
                10 => damaged.settings.0 = numbers.one_of(&STRATEGIES),
                _ => damaged
                    .coeffs
                    .iter_mut()
                    .for_each(|c| *c = c.wrapping_neg()),
            }
        }
        let (number, of_sizes) = ruled(&given);
        assert_eq!(sizes_number(&given), of_sizes, "{given:?}");
        *seen.entry(number).or_insert(0) += 1;
        if number == 0 {
            assert_eq!(planned(&given).len(), given.len());
            assert_eq!(refusal_in(&given, (0, 0, 0)), 21);
        } else {
            let refusal = CurveSet::plan(&curves(&given)).expect_err("a refusal");
            assert_eq!(refusal.number(), number, "{given:?}");
            assert_eq!(refusal_in(&given, (0, 0, 0)), number);
            assert_eq!(refusal_in(&given, (300, 300, 3000)), number);
        }
    }
    let numbers: Vec<u8> = seen.keys().copied().collect();
    assert_eq!(numbers, [0, 1, 2, 3, 4, 5, 6, 7, 35, 36]);
    assert!(seen.values().all(|&times| times > 30), "{seen:?}");
}
