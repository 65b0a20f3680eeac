//! Calls worked out by hand.

use super::{Call, Rebuilt, all_kinds};
use crate::inputs::{MAX_DEGREE, Rng, digits};
use crate::rebuilds::{cancelled, fifth, kinds, seventh};

const MAX: i64 = i64::MAX;
const MIN: i64 = i64::MIN;

/// The answer to the call with other numbers in its lists.
fn with(call: Call, lists: &[i64]) -> Rebuilt {
    let lists = lists.to_vec();
    Call { lists, ..call }.answer()
}

#[test]
fn the_example_is_rebuilt() {
    let call = fifth();
    assert_eq!((call.base, &call.bounds[..]), (2, &[2, 4, 6][..]));
    assert_eq!(call.lists, [1, 4, 3, -4, 5, 12]);
    assert_eq!(call.answer(), Ok(vec![1, 2, 3, 4, 5, 6]));
    assert_eq!(with(call, &[1, 4, 3, -4, 5, 11]), Err(34));
}

#[test]
fn relisted_parts_are_rebuilt_from_inside() {
    let call = seventh();
    assert_eq!((call.base, &call.bounds[..]), (4, &[4, 6, 8][..]));
    // The high part is 50, 60 + 80/2, 70, 80/2; then 100, 70 and 40 are halved and added to 4, 3 and 2.
    let answer = with(call, &[1, 2, 3, 4, 50, 60, 70, 80]);
    assert_eq!(answer, Ok(vec![1, 22, 38, 54, 50, 50, 35, 20]));
}

#[test]
fn an_odd_number_is_refused_at_every_cut() {
    // At the inner cut 81; at the outer one 82/2, 71, 61 + 80/2.
    for (at, odd) in [(7, 81), (7, 82), (6, 71), (5, 61)] {
        let mut lists = [1, 2, 3, 4, 50, 60, 70, 80];
        lists[at] = odd;
        assert_eq!(with(seventh(), &lists), Err(34), "{odd}");
    }
    // The first number of a high part is not doubled.
    let lists = [1, 2, 3, 4, 51, 60, 70, 80];
    assert_eq!(with(seventh(), &lists).map(|c| c[4]), Ok(51));
}

#[test]
fn a_sum_beyond_i64_is_refused() {
    let at = |x, q| with(fifth(), &[0, x, 0, q, 0, 0]).map(|c| c[1]);
    assert_eq!(at(MAX, 0), Ok(MAX));
    assert_eq!(at(MAX, 2), Err(34));
    assert_eq!(at(MIN, 0), Ok(MIN));
    assert_eq!(at(MIN, -2), Err(34));
    assert_eq!(at(1 << 62, MAX - 1), Ok(MAX));
    assert_eq!(at((1 << 62) + 1, MAX - 1), Err(34));
    assert_eq!(at(-(1 << 62), MIN), Ok(MIN));
    assert_eq!(at(-(1 << 62) - 1, MIN), Err(34));
}

#[test]
fn a_sum_beyond_i64_is_refused_where_a_later_cut_would_bring_it_back() {
    // The high part's second number is a + b/2, and half of it is a coefficient.
    let at = |a, b| with(seventh(), &[0, 0, 0, 0, 0, a, 0, b]).map(|c| c[5]);
    assert_eq!(at(1 << 62, MAX - 3), Ok((1 << 62) - 1));
    assert_eq!(at((1 << 62) + 2, MAX - 3), Err(34));
    assert_eq!(at(-(1 << 62), MIN), Ok(-(1 << 62)));
    assert_eq!(at(-(1 << 62) - 2, MIN), Err(34));
    // The third coefficient is 2^63 after the inner cut, and 2^63 - 1 after the outer one.
    let call = cancelled();
    assert_eq!((call.base, &call.bounds[..]), (4, &[4, 8, 12, 14][..]));
    assert_eq!(call.answer(), Err(34));
    let mut lower = call.lists.clone();
    lower[3] -= 1;
    assert_eq!(with(call, &lower).map(|c| c[3]), Ok(MAX - 1));
}

#[test]
fn refusals_have_their_order() {
    let all = Call {
        kinds: [0, 3, 0],
        degree: MAX_DEGREE + 1,
        base: 3,
        lists: vec![],
        bounds: vec![],
        room: 0,
    };
    assert_eq!(all.answer(), Err(43));
    let all = Call {
        kinds: kinds("CFM"),
        ..all
    };
    assert_eq!(all.answer(), Err(2));
    let all = Call { degree: 0, ..all };
    assert_eq!(all.answer(), Err(1));
    let mut odd = fifth();
    odd.lists[5] = 11;
    odd.room = 5;
    assert_eq!(
        Call {
            base: 4,
            ..odd.clone()
        }
        .answer(),
        Err(33)
    );
    assert_eq!(odd.answer(), Err(34));
    assert_eq!(Call { room: 5, ..fifth() }.answer(), Err(21));
}

#[test]
fn places_beyond_are_not_read() {
    let mut call = fifth();
    call.lists.extend([7, MIN, MAX]);
    call.bounds.extend([3, 0, 65_535]);
    call.room = 9;
    assert_eq!(call.answer(), Ok(vec![1, 2, 3, 4, 5, 6]));
}

#[test]
fn published_lists_are_rebuilt_in_every_setting() {
    let g = &mut Rng::new(1);
    for degree in (1..=70).chain([127, 255, 1_010, 4_064, 4_065, 4_095]) {
        for kinds in all_kinds() {
            let c = digits(g, degree + 1);
            let rebuilt = Call::of(kinds, &c).answer().expect("coefficients");
            assert!(
                rebuilt.iter().map(|&x| x as f64).eq(c),
                "{kinds:?} {degree}"
            );
        }
    }
}
