//! The recorded conversions. The answers are those of src/conversions.rs; most refusals were worked out by hand too.

use super::borders::{self, MOST, WAYS, least_whole, one_place};
use super::random::random;
use super::{CHEBYSHEV, Call, Converted, MONOMIAL, other, value};
use crate::Rec;
use crate::inputs::{MAX_SUM, Rng};

/// The whole numbers at which a curve must have the same value in both bases.
pub const POINTS: [i64; 9] = [-10, -3, -2, -1, 0, 1, 2, 3, 10];

/// Records the conversions for the gate.
pub fn record(r: &mut Rec, g: &mut Rng) {
    by_hand(r);
    units(r);
    curves(r, g);
    buffers(r);
    for (call, refusal) in borders::all() {
        let answer = call.answer();
        assert_eq!(answer.as_ref().err().copied().unwrap_or(0), refusal);
        say(r, &call, answer);
    }
    (0..120).for_each(|_| any(r, g));
}

/// Records a call. What is accepted must have the curve's values.
fn say(r: &mut Rec, call: &Call, answer: Converted) {
    let to = call.basis().expect("a letter");
    if let Ok(new) = &answer {
        let same = |x| value(to, new, x) == value(other(to), &call.c, x);
        assert!(POINTS.into_iter().all(same), "{call:?}");
    }
    r.convert_coeffs(call, &answer);
}

/// Curves with their new coefficients, each of which was worked out by hand.
pub fn worked() -> Vec<(u8, Vec<i64>, Vec<i64>)> {
    let both = [
        // 1 + 2 T_1 + 3 T_2 + 4 T_3.
        (vec![1, 2, 3, 4], vec![-2, -10, 6, 16]),
        (vec![3, 0, 4, 0, 1], vec![0, 0, 0, 0, 8]),
        (vec![1, 0, 1], vec![0, 0, 2]),
        (vec![0, -7], vec![0, -7]),
        (vec![5], vec![5]),
        (vec![5, 0, 0], vec![5, 0, 0]),
        (vec![0, 0, 0, 0, 0, -1], vec![0, -5, 0, 20, 0, -16]),
        (vec![], vec![]),
    ];
    let ways = |(over, by): (Vec<i64>, Vec<i64>)| {
        let back = (CHEBYSHEV, by.clone(), over.clone());
        [(MONOMIAL, over, by), back]
    };
    both.into_iter().flat_map(ways).collect()
}

fn by_hand(r: &mut Rec) {
    for (to, c, new) in worked() {
        let call = Call::new(to, c);
        assert_eq!(call.answer(), Ok(new.clone()));
        say(r, &call, Ok(new));
    }
}

/// Each T_n, and each power of x times the least number that makes it whole.
fn units(r: &mut Rec) {
    for to in WAYS {
        for n in 1..=MOST {
            // The borders have those of the other sign to T_i.
            let sign = if to == CHEBYSHEV { -1 } else { 1 };
            let call = Call::new(to, one_place(n, n - 1, sign * least_whole(to, n - 1)));
            say(r, &call, call.answer());
        }
    }
}

/// Curves of every length, with numbers on all places.
fn curves(r: &mut Rec, g: &mut Rng) {
    for to in WAYS {
        for n in 1..=MOST {
            let digit = |g: &mut Rng| g.below(19) as i64 - 9;
            let number = |at| digit(g) * least_whole(to, at);
            let call = Call::new(to, (0..n).map(number).collect());
            say(r, &call, call.answer());
        }
    }
}

/// Buffers that are too short, and such that are longer than they must be.
fn buffers(r: &mut Rec) {
    for (to, c, new) in worked().into_iter().take(4) {
        for room in [0, 1, c.len() - 1, c.len() + 1, 128] {
            let c = c.clone();
            let answer = if room < c.len() {
                Err(21)
            } else {
                Ok(new.clone())
            };
            let call = Call { to, c, room };
            assert_eq!(call.answer(), answer);
            say(r, &call, answer);
        }
    }
    let none = Call {
        to: MONOMIAL,
        c: vec![],
        room: 5,
    };
    say(r, &none, none.answer());
    let whole = Call {
        to: CHEBYSHEV,
        c: vec![MAX_SUM],
        room: 0,
    };
    say(r, &whole, whole.answer());
}

/// A random call, if a line can tell its basis.
fn any(r: &mut Rec, g: &mut Rng) {
    let (_, call) = random(g);
    if call.basis().is_some() {
        say(r, &call, call.answer());
    }
}
