//! The recorded calls that rebuild coefficients from lists. The answers are those of src/rebuild.rs; most were worked out by hand too.

pub mod random;

use crate::Rec;
use crate::calls::Parity;
use crate::inputs::*;
use crate::rebuild::{Call, Kinds, Rebuilt, all_kinds, settings};
use random::random;

const MAX: i64 = i64::MAX;
const MIN: i64 = i64::MIN;
const HALF: i64 = 1 << 62;
/// The greatest degree and base of a recorded line.
const MOST: usize = 1_000_000_000_000_000_000;

/// The numbers of kinds by the letters of basis, parity and strategy.
pub fn kinds(letters: &str) -> Kinds {
    let number = |at: usize, of: &str| of.find(&letters[at..at + 1]).expect("a letter") as u8;
    [number(2, "DM"), number(1, "FEO"), number(0, "MC")]
}

/// The scope's example, 1 to 6 in the Chebyshev basis: three lists of two. The low part has a cut of its own.
pub fn fifth() -> Call {
    Call::of(kinds("CFM"), &[1.0, 2.0, 3.0, 4.0, 5.0, 6.0])
}

/// Zeros in lists of four, two and two: the high part was listed again, so it has a cut of its own.
pub fn seventh() -> Call {
    zeros("CFD", 7)
}

/// Four lists whose fourth coefficient is 2^63 when the low part's cut is undone, and would be 2^63 - 1 in the end.
pub fn cancelled() -> Call {
    let mut call = zeros("CFD", 13);
    call.lists[3] = MAX;
    call.lists[5] = 2;
    call.lists[13] = -4;
    call
}

fn zeros(letters: &str, degree: usize) -> Call {
    Call::of(kinds(letters), &vec![0.0; degree + 1])
}

/// Records the calls for the gate.
pub fn record(r: &mut Rec, g: &mut Rng) {
    there_and_back(r, g);
    halvings(r);
    sums(r);
    kept(r);
    boundaries(r);
    buffers(r);
    degrees(r);
    order(r);
    (0..150).for_each(|_| any(r, g));
}

/// Records a call with an answer that was worked out by hand.
fn say(r: &mut Rec, call: &Call, answer: Rebuilt) {
    assert_eq!(call.answer(), answer, "{call:?}");
    r.rebuild(call, &answer);
}

/// Lists of the published list call: short ones in every setting, some about the degrees with lists that are listed again, and long ones.
fn there_and_back(r: &mut Rec, g: &mut Rng) {
    say(r, &fifth(), Ok(vec![1, 2, 3, 4, 5, 6]));
    for degree in 1..=17 {
        all_kinds().for_each(|kinds| back(r, kinds, &digits(g, degree + 1)));
    }
    let bands = BANDS.into_iter().take(4).flat_map(|(a, b)| a - 1..=b + 1);
    for degree in bands.filter(|&d| d > 17) {
        for letters in ["MFD", "CFD", "MFM", "CFM"] {
            let mut kinds = kinds(letters);
            kinds[1] = g.below(3) as u8;
            back(r, kinds, &digits(g, degree + 1));
        }
    }
    for (i, kinds) in all_kinds().enumerate() {
        back(r, kinds, &spread(g, Parity::Full, 8 + i, MAX_SUM));
    }
    for (letters, degree) in [("CED", 127), ("CFM", 300), ("COD", 1_023)] {
        let c: Vec<f64> = (0..=degree).map(|_| g.below(3) as f64).collect();
        back(r, kinds(letters), &c);
    }
    back(r, kinds("CFD"), &one_place(4_096, 4_095, MAX_SUM));
}

/// Lists never test parity, so every place may hold a number.
fn back(r: &mut Rec, kinds: Kinds, c: &[f64]) {
    let whole = c.iter().map(|&x| x as i64).collect();
    say(r, &Call::of(kinds, c), Ok(whole));
}

/// In each place the least power of two that all the cuts above it can halve, and half of it, which is odd at the last of them.
fn halvings(r: &mut Rec) {
    for (letters, degree) in [("CFM", 5), ("CFD", 7), ("COM", 12), ("CED", 31)] {
        for place in 0..=degree {
            let put = |number: i64| with(zeros(letters, degree), &[(place, number)]);
            let halved = |k: &u32| put(1 << k).answer().is_ok();
            let times = (0..63).find(halved).expect("a number that is even enough");
            let call = put(1 << times);
            r.rebuild(&call, &call.answer());
            if times > 0 {
                say(r, &put(-1 << (times - 1)), Err(34));
            }
        }
    }
}

/// Two numbers, the second of which is halved and added to the first: the sum is just beyond i64.
const BEYOND: [(i64, i64); 4] = [(MAX, 2), (MIN, -2), (HALF + 1, MAX - 1), (-HALF - 1, MIN)];

/// Two such numbers, and their sum at an end of i64 or beside it.
const WITHIN: [(i64, i64, i64); 6] = [
    (MAX, 0, MAX),
    (MAX, -2, MAX - 1),
    (MIN, 0, MIN),
    (MIN, 2, MIN + 1),
    (HALF, MAX - 1, MAX),
    (-HALF, MIN, MIN),
];

/// Sums at the ends of i64 and beyond them.
fn sums(r: &mut Rec) {
    let fifth = |places: &[(usize, i64)]| with(zeros("CFM", 5), places);
    // At degree 5 the cut of the low part adds half of the fourth number to the second; at degree 7 the outer cut adds half of the
    // sixth to the fourth.
    for (x, q, sum) in WITHIN {
        let back = vec![0, sum, 0, q / 2, 0, 0];
        say(r, &fifth(&[(1, x), (3, q)]), Ok(back));
        let back = vec![0, 0, 0, sum, 0, q / 2, 0, 0];
        say(r, &with(seventh(), &[(3, x), (5, q)]), Ok(back));
    }
    for (x, q) in BEYOND {
        say(r, &fifth(&[(1, x), (3, q)]), Err(34));
        say(r, &with(seventh(), &[(3, x), (5, q)]), Err(34));
        // The first number of a high part is neither halved nor added.
        let back = vec![0, 0, 0, x, q];
        say(r, &with(zeros("CFD", 4), &[(3, x), (4, q)]), Ok(back));
    }
    // The outer cut of degree 5 adds half of the last number to half of the fourth.
    for (q, sum) in [(MAX - 1, MAX - 1), (MIN, MIN)] {
        let back = vec![0, q / 2, 0, sum, 0, q / 2];
        say(r, &fifth(&[(3, q), (5, q)]), Ok(back));
    }
    inner_sums(r);
}

/// Sums at an inner cut that the outer cut halves or brings back to i64.
fn inner_sums(r: &mut Rec) {
    // At degree 7 the cut of the high part adds half of the last number to the sixth, and the outer cut halves the sum.
    for (x, q) in [(HALF, MAX - 3), (-HALF, MIN)] {
        let (first, last) = ((x + q / 2) / 2, q / 4);
        let back = vec![0, last, 0, first, 0, first, 0, last];
        say(r, &with(seventh(), &[(5, x), (7, q)]), Ok(back));
    }
    let beyond = [
        (HALF + 2, MAX - 3),
        (-HALF - 2, MIN),
        (MAX - 1, 4),
        (MIN, -4),
    ];
    for (x, q) in beyond {
        say(r, &with(seventh(), &[(5, x), (7, q)]), Err(34));
    }
    say(r, &cancelled(), Err(34));
    let other_sign = [(3, MIN), (5, -2), (13, 4)];
    say(r, &with(cancelled(), &other_sign), Err(34));
    let back = vec![0, 0, 0, MAX - 1, 0, 0, 0, 0, 0, 0, 0, -1, 0, -1];
    say(r, &with(cancelled(), &[(3, MAX - 1)]), Ok(back));
}

/// The call with other numbers in some places.
fn with(mut call: Call, places: &[(usize, i64)]) -> Call {
    for &(place, number) in places {
        call.lists[place] = number;
    }
    call
}

/// The least and the greatest number where nothing is done to them.
fn kept(r: &mut Rec) {
    let all = [MIN, MAX, MIN, MAX, MIN, MAX];
    for letters in ["MFD", "MEM", "MOD", "MFM"] {
        let mut call = zeros(letters, 5);
        call.lists = all.to_vec();
        say(r, &call, Ok(all.to_vec()));
    }
    let least = [MIN, 0, MIN, 0, MIN, 0];
    let mut call = zeros("CFM", 5);
    call.lists = least.to_vec();
    say(r, &call, Ok(least.to_vec()));
    // One list, with nothing to undo.
    let mut call = zeros("CFD", 1);
    call.lists = vec![MIN, MAX];
    say(r, &call, Ok(vec![MIN, MAX]));
}

/// Boundaries off by one or exchanged, and another base.
fn boundaries(r: &mut Rec) {
    for bounds in [
        [1, 4, 6],
        [3, 4, 6],
        [2, 3, 6],
        [2, 5, 6],
        [2, 4, 5],
        [2, 4, 7],
        [4, 2, 6],
        [0, 2, 4],
        [2, 4, 0],
        [2, 4, 65_535],
    ] {
        let bounds = bounds.to_vec();
        say(r, &Call { bounds, ..fifth() }, Err(33));
    }
    for base in [0, 1, 3, 4, 8, 65_538, (1 << 32) + 2, MOST] {
        say(r, &Call { base, ..fifth() }, Err(33));
    }
    // The lists of degree 7 if the high part were not listed again.
    let mut call = seventh();
    call.bounds = vec![4, 8];
    say(r, &call, Err(33));
}

/// Buffers that end too early, and such with more behind.
fn buffers(r: &mut Rec) {
    let rebuilt = || Ok(vec![1, 2, 3, 4, 5, 6]);
    for n in 0..=2 {
        let bounds = fifth().bounds[..n].to_vec();
        say(r, &Call { bounds, ..fifth() }, Err(33));
    }
    for n in [0, 1, 5] {
        let lists = fifth().lists[..n].to_vec();
        say(r, &Call { lists, ..fifth() }, Err(33));
        say(r, &Call { room: n, ..fifth() }, Err(21));
    }
    for room in [7, 100] {
        say(r, &Call { room, ..fifth() }, rebuilt());
    }
    for junk in [[0, 0, 0], [7, 1, -3], [MAX, MIN, MAX], [MIN, MIN, 1]] {
        let lists = [fifth().lists, junk.to_vec()].concat();
        say(r, &Call { lists, ..fifth() }, rebuilt());
    }
    for junk in [[6, 6, 6], [0, 3, 1], [8, 10, 12], [65_535, 0, 5]] {
        let bounds = [fifth().bounds, junk.to_vec()].concat();
        say(r, &Call { bounds, ..fifth() }, rebuilt());
    }
}

/// Degrees out of range and such that have other lists; and a shorter curve, read from the front of a longer one's lists.
fn degrees(r: &mut Rec) {
    for (degree, refusal) in [
        (0, 1),
        (4_096, 2),
        (65_541, 2),
        ((1 << 32) + 5, 2),
        (MOST, 2),
    ] {
        say(r, &Call { degree, ..fifth() }, Err(refusal));
    }
    for degree in [2, 4, 6, 4_095] {
        say(r, &Call { degree, ..fifth() }, Err(33));
    }
    for (degree, front) in [(1, vec![1, 4]), (3, vec![1, 2, 3, -2])] {
        say(r, &Call { degree, ..fifth() }, Ok(front));
    }
}

/// Calls with several things wrong: 2 or 1, then 33, then 34, then 21.
fn order(r: &mut Rec) {
    for (degree, refusal) in [(4_096, 2), (0, 1), (5, 33)] {
        let nothing = Call {
            kinds: kinds("CFM"),
            degree,
            base: 0,
            lists: vec![],
            bounds: vec![],
            room: 0,
        };
        say(r, &nothing, Err(refusal));
    }
    let odd = with(fifth(), &[(5, 11)]);
    let beyond = with(zeros("CFM", 5), &[(1, MAX), (3, 2)]);
    for (wrong, refusal) in [(odd, 34), (beyond, 34), (fifth(), 21)] {
        for room in [0, 5] {
            let mut call = wrong.clone();
            call.room = room;
            say(r, &call, Err(refusal));
            call.base = 4;
            say(r, &call, Err(33));
            call.base = 2;
            call.bounds[2] = 7;
            say(r, &call, Err(33));
        }
    }
}

/// A random call of a low degree, if a line can tell its kinds.
fn any(r: &mut Rec, g: &mut Rng) {
    let degree = 1 + g.below(15);
    let (_, mut call) = random(g, degree);
    if settings(call.kinds).is_none() {
        return;
    }
    call.degree = call.degree.min(MOST);
    call.base = call.base.min(MOST);
    r.rebuild(&call, &call.answer());
}
