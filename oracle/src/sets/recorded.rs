//! The recorded sets of curves. The answers are those of src/sets.rs; a few were worked out by hand too.

use super::random::{Common, DAMAGES, OWN, damaged, least, setting, sound, spoil_member};
use super::{Call, MEMBERS, Member};
use crate::Rec;
use crate::calls::PARITIES;
use crate::inputs::*;

/// What a recorded line may have: so many numbers in the slice, so many places in each buffer.
const MOST_NUMBERS: usize = 4_100;
const MOST_PLACES: [usize; 3] = [4_096, 1_024, 8_192];
/// The greatest length and number of members.
const MOST: usize = 1 << 63;

/// A member by its letters, on an interval, and its curve.
pub fn member(letters: &str, (a, b): (f64, f64), c: &[i64]) -> (Member, Vec<i64>) {
    let number = |at: usize, of: &str| of.find(&letters[at..at + 1]).expect("a letter") as u8;
    let member = Member {
        strategy: number(2, "DM"),
        parity: number(1, "FEO"),
        basis: number(0, "MC"),
        fold: number(3, "NY"),
        a,
        b,
        count: c.len(),
    };
    (member, c.to_vec())
}

/// The scope's nine-line plan, and 1 to 6 in lists of two: they share powers 2 and 4, and the first needs 3 too.
pub fn two() -> Call {
    let mut call = Call::of(&[
        member("MFDN", (-1.0, 1.0), &[1, 2, 3, 4, 5]),
        member("MFMN", (0.0, 4.0), &[1, 2, 3, 4, 5, 6]),
    ]);
    call.places = [11, 5, 44];
    call
}

/// The scope's odd curve 0 1 0 2, which folds to −1 4 and needs no power, and 0 3 0 0 0 1, which folds to 4 −2 2.
pub fn folded() -> Call {
    let mut call = Call::of(&[
        member("COMY", (-1.0, 1.0), &[0, 1, 0, 2]),
        member("CODY", (-2.0, 2.0), &[0, 3, 0, 0, 0, 1]),
    ]);
    call.places = [5, 3, 20];
    call
}

/// Records the sets for the gate.
pub fn record(r: &mut Rec, g: &mut Rng) {
    by_hand(r);
    alone(r, g);
    buffers(r);
    members(r, g);
    own(r, g);
    lengths(r);
    long(r, g);
    any(r, g);
}

/// Records a set, and its sizes.
fn say(r: &mut Rec, call: &Call) {
    r.plan_set(call, &call.answer());
    r.set_sizes(call, call.sizes());
}

/// Records a set with a refusal that was worked out by hand.
fn refuse(r: &mut Rec, call: &Call, refusal: u8) {
    let answer = call.answer();
    assert_eq!(answer.as_ref().err(), Some(&refusal), "{call:?}");
    r.plan_set(call, &answer);
}

fn by_hand(r: &mut Rec) {
    say(r, &two());
    say(r, &folded());
}

/// One member of every short degree, in every setting.
fn alone(r: &mut Rec, g: &mut Rng) {
    for n in 2..=9 {
        for settings in 0..20 {
            let (common, strategy) = setting(settings);
            if n < least(common.fold, PARITIES[common.parity.unwrap_or(0)]) {
                continue;
            }
            let (member, c) = common.member(g, n);
            let mut call = Call::of(&[(Member { strategy, ..member }, c)]);
            call.fit();
            r.plan_set(&call, &call.answer());
        }
    }
}

/// Each buffer one place too short, and each with places beyond; of several that are too short the first counts.
fn buffers(r: &mut Rec) {
    for call in [two(), folded()] {
        for short in 1..8 {
            let mut call = call.clone();
            let each = call.places.iter_mut().enumerate();
            each.for_each(|(i, n)| *n -= short >> i & 1);
            refuse(r, &call, 21 + (short as u32).trailing_zeros() as u8);
        }
        for i in 0..3 {
            let mut call = call.clone();
            call.places[i] += 3;
            r.plan_set(&call, &call.answer());
            call.places[i] = 0;
            refuse(r, &call, 21 + i as u8);
        }
    }
}

/// No member, one too many, far too many; unlike ones at each place.
fn members(r: &mut Rec, g: &mut Rng) {
    for count in [0, MEMBERS + 1, 256, 1 << 32, MOST] {
        let mut call = two();
        (2..MEMBERS).for_each(|i| call.members[i] = call.members[1]);
        call.count = count;
        refuse(r, &call, 35);
        r.set_sizes(&call, call.sizes());
    }
    // 35 is ahead of 36.
    let mut call = two();
    call.members[1].basis = 1;
    refuse(r, &call, 36);
    call.c.pop();
    refuse(r, &call, 35);
    for (basis, fold, parity) in [(0, false, 1), (1, true, 1), (0, true, 2)] {
        let common = Common {
            basis,
            fold,
            parity: Some(parity),
        };
        let sixteen = common.set(g, MEMBERS, 9);
        say(r, &sixteen);
        for i in [0, 1, 15] {
            for edit in 0..4 {
                let mut call = sixteen.clone();
                let member = &mut call.members[i];
                match edit {
                    0 => member.basis ^= 1,
                    1 => member.fold ^= 1,
                    2 => member.parity = 0,
                    _ => member.parity = 3 - member.parity,
                }
                r.plan_set(&call, &call.answer());
                if i == 1 {
                    r.set_sizes(&call, call.sizes());
                }
            }
        }
        // 36 is ahead of each member's own refusals.
        let mut call = sixteen.clone();
        call.members[0].a = f64::NAN;
        call.members[15].basis ^= 1;
        refuse(r, &call, 36);
    }
}

/// Each refusal of a member, at the first, a middle and the last place, ahead of that of another member and of short buffers.
fn own(r: &mut Rec, g: &mut Rng) {
    too_long(r);
    for refusal in OWN.into_iter().filter(|&n| n != 2) {
        for (members, place) in [(1, 0), (3, 0), (3, 1), (3, 2), (16, 15)] {
            for (fold, parity) in [(false, 2), (true, 1), (true, 2)] {
                // All members have parity `Full` where one has 5, so it is always the first one's.
                if refusal == 5 && place > 0 || refusal == 6 && !fold {
                    continue;
                }
                let common = Common {
                    basis: g.below(2) as u8,
                    fold,
                    parity: Some(parity),
                };
                let mut call = common.set(g, members, 6);
                spoil_member(g, &mut call, place, refusal);
                refuse(r, &call, refusal);
                if matches!(refusal, 1 | 5 | 6) {
                    r.set_sizes(&call, call.sizes());
                }
                let (behind, later) = (place + 1, g.pick(&[1, 3, 4, 7]));
                if behind < members {
                    spoil_member(g, &mut call, behind, later);
                    call.places = [0; 3];
                    refuse(r, &call, refusal);
                }
            }
        }
    }
}

/// Curves that are one coefficient too long, zeros alone, so that the lines stay short: alone, behind another member and ahead of one.
fn too_long(r: &mut Rec) {
    let long = vec![0; MAX_DEGREE + 2];
    let zeros = |c: &[i64]| member("CEMY", (1.0, -1.0), c);
    refuse(r, &Call::of(&[zeros(&long)]), 2);
    let sound = member("CEDY", (0.0, 1.0), &[0, 0, 0]);
    for (other, refusals) in [(sound, [2, 2]), (zeros(&[5]), [1, 2])] {
        for (members, refusal) in [[&other, &zeros(&long)], [&zeros(&long), &other]]
            .iter()
            .zip(refusals)
        {
            let call = Call::of(&members.map(|m| m.clone()));
            assert!(call.c.len() <= MOST_NUMBERS, "a slice that a line may have");
            refuse(r, &call, refusal);
            assert_eq!(call.sizes(), Err(refusal));
            r.set_sizes(&call, call.sizes());
        }
    }
}

/// Lengths that together pass the slice, by one and so far that a usize does not hold their sum; and such that just do not.
fn lengths(r: &mut Rec) {
    let mut call = two();
    call.c.pop();
    refuse(r, &call, 35);
    call.c.clear();
    refuse(r, &call, 35);
    for counts in [[MOST, MOST], [MOST, 1], [1, MOST], [5, 7], [12, 0], [0, 12]] {
        let mut call = two();
        (0..2).for_each(|i| call.members[i].count = counts[i]);
        refuse(r, &call, 35);
        r.set_sizes(&call, call.sizes());
    }
    // Modulo 2^64 the sums are 0, and a number of places that are there.
    for last in [0, 5, 11] {
        let mut call = two();
        call.count = 3;
        call.members[2] = call.members[0];
        let counts = [MOST, MOST, last];
        (0..3).for_each(|i| call.members[i].count = counts[i]);
        refuse(r, &call, 35);
    }
    // A slice with numbers that are not read.
    let mut call = two();
    call.c.extend([i64::MIN, i64::MAX]);
    r.plan_set(&call, &call.answer());
}

/// A few longer curves: their lists are many, and relisted at the ends of bands.
fn long(r: &mut Rec, g: &mut Rng) {
    for (fold, parity, degrees) in [
        (false, 0, &[127, 100, 64][..]),
        (false, 1, &[128, 31]),
        (false, 2, &[121]),
        (true, 1, &[255, 63, 30]),
        (true, 2, &[300, 129]),
    ] {
        for basis in 0..2 {
            let common = Common {
                basis,
                fold,
                parity: Some(parity),
            };
            let members: Vec<(Member, Vec<i64>)> = (degrees.iter().enumerate())
                .map(|(i, degree)| {
                    let (mut member, mut c) = common.member(g, degree + 1);
                    member.strategy = i as u8 % 2;
                    // Small numbers, so that the lines stay short.
                    c.iter_mut().for_each(|x| *x %= 2);
                    (member, c)
                })
                .collect();
            let mut call = Call::of(&members);
            call.fit();
            say(r, &call);
        }
    }
}

/// Random sets, sound ones and damaged ones.
fn any(r: &mut Rec, g: &mut Rng) {
    for (most, sets) in [(6, 20), (12, 15), (40, 12)] {
        for _ in 0..sets {
            let call = sound(g, most);
            say(r, &call);
        }
    }
    let mut rows = [0; DAMAGES.len()];
    while rows.iter().sum::<usize>() < 120 {
        let (row, call) = damaged(g, 8);
        if rows[row] < 25 && recordable(&call) {
            rows[row] += 1;
            say(r, &call);
        }
    }
}

/// Whether a line may have it.
fn recordable(call: &Call) -> bool {
    let read = call.read();
    read.iter()
        .all(|m| m.settings().is_some() && m.count <= MOST)
        && call.count <= MOST
        && call.c.len() <= 200
        && (0..3).all(|i| call.places[i] <= MOST_PLACES[i])
}
