//! Random calls that rebuild coefficients from lists: sound ones and damaged ones.

use crate::inputs::*;
use crate::rebuild::{Call, Kinds};

const MAX: i64 = i64::MAX;
const MIN: i64 = i64::MIN;

type Numbers = fn(&mut Rng, usize) -> Vec<i64>;
type Damage = fn(&mut Rng, &mut Call);

/// The numbers that lists have, by kinds, each with its name in a table.
pub const NUMBERS: [(&str, Numbers); 4] = [
    ("small numbers", small),
    ("even numbers", even),
    ("one odd number", one_odd),
    ("near 0, 2^61, 2^62, 2^63", near_ends),
];
/// What can be wrong with a call.
pub const DAMAGES: [(&str, Damage); 5] = [
    ("another number", number),
    ("wrong settings", wrong_settings),
    ("short buffers", shorten),
    ("junk beyond", lengthen),
    ("unknown kinds", unknown),
];

/// A call of this degree in any setting, and its row: that of its numbers if it is sound, and behind these that of its first damage.
pub fn random(g: &mut Rng, degree: usize) -> (usize, Call) {
    let mut kinds = any_kinds(g);
    // In the monomial basis nothing is halved or added, so it is the rarer one.
    kinds[2] |= g.one_in(2) as u8;
    let mut call = Call::of(kinds, &vec![0.0; degree + 1]);
    let row = g.below(NUMBERS.len() + DAMAGES.len());
    let Some(first) = row.checked_sub(NUMBERS.len()) else {
        call.lists = NUMBERS[row].1(g, degree + 1);
        return (row, call);
    };
    let (_, numbers) = g.pick(&NUMBERS);
    call.lists = numbers(g, degree + 1);
    DAMAGES[first].1(g, &mut call);
    // More of them bring the order of the refusals out.
    while g.one_in(3) {
        let (_, damage) = g.pick(&DAMAGES);
        damage(g, &mut call);
    }
    (row, call)
}

fn any_kinds(g: &mut Rng) -> Kinds {
    [g.below(2), g.below(3), g.below(2)].map(|kind| kind as u8)
}

/// Small numbers, now and then all of them even.
fn small(g: &mut Rng, n: usize) -> Vec<i64> {
    let most = g.pick(&[1, 3, 20]);
    let scale = g.pick(&[1, 1, 2, 4]);
    (0..n)
        .map(|_| (g.below(2 * most + 1) as i64 - most as i64) * scale)
        .collect()
}

/// Numbers with so many factors of two that no cut meets an odd one.
fn even(g: &mut Rng, n: usize) -> Vec<i64> {
    let bits = g.pick(&[2, 20, 48, 50, 51]);
    (0..n)
        .map(|_| (g.next() as i64 >> (63 - bits)) << 12)
        .collect()
}

/// Such numbers, one of them with a binary digit below.
fn one_odd(g: &mut Rng, n: usize) -> Vec<i64> {
    let mut c = even(g, n);
    let powers = g.pick(&[1, 2, 4, 12]);
    c[g.below(n)] |= 1 << g.below(powers);
    c
}

/// A few numbers near the ends of i64, their halves and quarters, or zero; or two whose sum at a cut is near an end.
fn near_ends(g: &mut Rng, n: usize) -> Vec<i64> {
    let mut c = vec![0; n];
    for _ in 0..g.below(4) {
        c[g.below(n)] = near_end(g);
    }
    let p = 1 << g.below(n.ilog2() as usize + 1);
    let least = p.min(n - p);
    if least > 1 {
        let j = 1 + g.below(least - 1);
        let high = near_end(g) & -g.pick(&[2, 4, 64]);
        let end = if high < 0 { MIN } else { MAX };
        let sum = end as i128 + g.pick(&[-2, -1, 0, 1, 2]);
        c[p + j] = high;
        c[p - j] = within(sum - high as i128 / 2);
    }
    c
}

/// The number of i64 that is nearest.
fn within(x: i128) -> i64 {
    x.clamp(MIN.into(), MAX.into()) as i64
}

/// A number near 0, 2^61, 2^62 or 2^63, of either sign.
fn near_end(g: &mut Rng) -> i64 {
    let end = g.pick(&[0, 1 << 61, 1 << 62, 1i128 << 63]);
    let near = (g.below(9) as i128 - 4) * g.pick(&[1, 2, 4, 4_096]);
    let number = if g.one_in(2) { end + near } else { -end + near };
    within(number)
}

/// Adds a power of two to a number, or puts another in its place.
fn number(g: &mut Rng, call: &mut Call) {
    let power = 1 << g.below(13);
    let other = near_end(g);
    let Some(x) = any_place(g, &mut call.lists) else {
        return;
    };
    *x = match g.below(3) {
        0 => x.wrapping_add(power),
        1 => x.wrapping_sub(1),
        _ => other,
    };
}

/// One of the places; none if there is no place.
fn any_place<'a, T>(g: &mut Rng, list: &'a mut [T]) -> Option<&'a mut T> {
    let at = g.below(list.len().max(1));
    list.get_mut(at)
}

/// Another base, boundary, degree, basis, parity or strategy.
fn wrong_settings(g: &mut Rng, call: &mut Call) {
    match g.below(4) {
        0 => {
            let others = [0, 1, call.base / 2, 1 << 32];
            call.base = near(g, call.base, &others);
        }
        1 => {
            if let Some(end) = any_place(g, &mut call.bounds) {
                let others = [0, 1, *end as usize / 2, 65_535];
                *end = near(g, *end as usize, &others) as u16;
            }
        }
        2 => {
            let others = [0, call.degree / 2, MAX_DEGREE + 1, usize::MAX];
            call.degree = near(g, call.degree, &others);
        }
        _ => call.kinds = any_kinds(g),
    }
}

/// A number beside another one, twice it, one that has its lower half, or any; or one of `others`.
fn near(g: &mut Rng, n: usize, others: &[usize]) -> usize {
    match g.below(8) {
        0 | 1 => n.wrapping_add(1),
        2 | 3 => n.wrapping_sub(1),
        4 => n.wrapping_mul(2),
        5 => n.wrapping_add(1 << g.pick(&[16, 32, 63])),
        6 => g.next() as usize,
        _ => g.pick(others),
    }
}

/// A buffer that ends too early, by one place or by more.
fn shorten(g: &mut Rng, call: &mut Call) {
    let less = |g: &mut Rng, n: usize| match g.below(2) {
        0 => n.saturating_sub(1),
        _ => g.below(n.max(1)),
    };
    match g.below(3) {
        0 => call.lists.truncate(less(g, call.lists.len())),
        1 => call.bounds.truncate(less(g, call.bounds.len())),
        _ => call.room = less(g, call.room),
    }
}

/// Places beyond, in each buffer or in one of them.
fn lengthen(g: &mut Rng, call: &mut Call) {
    let which = g.below(4);
    let more = |g: &mut Rng, k: usize| match which {
        3 => g.below(5),
        _ if which == k => 1 + g.below(4),
        _ => 0,
    };
    for _ in 0..more(g, 0) {
        let junk = [near_end(g), g.next() as i64];
        call.lists.push(g.pick(&junk));
    }
    for _ in 0..more(g, 1) {
        let inside = g.below(call.degree.min(MAX_DEGREE) + 3);
        let junk = [g.next() as u16, inside as u16];
        call.bounds.push(g.pick(&junk));
    }
    call.room += more(g, 2);
}

/// A number of no strategy, parity or basis.
fn unknown(g: &mut Rng, call: &mut Call) {
    let (at, least) = g.pick(&[(0, 2), (1, 3), (2, 2)]);
    call.kinds[at] = g.pick(&[least, least + 1, 128, 254, 255]);
}
