use std::collections::BTreeMap;

use super::random::{Common, damaged, sound};
use super::recorded::{folded, member, two};
use super::*;
use crate::calls::value_mod;
use crate::inputs::Rng;

const PRIME: i128 = (1 << 61) - 1;

/// The numbers of a head: those that are recorded.
fn numbers(head: &Head) -> [usize; 9] {
    [
        head.degree,
        head.base,
        head.transform.into(),
        head.ct,
        head.pt,
        head.depth,
        head.coefficients,
        head.lists,
        head.steps,
    ]
}

#[test]
fn two_curves_that_share_powers() {
    let set = two().answer().unwrap();
    assert_eq!((set.ct, set.pt, set.powers), (5, 7, 3));
    assert_eq!(set.c, [1, 2, 3, 4, 5, 1, 2, 3, 4, 5, 6]);
    assert_eq!(set.bounds, [4, 5, 2, 4, 6]);
    let powers = [[1, 2, 1, 1], [1, 3, 1, 2], [1, 4, 2, 2]];
    let first = [[2, 0, 0, 0], [2, 1, 0, 0], [4, 4, 0, 0]];
    let second = [
        [2, 0, 0, 0],
        [2, 1, 0, 0],
        [3, 2, 0, 0],
        [2, 2, 0, 0],
        [3, 4, 0, 0],
    ];
    let steps = [&powers[..], &first, &second].concat().concat();
    assert_eq!(set.numbers, steps);
    let heads: Vec<_> = set.heads.iter().map(numbers).collect();
    let first = [4, 4, 0, 3, 4, 3, 5, 2, 3];
    let second = [5, 2, 0, 4, 3, 3, 6, 3, 5];
    assert_eq!(heads, [first, second]);
    let ends = |i: usize| (set.heads[i].interval.a, set.heads[i].interval.b);
    assert_eq!((ends(0), ends(1)), ((-1.0, 1.0), (0.0, 4.0)));
    assert_eq!(two().sizes(), Ok([11, 5, 11]));
}

#[test]
fn two_odd_curves_folded() {
    let set = folded().answer().unwrap();
    // Power 2; the fold and twice the product with the input.
    assert_eq!((set.ct, set.pt, set.powers), (1 + 1 + 2, 3, 1));
    assert_eq!(set.c, [-1, 4, 4, -2, 2]);
    assert_eq!(set.bounds, [2, 2, 3]);
    let steps = [
        [1, 2, 1, 1],
        [2, 0, 0, 0],
        [2, 0, 0, 0],
        [2, 1, 0, 0],
        [4, 2, 0, 0],
    ];
    assert_eq!(set.numbers, steps.concat());
    let heads: Vec<_> = set.heads.iter().map(numbers).collect();
    let first = [1, 2, 4, 2, 1, 3, 2, 1, 1];
    let second = [2, 2, 4, 3, 2, 4, 3, 2, 3];
    assert_eq!(heads, [first, second]);
    assert!(set.heads.iter().all(|head| head.parity == 0));
    assert_eq!(folded().sizes(), Ok([5, 3, 5]));
}

/// Both are listed by fours. The even curve needs powers 2 and 4, the odd one 3 too.
#[test]
fn unlike_parities() {
    let mut call = Call::of(&[
        member("CEDN", (0.0, 1.0), &[1, 0, 2, 0, 3, 0, 4]),
        member("CODN", (0.0, 1.0), &[0, 1, 0, 2, 0, 3, 0]),
    ]);
    assert_eq!(call.sizes(), Ok([14, 4, 3 + 3 + 3]));
    call.places = [14, 4, 36];
    let set = call.answer().unwrap();
    let makes: Vec<u16> = set.numbers.chunks(4).take(3).map(|s| s[1]).collect();
    assert_eq!((set.powers, makes), (3, vec![2, 3, 4]));
    let alone: Vec<usize> = set.heads.iter().map(|head| head.ct).collect();
    // Powers 2 and 4, and 2, 3 and 4; a combine each.
    assert_eq!(alone, [3, 4]);
    assert_eq!(set.ct, 3 + 2);
    call.members[0].fold = 1;
    assert_eq!(call.answer().unwrap_err(), 36);
    call.members[1].fold = 1;
    assert_eq!(call.answer().unwrap_err(), 36);
    call.members[0].parity = 2;
    assert_eq!(call.answer().unwrap_err(), 4);
}

/// Each test is ahead of those behind it, and each member of the next one.
#[test]
fn order_of_refusals() {
    let mut call = Call::of(&[
        member("CEMY", (0.0, 0.0), &[1 << 30, 1, 1, 0]),
        member("MOMN", (0.0, 1.0), &[0; 4_097]),
        member("COMY", (0.0, 1.0), &[0]),
    ]);
    call.members[2].strategy = 2;
    call.c.pop();
    let refusal = |call: &Call| call.answer().unwrap_err();
    assert_eq!((refusal(&call), call.sizes()), (43, Err(43)));
    call.members[2].strategy = 1;
    assert_eq!((refusal(&call), call.sizes()), (35, Err(36)));
    call.c.push(0);
    assert_eq!(refusal(&call), 36);
    call.members[1].basis = 1;
    assert_eq!(refusal(&call), 36);
    call.members[1].fold = 1;
    assert_eq!(refusal(&call), 36);
    call.members.iter_mut().for_each(|m| m.parity = 1);
    assert_eq!((refusal(&call), call.sizes()), (4, Err(2)));
    call.c[1] = 0;
    assert_eq!(refusal(&call), 3);
    call.c[2] = 0;
    assert_eq!(refusal(&call), 7);
    call.members[0].b = 1.0;
    assert_eq!((refusal(&call), call.sizes()), (2, Err(2)));
    call.resize(1, 2);
    assert_eq!((refusal(&call), call.sizes()), (6, Err(6)));
    call.resize(1, 3);
    assert_eq!((refusal(&call), call.sizes()), (1, Err(1)));
    call.members.iter_mut().for_each(|m| m.parity = 0);
    assert_eq!((refusal(&call), call.sizes()), (5, Err(5)));
    call.members.iter_mut().for_each(|m| m.parity = 1);
    call.resize(2, 3);
    let [c, lists, steps] = call.sizes().unwrap();
    assert_eq!([c, lists, steps], [6, 3, 3]);
    for (places, number) in [([5, 2, 11], 21), ([6, 2, 11], 22), ([6, 3, 11], 23)] {
        call.places = places;
        assert_eq!(refusal(&call), number);
    }
    call.places[2] = 12;
    assert!(call.answer().is_ok());
}

/// Lengths whose sum does not fit into a usize, and numbers of members.
#[test]
fn lengths() {
    for counts in [[usize::MAX, 12], [1 << 63, 1 << 63], [12, usize::MAX - 11]] {
        let mut call = two();
        (0..2).for_each(|i| call.members[i].count = counts[i]);
        assert_eq!(call.answer().unwrap_err(), 35);
        assert_eq!(call.sizes(), Err(2));
    }
    for count in [0, 17, 1 << 63, usize::MAX] {
        let mut call = two();
        call.count = count;
        assert_eq!(call.answer().unwrap_err(), 35);
        assert_eq!(call.sizes(), Err(35));
    }
    let mut call = two();
    call.members[2].basis = 7;
    assert!(call.answer().is_ok());
    call.count = 17;
    assert_eq!(call.answer().unwrap_err(), 43);
}

/// The value of a member modulo the prime: the power steps, then the member's own ones, on its own lists.
fn walked(set: &Set, i: usize, x: i64) -> u64 {
    let (head, before) = (&set.heads[i], &set.heads[..i]);
    let sum = |of: fn(&Head) -> usize| before.iter().map(of).sum::<usize>();
    let c = &set.c[sum(|h| h.coefficients)..][..head.coefficients];
    let bounds = &set.bounds[sum(|h| h.lists)..][..head.lists];
    let steps: Vec<&[u16]> = set.numbers.chunks(4).collect();
    let own = &steps[set.powers + sum(|h| h.steps)..][..head.steps];
    let x = i128::from(x).rem_euclid(PRIME);
    let y = match head.transform {
        0 => x,
        1 | 2 => x * x % PRIME,
        _ => (2 * (x * x % PRIME) - 1).rem_euclid(PRIME),
    };
    let mut powers = BTreeMap::from([(0, 1), (1, y)]);
    for step in &steps[..set.powers] {
        let [kind, n, a, b] = step[..] else { panic!() };
        assert_eq!((kind, parts(n.into()).0), (1, a.into()));
        let product = powers[&a] * powers[&b] % PRIME;
        let made = match head.basis {
            0 => product,
            _ => (2 * product - powers[&a.abs_diff(b)]).rem_euclid(PRIME),
        };
        assert!(powers.insert(n, made).is_none(), "power {n} is made twice");
    }
    let mut waiting = vec![];
    for step in own {
        match step[0] {
            2 => {
                let list = step[1] as usize;
                let begin = list.checked_sub(1).map_or(0, |l| bounds[l] as usize);
                let list = c[begin..bounds[list] as usize].iter().enumerate();
                let terms = list
                    .filter(|(_, c)| **c != 0)
                    .map(|(j, &c)| i128::from(c).rem_euclid(PRIME) * powers[&(j as u16)] % PRIME);
                waiting.push(terms.sum::<i128>() % PRIME);
            }
            3 | 4 => {
                let (high, low) = (waiting.pop().unwrap(), waiting.pop().unwrap());
                waiting.push((high * powers[&step[1]] + low) % PRIME);
            }
            kind => panic!("a step of kind {kind} among a member's own"),
        }
    }
    let [value] = waiting[..] else {
        panic!("{waiting:?}")
    };
    let times_input = matches!(head.transform, 2 | 4);
    (if times_input {
        value * x % PRIME
    } else {
        value
    }) as u64
}

/// Each member's walk gives the value of its curve.
#[test]
fn members_are_walked() {
    let g = &mut Rng::new(3);
    for _ in 0..400 {
        let call = sound(g, 300);
        let set = call.answer().unwrap();
        for (i, member) in call.read().iter().enumerate() {
            let (basis, ..) = member.settings().unwrap();
            let c = call.c[call.place(i)].iter();
            let c: Vec<f64> = c.map(|&x| x as f64).collect();
            let x = g.next() as i64;
            let value = value_mod(basis, &c, x, PRIME as u64);
            assert_eq!(walked(&set, i, x), value);
        }
    }
}

/// Costs and sizes beside those of the members planned alone.
#[test]
fn sets_cost_no_more_than_their_members() {
    let g = &mut Rng::new(4);
    for _ in 0..400 {
        let call = sound(g, 100);
        let set = call.answer().unwrap();
        let sum = |of: fn(&Head) -> usize| set.heads.iter().map(of).sum::<usize>();
        assert_eq!(set.pt, sum(|h| h.pt));
        assert_eq!(sum(|h| h.steps), 2 * set.bounds.len() - set.heads.len());
        assert!(set.ct <= sum(|h| h.ct));
        let sizes = [set.c.len(), set.bounds.len(), set.numbers.len() / 4];
        assert_eq!(call.sizes(), Ok(sizes));
        if let [head] = &set.heads[..] {
            assert_eq!(set.ct, head.ct);
        }
        // Twice the same members cost the same powers and fold, and the rest twice.
        if call.count <= MEMBERS / 2 {
            let mut twice = call.clone();
            let read = call.read().len();
            twice.c.truncate(call.place(read - 1).end);
            twice.c.extend_from_within(..);
            (0..read).for_each(|i| twice.members[read + i] = call.members[i]);
            twice.count *= 2;
            twice.fit();
            let double = twice.answer().unwrap();
            let once = set.powers + (call.members[0].fold == 1) as usize;
            assert_eq!(double.powers, set.powers);
            assert_eq!(double.ct, 2 * set.ct - once);
        }
    }
}

/// A refused set of settings and lengths is refused by both calls.
#[test]
fn refused_sizes_are_refused_sets() {
    let g = &mut Rng::new(5);
    for _ in 0..2_000 {
        let (_, call) = damaged(g, 20);
        if call.sizes().is_err() {
            assert!(call.answer().is_err());
        }
    }
    let common = Common {
        basis: 0,
        fold: true,
        parity: Some(0),
    };
    assert_eq!(common.set(g, 3, 9).sizes(), Err(5));
}
