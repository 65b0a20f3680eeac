//! Lent plans for the comparison of chains: random ones that can be walked, and damages.

use crate::chain::{Head, Interval};
use crate::chains::Lent;
use crate::inputs::{Rng, float};
use crate::split::parts;

/// Plans at the limits of the walk: all powers with one list of about 4,096 places, and about 16 values waiting.
pub fn limits() -> Vec<Lent> {
    let mut plans = vec![];
    for (basis, parity) in (0..6).map(|k| (k / 3, k % 3)) {
        let mut powers = Lent::default();
        (powers.head.basis, powers.head.parity) = (basis, parity);
        for n in 2..=4_095 {
            let (a, b, _) = parts(n);
            powers.numbers.extend([1, n as u16, a as u16, b as u16]);
        }
        for length in [4_095, 4_096, 4_097, 4_098, 65_535] {
            let mut plan = powers.clone();
            plan.c = vec![0; length];
            plan.bounds = vec![length as u16];
            plan.numbers.extend([2, 0, 0, 0]);
            plan.count();
            plans.push(plan);
        }
        for waiting in [15, 16, 17] {
            for kind in [3, 4] {
                let mut plan = powers.clone();
                plan.head.transform = kind as u8;
                plan.c = vec![0; 4_096];
                plan.bounds = vec![4_096];
                (0..waiting).for_each(|_| plan.numbers.extend([2, 0, 0, 0]));
                (1..waiting).for_each(|_| plan.numbers.extend([kind, 4_095, 0, 0]));
                plan.count();
                plans.push(plan);
            }
        }
    }
    plans
}

/// A plan that no plan call makes, and that can be walked: makes in any order, any list as often as wanted, combines of both kinds
/// at any power.
pub fn random(g: &mut Rng) -> Lent {
    let mut plan = Lent::default();
    let head = &mut plan.head;
    (head.basis, head.parity) = (g.below(2) as u8, g.below(3) as u8);
    (head.strategy, head.transform) = (g.below(2) as u8, g.below(5) as u8);
    let top = g.pick(&[4, 9, 18, 40]);
    // List 0 can always be loaded.
    let mut lengths = vec![1];
    (0..g.below(6)).for_each(|_| lengths.push(1 + g.below(top)));
    for &length in &lengths {
        let more = (0..length).map(|_| g.below(19) as i64 - 9);
        plan.c.extend(more.collect::<Vec<_>>());
        plan.bounds.push(plan.c.len() as u16);
    }
    let mut powers = vec![0, 1];
    let mut waiting = 0;
    let steps = if g.one_in(100) { 2_000 } else { 40 };
    // Now and then loads come first, so that 16 values wait.
    let kinds = if g.one_in(10) { 2 } else { 3 };
    for _ in 0..g.below(steps) {
        match g.below(kinds) {
            0 => make(g, &mut plan, &mut powers, top),
            1 if waiting < 16 => {
                let i = g.below(lengths.len());
                let i = if loads(&plan, lengths[i], &powers) {
                    i
                } else {
                    0
                };
                plan.numbers.extend([2, i as u16, 0, 0]);
                waiting += 1;
            }
            _ if waiting > 1 => {
                combine(g, &mut plan, &powers);
                waiting -= 1;
            }
            _ => {}
        }
    }
    if waiting == 0 {
        plan.numbers.extend([2, 0, 0, 0]);
    }
    (1..waiting).for_each(|_| combine(g, &mut plan, &powers));
    plan.count();
    plan
}

/// Makes a power if its parts are there.
fn make(g: &mut Rng, plan: &mut Lent, powers: &mut Vec<usize>, top: usize) {
    let n = 2 + g.below(top);
    let (a, b, distance) = parts(n);
    let third = if plan.head.basis == 1 { distance } else { 0 };
    if !powers.contains(&n) && [a, b, third].iter().all(|p| powers.contains(p)) {
        plan.numbers.extend([1, n as u16, a as u16, b as u16]);
        powers.push(n);
    }
}

fn loads(plan: &Lent, length: usize, powers: &[usize]) -> bool {
    let odd = plan.head.parity == 2;
    let step = if plan.head.parity == 0 { 1 } else { 2 };
    let mut allowed = (if odd { 1 } else { step }..length).step_by(step);
    allowed.all(|j| powers.contains(&j))
}

fn combine(g: &mut Rng, plan: &mut Lent, powers: &[usize]) {
    let (kind, power) = (g.pick(&[3, 3, 4]), g.pick(powers));
    plan.numbers.extend([kind, power as u16, 0, 0]);
}

/// Any four numbers: nothing may depend on the interval.
pub fn interval(g: &mut Rng) -> Interval {
    let [a, b, u, w] = [(); 4].map(|()| {
        let kind = g.pick(&[2, 3]);
        float(g, kind)
    });
    Interval { a, b, u, w }
}

/// One damage; some leave a plan that can be walked.
pub fn damage(g: &mut Rng, plan: &mut Lent) {
    match g.below(20) {
        0 | 1 => kind(g, &mut plan.head),
        2 => count(g, &mut plan.head),
        3 => unread(g, plan),
        4 => shorten(g, plan),
        5 => lengthen(g, plan),
        6 | 7 => boundary(g, &mut plan.bounds),
        _ => step(g, plan),
    }
}

/// Another kind, now and then an unknown one.
fn kind(g: &mut Rng, head: &mut Head) {
    let (unknown, any) = (g.one_in(6), g.next() as u8);
    let kinds = [
        (&mut head.basis, 2),
        (&mut head.parity, 3),
        (&mut head.strategy, 2),
        (&mut head.transform, 5),
    ];
    let (field, known) = kinds.into_iter().nth(g.below(4)).expect("a kind");
    *field = if unknown {
        g.pick(&[known, known + 1, 255, any])
    } else {
        g.below(known as usize) as u8
    };
}

fn count(g: &mut Rng, head: &mut Head) {
    let counts = [&mut head.coefficients, &mut head.lists, &mut head.steps];
    let field = counts.into_iter().nth(g.below(3)).expect("a count");
    let (more, less) = (field.wrapping_add(1), field.wrapping_sub(1));
    *field = g.pick(&[more, less, less, 0, *field / 2, usize::MAX, 1 << 62]);
}

/// What is not read: the rest of the head, and the coefficients' numbers.
fn unread(g: &mut Rng, plan: &mut Lent) {
    let n = g.next() as usize;
    let head = &mut plan.head;
    match g.below(7) {
        0 => head.degree = n,
        1 => head.base = n,
        2 => head.ct = n,
        3 => head.pt = n,
        4 => head.depth = n,
        5 => head.interval = interval(g),
        _ => plan.c.iter_mut().for_each(|c| *c = g.next() as i64),
    }
}

/// A buffer without its end.
fn shorten(g: &mut Rng, plan: &mut Lent) {
    let less = |g: &mut Rng, n: usize| {
        if g.one_in(2) {
            n.saturating_sub(1)
        } else {
            g.below(n + 1)
        }
    };
    match g.below(3) {
        0 => plan.c.truncate(less(g, plan.c.len())),
        1 => plan.bounds.truncate(less(g, plan.bounds.len())),
        _ => plan.numbers.truncate(less(g, plan.numbers.len())),
    }
}

/// A buffer with more behind its end; now and then the head counts it.
fn lengthen(g: &mut Rng, plan: &mut Lent) {
    let more = 1 + g.below(9);
    let counted = g.one_in(4);
    match g.below(3) {
        0 => plan.c.extend(vec![7; more]),
        1 => plan.bounds.extend(vec![g.next() as u16; more]),
        _ => plan.numbers.extend(vec![g.below(5) as u16; more]),
    }
    if counted {
        plan.count();
    }
}

fn boundary(g: &mut Rng, bounds: &mut [u16]) {
    if bounds.is_empty() {
        return;
    }
    let (i, j) = (g.below(bounds.len()), g.below(bounds.len()));
    match g.below(4) {
        0 => bounds.swap(i, j),
        _ => bounds[i] = near(g, bounds[i]),
    }
}

/// A number near another one, or any.
fn near(g: &mut Rng, n: u16) -> u16 {
    let any = g.next() as u16;
    let (more, less) = (n.wrapping_add(1), n.wrapping_sub(1));
    g.pick(&[more, less, more, less, 0, 1, 2, n ^ 1, 2 * (n % 5_000), any])
}

fn step(g: &mut Rng, plan: &mut Lent) {
    let steps = plan.numbers.len() / 4;
    if steps == 0 {
        return;
    }
    let (i, j) = (4 * g.below(steps), 4 * g.below(steps));
    let numbers = &mut plan.numbers;
    match g.below(10) {
        0 => {
            let at = i + g.below(4);
            numbers[at] = near(g, numbers[at]);
        }
        1 => numbers[i + 1] = near(g, numbers[i + 1]),
        2 => (0..4).for_each(|k| numbers.swap(i + k, j + k)),
        // The number of a step goes to another step: a power that may be there, or a list.
        3 | 4 => numbers[i + 1] = numbers[j + 1],
        5 | 6 if matches!(numbers[i], 3 | 4) => numbers[i] = 7 - numbers[i],
        7 => {
            numbers.drain(i..i + 4);
            plan.head.steps = plan.head.steps.wrapping_sub(1);
        }
        8 => {
            let copy = numbers[i..i + 4].to_vec();
            numbers.splice(j..j, copy);
            plan.head.steps = plan.head.steps.wrapping_add(1);
        }
        _ => {
            // A list loaded and combined at the end.
            let list = g.below(plan.bounds.len() + 1) as u16;
            let combine = [g.pick(&[3, 4]), g.pick(&[0, 1, 2, 3, 4]), 0, 0];
            numbers.extend([[2, list, 0, 0], combine].concat());
            plan.head.steps = plan.head.steps.wrapping_add(2);
        }
    }
}
