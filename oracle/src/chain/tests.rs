//! Small plans with chains worked out by hand, at input scale 30 and coefficient scale 20 where nothing else is said; and each
//! refusal.

use crate::chains::Lent;
use crate::layouts::polynomial_evaluation::split_degree;

/// The plan of a line written with spaces for tabs.
fn planned(line: &str) -> Lent {
    Lent::of(&line.replace(' ', "\t")).expect("a plan")
}

/// A plan without transform: kinds, lengths of lists, steps.
fn lent(basis: u8, parity: u8, lengths: &[usize], steps: &[[u16; 4]]) -> Lent {
    let mut plan = Lent::default();
    (plan.head.basis, plan.head.parity) = (basis, parity);
    for length in lengths {
        plan.c.extend(vec![0; *length]);
        plan.bounds.push(plan.c.len() as u16);
    }
    plan.numbers = steps.concat();
    plan.count();
    plan
}

fn weighs(plan: &Lent, weight: u64) {
    assert_eq!(plan.chain((30, 20)), (0, weight), "{plan:?}");
}

const LOAD: [u16; 4] = [2, 0, 0, 0];
const LOAD_1: [u16; 4] = [2, 1, 0, 0];
const MAKE_2: [u16; 4] = [1, 2, 1, 1];
const MAKE_3: [u16; 4] = [1, 3, 1, 2];
const MAKE_4: [u16; 4] = [1, 4, 2, 2];

#[test]
fn plans_of_lines() {
    // Powers 2, 3 and 4 weigh 30, 60 and 60: the list of four 80, and 5 times power 4 by kind 4 is 80 too.
    let plan = planned("M F D N 1 2 3 4 5");
    assert_eq!(plan.bounds, [4, 5]);
    assert_eq!(plan.numbers[20..], [4, 4, 0, 0]);
    weighs(&plan, 80);
    // By the scales alone: two ct-ct and a pt-ct, through power 3 or power 4.
    assert_eq!(plan.chain((0, 1)), (0, 1));
    assert_eq!(plan.chain((1, 0)), (0, 2));
    assert_eq!(plan.chain((0, 0)), (0, 0));
    assert_eq!(plan.chain((65_535, 65_535)), (0, 196_605));
    // One list of two.
    weighs(&planned("M F D N 1 2"), 20);
    // Chebyshev, by lists of two: 1 4, 3 -4 and 5 12 at powers 2 and 4. The first two make 20 + 30 or, through power 2, 60;
    // the third weighs 20, and through power 4 at 60 the answer 90.
    let plan = planned("C F M N 1 2 3 4 5 6");
    assert_eq!(plan.bounds, [2, 4, 6]);
    weighs(&plan, 90);
    assert_eq!(plan.chain((20, 100)), (0, 120));
}

#[test]
fn folded_plans() {
    // One list of two at power 1, which is the square: 30 + 20, and 30 more for the input.
    weighs(&planned("M E D Y 1 0 1"), 50);
    weighs(&planned("M O D Y 0 1 0 1"), 80);
    weighs(&planned("C E M Y 1 0 1"), 50);
    weighs(&planned("C O M Y 0 1 0 1"), 80);
    // The fold has parity Full: of degree 2, power 2 at 60.
    assert_eq!(planned("C E D Y 1 0 1 0 1").head.parity, 0);
    weighs(&planned("C E D Y 1 0 1 0 1"), 80);
}

#[test]
fn lists() {
    // Nothing but a constant.
    for parity in 0..3 {
        weighs(&lent(0, parity, &[1], &[LOAD]), 0);
    }
    // Even allows no power in a list of two, Odd power 1.
    weighs(&lent(0, 0, &[2], &[LOAD]), 20);
    weighs(&lent(0, 1, &[2], &[LOAD]), 0);
    weighs(&lent(0, 2, &[2], &[LOAD]), 20);
    // An Odd list of three has power 1 alone; power 2 is made, and nothing uses it.
    weighs(&lent(0, 2, &[3], &[MAKE_2, LOAD]), 20);
    weighs(&lent(0, 1, &[3], &[MAKE_2, LOAD]), 50);
    weighs(&lent(0, 0, &[3], &[MAKE_2, LOAD]), 50);
    weighs(&lent(1, 0, &[3], &[MAKE_2, LOAD]), 50);
    // The same with a power made of the unused one.
    weighs(&lent(0, 2, &[3], &[MAKE_2, MAKE_4, LOAD]), 20);
    // A list that no step loads has no weight.
    weighs(&lent(0, 0, &[1, 4], &[LOAD]), 0);
}

#[test]
fn combines() {
    let pair = |lengths: &[usize], step| lent(0, 0, lengths, &[MAKE_2, LOAD, LOAD_1, step]);
    // Through power 2.
    weighs(&pair(&[1, 1], [3, 2, 0, 0]), 60);
    weighs(&pair(&[1, 1], [4, 2, 0, 0]), 50);
    // Through a high list of 50.
    weighs(&pair(&[1, 3], [3, 0, 0, 0]), 80);
    weighs(&pair(&[1, 3], [4, 1, 0, 0]), 70);
    // A low list of 50 gains nothing.
    weighs(&pair(&[3, 1], [3, 1, 0, 0]), 50);
    weighs(&pair(&[3, 1], [4, 0, 0, 0]), 50);
    // A plain constant at power 0: one multiplication all the same.
    weighs(&pair(&[1, 1], [3, 0, 0, 0]), 30);
    weighs(&pair(&[1, 1], [4, 0, 0, 0]), 20);
    // High is the value pushed last: (1 1) + 3 at the inner combine, then the outer one.
    let steps = [MAKE_2, LOAD, LOAD, LOAD_1, [3, 0, 0, 0], [4, 0, 0, 0]];
    weighs(&lent(0, 0, &[1, 3], &steps), 100);
    let steps = [MAKE_2, LOAD_1, LOAD, LOAD, [3, 0, 0, 0], [4, 0, 0, 0]];
    weighs(&lent(0, 0, &[1, 3], &steps), 50);
    let steps = [MAKE_2, LOAD, LOAD_1, [3, 0, 0, 0], LOAD, [4, 0, 0, 0]];
    weighs(&lent(0, 0, &[1, 3], &steps), 80);
}

#[test]
fn distances() {
    // T_7 is of T_3 and T_4 at distance 1, T_10 of T_7 and T_3 at distance 4: 90 and 120. By the split a distance is never
    // heavier than the parts.
    let makes = [MAKE_2, MAKE_3, MAKE_4, [1, 7, 3, 4], [1, 10, 7, 3]];
    let steps = [&makes[..], &[LOAD, LOAD, [3, 10, 0, 0]]].concat();
    weighs(&lent(1, 0, &[1], &steps), 150);
    weighs(&lent(0, 0, &[1], &steps), 150);
    // T_9 is of T_7 and T_2 at distance 5, and T_5 of T_3 and T_2: without it there is no T_9, in Chebyshev.
    let makes = [
        MAKE_2,
        MAKE_3,
        MAKE_4,
        [1, 7, 3, 4],
        [1, 5, 3, 2],
        [1, 9, 7, 2],
    ];
    let steps = [&makes[..], &[LOAD, LOAD, [4, 9, 0, 0]]].concat();
    weighs(&lent(1, 0, &[1], &steps), 140);
    let steps = [&makes[..4], &makes[5..], &[LOAD, LOAD, [4, 9, 0, 0]]].concat();
    weighs(&lent(0, 0, &[1], &steps), 140);
    assert_eq!(lent(1, 0, &[1], &steps).chain((30, 20)), (24, 0));
}

#[test]
fn transforms() {
    let mut plan = lent(0, 0, &[4], &[MAKE_2, MAKE_3, LOAD]);
    // Of either basis.
    for (transform, weight) in [(0, 80), (1, 110), (2, 140), (3, 110), (4, 140)] {
        plan.head.transform = transform;
        weighs(&plan, weight);
        plan.head.basis = 1 - plan.head.basis;
        weighs(&plan, weight);
    }
    // A constant times the input.
    let mut plan = lent(0, 0, &[1], &[LOAD]);
    for (transform, weight) in [(0, 0), (1, 0), (2, 30), (3, 0), (4, 30)] {
        plan.head.transform = transform;
        weighs(&plan, weight);
    }
}

/// All powers are made, rising: power 4,095 is 12 multiplications deep.
#[test]
fn limits() {
    let makes: Vec<[u16; 4]> = (2..=4_095)
        .map(|n| {
            let (a, b) = split_degree(n);
            [1, n as u16, a as u16, b as u16]
        })
        .collect();
    let steps = [&makes[..], &[LOAD]].concat();
    for basis in 0..2 {
        for parity in 0..3 {
            weighs(&lent(basis, parity, &[4_096], &steps), 380);
        }
        // Place 4,096 is not allowed in an Odd list.
        weighs(&lent(basis, 2, &[4_097], &steps), 380);
        for parity in 0..2 {
            assert_eq!(lent(basis, parity, &[4_097], &steps).chain((30, 20)).0, 24);
        }
        assert_eq!(lent(basis, 2, &[4_098], &steps).chain((30, 20)).0, 24);
    }
    // The heaviest plan: the square, power 4,095, its list, 15 combines one in another, the input; 30 multiplications.
    let deep = |count: usize| {
        let loads = vec![LOAD; count];
        let combines = vec![[3, 4_095, 0, 0]; count - 1];
        let mut plan = lent(0, 0, &[4_096], &[makes.clone(), loads, combines].concat());
        plan.head.transform = 2;
        plan.chain((65_535, 65_535))
    };
    assert_eq!(deep(16), (0, 30 * 65_535));
    assert_eq!(deep(15), (0, 29 * 65_535));
    assert_eq!(deep(17), (24, 0));
}

#[test]
fn refusals() {
    let plan = planned("M F D N 1 2 3 4 5");
    let broken = lent(0, 0, &[1], &[]);
    let mut unknown = broken.clone();
    unknown.head.transform = 5;
    for scales in [(65_536, 0), (0, 65_536), (usize::MAX, usize::MAX)] {
        assert_eq!(plan.chain(scales), (10, 0));
        assert_eq!(broken.chain(scales), (10, 0));
        assert_eq!(unknown.chain(scales), (43, 0));
    }
    assert_eq!(plan.chain((65_535, 65_535)).0, 0);
    assert_eq!(broken.chain((65_535, 65_535)), (24, 0));
    let kinds: [fn(&mut Lent); 4] = [
        |p| p.head.basis = 2,
        |p| p.head.parity = 3,
        |p| p.head.strategy = 2,
        |p| p.head.transform = 255,
    ];
    for damage in kinds {
        let mut plan = plan.clone();
        damage(&mut plan);
        assert_eq!(plan.chain((30, 20)), (43, 0));
    }
}

/// The hand-made plans that are recorded for the trial walk: it refuses one with 24 exactly if the chain is refused with 24.
#[test]
fn recorded_plans() {
    let recorded = include_str!("../../../crates/replay_plans/stdin");
    let mut seen = [0, 0];
    for line in recorded.lines().filter(|l| l.starts_with("trial_walk\t")) {
        let mut fields = line.split('\t').skip(1);
        let mut next = || fields.next().expect("a field");
        let kind = |letters: &str, letter: &str| letters.find(letter).expect("a kind") as u8;
        let mut plan = Lent::default();
        plan.head.basis = kind("MC", next());
        plan.head.parity = kind("FEO", next());
        plan.head.transform = next().parse().unwrap();
        plan.head.coefficients = next().parse().unwrap();
        plan.head.lists = next().parse().unwrap();
        plan.head.steps = next().parse().unwrap();
        let (_point, _modulus) = (next(), next());
        let mut list = || -> Vec<i64> {
            let count = next().parse().unwrap();
            (0..count).map(|_: usize| next().parse().unwrap()).collect()
        };
        plan.c = list();
        plan.bounds = list().iter().map(|&n| n as u16).collect();
        plan.numbers = list().iter().map(|&n| n as u16).collect();
        assert_eq!(next(), "=");
        let refusal: u8 = next().parse().unwrap();
        if refusal != 11 {
            assert_eq!(plan.chain((30, 20)).0, refusal, "{line}");
            seen[(refusal == 24) as usize] += 1;
        }
    }
    assert!(seen[0] > 40 && seen[1] > 30, "{seen:?}");
}
