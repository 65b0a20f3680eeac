//! A last list of one after another list: its combine is plain at every degree, and no other is; what MinMult reports beside the
//! estimate; and plans that were stored when only a power of two had such a combine.

mod common;

use common::{allows, settings, value, Numbers};
use firrozun::buffers::{trial_walk, Head};
use firrozun::{bsgs_op_counts, Basis, Parity, Plan, SplitStrategy, Step};

/// Whether the last list is one after another list.
fn lone_last(plan: &Plan) -> bool {
    plan.head().lists > 1 && plan.lists().last().is_some_and(|list| list.len() == 1)
}

/// The combine of a last list of one stands right behind its load; there is no other plain one.
fn plain_behind_its_load(plan: &Plan) {
    let head = plan.head();
    let steps: Vec<Step> = plan.steps().collect();
    let plain = |i: &usize| matches!(steps[*i], Step::CombinePlain { .. });
    let places: Vec<usize> = (0..steps.len()).filter(plain).collect();
    if !lone_last(plan) {
        assert!(places.is_empty(), "{head:?}");
        return;
    }
    let list = head.lists as u16 - 1;
    let power = 1 << head.degree.trailing_zeros();
    assert_eq!(places.len(), 1, "{head:?}");
    assert_eq!(steps[places[0] - 1], Step::Load { list }, "{head:?}");
    assert_eq!(steps[places[0]], Step::CombinePlain { power }, "{head:?}");
}

/// MinMult reports the estimate, the transform's multiplications, and that of a last list of one moved, at a power of two no second time.
fn reports_the_estimate(plan: &Plan) {
    let head = plan.head();
    let (ct, pt) = bsgs_op_counts(head.degree, head.strategy, head.parity, head.basis)
        .expect("the counts of a planned degree");
    let moved = usize::from(lone_last(plan) && !head.degree.is_power_of_two());
    let pair = (ct + head.transform.extra_depth() - moved, pt + moved);
    assert_eq!((head.ct_ct, head.pt_ct), pair, "{head:?}");
}

#[test]
fn every_degree_in_every_setting() {
    let zeros = vec![0; 4096];
    let (mut plans, mut lone) = (0, 0);
    for (strategy, parity, basis, fold) in settings() {
        for degree in 1..=4095 {
            let Ok(plan) = Plan::new(basis, &zeros[..=degree], parity, strategy, fold) else {
                continue;
            };
            plain_behind_its_load(&plan);
            if strategy == SplitStrategy::MinMult {
                reports_the_estimate(&plan);
            }
            plans += 1;
            lone += usize::from(lone_last(&plan));
        }
    }
    // Of 4,095 degrees in 20 settings folds of Even at degree 1 and of Odd at degrees 1 and 2 are refused.
    assert_eq!(plans, 20 * 4095 - 4 - 8);
    assert!(lone > 2000);
}

/// The plan as it was stored before: kind 3 for kind 4, unless the degree is a power of two.
fn stored_before(plan: &Plan) -> (Head, Vec<u16>) {
    let mut head = *plan.head();
    let mut numbers = plan.step_numbers().to_vec();
    if !head.degree.is_power_of_two() {
        for step in numbers.chunks_mut(4).filter(|step| step[0] == 4) {
            step[0] = 3;
            head.ct_ct += 1;
            head.pt_ct -= 1;
        }
    }
    (head, numbers)
}

#[test]
fn plans_stored_before_are_walked_to_the_same_value() {
    let numbers = &mut Numbers(12);
    let mut changed = 0;
    for (strategy, parity, basis, fold) in settings() {
        for degree in (1..=130).chain([252, 504, 1016, 2032, 4088, 4089]) {
            let curve: Vec<i64> = (0..=degree)
                .map(|j| {
                    if allows(parity, j) {
                        numbers.within(9)
                    } else {
                        0
                    }
                })
                .collect();
            let Ok(plan) = Plan::new(basis, &curve, parity, strategy, fold) else {
                continue;
            };
            let (head, steps) = stored_before(&plan);
            changed += usize::from(steps != plan.step_numbers());
            let point = numbers.next() as i64;
            let walked = trial_walk(
                &head,
                plan.coefficients(),
                plan.boundaries(),
                &steps,
                point,
                1_000_003,
            );
            assert_eq!(walked, plan.walk(point, 1_000_003));
            assert_eq!(walked, Ok(value(basis, &curve, point, 1_000_003)));
        }
    }
    assert!(changed > 100);
}

#[test]
fn degree_twelve() {
    let plan = |strategy| {
        let zeros = [0; 13];
        Plan::new(Basis::Monomial, &zeros, Parity::Full, strategy, false).expect("a plan")
    };
    for strategy in [SplitStrategy::MinDepth, SplitStrategy::MinMult] {
        let plan = plan(strategy);
        assert_eq!(plan.head().base, 4);
        assert_eq!((plan.head().ct_ct, plan.head().pt_ct), (6, 10));
        let combines: Vec<Step> = plan
            .steps()
            .filter(|step| matches!(step, Step::Combine { .. } | Step::CombinePlain { .. }))
            .collect();
        let expected = [
            Step::Combine { power: 4 },
            Step::CombinePlain { power: 4 },
            Step::Combine { power: 8 },
        ];
        assert_eq!(combines, expected);
    }
    let estimate = bsgs_op_counts(12, SplitStrategy::MinMult, Parity::Full, Basis::Monomial);
    assert_eq!(estimate, Ok((7, 9)));
}
