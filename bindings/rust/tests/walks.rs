//! Plans of seeded random polynomials, walked: the value at every point is that of the polynomial, worked out directly.

mod common;

use common::{allows, value, Numbers, BASES, PARITIES, STRATEGIES};
use firrozun::buffers::{heaviest_chain, plan_into, trial_walk, PlanBuffers};
use firrozun::buffers::{BOUNDARY_ROOM, COEFFICIENT_ROOM, STEP_ROOM};
use firrozun::{Basis, Parity, Plan, Polynomial, Refusal, SplitStrategy, Step};

/// The interval of a plan that names none.
const UNIT: (f64, f64) = (-1.0, 1.0);
const POINTS: [i64; 7] = [0, 1, -1, 2, -3, i64::MAX, i64::MIN];
const MODULI: [u64; 4] = [2, 1_000_003, 2_147_483_646, 2_147_483_647];

/// Coefficients of a parity whose magnitudes sum to 2^30 at most.
fn coefficients(numbers: &mut Numbers, parity: Parity, count: usize) -> Vec<i64> {
    let most = (1i64 << 30) / count as i64;
    let most = numbers.one_of(&[1, 9, most]).min(most);
    (0..count)
        .map(|j| {
            let c = numbers.within(most);
            if allows(parity, j) {
                c
            } else {
                0
            }
        })
        .collect()
}

fn walks(basis: Basis, coeffs: &[i64], plan: &Plan, numbers: &mut Numbers) {
    for point in POINTS
        .into_iter()
        .chain([numbers.next() as i64, numbers.within(1000)])
    {
        let modulus = numbers.one_of(&MODULI);
        assert_eq!(
            plan.walk(point, modulus),
            Ok(value(basis, coeffs, point, modulus)),
            "{basis:?} {coeffs:?} at {point} modulo {modulus}"
        );
    }
}

/// What the plan's parts say of one another.
fn is_whole(plan: &Plan) {
    let head = plan.head();
    assert_eq!(plan.lists().count(), head.lists);
    assert_eq!(
        plan.lists().map(<[i64]>::len).sum::<usize>(),
        head.coefficients
    );
    assert_eq!(plan.coefficients().len(), head.coefficients);
    assert_eq!(
        plan.lists().flatten().copied().collect::<Vec<_>>(),
        plan.coefficients()
    );
    assert!(plan
        .lists()
        .all(|list| !list.is_empty() && list.len() <= head.base));
    assert_eq!(plan.steps().count(), head.steps);
    assert_eq!(
        plan.steps().flat_map(Step::numbers).collect::<Vec<_>>(),
        plan.step_numbers()
    );
    let slow = |step: &Step| matches!(step, Step::Power { .. } | Step::Combine { .. });
    assert_eq!(
        plan.steps().filter(slow).count() + head.transform.extra_depth(),
        head.ct_ct
    );
    let loads = plan.steps().filter_map(|step| match step {
        Step::Load { list } => Some(usize::from(list)),
        _ => None,
    });
    assert!(loads.eq(0..head.lists));
}

fn plan_and_walk(
    numbers: &mut Numbers,
    basis: Basis,
    parity: Parity,
    strategy: SplitStrategy,
    count: usize,
) -> usize {
    let coeffs = coefficients(numbers, parity, count);
    let p = Polynomial::new_with_parity(basis, coeffs.clone(), parity);
    let plan = p.plan(strategy).expect("an accepted polynomial");
    is_whole(&plan);
    walks(basis, &coeffs, &plan, numbers);
    let least = match parity {
        Parity::Full => return 1,
        Parity::Even => 2,
        Parity::Odd => 3,
    };
    if count <= least {
        assert_eq!(p.plan_folded(strategy), Err(Refusal::FoldLow));
        return 1;
    }
    let plan = p.plan_folded(strategy).expect("an accepted polynomial");
    is_whole(&plan);
    walks(basis, &coeffs, &plan, numbers);
    2
}

#[test]
fn every_degree_to_129_in_every_setting() {
    let numbers = &mut Numbers(1);
    for basis in BASES {
        for parity in PARITIES {
            for strategy in STRATEGIES {
                for count in 2..=130 {
                    plan_and_walk(numbers, basis, parity, strategy, count);
                }
            }
        }
    }
}

#[test]
fn thousands_of_random_polynomials() {
    let numbers = &mut Numbers(2);
    let mut plans = 0;
    for _ in 0..5000 {
        let (basis, parity) = (numbers.one_of(&BASES), numbers.one_of(&PARITIES));
        let strategy = numbers.one_of(&STRATEGIES);
        let end = numbers.one_of(&[10, 40, 300]);
        let count = 2 + numbers.below(end) as usize;
        plans += plan_and_walk(numbers, basis, parity, strategy, count);
    }
    assert!(plans > 5000);
}

#[test]
fn degrees_about_powers_of_two_up_to_the_limit() {
    let numbers = &mut Numbers(3);
    for count in [
        255, 256, 257, 511, 512, 513, 1023, 1024, 1025, 2047, 2048, 2049, 4094, 4095, 4096,
    ] {
        for basis in BASES {
            for parity in PARITIES {
                for strategy in STRATEGIES {
                    plan_and_walk(numbers, basis, parity, strategy, count);
                }
            }
        }
    }
}

/// The memory that a `Plan` reserves is enough at every degree, and what the README says is enough, too.
#[test]
fn every_degree_gets_a_plan() {
    let zeros = vec![0; COEFFICIENT_ROOM];
    let mut coefficients = vec![0; COEFFICIENT_ROOM];
    let mut boundaries = vec![0; BOUNDARY_ROOM];
    let mut steps = vec![0; STEP_ROOM];
    for count in 2..=COEFFICIENT_ROOM {
        let basis = BASES[count & 1];
        for parity in PARITIES {
            for strategy in STRATEGIES {
                let coeffs = &zeros[..count];
                let plan = Plan::new(basis, coeffs, parity, strategy, false);
                let buffers = PlanBuffers {
                    coefficients: &mut coefficients,
                    boundaries: &mut boundaries,
                    steps: &mut steps,
                };
                let lent = plan_into(strategy, parity, basis, false, coeffs, UNIT, buffers);
                assert_eq!(plan.map(|plan| *plan.head()), lent);
                assert!(lent.is_ok());
                let fold = parity != Parity::Full && count > 3;
                assert!(!fold || Plan::new(basis, coeffs, parity, strategy, true).is_ok());
            }
        }
    }
}

#[test]
fn lent_buffers_hold_the_same_plans() {
    let numbers = &mut Numbers(4);
    let mut coefficient_buffer = vec![-7; COEFFICIENT_ROOM];
    let mut boundary_buffer = vec![7; BOUNDARY_ROOM];
    let mut step_buffer = vec![7; STEP_ROOM];
    for _ in 0..1000 {
        let (basis, parity) = (numbers.one_of(&BASES), numbers.one_of(&PARITIES));
        let (strategy, fold) = (numbers.one_of(&STRATEGIES), numbers.one_of(&[false, true]));
        let count = numbers.below(70) as usize;
        let coeffs = coefficients(numbers, parity, count.max(1));
        let buffers = PlanBuffers {
            coefficients: &mut coefficient_buffer,
            boundaries: &mut boundary_buffer,
            steps: &mut step_buffer,
        };
        let head = plan_into(strategy, parity, basis, fold, &coeffs, UNIT, buffers);
        let plan = Plan::new(basis, &coeffs, parity, strategy, fold);
        assert_eq!(
            head,
            plan.as_ref()
                .map(|plan| *plan.head())
                .map_err(|&refusal| refusal)
        );
        let (Ok(head), Ok(plan)) = (head, plan) else {
            continue;
        };
        assert_eq!(
            coefficient_buffer[..head.coefficients],
            *plan.coefficients()
        );
        assert_eq!(boundary_buffer[..head.lists], *plan.boundaries());
        assert_eq!(step_buffer[..4 * head.steps], *plan.step_numbers());
        let point = numbers.within(1 << 40);
        // The buffers hold more than the plan, and are walked as the plan.
        assert_eq!(
            trial_walk(
                &head,
                &coefficient_buffer,
                &boundary_buffer,
                &step_buffer,
                point,
                2_147_483_647
            ),
            Ok(value(basis, &coeffs, point, 2_147_483_647))
        );
        let weight = heaviest_chain(
            &head,
            &coefficient_buffer,
            &boundary_buffer,
            &step_buffer,
            30,
            20,
        );
        assert_eq!(weight, plan.heaviest_chain(30, 20));
        assert!(weight.is_ok());
    }
    assert_eq!(coefficient_buffer[200..], vec![-7; COEFFICIENT_ROOM - 200]);
}

#[test]
fn any_head_and_buffers_are_answered() {
    let numbers = &mut Numbers(5);
    let (mut walked, mut refused) = (0, 0);
    for _ in 0..20_000 {
        let basis = numbers.one_of(&BASES);
        let strategy = numbers.one_of(&STRATEGIES);
        let count = 2 + numbers.below(12) as usize;
        let coeffs = coefficients(numbers, Parity::Full, count);
        let plan = Plan::new(basis, &coeffs, Parity::Full, strategy, false).expect("a plan");
        let mut head = *plan.head();
        let mut coefficients = plan.coefficients().to_vec();
        let mut boundaries = plan.boundaries().to_vec();
        let mut steps = plan.step_numbers().to_vec();
        for _ in 0..numbers.below(3) {
            let small = numbers.below(6);
            match numbers.below(9) {
                0 => head.coefficients = numbers.one_of(&[small as usize, usize::MAX]),
                1 => head.lists = numbers.one_of(&[small as usize, usize::MAX]),
                2 => head.steps = numbers.one_of(&[small as usize, usize::MAX / 4 + 1, usize::MAX]),
                3 => head.parity = numbers.one_of(&PARITIES),
                4 => head.transform = numbers.one_of(&common::TRANSFORMS),
                5 => coefficients.truncate(small as usize),
                6 => boundaries[0] = numbers.one_of(&[small as u16, u16::MAX]),
                7 => steps.truncate(numbers.below(30) as usize),
                _ => {
                    let (place, any) = (
                        numbers.below(steps.len().max(1) as u64),
                        numbers.next() as u16,
                    );
                    let number = numbers.one_of(&[small as u16, any]);
                    if let Some(step) = steps.get_mut(place as usize) {
                        *step = number;
                    }
                }
            }
        }
        let weight = heaviest_chain(&head, &coefficients, &boundaries, &steps, 30, 20);
        let point = numbers.next() as i64;
        match trial_walk(&head, &coefficients, &boundaries, &steps, point, 1_000_003) {
            Ok(remainder) => {
                assert!(remainder < 1_000_003);
                assert!(weight.is_ok());
                walked += 1;
            }
            Err(refusal) => {
                assert_eq!(refusal, Refusal::Unwalkable);
                assert_eq!(weight, Err(refusal));
                refused += 1;
            }
        }
    }
    assert!(
        walked > 1000 && refused > 1000,
        "{walked} walked, {refused} refused"
    );
}
