//! Sets of curves: each is held against the plans of its members alone, and its walks against values worked out directly. What sets are refused
//! for is in `tests/set_refusals.rs`.

mod common;

use common::sets::*;
use common::{allows, settings, value, Numbers, BASES, PARITIES, STRATEGIES};
use firrozun::buffers::{
    plan_sizes, set_sizes, trial_walk, Member, MemberPlaces, PlanSizes, SetHead, SET_BOUNDARY_ROOM,
    SET_COEFFICIENT_ROOM, SET_MEMBERS, SET_STEP_ROOM,
};
use firrozun::Basis::{Chebyshev, Monomial};
use firrozun::Parity::{Even, Full, Odd};
use firrozun::SplitStrategy::{MinDepth, MinMult};
use firrozun::{
    Curve, CurveSet, Head, Interval, MemberPlan, Parity, Plan, Polynomial,
    PolynomialInputTransform, Refusal, Step,
};
use std::collections::BTreeMap;

const POINTS: [i64; 6] = [0, 1, -1, 3, i64::MAX, i64::MIN];

fn is_power(step: &Step) -> bool {
    matches!(step, Step::Power { .. })
}

/// What the set must be, put together from the plans of its members alone.
struct Expected {
    powers: Vec<Step>,
    own: Vec<Vec<Step>>,
    heads: Vec<Head>,
    coefficients: Vec<i64>,
    boundaries: Vec<u16>,
}

impl Expected {
    fn of(plans: &[Plan]) -> Self {
        // The union of the power steps, by rising powers. Two members that need a power make it in the same way.
        let mut union = BTreeMap::new();
        for step in plans.iter().flat_map(|plan| plan.steps()) {
            if let Step::Power { n, .. } = step {
                let other = union.insert(n, step);
                assert_eq!(other.unwrap_or(step), step);
            }
        }
        let own = |plan: &Plan| plan.steps().filter(|step| !is_power(step)).collect();
        let head = |plan: &Plan| Head {
            steps: 2 * plan.head().lists - 1,
            ..*plan.head()
        };
        Self {
            powers: union.into_values().collect(),
            own: plans.iter().map(own).collect(),
            heads: plans.iter().map(head).collect(),
            coefficients: plans
                .iter()
                .flat_map(|p| p.coefficients())
                .copied()
                .collect(),
            boundaries: plans.iter().flat_map(|p| p.boundaries()).copied().collect(),
        }
    }

    fn steps(&self) -> Vec<u16> {
        let steps = self.powers.iter().chain(self.own.iter().flatten());
        steps.flat_map(|step| step.numbers()).collect()
    }

    /// Multiplications of two encrypted numbers, counted from the steps and the transforms.
    fn ct_ct(&self) -> usize {
        use PolynomialInputTransform::{ChebyshevT2TimesInput, Identity, SquareTimesInput};
        let combines = self.own.iter().flatten();
        let combines = combines.filter(|step| matches!(step, Step::Combine { .. }));
        let transform = usize::from(self.heads[0].transform != Identity);
        let times_input =
            |head: &&Head| matches!(head.transform, SquareTimesInput | ChebyshevT2TimesInput);
        self.powers.len()
            + combines.count()
            + transform
            + self.heads.iter().filter(times_input).count()
    }

    /// Multiplications of an encrypted number and a plain one, counted from the lists and the steps.
    fn pt_ct(&self, plans: &[Plan]) -> usize {
        let of_list = |parity: Parity, list: &[i64]| {
            let powers = (1..list.len()).filter(|&j| allows(parity, j));
            powers.count()
        };
        let of_lists = |plan: &Plan| -> usize {
            let parity = plan.head().parity;
            plan.lists().map(|list| of_list(parity, list)).sum()
        };
        let plain = self.own.iter().flatten();
        let plain = plain.filter(|step| matches!(step, Step::CombinePlain { .. }));
        plans.iter().map(of_lists).sum::<usize>() + plain.count()
    }
}

/// All that a view of a member tells, held against the member's plan alone.
fn is_the_member(member: MemberPlan, powers: &[Step], plan: &Plan) {
    let head = plan.head();
    assert_eq!(member.head().steps, 2 * head.lists - 1);
    assert_eq!(
        *member.head(),
        Head {
            steps: member.head().steps,
            ..*head
        }
    );
    assert_eq!(member.coefficients(), plan.coefficients());
    assert_eq!(member.boundaries(), plan.boundaries());
    assert!(member.lists().eq(plan.lists()));
    for i in 0..head.lists + 2 {
        assert_eq!(member.list(i), plan.list(i));
    }
    let own = plan.steps().filter(|step| !is_power(step));
    assert!(member.own_steps().eq(own));
    assert!(member.powers().eq(powers.iter().copied()));
    let all = member.powers().chain(member.own_steps());
    assert!(member.steps().eq(all));
    assert_eq!(member.heaviest_chain(40, 30), plan.heaviest_chain(40, 30));
    assert_eq!(member.heaviest_chain(7, 500), plan.heaviest_chain(7, 500));

    let composed = member.to_plan();
    assert_eq!(composed.head().steps, powers.len() + member.head().steps);
    assert_eq!(
        *composed.head(),
        Head {
            steps: composed.head().steps,
            ..*head
        }
    );
    assert!(composed.steps().eq(member.steps()));
    assert_eq!(composed.coefficients(), plan.coefficients());
    assert_eq!(composed.boundaries(), plan.boundaries());
    assert_eq!(composed.polynomial(), plan.polynomial());
    assert_eq!(composed.folded_polynomial(), plan.folded_polynomial());
    assert_eq!(composed.heaviest_chain(40, 30), plan.heaviest_chain(40, 30));
}

/// Every member's walk gives the value of its curve.
fn walks(given: &[Given], set: &CurveSet, numbers: &mut Numbers) {
    for (given, member) in given.iter().zip(set.members()) {
        let (_, _, basis, _) = given.settings;
        for point in POINTS.into_iter().chain([numbers.next() as i64]) {
            let modulus = numbers.one_of(&MODULI);
            let expected = Ok(value(basis, &given.coeffs, point, modulus));
            let walked = member.walk(point, modulus);
            assert_eq!(walked, expected, "{given:?} at {point} modulo {modulus}");
        }
        let (point, modulus) = (numbers.within(1000), 2_147_483_647);
        let walked = member.to_plan().walk(point, modulus);
        assert_eq!(walked, member.walk(point, modulus));
        assert_eq!(member.walk(point, 1), Err(Refusal::Modulus));
    }
}

/// A set is what its members' plans alone say, by the owning call.
fn is_planned(given: &[Given], numbers: &mut Numbers) -> CurveSet {
    let plans: Vec<Plan> = given
        .iter()
        .map(|given| given.alone().expect("an accepted curve"))
        .collect();
    let expected = Expected::of(&plans);
    let set = planned(given);
    assert_eq!(set.len(), given.len());
    assert!(!set.is_empty());
    assert_eq!(set.head().members(), expected.heads, "{given:?}");
    assert_eq!(set.head().powers, expected.powers.len());
    assert!(
        set.powers().eq(expected.powers.iter().copied()),
        "{given:?}"
    );
    assert_eq!(set.step_numbers(), expected.steps(), "{given:?}");
    assert_eq!(set.coefficients(), expected.coefficients, "{given:?}");
    assert_eq!(set.boundaries(), expected.boundaries, "{given:?}");
    let costs = (expected.ct_ct(), expected.pt_ct(&plans));
    assert_eq!((set.ct_ct(), set.pt_ct()), costs, "{given:?}");
    assert_eq!((set.head().ct_ct, set.head().pt_ct), costs);
    // It is never dearer than the plans by themselves, and plain multiplications are the same.
    let alone = |of: fn(&Head) -> usize| plans.iter().map(|plan| of(plan.head())).sum::<usize>();
    assert!(set.ct_ct() <= alone(|head| head.ct_ct));
    assert_eq!(set.pt_ct(), alone(|head| head.pt_ct));

    assert_eq!(set.members().count(), given.len());
    for (i, plan) in plans.iter().enumerate() {
        let member = set.member(i).expect("a member");
        is_the_member(member, &expected.powers, plan);
        assert_eq!(set.members().nth(i), Some(member));
        let head = set.head().composed(i).expect("a member's head");
        assert_eq!(head, *member.to_plan().head());
    }
    for i in [given.len(), SET_MEMBERS, usize::MAX] {
        assert_eq!(set.member(i), None);
        assert_eq!(set.head().places(i), None);
        assert_eq!(set.head().composed(i), None);
    }
    walks(given, &set, numbers);
    set
}

const NO_HEAD: Head = Head {
    basis: Monomial,
    parity: Full,
    strategy: MinDepth,
    transform: PolynomialInputTransform::Identity,
    degree: 0,
    base: 0,
    ct_ct: 0,
    pt_ct: 0,
    depth: 0,
    coefficients: 0,
    lists: 0,
    steps: 0,
    interval: Interval {
        a: 0.0,
        b: 0.0,
        u: 0.0,
        w: 0.0,
    },
};

/// The call on lent buffers says the same: exact ones are enough, longer ones keep what is beyond, and one place fewer is refused.
fn is_lent(given: &[Given], set: &CurveSet) {
    let (members, coeffs) = (members(given), coeffs(given));
    let sizes = set_sizes(&members).expect("sizes of an accepted set");
    let (a, b, c) = (sizes.coefficients, sizes.lists, sizes.step_places());
    assert_eq!(a, set.coefficients().len());
    assert_eq!(b, set.boundaries().len());
    assert_eq!(c, set.step_numbers().len());
    assert_eq!(c, 4 * sizes.steps);
    assert!(a <= SET_COEFFICIENT_ROOM && b <= SET_BOUNDARY_ROOM && c <= SET_STEP_ROOM);

    for more in [0, 1, 7] {
        let lent = Lent::ask(&members, &coeffs, (a + more, b + more, c + more));
        assert_eq!(lent.answer.as_ref(), Ok(set.head()));
        assert_eq!(lent.coefficients[..a], *set.coefficients());
        assert_eq!(lent.boundaries[..b], *set.boundaries());
        assert_eq!(lent.steps[..c], *set.step_numbers());
        assert_eq!(lent.coefficients[a..], [9; 7][..more]);
        assert_eq!(lent.boundaries[b..], [9; 7][..more]);
        assert_eq!(lent.steps[c..], [9; 7][..more]);
    }
    let number = |places| Lent::ask(&members, &coeffs, places).number();
    assert_eq!(number((a - 1, b, c)), 21);
    assert_eq!(number((a, b - 1, c)), 22);
    assert_eq!(number((a, b, c - 1)), 23);
    assert_eq!(number((a - 1, b - 1, c - 1)), 21);
    assert_eq!(number((a + 9, b - 1, c - 1)), 22);
    assert_eq!(number((a + 9, b + 9, c - 1)), 23);
    assert_eq!(number((0, 0, 0)), 21);
    // One coefficient too few is 35, whatever the buffers are; more than the members have are not read.
    let fewer = &coeffs[..coeffs.len() - 1];
    assert_eq!(Lent::ask(&members, fewer, (a, b, c)).number(), 35);
    assert_eq!(Lent::ask(&members, fewer, (0, 0, 0)).number(), 35);
    let more = [&coeffs[..], &[i64::MAX, i64::MIN, 1]].concat();
    let lent = Lent::ask(&members, &more, (a, b, c));
    assert_eq!(lent.answer.as_ref(), Ok(set.head()));
    assert_eq!(lent.coefficients, set.coefficients());

    let head = set.head();
    for beyond in &head.heads[given.len()..] {
        assert_eq!(*beyond, NO_HEAD);
    }
    assert_eq!(head.power_places(), 0..4 * head.powers);
}

/// Both, for one set.
fn holds(given: &[Given], numbers: &mut Numbers) -> CurveSet {
    let set = is_planned(given, numbers);
    is_lent(given, &set);
    set
}

/// Powers 2, 3 and 4 of the first, of which the second needs power 2: worked out by hand.
#[test]
fn the_example_of_the_readme() {
    let given = [
        Given::new(D, &[1, 2, 3, 4, 5]),
        Given::new(D, &[1, 2, 3, 4]),
    ];
    let set = holds(&given, &mut Numbers(100));
    let head = |degree, base, (ct_ct, pt_ct), depth, coefficients| Head {
        degree,
        base,
        ct_ct,
        pt_ct,
        depth,
        coefficients,
        lists: 2,
        steps: 3,
        interval: Interval {
            a: -1.0,
            b: 1.0,
            u: 1.0,
            w: 0.0,
        },
        ..NO_HEAD
    };
    let mut heads = [NO_HEAD; SET_MEMBERS];
    heads[0] = head(4, 4, (3, 4), 3, 5);
    heads[1] = head(3, 2, (2, 2), 2, 4);
    let expected = SetHead {
        ct_ct: 4,
        pt_ct: 6,
        powers: 3,
        heads,
    };
    assert_eq!(*set.head(), expected);
    assert_eq!(set.coefficients(), [1, 2, 3, 4, 5, 1, 2, 3, 4]);
    assert_eq!(set.boundaries(), [4, 5, 2, 4]);
    let steps = [
        [1, 2, 1, 1],
        [1, 3, 1, 2],
        [1, 4, 2, 2],
        [2, 0, 0, 0],
        [2, 1, 0, 0],
        [4, 4, 0, 0],
        [2, 0, 0, 0],
        [2, 1, 0, 0],
        [3, 2, 0, 0],
    ];
    assert_eq!(set.step_numbers(), steps.concat());
    let first = MemberPlaces {
        coefficients: 0..5,
        boundaries: 0..2,
        steps: 12..24,
    };
    let second = MemberPlaces {
        coefficients: 5..9,
        boundaries: 2..4,
        steps: 24..36,
    };
    assert_eq!(set.head().places(0), Some(first));
    assert_eq!(set.head().places(1), Some(second));
    let sizes = PlanSizes {
        coefficients: 9,
        lists: 4,
        steps: 9,
    };
    assert_eq!(set_sizes(&members(&given)), Ok(sizes));
    let values = set.members().map(|member| member.walk(2, 1000));
    assert_eq!(values.collect::<Vec<_>>(), [Ok(129), Ok(49)]);
}

/// Folds of x² and of 2x² − 1: the transform counts once, and the last multiplication by x for each odd member.
#[test]
fn examples_of_folds() {
    let numbers = &mut Numbers(101);
    let even = |basis| (MinMult, Even, basis, true);
    let odd = |basis| (MinMult, Odd, basis, true);
    for basis in BASES {
        // The folds are 1 3 5, in two lists with power 2, and a list of two. Of T_0 + 3 T_2 + 5 T_4 the fold is the same.
        let given = [
            Given::new(even(basis), &[1, 0, 3, 0, 5]),
            Given::new(even(basis), &[1, 0, 2]),
        ];
        let set = holds(&given, numbers);
        assert_eq!((set.ct_ct(), set.pt_ct(), set.head().powers), (2, 3, 1));
        assert_eq!(set.coefficients(), [1, 3, 5, 1, 2]);
        assert_eq!(set.boundaries(), [2, 3, 2]);

        // No power is made: only the transform, and x times each of the three.
        let given = vec![Given::new(odd(basis), &[0, 1, 0, 2]); 3];
        let set = holds(&given, numbers);
        assert_eq!((set.ct_ct(), set.pt_ct(), set.head().powers), (4, 3, 0));
        assert_eq!(set.powers().next(), None);
        let transform = match basis {
            Monomial => PolynomialInputTransform::SquareTimesInput,
            Chebyshev => PolynomialInputTransform::ChebyshevT2TimesInput,
        };
        let heads = set.head().members();
        assert!(heads.iter().all(|head| head.transform == transform));
        assert!(heads
            .iter()
            .all(|head| (head.ct_ct, head.parity) == (2, Full)));
    }
}

/// Two lists at power 2, and three at powers 2 and 4: by hand.
#[test]
fn both_strategies_in_one_set() {
    let given = [
        Given::new(D, &[1, 2, 3, 4, 5]),
        Given::new(M, &[1, 2, 3, 4, 5, 6]).on(0.0, 4.0),
    ];
    let set = holds(&given, &mut Numbers(102));
    assert_eq!((set.ct_ct(), set.pt_ct(), set.head().powers), (5, 7, 3));
    let heads = set.head().members();
    assert_eq!((heads[0].ct_ct, heads[0].pt_ct, heads[0].steps), (3, 4, 3));
    assert_eq!((heads[1].ct_ct, heads[1].pt_ct, heads[1].steps), (4, 3, 5));
    assert_eq!((heads[0].strategy, heads[1].strategy), (MinDepth, MinMult));
    assert_eq!((heads[1].interval.a, heads[1].interval.b), (0.0, 4.0));
    assert_eq!(set.boundaries(), [4, 5, 2, 4, 6]);
    let own = [
        Step::Load { list: 0 },
        Step::Load { list: 1 },
        Step::Combine { power: 2 },
        Step::Load { list: 2 },
        Step::Combine { power: 4 },
    ];
    let second = set.member(1).expect("a member");
    assert_eq!(second.own_steps().collect::<Vec<_>>(), own);
}

#[test]
fn a_set_of_one_is_its_plan() {
    let numbers = &mut Numbers(103);
    let mut plans = 0;
    for settings in settings() {
        let (_, parity, _, fold) = settings;
        for degree in (1..=70).chain([127, 128, 200, 511, 1023, 4095]) {
            let coeffs = random_coeffs(numbers, parity, degree + 1);
            let (a, b) = numbers.one_of(&INTERVALS);
            let given = Given::new(settings, &coeffs).on(a, b);
            let Ok(plan) = given.alone() else {
                assert!(fold && (parity == Full || degree < 3));
                continue;
            };
            let set = holds(&[given], numbers);
            let costs = (plan.head().ct_ct, plan.head().pt_ct);
            assert_eq!((set.ct_ct(), set.pt_ct()), costs);
            assert_eq!(set.coefficients(), plan.coefficients());
            assert_eq!(set.boundaries(), plan.boundaries());
            assert_eq!(set.step_numbers(), plan.step_numbers());
            let member = set.member(0).expect("the member");
            assert_eq!(member.to_plan(), plan);
            plans += 1;
        }
    }
    // 76 degrees in 24 settings, without the four of a folded Full, and without degree 1 of Even and degrees 1 and 2 of Odd when folded.
    assert_eq!(plans, 20 * 76 - 4 - 8);
}

#[test]
fn random_sets() {
    let numbers = &mut Numbers(104);
    let (mut saved, mut sets) = (0, 0);
    for count in 1..=SET_MEMBERS {
        for end in [3, 10, 10, 40, 40, 130, 300] {
            for _ in 0..3 {
                let given = random_set(numbers, count, end);
                let set = holds(&given, numbers);
                let alone: usize = set.head().members().iter().map(|head| head.ct_ct).sum();
                saved += usize::from(set.ct_ct() < alone);
                sets += 1;
            }
        }
    }
    assert_eq!(sets, 16 * 7 * 3);
    assert!(saved > 200);
}

#[test]
fn long_curves() {
    let numbers = &mut Numbers(105);
    for count in [1, 2, 5, 16] {
        for _ in 0..2 {
            let given = random_set(numbers, count, 4095);
            holds(&given, numbers);
        }
    }
}

/// Every two degrees of a range, in every setting that both may have.
#[test]
fn pairs_of_degrees() {
    let numbers = &mut Numbers(106);
    let mut pairs = 0;
    for settings in settings() {
        let (_, parity, basis, fold) = settings;
        if fold && parity == Full {
            continue;
        }
        for one in (3..=20).chain([31, 32, 63, 64]) {
            for other in [3, 4, 5, 7, 8, 12, 15, 16, 20, 33, 64] {
                let strategy = numbers.one_of(&STRATEGIES);
                let settings_of_other = match fold {
                    true => (strategy, parity, basis, fold),
                    false => (strategy, numbers.one_of(&PARITIES), basis, fold),
                };
                let first = random_coeffs(numbers, parity, one + 1);
                let second = random_coeffs(numbers, settings_of_other.1, other + 1);
                let given = [
                    Given::new(settings, &first),
                    Given::new(settings_of_other, &second),
                ];
                is_planned(&given, numbers);
                pairs += 1;
            }
        }
    }
    assert_eq!(pairs, 20 * 22 * 11);
}

/// The order of the members decides about places, and about nothing else.
#[test]
fn permuted_members() {
    let numbers = &mut Numbers(107);
    for count in 2..=SET_MEMBERS {
        let given = random_set(numbers, count, 50);
        let set = planned(&given);
        for turn in 1..4 {
            // A random order, by exchanging places.
            let mut order: Vec<usize> = (0..count).collect();
            for i in (1..count).rev() {
                order.swap(i, numbers.below(i as u64 + 1) as usize);
            }
            if turn == 1 {
                order = (0..count).rev().collect();
            }
            let permuted: Vec<Given> = order.iter().map(|&i| given[i].clone()).collect();
            let other = planned(&permuted);
            assert_eq!(other.ct_ct(), set.ct_ct());
            assert_eq!(other.pt_ct(), set.pt_ct());
            assert!(other.powers().eq(set.powers()));
            assert_eq!(other.step_numbers().len(), set.step_numbers().len());
            for (place, &i) in order.iter().enumerate() {
                assert_eq!(other.member(place), set.member(i));
            }
        }
    }
}

/// A member more adds its own steps, and powers that no other member needs.
#[test]
fn one_member_more() {
    let numbers = &mut Numbers(108);
    for _ in 0..20 {
        let given = random_set(numbers, SET_MEMBERS, 60);
        let mut powers = 0;
        for count in 1..=SET_MEMBERS {
            let set = planned(&given[..count]);
            assert!(set.head().powers >= powers);
            powers = set.head().powers;
            let twice = [&given[..count], &given[..1]].concat();
            if count < SET_MEMBERS {
                // The first curve again needs no power more, and combines and plain multiplications of its own.
                let more = planned(&twice);
                assert!(more.powers().eq(set.powers()));
                let head = set.head().members()[0];
                assert_eq!(more.pt_ct(), set.pt_ct() + head.pt_ct);
                assert_eq!(more.member(0), set.member(0));
            }
        }
    }
}

#[test]
fn sixteen_of_the_longest() {
    let numbers = &mut Numbers(109);
    for basis in BASES {
        for strategy in STRATEGIES {
            let settings = (strategy, Full, basis, false);
            let given: Vec<Given> = (0..SET_MEMBERS)
                .map(|_| Given::new(settings, &random_coeffs(numbers, Full, 4096)))
                .collect();
            let set = holds(&given, numbers);
            assert_eq!(set.coefficients().len(), SET_COEFFICIENT_ROOM);
            let last = set.member(15).expect("a member");
            assert_eq!(last.coefficients().len(), 4096);
        }
    }
}

/// Sizes of every degree, for a set of one and for sixteen of one degree.
#[test]
fn sizes_of_one_degree() {
    let mut compared = 0;
    for (strategy, parity, basis, fold) in settings() {
        for degree in 0..4100 {
            let alone = plan_sizes(strategy, parity, basis, fold, degree);
            let member = Member {
                strategy,
                parity,
                basis,
                fold,
                interval: (f64::NAN, f64::NAN),
                count: degree + 1,
            };
            assert_eq!(set_sizes(&[member]), alone, "{member:?}");
            compared += 1;
            if degree % 37 != 0 && degree < 4095 {
                continue;
            }
            let sixteen = set_sizes(&[member; SET_MEMBERS]);
            let expected = alone.map(|sizes| {
                let own = 2 * sizes.lists - 1;
                PlanSizes {
                    coefficients: 16 * sizes.coefficients,
                    lists: 16 * sizes.lists,
                    steps: sizes.steps + 15 * own,
                }
            });
            assert_eq!(sixteen, expected, "{member:?}");
            if let Ok(sizes) = sixteen {
                assert!(sizes.coefficients <= SET_COEFFICIENT_ROOM);
                assert!(sizes.lists <= SET_BOUNDARY_ROOM);
                assert!(sizes.step_places() <= SET_STEP_ROOM);
            }
        }
    }
    assert_eq!(compared, 24 * 4100);
}

/// The sizes go by settings and lengths alone: the same for zeros, for other coefficients and on every interval.
#[test]
fn sizes_of_any_set() {
    let numbers = &mut Numbers(110);
    for _ in 0..300 {
        let count = 1 + numbers.below(16) as usize;
        let given = random_set(numbers, count, 80);
        let sizes = set_sizes(&members(&given)).expect("sizes");
        for other in 0..3 {
            let mut changed = given.clone();
            for given in &mut changed {
                let (_, parity, _, _) = given.settings;
                given.ends = numbers.one_of(&INTERVALS);
                given.coeffs = match other {
                    0 => vec![0; given.coeffs.len()],
                    _ => random_coeffs(numbers, parity, given.coeffs.len()),
                };
            }
            let set = planned(&changed);
            let told = PlanSizes {
                coefficients: set.coefficients().len(),
                lists: set.boundaries().len(),
                steps: set.step_numbers().len() / 4,
            };
            assert_eq!(told, sizes);
            // Intervals and coefficients that are refused have the same sizes, too.
            for given in &mut changed {
                given.ends = (f64::NAN, 0.0);
                given.coeffs.fill(i64::MIN);
            }
            assert_eq!(set_sizes(&members(&changed)), Ok(sizes));
        }
    }
}

/// What may differ: strategies, intervals, lengths and, unfolded, parities.
#[test]
fn members_that_differ_otherwise() {
    let numbers = &mut Numbers(111);
    for basis in BASES {
        let given: Vec<Given> = STRATEGIES
            .into_iter()
            .flat_map(|strategy| PARITIES.map(|parity| (strategy, parity, basis, false)))
            .enumerate()
            .map(|(i, settings)| {
                let coeffs = random_coeffs(numbers, settings.1, 5 + 3 * i);
                let (a, b) = INTERVALS[i % 4];
                Given::new(settings, &coeffs).on(a, b)
            })
            .collect();
        assert_eq!(given.len(), 6);
        holds(&given, numbers);
        for parity in [Even, Odd] {
            let given: Vec<Given> = STRATEGIES
                .into_iter()
                .enumerate()
                .map(|(i, strategy)| {
                    let settings = (strategy, parity, basis, true);
                    let coeffs = random_coeffs(numbers, parity, 9 + 20 * i);
                    Given::new(settings, &coeffs).on(i as f64, 7.5)
                })
                .collect();
            holds(&given, numbers);
        }
    }
}

/// A curve takes what a polynomial has.
#[test]
fn curves_of_polynomials() {
    for fold in [false, true] {
        let p = Polynomial::new(Chebyshev, vec![0, 1, 0, 2]).with_interval(-3, 5);
        let curve = Curve::from(&p);
        let expected = Curve {
            basis: Chebyshev,
            coeffs: &[0, 1, 0, 2],
            parity: Odd,
            strategy: MinDepth,
            fold: false,
            interval: (-3.0, 5.0),
        };
        assert_eq!(curve, expected);
        for strategy in STRATEGIES {
            let (curve, plan) = match fold {
                true => (curve.folded(), p.plan_folded(strategy)),
                false => (curve, p.plan(strategy)),
            };
            let set = CurveSet::plan(&[curve.with_strategy(strategy)]).expect("a set");
            assert_eq!(set.members().map(|m| m.to_plan()).next(), plan.ok());
        }
    }
    let detected = [(&[1, 0, 3][..], Even), (&[0, 1], Odd), (&[1, 1], Full)];
    for (coeffs, parity) in detected {
        assert_eq!(Curve::new(Monomial, coeffs).parity, parity);
    }
}

/// A head with any numbers in it is answered: its fields are public.
#[test]
fn any_head_of_a_set() {
    let given = vec![Given::new(M, &[1; 9]); 3];
    let whole = *planned(&given).head();
    let most = usize::MAX;
    let mut damaged = whole;
    damaged.powers = most;
    damaged.heads[0].steps = most;
    damaged.heads[1].coefficients = most;
    damaged.heads[1].lists = most;
    let places = damaged.places(2).expect("a member");
    assert_eq!(places.coefficients, most..most);
    assert_eq!(places.boundaries, most..most);
    assert_eq!(places.steps, most..most);
    assert_eq!(damaged.power_places(), 0..most);
    assert_eq!(damaged.composed(1).map(|head| head.steps), Some(most));
    // A head of degree 0 ends the members.
    damaged.heads[1].degree = 0;
    assert_eq!(damaged.members().len(), 1);
    assert_eq!(damaged.places(1), None);
    damaged.heads = [whole.heads[0]; SET_MEMBERS];
    assert_eq!(damaged.members().len(), 16);
    damaged.heads = [NO_HEAD; SET_MEMBERS];
    assert_eq!(damaged.members().len(), 0);
}

/// A member is walked from lent buffers without memory for the set, but for the steps that are put together.
#[test]
fn walks_from_lent_buffers() {
    let numbers = &mut Numbers(113);
    for _ in 0..200 {
        let count = 1 + numbers.below(16) as usize;
        let given = random_set(numbers, count, 40);
        let lent = Lent::ask(&members(&given), &coeffs(&given), (1000, 1000, 8000));
        let set = lent.answer.expect("a set");
        for (i, given) in given.iter().enumerate() {
            let (_, _, basis, _) = given.settings;
            let head = set.composed(i).expect("a member's head");
            let places = set.places(i).expect("a member's places");
            let steps = [&lent.steps[set.power_places()], &lent.steps[places.steps]].concat();
            let lists = &lent.coefficients[places.coefficients];
            let ends = &lent.boundaries[places.boundaries];
            let (point, modulus) = (numbers.next() as i64, numbers.one_of(&MODULI));
            let walked = trial_walk(&head, lists, ends, &steps, point, modulus);
            assert_eq!(walked, Ok(value(basis, &given.coeffs, point, modulus)));
            // Without the power steps it is not walked, if the member has a combine.
            let own = Head {
                steps: head.steps - set.powers,
                ..head
            };
            let walked = trial_walk(&own, lists, ends, &steps[4 * set.powers..], point, modulus);
            if head.lists > 1 {
                assert_eq!(walked, Err(Refusal::Unwalkable));
            }
        }
    }
}
