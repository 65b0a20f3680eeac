//! The sizes of every degree in every setting, held against the plan of the zero curve of that degree: buffers of these sizes are enough,
//! and of a place fewer not.

mod common;

use common::{settings, Settings};
use firrozun::buffers::{plan_into, plan_sizes, Head, PlanBuffers, PlanSizes};
use firrozun::{Parity, Refusal};

/// The plan of `curve` in so many places of each buffer.
fn planned(
    settings: Settings,
    curve: &[i64],
    places: (usize, usize, usize),
) -> Result<Head, Refusal> {
    let (strategy, parity, basis, fold) = settings;
    let (mut coefficients, mut boundaries, mut steps) =
        (vec![0; places.0], vec![0; places.1], vec![0; places.2]);
    let buffers = PlanBuffers {
        coefficients: &mut coefficients,
        boundaries: &mut boundaries,
        steps: &mut steps,
    };
    plan_into(strategy, parity, basis, fold, curve, (-1.0, 1.0), buffers)
}

/// The refusal that the rules give degree and settings.
fn ruled(settings: Settings, degree: usize) -> Option<u8> {
    let (_, parity, _, fold) = settings;
    let least = match parity {
        Parity::Full => 0,
        Parity::Even => 2,
        Parity::Odd => 3,
    };
    match degree {
        _ if degree > 4095 => Some(2),
        0 => Some(1),
        _ if fold && parity == Parity::Full => Some(5),
        _ if fold && degree < least => Some(6),
        _ => None,
    }
}

fn holds(settings: Settings, degree: usize, curve: &[i64]) {
    let (strategy, parity, basis, fold) = settings;
    let sizes = match plan_sizes(strategy, parity, basis, fold, degree) {
        Err(refusal) => {
            assert_eq!(Some(refusal.number()), ruled(settings, degree));
            // Every plan call of this degree is refused so, with the longest buffers and with none.
            assert_eq!(planned(settings, curve, (4096, 4096, 49_152)), Err(refusal));
            assert_eq!(planned(settings, curve, (0, 0, 0)), Err(refusal));
            return;
        }
        Ok(sizes) => sizes,
    };
    assert_eq!(None, ruled(settings, degree));
    let (a, b, c) = (sizes.coefficients, sizes.lists, sizes.step_places());
    let head = planned(settings, curve, (a, b, c)).expect("buffers of these sizes");
    let told = PlanSizes {
        coefficients: head.coefficients,
        lists: head.lists,
        steps: head.steps,
    };
    assert_eq!(told, sizes, "{settings:?} {degree}");
    for (places, refusal) in [
        ((a - 1, b, c), 21),
        ((a, b - 1, c), 22),
        ((a, b, c - 1), 23),
    ] {
        let short = planned(settings, curve, places).expect_err("a buffer that is too short");
        assert_eq!(short.number(), refusal, "{settings:?} {degree}");
    }
}

#[test]
fn sizes_of_every_degree_are_those_of_the_zero_curves_plan() {
    let zeros = vec![0; 4100];
    let mut compared = 0;
    for settings in settings() {
        for degree in 0..4100 {
            holds(settings, degree, &zeros[..=degree]);
            compared += 1;
        }
        // No coefficient is degree 0 too.
        holds(settings, 0, &[]);
    }
    assert_eq!(compared, 24 * 4100);
}

#[test]
fn degrees_beyond_every_curve() {
    for (strategy, parity, basis, fold) in settings() {
        for degree in [1 << 32, usize::MAX] {
            let sizes = plan_sizes(strategy, parity, basis, fold, degree);
            assert_eq!(sizes, Err(Refusal::Degree));
        }
    }
}
