//! Sets of curves. The published code has no such call: beside ours stand our own plan calls on the same curves, each with buffers of
//! its own, as a set's members have.

use firrozun::buffers::{Member, PlanBuffers, plan_into, plan_set_into, plan_sizes};

use super::cases::ENDS;
use super::{Bench, INPUTS};
use crate::both::kinds_of;
use crate::calls::{Basis, Parity, SplitStrategy};
use crate::sets::MEMBERS;

/// Plan calls for all members in the place of the Rust, and the call that plans them as a set.
pub fn sets(b: &mut Bench, basis: Basis, strategy: SplitStrategy, degree: usize) {
    let n = degree + 1;
    let curves: Vec<Vec<i64>> = (0..MEMBERS / INPUTS)
        .flat_map(|_| b.inputs(Parity::Full, degree))
        .map(|c| c.iter().map(|&x| x as i64).collect())
        .collect();
    let slice = curves.concat();
    let (basis_kind, parity, strategy_kind) = kinds_of(basis, Parity::Full, strategy);
    let member = Member {
        strategy: strategy_kind,
        parity,
        basis: basis_kind,
        fold: false,
        interval: ENDS,
        count: n,
    };
    let members = [member; MEMBERS];
    let sizes = plan_sizes(strategy_kind, parity, basis_kind, false, degree).expect("sizes");
    let (lists, numbers) = (sizes.lists, sizes.step_places());
    let mut out = (
        vec![0; MEMBERS * n],
        vec![0; MEMBERS * lists],
        vec![0; MEMBERS * numbers],
    );
    let mut one = out.clone();
    let case = ("set of 16", Some(basis), Some(strategy), degree);
    b.time(
        case,
        |_| {
            let mut steps = 0;
            for (i, c) in curves.iter().enumerate() {
                let buffers = PlanBuffers {
                    coefficients: &mut one.0[i * n..(i + 1) * n],
                    boundaries: &mut one.1[i * lists..(i + 1) * lists],
                    steps: &mut one.2[i * numbers..(i + 1) * numbers],
                };
                let head = plan_into(strategy_kind, parity, basis_kind, false, c, ENDS, buffers);
                steps += head.expect("a plan").steps;
            }
            steps
        },
        |_| {
            let buffers = PlanBuffers {
                coefficients: &mut out.0,
                boundaries: &mut out.1,
                steps: &mut out.2,
            };
            plan_set_into(&members, &slice, buffers).expect("a set")
        },
    );
    assert_eq!(out.0, one.0, "set of 16");
    assert_eq!(out.1, one.1, "set of 16");
}
