//! Reserves the buffers of a plan before the curve is there, then plans the curve into them and walks the plan at 2.

use firrozun::buffers::{plan_into, plan_sizes, trial_walk, PlanBuffers};
use firrozun::{Basis, Parity, Refusal, SplitStrategy};

const SETTINGS: (SplitStrategy, Parity, Basis, bool) =
    (SplitStrategy::MinMult, Parity::Odd, Basis::Chebyshev, true);

fn main() -> Result<(), Refusal> {
    let (strategy, parity, basis, fold) = SETTINGS;
    let sizes = plan_sizes(strategy, parity, basis, fold, 9)?;
    println!("{sizes:?}");
    let mut coefficients = vec![0; sizes.coefficients];
    let mut boundaries = vec![0; sizes.lists];
    let mut steps = vec![0; sizes.step_places()];

    // The curve comes later: T_1 + 2 T_3 + 3 T_5 + 4 T_7 + 5 T_9.
    let curve = [0, 1, 0, 2, 0, 3, 0, 4, 0, 5];
    let buffers = PlanBuffers {
        coefficients: &mut coefficients,
        boundaries: &mut boundaries,
        steps: &mut steps,
    };
    let head = plan_into(strategy, parity, basis, fold, &curve, (-1.0, 1.0), buffers)?;
    println!("{head:?}");
    let value = trial_walk(&head, &coefficients, &boundaries, &steps, 2, 1_000_000_007)?;
    println!("at 2: {value}");
    Ok(())
}
