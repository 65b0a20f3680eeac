//! Coefficients rebuilt from their lists. The published code has no such call: beside ours stands our own list call on the same
//! whole coefficients.

use firrozun::buffers::decompose_bsgs_into;

use super::{Bench, INPUTS};
use crate::both::kinds_of;
use crate::both::rebuilds::rebuild_into;
use crate::calls::{Basis, Parity, SplitStrategy};
use crate::rebuild::Call;

/// The list call in the place of the Rust, and the call that undoes it.
pub fn rebuilds(b: &mut Bench, basis: Basis, strategy: SplitStrategy, degree: usize) {
    let c = b.inputs(Parity::Full, degree);
    let kinds = [strategy as u8, Parity::Full as u8, basis as u8];
    let lent: Vec<Call> = c.iter().map(|c| Call::of(kinds, c)).collect();
    let listed: Vec<Vec<i64>> = c
        .iter()
        .map(|c| c.iter().map(|&x| x as i64).collect())
        .collect();
    let mut out = vec![0; degree + 1];
    for (call, c) in lent.iter().zip(&listed) {
        assert_eq!(rebuild_into(call, &mut out), (0, degree + 1), "rebuild");
        assert_eq!(&out, c, "rebuild");
    }
    let (our_basis, parity, ours) = kinds_of(basis, Parity::Full, strategy);
    let (mut lists, mut ends) = (vec![0; degree + 1], vec![0; degree + 1]);
    let case = ("rebuild", Some(basis), Some(strategy), degree);
    b.time(
        case,
        |i| {
            let c = &listed[i % INPUTS];
            decompose_bsgs_into(ours, parity, our_basis, c, &mut lists, &mut ends).expect("lists")
        },
        |i| rebuild_into(&lent[i % INPUTS], &mut out),
    );
}
