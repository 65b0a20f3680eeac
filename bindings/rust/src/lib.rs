//! Plans for evaluating polynomials on encrypted numbers.
//!
//! A plan is a list of multiplications and additions that make a polynomial's value from an encrypted x, with few multiplications of
//! two encrypted numbers (baby steps and giant steps). This crate is a safe face on the proved library Firrozun: every answer comes
//! from it, and what is proved of it is in the repository's `README.md`. The refusals and rules are in `docs/RULES.md`.
//!
//! Names and argument orders are those of poulpy's `polynomial_evaluation` where that module has the call. What can be refused answers
//! a [`Result`] with a [`Refusal`]. No call at the root or in [`buffers`] panics, whatever it is given;
//! [`BSGSPolynomial::baby_step`] alone has the panic of an index that poulpy documents. For code that was written for poulpy there is
//! the module [`poulpy`], with bare answers.
//!
//! ```
//! use firrozun::{Basis, Polynomial, SplitStrategy, Step};
//!
//! let curve = Polynomial::new(Basis::Monomial, vec![1, 2, 3, 4, 5]);
//! let plan = curve.plan(SplitStrategy::MinDepth)?;
//! println!("{} slow multiplications, depth {}", plan.head().ct_ct, plan.head().depth);
//! for step in plan.steps() {
//!     match step {
//!         Step::Power { n, a, b } => println!("make power {n} from {a} and {b}"),
//!         Step::Load { list } => println!("load {:?}", plan.list(list.into())),
//!         Step::Combine { power } | Step::CombinePlain { power } => println!("high times power {power}, plus low"),
//!     }
//! }
//! assert_eq!(plan.walk(2, 1_000_000), Ok(129));
//! # Ok::<(), firrozun::Refusal>(())
//! ```
//!
//! Up to 16 curves of one reading are planned together as a [`CurveSet`], which makes the powers that they need once for all of them.
//!
//! A curve that came in the other basis, such as the monomial curve of a pump's maker, is converted by [`Polynomial::to_basis`].

#![deny(unsafe_code)]
#![warn(missing_docs)]
#![deny(clippy::undocumented_unsafe_blocks)]
#![deny(clippy::unwrap_used, clippy::expect_used, clippy::panic)]
#![deny(clippy::indexing_slicing, clippy::unreachable)]

mod bsgs;
pub mod buffers;
mod calls;
mod coefficient;
#[allow(unsafe_code)]
mod ffi;
mod interval;
mod kinds;
mod plan;
mod polynomial;
pub mod poulpy;
mod refusal;
mod set;

pub use bsgs::BSGSPolynomial;
pub use buffers::{Head, CONVERT_LIMIT};
pub use calls::{
    bsgs_consumed_bits, bsgs_eval_depth, bsgs_op_counts, change_of_basis, detect_parity,
    evaluate_coeffs, largest_degree, min_depth_split, min_mult_split, split_degree,
};
pub use coefficient::Coefficient;
pub use interval::Interval;
pub use kinds::{Basis, Parity, PolynomialInputTransform, SplitStrategy, DEFAULT_SPLIT_STRATEGY};
pub use plan::{Plan, Step};
pub use polynomial::Polynomial;
pub use refusal::Refusal;
pub use set::{Curve, CurveSet, MemberPlan};
