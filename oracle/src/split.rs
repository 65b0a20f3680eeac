//! The Rust's split of an index, and the distance of its parts. The Rust answers no distance: all here that need one take this.

use crate::layouts::polynomial_evaluation::split_degree;

/// The two parts of `n`, and their absolute difference.
pub fn parts(n: usize) -> (usize, usize, usize) {
    let (a, b) = split_degree(n);
    (a, b, a.abs_diff(b))
}
