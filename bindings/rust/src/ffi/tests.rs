//! Where the fields of each struct stand, and the number of these layouts. And refusal 43: the safe types have no kind that the library
//! does not know, so its number is tested here, below them.

use super::*;
use std::mem::{offset_of, size_of};

#[allow(clippy::indexing_slicing)]
mod sets;

const NO_HEAD: CHead = CHead {
    basis: 0,
    parity: 0,
    strategy: 0,
    transform: 0,
    degree: 0,
    base: 0,
    ct: 0,
    pt: 0,
    depth: 0,
    coefficients: 0,
    lists: 0,
    steps: 0,
    interval: CHeadInterval {
        a: 0.0,
        b: 0.0,
        u: 0.0,
        w: 0.0,
    },
};

/// Compares the size of a struct, and the place of each of its fields, with numbers.
macro_rules! assert_layout {
    ($type:ty, $size:literal, $($field:ident $place:literal),+) => {
        assert_eq!(size_of::<$type>(), $size, stringify!($type));
        $(assert_eq!(offset_of!($type, $field), $place, stringify!($type.$field));)+
    };
}

/// The numbers are worked out by hand from the rules of C on x86-64: a byte stands at any place, and what has 8 bytes at a multiple of 8.
/// `examples/c/layout.c` has the same.
#[test]
fn the_layouts_of_answers_on_numbers() {
    assert_layout!(CParts, 32, refusal 0, a 8, b 16, distance 24);
    assert_layout!(CSplit, 16, refusal 0, split 8);
    assert_layout!(CCounts, 24, refusal 0, ct 8, pt 16);
    assert_layout!(CDepth, 16, refusal 0, depth 8);
    assert_layout!(CBits, 16, refusal 0, bits 8);
    assert_layout!(CDegree, 16, refusal 0, degree 8);
    assert_layout!(CSizes, 32, refusal 0, coefficients 8, lists 16, steps 24);
}

#[test]
fn the_layouts_of_answers_on_coefficients() {
    assert_layout!(CFolded, 16, refusal 0, transform 1, parity 2, count 8);
    assert_layout!(CValue, 16, refusal 0, value 8);
    assert_layout!(CConverted, 16, refusal 0, count 8);
    assert_layout!(CInterval, 40, refusal 0, a 8, b 16, u 24, w 32);
    assert_layout!(CInterpolated, 56, refusal 0, count 8, parity 16, a 24, b 32, u 40, w 48);
    assert_layout!(CListed, 40, refusal 0, degree 8, base 16, coefficients 24, lists 32);
    assert_layout!(CRebuilt, 16, refusal 0, coefficients 8);
}

#[test]
fn the_layouts_of_a_plan() {
    assert_layout!(CHeadInterval, 32, a 0, b 8, u 16, w 24);
    assert_layout!(CHead, 104, basis 0, parity 1, strategy 2, transform 3, degree 8, base 16, ct 24, pt 32, depth 40);
    assert_layout!(CHead, 104, coefficients 48, lists 56, steps 64, interval 72);
    assert_layout!(CPlanned, 112, refusal 0, head 8);
    assert_layout!(CTrial, 16, refusal 0, remainder 8);
    assert_layout!(CChain, 16, refusal 0, weight 8);
}

#[test]
fn the_layouts_of_a_set() {
    assert_layout!(CMember, 32, strategy 0, parity 1, basis 2, fold 3, a 8, b 16, count 24);
    assert_layout!(CMembers, 520, count 0, members 8);
    assert_layout!(CCurveSet, 1688, ct 0, pt 8, powers 16, heads 24);
    assert_layout!(CSetPlanned, 1696, refusal 0, set 8);
}

#[test]
fn the_number_of_the_layouts() {
    // SAFETY: the call takes nothing and answers a number.
    assert_eq!(unsafe { LAYOUT() }, 10);
}

/// +0 in the head of a refusal: -0 would be equal to it.
fn has_no_interval(head: CHead) {
    let CHeadInterval { a, b, u, w } = head.interval;
    assert_eq!([a, b, u, w].map(f64::to_bits), [0; 4]);
}

#[test]
fn the_head_of_a_refusal() {
    let settings = Settings {
        strategy: 1,
        parity: 0,
        basis: 1,
        fold: 0,
    };
    let (mut out, mut bounds, mut steps) = ([9; 8], [9; 8], [9; 64]);
    for (coeffs, ends, refusal) in [
        (&[1][..], (0.0, 2.0), 1),
        (&[1 << 30, 1], (0.0, 2.0), 3),
        (&[1, 2, 3], (-0.0, -1.0), 7),
        (&[1, 2, 3], (f64::NAN, 1.0), 7),
        (&[1, 2, 3, 4, 5, 6, 7, 8, 9], (0.0, 2.0), 21),
    ] {
        let answer = plan(settings, coeffs, ends, &mut out, &mut bounds, &mut steps);
        let head = NO_HEAD;
        assert_eq!(answer, CPlanned { refusal, head });
        has_no_interval(answer.head);
    }
    assert_eq!((out, bounds, steps), ([9; 8], [9; 8], [9; 64]));
}

/// Every byte that is no kind, of a kind with so many values.
fn unknown(kinds: u8) -> impl Iterator<Item = u8> {
    kinds..=u8::MAX
}

#[test]
fn unknown_kinds_in_the_calls_on_numbers() {
    let no_split = CSplit {
        refusal: 43,
        split: 0,
    };
    let no_counts = CCounts {
        refusal: 43,
        ct: 0,
        pt: 0,
    };
    for n in unknown(2) {
        assert_eq!(min_mult_split(0, n, 7), no_split);
        assert_eq!(bsgs_op_counts(n, 0, 0, 7), no_counts);
        assert_eq!(bsgs_op_counts(0, 0, n, 7), no_counts);
        assert_eq!(
            bsgs_eval_depth(n, 7),
            CDepth {
                refusal: 43,
                depth: 0
            }
        );
        assert_eq!(
            bsgs_consumed_bits(n, 7, 1, 1),
            CBits {
                refusal: 43,
                bits: 0
            }
        );
        // A budget and scales that are accepted, and such as are refused too: 43 comes first.
        for (budget, scale) in [(100, 1), (0, 1), (100, 65_536)] {
            assert_eq!(
                largest_degree(n, budget, scale, scale),
                CDegree {
                    refusal: 43,
                    degree: 0
                }
            );
        }
    }
    for n in unknown(3) {
        assert_eq!(min_mult_split(n, 0, 7), no_split);
        assert_eq!(bsgs_op_counts(0, n, 0, 7), no_counts);
    }
}

#[test]
fn unknown_kinds_in_the_calls_on_coefficients() {
    let no_fold = CFolded {
        refusal: 43,
        transform: 0,
        parity: 0,
        count: 0,
    };
    let no_lists = CListed {
        refusal: 43,
        degree: 0,
        base: 0,
        coefficients: 0,
        lists: 0,
    };
    let mut out = [9; 4];
    let mut floats = [9.0; 4];
    let mut bounds = [9; 4];
    for n in unknown(2) {
        assert_eq!(fold_parity(1, n, &[1, 0, 2], &mut out), no_fold);
        assert_eq!(
            fold_parity_f64(1, n, &[1.0, 0.0, 2.0], &mut floats),
            no_fold
        );
        let value = evaluate_coeffs(n, &[1.0, 2.0], 3.0);
        assert_eq!((value.refusal, value.value.to_bits()), (43, 0));
        let interval = change_of_basis(n, -1.0, 2.0);
        assert_eq!(interval.refusal, 43);
        for field in [interval.a, interval.b, interval.u, interval.w] {
            assert_eq!(field.to_bits(), 0);
        }
        assert_eq!(
            decompose_bsgs(n, 0, 0, &[1, 2, 3], &mut out, &mut bounds),
            no_lists
        );
        assert_eq!(
            decompose_bsgs(0, 0, n, &[1, 2, 3], &mut out, &mut bounds),
            no_lists
        );
        assert_eq!(
            decompose_bsgs_f64(n, 0, 0, &[1.0, 2.0], &mut floats, &mut bounds),
            no_lists
        );
        assert_eq!(
            decompose_bsgs_f64(0, 0, n, &[1.0, 2.0], &mut floats, &mut bounds),
            no_lists
        );
    }
    for n in unknown(3) {
        assert_eq!(fold_parity(n, 0, &[1, 0, 2], &mut out), no_fold);
        assert_eq!(
            fold_parity_f64(n, 0, &[1.0, 0.0, 2.0], &mut floats),
            no_fold
        );
        assert_eq!(
            decompose_bsgs(0, n, 0, &[1, 2, 3], &mut out, &mut bounds),
            no_lists
        );
        assert_eq!(
            decompose_bsgs_f64(0, n, 0, &[1.0, 2.0], &mut floats, &mut bounds),
            no_lists
        );
    }
    assert_eq!((out, floats, bounds), ([9; 4], [9.0; 4], [9; 4]));
}

#[test]
fn unknown_kinds_in_the_conversion() {
    let none = |refusal| CConverted { refusal, count: 0 };
    let mut out = [9; 4];
    let most = 1 << 30;
    // Coefficients that are accepted, and such as are refused too: 43 comes first.
    for (c, refusal) in [
        (&[1, 2, 4][..], 0),
        (&[], 0),
        (&[0; 22], 37),
        (&[most, 1], 3),
        (&[0, 0, 1], 38),
        (&[0; 5], 21),
    ] {
        for n in unknown(2) {
            assert_eq!(convert_coeffs(n, c, &mut out), none(43));
            assert_eq!(convert_coeffs(n, c, &mut []), none(43));
        }
        assert_eq!(out, [9; 4]);
        // The same to a basis that the library knows.
        if refusal > 0 {
            assert_eq!(convert_coeffs(1, c, &mut out), none(refusal));
            assert_eq!(out, [9; 4]);
        }
    }
    let all = CConverted {
        refusal: 0,
        count: 3,
    };
    assert_eq!(convert_coeffs(1, &[1, 2, 4], &mut out), all);
    assert_eq!(out, [3, 2, 2, 9]);
    assert_eq!(convert_coeffs(0, &[3, 2, 2], &mut out), all);
    assert_eq!(out, [1, 2, 4, 9]);
    assert_eq!(convert_coeffs(0, &[], &mut out), none(0));
    assert_eq!(out, [1, 2, 4, 9]);
}

#[test]
fn unknown_kinds_in_the_rebuild_call() {
    let refused = CRebuilt {
        refusal: 43,
        coefficients: 0,
    };
    let mut out = [9; 4];
    let mut rebuilt = |strategy, parity, basis, sizes| {
        rebuild(
            strategy,
            parity,
            basis,
            sizes,
            &[1, 2, 3],
            &[2, 3],
            &mut out,
        )
    };
    // A degree and a base that are accepted, and such as are refused too: 43 comes first.
    for sizes in [(2, 2), (4096, 2), (0, 2), (2, 3)] {
        for n in unknown(2) {
            assert_eq!(rebuilt(n, 0, 0, sizes), refused);
            assert_eq!(rebuilt(0, 0, n, sizes), refused);
        }
        for n in unknown(3) {
            assert_eq!(rebuilt(0, n, 0, sizes), refused);
        }
    }
    assert_eq!(rebuilt(0, 0, 0, (2, 2)).refusal, 0);
    assert_eq!(
        rebuilt(0, 0, 0, (2, 3)),
        CRebuilt {
            refusal: 33,
            ..refused
        }
    );
    assert_eq!(out, [1, 2, 3, 9]);
    // Lists that are refused too, and no room for the coefficients.
    assert_eq!(rebuild(2, 3, 2, (2, 2), &[], &[], &mut []), refused);
}

#[test]
fn unknown_kinds_in_sizes_plan_walk_and_chain() {
    let none = CPlanned {
        refusal: 43,
        head: NO_HEAD,
    };
    let settings = |strategy, parity, basis, fold| Settings {
        strategy,
        parity,
        basis,
        fold,
    };
    let (mut out, mut bounds, mut steps) = ([9; 8], [9; 8], [9; 64]);
    let no_sizes = CSizes {
        refusal: 43,
        coefficients: 0,
        lists: 0,
        steps: 0,
    };
    let mut refused = |s| {
        // A degree that is refused too: 43 comes first.
        assert_eq!(plan_sizes(s, 4096), no_sizes);
        // An interval that is accepted, and one that is refused too.
        for ends in [(-1.0, 1.0), (1.0, -1.0)] {
            let answer = plan(s, &[1, 2, 3], ends, &mut out, &mut bounds, &mut steps);
            assert_eq!(answer, none);
            has_no_interval(answer.head);
        }
    };
    for n in unknown(2) {
        refused(settings(n, 0, 0, 0));
        refused(settings(0, 0, n, 0));
        refused(settings(0, 0, 0, n));
    }
    for n in unknown(3) {
        refused(settings(0, n, 0, 0));
    }
    assert_eq!((out, bounds, steps), ([9; 8], [9; 8], [9; 64]));

    let no_value = CTrial {
        refusal: 43,
        remainder: 0,
    };
    let no_weight = CChain {
        refusal: 43,
        weight: 0,
    };
    let refused = |head| {
        let (coefficients, bounds, steps) = ([1], [1], [2, 0, 0, 0]);
        assert_eq!(
            trial_walk(head, &coefficients, &bounds, &steps, 2, 100),
            no_value
        );
        // Scales that are accepted, and one that is refused too: 43 comes first.
        for input in [30, 65_536] {
            assert_eq!(
                heaviest_chain(head, &coefficients, &bounds, &steps, input, 20),
                no_weight
            );
        }
    };
    for n in unknown(2) {
        refused(CHead {
            basis: n,
            ..NO_HEAD
        });
        refused(CHead {
            strategy: n,
            ..NO_HEAD
        });
    }
    for n in unknown(3) {
        refused(CHead {
            parity: n,
            ..NO_HEAD
        });
    }
    for n in unknown(5) {
        refused(CHead {
            transform: n,
            ..NO_HEAD
        });
    }
}
