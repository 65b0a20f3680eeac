//! The library's calls as C sees them, and the only unsafe code of this crate.
//!
//! Each call of the library asks nothing of its caller but what C asks: a slice is a pointer and a length, what is read stays as
//! it is during the call, and what is written overlaps nothing else. A reference of Rust has all that.

use crate::buffers::SET_MEMBERS;

#[repr(C)]
#[derive(Clone, Copy, Debug, PartialEq)]
pub struct CParts {
    pub refusal: u8,
    pub a: usize,
    pub b: usize,
    pub distance: usize,
}

#[repr(C)]
#[derive(Clone, Copy, Debug, PartialEq)]
pub struct CSplit {
    pub refusal: u8,
    pub split: usize,
}

#[repr(C)]
#[derive(Clone, Copy, Debug, PartialEq)]
pub struct CCounts {
    pub refusal: u8,
    pub ct: usize,
    pub pt: usize,
}

#[repr(C)]
#[derive(Clone, Copy, Debug, PartialEq)]
pub struct CDepth {
    pub refusal: u8,
    pub depth: usize,
}

#[repr(C)]
#[derive(Clone, Copy, Debug, PartialEq)]
pub struct CBits {
    pub refusal: u8,
    pub bits: usize,
}

#[repr(C)]
#[derive(Clone, Copy, Debug, PartialEq)]
pub struct CDegree {
    pub refusal: u8,
    pub degree: usize,
}

#[repr(C)]
#[derive(Clone, Copy, Debug, PartialEq)]
pub struct CFolded {
    pub refusal: u8,
    pub transform: u8,
    pub parity: u8,
    pub count: usize,
}

#[repr(C)]
#[derive(Clone, Copy, Debug, PartialEq)]
pub struct CValue {
    pub refusal: u8,
    pub value: f64,
}

#[repr(C)]
#[derive(Clone, Copy, Debug, PartialEq)]
pub struct CConverted {
    pub refusal: u8,
    pub count: usize,
}

#[repr(C)]
#[derive(Clone, Copy, Debug, PartialEq)]
pub struct CInterval {
    pub refusal: u8,
    pub a: f64,
    pub b: f64,
    pub u: f64,
    pub w: f64,
}

#[repr(C)]
#[derive(Clone, Copy, Debug, PartialEq)]
pub struct CInterpolated {
    pub refusal: u8,
    pub count: usize,
    pub parity: u8,
    pub a: f64,
    pub b: f64,
    pub u: f64,
    pub w: f64,
}

#[repr(C)]
#[derive(Clone, Copy, Debug, PartialEq)]
pub struct CListed {
    pub refusal: u8,
    pub degree: usize,
    pub base: usize,
    pub coefficients: usize,
    pub lists: usize,
}

#[repr(C)]
#[derive(Clone, Copy, Debug, PartialEq)]
pub struct CRebuilt {
    pub refusal: u8,
    pub coefficients: usize,
}

#[repr(C)]
#[derive(Clone, Copy, Debug, PartialEq)]
pub struct CSizes {
    pub refusal: u8,
    pub coefficients: usize,
    pub lists: usize,
    pub steps: usize,
}

#[repr(C)]
#[derive(Clone, Copy, Debug, PartialEq)]
pub struct CHeadInterval {
    pub a: f64,
    pub b: f64,
    pub u: f64,
    pub w: f64,
}

#[repr(C)]
#[derive(Clone, Copy, Debug, PartialEq)]
pub struct CHead {
    pub basis: u8,
    pub parity: u8,
    pub strategy: u8,
    pub transform: u8,
    pub degree: usize,
    pub base: usize,
    pub ct: usize,
    pub pt: usize,
    pub depth: usize,
    pub coefficients: usize,
    pub lists: usize,
    pub steps: usize,
    pub interval: CHeadInterval,
}

#[repr(C)]
#[derive(Clone, Copy, Debug, PartialEq)]
pub struct CPlanned {
    pub refusal: u8,
    pub head: CHead,
}

#[repr(C)]
#[derive(Clone, Copy, Debug, PartialEq)]
pub struct CMember {
    pub strategy: u8,
    pub parity: u8,
    pub basis: u8,
    pub fold: u8,
    pub a: f64,
    pub b: f64,
    pub count: usize,
}

#[repr(C)]
#[derive(Clone, Copy, Debug, PartialEq)]
pub struct CMembers {
    pub count: usize,
    pub members: [CMember; SET_MEMBERS],
}

#[repr(C)]
#[derive(Clone, Copy, Debug, PartialEq)]
pub struct CCurveSet {
    pub ct: usize,
    pub pt: usize,
    pub powers: usize,
    pub heads: [CHead; SET_MEMBERS],
}

#[repr(C)]
#[derive(Clone, Copy, Debug, PartialEq)]
pub struct CSetPlanned {
    pub refusal: u8,
    pub set: CCurveSet,
}

#[repr(C)]
#[derive(Clone, Copy, Debug, PartialEq)]
pub struct CTrial {
    pub refusal: u8,
    pub remainder: u64,
}

#[repr(C)]
#[derive(Clone, Copy, Debug, PartialEq)]
pub struct CChain {
    pub refusal: u8,
    pub weight: u64,
}

extern "C" {
    fn firrozun_layout_10() -> u32;
    fn firrozun_split_degree(n: usize) -> CParts;
    fn firrozun_min_depth_split(degree: usize) -> CSplit;
    fn firrozun_min_mult_split(parity: u8, basis: u8, degree: usize) -> CSplit;
    fn firrozun_bsgs_op_counts(strategy: u8, parity: u8, basis: u8, degree: usize) -> CCounts;
    fn firrozun_bsgs_eval_depth(strategy: u8, degree: usize) -> CDepth;
    fn firrozun_bsgs_consumed_bits(
        strategy: u8,
        degree: usize,
        input: usize,
        coeff: usize,
    ) -> CBits;
    fn firrozun_largest_degree(strategy: u8, budget: u64, input: usize, coeff: usize) -> CDegree;
    fn firrozun_fold_parity(
        parity: u8,
        basis: u8,
        c: *const i64,
        c_len: usize,
        out: *mut i64,
        out_len: usize,
    ) -> CFolded;
    fn firrozun_fold_parity_f64(
        parity: u8,
        basis: u8,
        c: *const f64,
        c_len: usize,
        out: *mut f64,
        out_len: usize,
    ) -> CFolded;
    fn firrozun_evaluate_coeffs(basis: u8, coeffs: *const f64, coeffs_len: usize, x: f64)
        -> CValue;
    fn firrozun_convert_coeffs(
        to: u8,
        c: *const i64,
        c_len: usize,
        out: *mut i64,
        out_len: usize,
    ) -> CConverted;
    fn firrozun_detect_parity(c: *const i64, c_len: usize) -> u8;
    fn firrozun_detect_parity_f64(c: *const f64, c_len: usize) -> u8;
    fn firrozun_change_of_basis(basis: u8, a: f64, b: f64) -> CInterval;
    fn firrozun_chebyshev_interpolate(
        nodes: *const f64,
        nodes_len: usize,
        values: *const f64,
        values_len: usize,
        a: f64,
        b: f64,
        out: *mut f64,
        out_len: usize,
    ) -> CInterpolated;
    fn firrozun_decompose_bsgs(
        strategy: u8,
        parity: u8,
        basis: u8,
        c: *const i64,
        c_len: usize,
        out: *mut i64,
        out_len: usize,
        bounds: *mut u16,
        bounds_len: usize,
    ) -> CListed;
    fn firrozun_decompose_bsgs_f64(
        strategy: u8,
        parity: u8,
        basis: u8,
        c: *const f64,
        c_len: usize,
        out: *mut f64,
        out_len: usize,
        bounds: *mut u16,
        bounds_len: usize,
    ) -> CListed;
    fn firrozun_rebuild(
        strategy: u8,
        parity: u8,
        basis: u8,
        degree: usize,
        base: usize,
        lists: *const i64,
        lists_len: usize,
        bounds: *const u16,
        bounds_len: usize,
        out: *mut i64,
        out_len: usize,
    ) -> CRebuilt;
    fn firrozun_plan_sizes(strategy: u8, parity: u8, basis: u8, fold: u8, degree: usize) -> CSizes;
    fn firrozun_plan(
        strategy: u8,
        parity: u8,
        basis: u8,
        fold: u8,
        c: *const i64,
        c_len: usize,
        a: f64,
        b: f64,
        out: *mut i64,
        out_len: usize,
        bounds: *mut u16,
        bounds_len: usize,
        steps: *mut u16,
        steps_len: usize,
    ) -> CPlanned;
    fn firrozun_trial_walk(
        head: CHead,
        coefficients: *const i64,
        coefficients_len: usize,
        bounds: *const u16,
        bounds_len: usize,
        steps: *const u16,
        steps_len: usize,
        point: i64,
        modulus: u64,
    ) -> CTrial;
    fn firrozun_heaviest_chain(
        head: CHead,
        coefficients: *const i64,
        coefficients_len: usize,
        bounds: *const u16,
        bounds_len: usize,
        steps: *const u16,
        steps_len: usize,
        input: usize,
        coeff: usize,
    ) -> CChain;
    fn firrozun_set_sizes(members: CMembers) -> CSizes;
    fn firrozun_plan_set(
        members: CMembers,
        c: *const i64,
        c_len: usize,
        out: *mut i64,
        out_len: usize,
        bounds: *mut u16,
        bounds_len: usize,
        steps: *mut u16,
        steps_len: usize,
    ) -> CSetPlanned;
}

/// The number of the layouts of this file stands in the name, and is raised with each change of a struct or of a call's arguments in
/// `crates/exports`. The reference has every program that links this crate ask for the name, so that a library with other layouts
/// does not link.
#[used]
static LAYOUT: unsafe extern "C" fn() -> u32 = firrozun_layout_10;

pub fn split_degree(n: usize) -> CParts {
    // SAFETY: the call takes and answers numbers alone, and is proved for every number.
    unsafe { firrozun_split_degree(n) }
}

pub fn min_depth_split(degree: usize) -> CSplit {
    // SAFETY: the call takes and answers numbers alone, and is proved for every number.
    unsafe { firrozun_min_depth_split(degree) }
}

pub fn min_mult_split(parity: u8, basis: u8, degree: usize) -> CSplit {
    // SAFETY: the call takes and answers numbers alone, and is proved for every number.
    unsafe { firrozun_min_mult_split(parity, basis, degree) }
}

pub fn bsgs_op_counts(strategy: u8, parity: u8, basis: u8, degree: usize) -> CCounts {
    // SAFETY: the call takes and answers numbers alone, and is proved for every number.
    unsafe { firrozun_bsgs_op_counts(strategy, parity, basis, degree) }
}

pub fn bsgs_eval_depth(strategy: u8, degree: usize) -> CDepth {
    // SAFETY: the call takes and answers numbers alone, and is proved for every number.
    unsafe { firrozun_bsgs_eval_depth(strategy, degree) }
}

pub fn bsgs_consumed_bits(strategy: u8, degree: usize, input: usize, coeff: usize) -> CBits {
    // SAFETY: the call takes and answers numbers alone, and is proved for every number.
    unsafe { firrozun_bsgs_consumed_bits(strategy, degree, input, coeff) }
}

pub fn largest_degree(strategy: u8, budget: u64, input: usize, coeff: usize) -> CDegree {
    // SAFETY: the call takes and answers numbers alone, and is proved for every number.
    unsafe { firrozun_largest_degree(strategy, budget, input, coeff) }
}

pub fn evaluate_coeffs(basis: u8, coeffs: &[f64], x: f64) -> CValue {
    // SAFETY: pointer and length are those of a slice that lives through the call, which only reads it.
    unsafe { firrozun_evaluate_coeffs(basis, coeffs.as_ptr(), coeffs.len(), x) }
}

pub fn convert_coeffs(to: u8, c: &[i64], out: &mut [i64]) -> CConverted {
    // SAFETY: pointers and lengths are those of two slices that live through the call; `out` is borrowed alone.
    unsafe { firrozun_convert_coeffs(to, c.as_ptr(), c.len(), out.as_mut_ptr(), out.len()) }
}

pub fn change_of_basis(basis: u8, a: f64, b: f64) -> CInterval {
    // SAFETY: the call takes and answers numbers alone, and is proved for every number.
    unsafe { firrozun_change_of_basis(basis, a, b) }
}

pub fn chebyshev_interpolate(
    nodes: &[f64],
    values: &[f64],
    a: f64,
    b: f64,
    out: &mut [f64],
) -> CInterpolated {
    // SAFETY: pointers and lengths are those of three slices that live through the call; `out` is borrowed alone.
    unsafe {
        firrozun_chebyshev_interpolate(
            nodes.as_ptr(),
            nodes.len(),
            values.as_ptr(),
            values.len(),
            a,
            b,
            out.as_mut_ptr(),
            out.len(),
        )
    }
}

// The calls that there are for whole numbers and for f64, under two names each.
macro_rules! calls_on {
    ($type:ty, $detect:ident $c_detect:ident, $fold:ident $c_fold:ident, $list:ident $c_list:ident) => {
        pub fn $detect(c: &[$type]) -> u8 {
            // SAFETY: pointer and length are those of a slice that lives through the call, which only reads it.
            unsafe { $c_detect(c.as_ptr(), c.len()) }
        }

        pub fn $fold(parity: u8, basis: u8, c: &[$type], out: &mut [$type]) -> CFolded {
            let (to, room) = (out.as_mut_ptr(), out.len());
            // SAFETY: pointers and lengths are those of two slices that live through the call; `out` is borrowed alone.
            unsafe { $c_fold(parity, basis, c.as_ptr(), c.len(), to, room) }
        }

        pub fn $list(
            strategy: u8,
            parity: u8,
            basis: u8,
            c: &[$type],
            out: &mut [$type],
            bounds: &mut [u16],
        ) -> CListed {
            let (from, count) = (c.as_ptr(), c.len());
            let (to, room) = (out.as_mut_ptr(), out.len());
            let (ends, places) = (bounds.as_mut_ptr(), bounds.len());
            // SAFETY: pointers and lengths are those of three slices that live through the call; what is written is borrowed alone.
            unsafe { $c_list(strategy, parity, basis, from, count, to, room, ends, places) }
        }
    };
}

calls_on!(
    i64,
    detect_parity firrozun_detect_parity,
    fold_parity firrozun_fold_parity,
    decompose_bsgs firrozun_decompose_bsgs
);
calls_on!(
    f64,
    detect_parity_f64 firrozun_detect_parity_f64,
    fold_parity_f64 firrozun_fold_parity_f64,
    decompose_bsgs_f64 firrozun_decompose_bsgs_f64
);

pub fn rebuild(
    strategy: u8,
    parity: u8,
    basis: u8,
    (degree, base): (usize, usize),
    lists: &[i64],
    bounds: &[u16],
    out: &mut [i64],
) -> CRebuilt {
    // SAFETY: pointers and lengths are those of three slices that live through the call; `out` is borrowed alone.
    unsafe {
        firrozun_rebuild(
            strategy,
            parity,
            basis,
            degree,
            base,
            lists.as_ptr(),
            lists.len(),
            bounds.as_ptr(),
            bounds.len(),
            out.as_mut_ptr(),
            out.len(),
        )
    }
}

/// A plan's settings as the library takes them.
#[derive(Clone, Copy)]
pub struct Settings {
    pub strategy: u8,
    pub parity: u8,
    pub basis: u8,
    pub fold: u8,
}

pub fn plan_sizes(settings: Settings, degree: usize) -> CSizes {
    // SAFETY: the call takes and answers numbers alone, and is proved for every number.
    unsafe {
        firrozun_plan_sizes(
            settings.strategy,
            settings.parity,
            settings.basis,
            settings.fold,
            degree,
        )
    }
}

pub fn plan(
    settings: Settings,
    c: &[i64],
    (a, b): (f64, f64),
    out: &mut [i64],
    bounds: &mut [u16],
    steps: &mut [u16],
) -> CPlanned {
    // SAFETY: pointers and lengths are those of four slices that live through the call; what is written is borrowed alone.
    unsafe {
        firrozun_plan(
            settings.strategy,
            settings.parity,
            settings.basis,
            settings.fold,
            c.as_ptr(),
            c.len(),
            a,
            b,
            out.as_mut_ptr(),
            out.len(),
            bounds.as_mut_ptr(),
            bounds.len(),
            steps.as_mut_ptr(),
            steps.len(),
        )
    }
}

pub fn trial_walk(
    head: CHead,
    coefficients: &[i64],
    bounds: &[u16],
    steps: &[u16],
    point: i64,
    modulus: u64,
) -> CTrial {
    // SAFETY: pointers and lengths are those of three slices that live through the call, which only reads them; the head is
    // passed by value, and any head may be.
    unsafe {
        firrozun_trial_walk(
            head,
            coefficients.as_ptr(),
            coefficients.len(),
            bounds.as_ptr(),
            bounds.len(),
            steps.as_ptr(),
            steps.len(),
            point,
            modulus,
        )
    }
}

pub fn heaviest_chain(
    head: CHead,
    coefficients: &[i64],
    bounds: &[u16],
    steps: &[u16],
    input: usize,
    coeff: usize,
) -> CChain {
    // SAFETY: pointers and lengths are those of three slices that live through the call, which only reads them; the head is
    // passed by value, and any head may be.
    unsafe {
        firrozun_heaviest_chain(
            head,
            coefficients.as_ptr(),
            coefficients.len(),
            bounds.as_ptr(),
            bounds.len(),
            steps.as_ptr(),
            steps.len(),
            input,
            coeff,
        )
    }
}

pub fn set_sizes(members: CMembers) -> CSizes {
    // SAFETY: the call takes and answers numbers alone, and is proved for every number.
    unsafe { firrozun_set_sizes(members) }
}

pub fn plan_set(
    members: CMembers,
    c: &[i64],
    out: &mut [i64],
    bounds: &mut [u16],
    steps: &mut [u16],
) -> CSetPlanned {
    // SAFETY: pointers and lengths are those of four slices that live through the call; what is written is borrowed alone. The members
    // are passed by value, and any may be.
    unsafe {
        firrozun_plan_set(
            members,
            c.as_ptr(),
            c.len(),
            out.as_mut_ptr(),
            out.len(),
            bounds.as_mut_ptr(),
            bounds.len(),
            steps.as_mut_ptr(),
            steps.len(),
        )
    }
}

#[cfg(test)]
mod tests;
