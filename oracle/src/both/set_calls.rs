//! The proved library's calls on a set of curves, in buffers that hold a pattern before.

use firrozun::Refusal;
use firrozun::buffers::{self, Head as CrateHead, PlanBuffers, plan_set_into};

use super::ours::kinds_of;
use crate::chain::Head;
use crate::sets::{Call, MEMBERS, Member, Set, Sizes};

#[repr(C)]
struct CMembers {
    count: usize,
    members: [Member; MEMBERS],
}

#[repr(C)]
struct CCurveSet {
    ct: usize,
    pt: usize,
    powers: usize,
    heads: [Head; MEMBERS],
}

#[repr(C)]
struct CSetPlanned {
    refusal: u8,
    set: CCurveSet,
}

#[repr(C)]
struct CSizes {
    refusal: u8,
    coefficients: usize,
    lists: usize,
    steps: usize,
}

#[repr(C)]
struct CPlanned {
    refusal: u8,
    head: Head,
}

#[repr(C)]
struct CTrial {
    refusal: u8,
    remainder: u64,
}

// By include/firrozun.h: the crate in bindings/rust takes no unknown kind, and no more members than it is handed.
unsafe extern "C" {
    fn firrozun_plan_set(
        members: CMembers,
        c: *const i64,
        c_len: usize,
        out: *mut i64,
        out_len: usize,
        bounds: *mut u16,
        bounds_len: usize,
        steps: *mut u16,
        steps_len: usize,
    ) -> CSetPlanned;
    fn firrozun_set_sizes(members: CMembers) -> CSizes;
    fn firrozun_plan(
        strategy: u8,
        parity: u8,
        basis: u8,
        fold: u8,
        c: *const i64,
        c_len: usize,
        a: f64,
        b: f64,
        out: *mut i64,
        out_len: usize,
        bounds: *mut u16,
        bounds_len: usize,
        steps: *mut u16,
        steps_len: usize,
    ) -> CPlanned;
    fn firrozun_trial_walk(
        head: Head,
        coefficients: *const i64,
        coefficients_len: usize,
        bounds: *const u16,
        bounds_len: usize,
        steps: *const u16,
        steps_len: usize,
        point: i64,
        modulus: u64,
    ) -> CTrial;
}

/// The numbers of a head, one after another; those of its interval by their bits, and a NaN as any NaN.
const HEAD: [&str; 16] = [
    "basis",
    "parity",
    "strategy",
    "transform",
    "degree",
    "base",
    "ct",
    "pt",
    "depth",
    "coefficients",
    "lists",
    "steps",
    "a",
    "b",
    "u",
    "w",
];

fn head_numbers(head: &Head) -> [u64; HEAD.len()] {
    let kinds = [head.basis, head.parity, head.strategy, head.transform];
    let counts = [
        head.degree,
        head.base,
        head.ct,
        head.pt,
        head.depth,
        head.coefficients,
        head.lists,
        head.steps,
    ];
    let interval = [
        head.interval.a,
        head.interval.b,
        head.interval.u,
        head.interval.w,
    ];
    let mut numbers = [0; HEAD.len()];
    (numbers.iter_mut().zip(kinds)).for_each(|(n, kind)| *n = kind.into());
    (numbers[4..].iter_mut().zip(counts)).for_each(|(n, count)| *n = count as u64);
    (numbers[12..].iter_mut().zip(interval)).for_each(|(n, x)| *n = bits(x));
    numbers
}

fn bits(x: f64) -> u64 {
    if x.is_nan() { f64::NAN } else { x }.to_bits()
}

/// The three buffers that are lent to a call.
#[derive(Clone, PartialEq)]
pub struct Lent {
    pub c: Vec<i64>,
    pub bounds: Vec<u16>,
    pub numbers: Vec<u16>,
}

impl Lent {
    /// Buffers with so many places before a call: no two neighbours are equal.
    pub fn before([c, bounds, numbers]: [usize; 3]) -> Self {
        let pattern = |count| (0..count).map(|i| 0xa5a5 ^ i as u16).collect();
        Lent {
            c: (0..c).map(|i| i64::MIN + i as i64).collect(),
            bounds: pattern(bounds),
            numbers: pattern(numbers),
        }
    }

    /// Fills the first places.
    fn fill(&mut self, c: &[i64], bounds: &[u16], numbers: &[u16]) {
        self.c[..c.len()].copy_from_slice(c);
        self.bounds[..bounds.len()].copy_from_slice(bounds);
        self.numbers[..numbers.len()].copy_from_slice(numbers);
    }
}

/// The answer to a call: refusal, ct-ct, pt-ct and the number of power steps; the heads; and what is left in the buffers.
#[derive(Clone, PartialEq)]
pub struct Answer {
    pub top: [u64; 4],
    pub heads: [[u64; HEAD.len()]; MEMBERS],
    pub left: Lent,
}

/// The library's answer as it came, beside the same in numbers.
pub struct Planned {
    pub answer: Answer,
    heads: [Head; MEMBERS],
}

impl Answer {
    /// The answer that src/sets.rs works out: a refusal has zeros alone and leaves the buffers as they were.
    pub fn expected(call: &Call, set: &Result<Set, u8>) -> Self {
        let mut left = Lent::before(call.places);
        let mut heads = [Head::default(); MEMBERS];
        let top = match set {
            Err(refusal) => [(*refusal).into(), 0, 0, 0],
            Ok(set) => {
                left.fill(&set.c, &set.bounds, &set.numbers);
                heads[..set.heads.len()].copy_from_slice(&set.heads);
                [0, set.ct as u64, set.pt as u64, set.powers as u64]
            }
        };
        Answer {
            top,
            heads: heads.map(|head| head_numbers(&head)),
            left,
        }
    }

    /// Where this answer is not the one that it must be; none if it is.
    pub fn difference(&self, must: &Answer) -> Option<String> {
        const TOP: [&str; 4] = ["refusal", "ct", "pt", "powers"];
        if let Some(i) = (0..TOP.len()).find(|&i| self.top[i] != must.top[i]) {
            let (ours, must) = (self.top[i], must.top[i]);
            return Some(format!("{}: {ours}, not {must}", TOP[i]));
        }
        for (i, (ours, must)) in self.heads.iter().zip(&must.heads).enumerate() {
            if let Some(j) = (0..HEAD.len()).find(|&j| ours[j] != must[j]) {
                let (name, ours, must) = (HEAD[j], ours[j], must[j]);
                return Some(format!("head {i}, {name}: {ours:#x}, not {must:#x}"));
            }
        }
        let (left, must) = (&self.left, &must.left);
        super::sums::place("coefficient", &left.c, &must.c)
            .or_else(|| super::sums::place("boundary", &left.bounds, &must.bounds))
            .or_else(|| super::sums::place("number of the steps", &left.numbers, &must.numbers))
    }
}

fn members(call: &Call) -> CMembers {
    CMembers {
        count: call.count,
        members: call.members,
    }
}

/// The library's set.
pub fn plan_set(call: &Call) -> Planned {
    let mut left = Lent::before(call.places);
    // SAFETY: pointers and lengths are those of four vectors that live through the call; it reads the first and writes to the others, which
    // nothing else refers to. The members are passed by value, and any may be.
    let CSetPlanned { refusal, set } = unsafe {
        firrozun_plan_set(
            members(call),
            call.c.as_ptr(),
            call.c.len(),
            left.c.as_mut_ptr(),
            left.c.len(),
            left.bounds.as_mut_ptr(),
            left.bounds.len(),
            left.numbers.as_mut_ptr(),
            left.numbers.len(),
        )
    };
    let counts = [set.ct, set.pt, set.powers].map(|n| n as u64);
    Planned {
        answer: Answer {
            top: [refusal.into(), counts[0], counts[1], counts[2]],
            heads: set.heads.map(|head| head_numbers(&head)),
            left,
        },
        heads: set.heads,
    }
}

/// The sizes of the set by the library; in a refusal all three must be 0.
pub fn set_sizes(call: &Call) -> (u8, Sizes) {
    // SAFETY: the members are passed by value, and any may be.
    let sizes = unsafe { firrozun_set_sizes(members(call)) };
    (
        sizes.refusal,
        [sizes.coefficients, sizes.lists, sizes.steps],
    )
}

/// The set of the crate in bindings/rust, with what is left in the buffers; none if it can't be asked.
pub fn by_crate(call: &Call) -> Option<Answer> {
    let members = crate_members(call)?;
    let mut left = Lent::before(call.places);
    let buffers = PlanBuffers {
        coefficients: &mut left.c,
        boundaries: &mut left.bounds,
        steps: &mut left.numbers,
    };
    let set = plan_set_into(&members, &call.c, buffers);
    let mut heads = [head_numbers(&Head::default()); MEMBERS];
    let top = match set {
        Err(refusal) => [refusal.number().into(), 0, 0, 0],
        Ok(set) => {
            heads = set.heads.map(|head| crate_numbers(&head));
            [0, set.ct_ct as u64, set.pt_ct as u64, set.powers as u64]
        }
    };
    Some(Answer { top, heads, left })
}

/// The sizes by the crate; none if it can't be asked.
pub fn sizes_by_crate(call: &Call) -> Option<(u8, Sizes)> {
    let sizes = buffers::set_sizes(&crate_members(call)?);
    let refused = |refusal: Refusal| (refusal.number(), [0; 3]);
    Some(sizes.map_or_else(refused, |s| (0, [s.coefficients, s.lists, s.steps])))
}

fn crate_members(call: &Call) -> Option<Vec<buffers::Member>> {
    let member = |m: &Member| {
        let (basis, parity, strategy, fold) = m.settings()?;
        let (basis, parity, strategy) = kinds_of(basis, parity, strategy);
        Some(buffers::Member {
            strategy,
            parity,
            basis,
            fold,
            interval: (m.a, m.b),
            count: m.count,
        })
    };
    let members: Option<Vec<_>> = call.read().iter().map(member).collect();
    members.filter(|m| m.len() == call.count)
}

fn crate_numbers(head: &CrateHead) -> [u64; HEAD.len()] {
    let interval = crate::chain::Interval {
        a: head.interval.a,
        b: head.interval.b,
        u: head.interval.u,
        w: head.interval.w,
    };
    head_numbers(&Head {
        basis: head.basis as u8,
        parity: head.parity as u8,
        strategy: head.strategy as u8,
        transform: head.transform as u8,
        degree: head.degree,
        base: head.base,
        ct: head.ct_ct,
        pt: head.pt_ct,
        depth: head.depth,
        coefficients: head.coefficients,
        lists: head.lists,
        steps: head.steps,
        interval,
    })
}

/// What the library's plan of the only member, planned alone, makes of an answer: its power steps are counted apart.
pub fn alone(call: &Call) -> Answer {
    let mut left = Lent::before(call.places);
    let m = &call.members[0];
    let c = &call.c[..m.count];
    // SAFETY: pointers and lengths are those of a slice and of three vectors that live through the call; it reads the first and writes to the
    // others, which nothing else refers to.
    let CPlanned { refusal, head } = unsafe {
        firrozun_plan(
            m.strategy,
            m.parity,
            m.basis,
            m.fold,
            c.as_ptr(),
            c.len(),
            m.a,
            m.b,
            left.c.as_mut_ptr(),
            left.c.len(),
            left.bounds.as_mut_ptr(),
            left.bounds.len(),
            left.numbers.as_mut_ptr(),
            left.numbers.len(),
        )
    };
    let steps = left.numbers.chunks_exact(4).take(head.steps);
    let powers = steps.filter(|s| s[0] == 1).count();
    let mut heads = [head_numbers(&Head::default()); MEMBERS];
    heads[0] = head_numbers(&Head {
        steps: head.steps - powers,
        ..head
    });
    let counts = [head.ct, head.pt, powers].map(|n| n as u64);
    Answer {
        top: [refusal.into(), counts[0], counts[1], counts[2]],
        heads,
        left,
    }
}

impl Planned {
    /// Walks a member: its head with the power steps counted, its own coefficients and boundaries, and behind the power steps its own steps.
    /// Refusal and remainder.
    pub fn walk(&self, i: usize, point: i64, modulus: u64) -> (u8, u64) {
        let before = &self.heads[..i];
        let powers = self.answer.top[3] as usize;
        let sum = |of: fn(&Head) -> usize| before.iter().map(of).sum::<usize>();
        let (coefficients, lists) = (sum(|h| h.coefficients), sum(|h| h.lists));
        let own = 4 * (powers + sum(|h| h.steps));
        let left = &self.answer.left;
        let mut head = self.heads[i];
        let c = &left.c[coefficients..][..head.coefficients];
        let bounds = &left.bounds[lists..][..head.lists];
        let steps = [
            &left.numbers[..4 * powers],
            &left.numbers[own..][..4 * head.steps],
        ]
        .concat();
        head.steps += powers;
        // SAFETY: pointers and lengths are those of three slices that live through the call, which only reads them; the head is passed by
        // value, and any head may be.
        let trial = unsafe {
            firrozun_trial_walk(
                head,
                c.as_ptr(),
                c.len(),
                bounds.as_ptr(),
                bounds.len(),
                steps.as_ptr(),
                steps.len(),
                point,
                modulus,
            )
        };
        (trial.refusal, trial.remainder)
    }
}
