//! A set of curves, planned together. The published planner has no such call: it is worked out here from the words of request Q-10. Each
//! member is planned alone as `oracle lines` does it, with the published lists; what the members have in common is put together from these.

pub mod random;
pub mod recorded;
#[cfg(test)]
mod tests;

use std::collections::BTreeSet;

use crate::calls::{
    BASES, Basis, PARITIES, Parity, STRATEGIES, SplitStrategy, basis_letter, parity_letter,
    strategy_letter,
};
use crate::chain::{Head, Interval};
use crate::chains::Lent;
use crate::inputs::{MAX_DEGREE, MAX_SUM};
use crate::layouts::polynomial_evaluation::change_of_basis;
use crate::split::parts;
use crate::texts::allows;

/// The most members of a set.
pub const MEMBERS: usize = 16;

/// A member's settings, its interval, and how many coefficients it has in the slice; as include/firrozun.h has it. Kinds go by number, which
/// may be that of none.
#[repr(C)]
#[derive(Clone, Copy, Debug, Default)]
pub struct Member {
    pub strategy: u8,
    pub parity: u8,
    pub basis: u8,
    pub fold: u8,
    pub a: f64,
    pub b: f64,
    pub count: usize,
}

/// One call: the members, of which only the first `count` are read, the slice with all their coefficients, and how many places the buffers
/// for coefficients, boundaries and steps have.
#[derive(Clone, Debug)]
pub struct Call {
    pub count: usize,
    pub members: [Member; MEMBERS],
    pub c: Vec<i64>,
    pub places: [usize; 3],
}

/// A planned set, with what it puts into the buffers.
#[derive(Debug)]
pub struct Set {
    pub ct: usize,
    pub pt: usize,
    pub powers: usize,
    pub heads: Vec<Head>,
    pub c: Vec<i64>,
    pub bounds: Vec<u16>,
    pub numbers: Vec<u16>,
}

/// How many coefficients, lists and steps a set has.
pub type Sizes = [usize; 3];

impl Member {
    /// The kinds of the published planner and the fold; none if one of the four goes by an unknown number.
    pub fn settings(&self) -> Option<(Basis, Parity, SplitStrategy, bool)> {
        let basis = BASES.get(self.basis as usize)?;
        let parity = PARITIES.get(self.parity as usize)?;
        let strategy = STRATEGIES.get(self.strategy as usize)?;
        let fold = [false, true].get(self.fold as usize)?;
        Some((*basis, *parity, *strategy, *fold))
    }

    /// The letters of basis, parity, strategy and fold; none if one of the four goes by an unknown number.
    pub fn letters(&self) -> Option<[String; 4]> {
        let (basis, parity, strategy, fold) = self.settings()?;
        let letters = [
            basis_letter(basis),
            parity_letter(parity),
            strategy_letter(strategy),
            if fold { 'Y' } else { 'N' },
        ];
        Some(letters.map(String::from))
    }

    fn known(&self) -> (Basis, Parity, SplitStrategy, bool) {
        self.settings().expect("known kinds")
    }

    /// The first refusal that settings and length alone bring: 2, 1, and with folding 5, 6.
    fn refused_unseen(&self) -> Option<u8> {
        let (_, parity, _, fold) = self.known();
        let least = if parity == Parity::Even { 3 } else { 4 };
        let tests = [
            (self.count > MAX_DEGREE + 1, 2),
            (self.count < 2, 1),
            (fold && parity == Parity::Full, 5),
            (fold && self.count < least, 6),
        ];
        tests.iter().find(|t| t.0).map(|t| t.1)
    }

    /// The first refusal of the member planned alone, ahead of those by its buffers: then 4, 3, 7.
    fn refused(&self, c: &[i64]) -> Option<u8> {
        let (_, parity, ..) = self.known();
        let wrong = |(j, &x): (usize, &i64)| x != 0 && !allows(parity, j);
        let sum: i128 = c.iter().map(|&x| i128::from(x).abs()).sum();
        let rises = self.a < self.b;
        let tests = [
            (c.iter().enumerate().any(wrong), 4),
            (sum > MAX_SUM.into(), 3),
            (!rises, 7),
        ];
        let seen = || tests.iter().find(|t| t.0).map(|t| t.1);
        self.refused_unseen().or_else(seen)
    }

    /// The member's plan alone, which is not refused.
    fn planned(&self, c: &[i64]) -> Lent {
        let (basis, ..) = self.known();
        let mut line = self.letters().expect("known kinds").join("\t");
        c.iter().for_each(|x| line.push_str(&format!("\t{x}")));
        let mut plan = Lent::of(&line).expect("a plan of what is not refused");
        let (u, w) = change_of_basis(basis, self.a, self.b);
        plan.head.interval = Interval {
            a: self.a,
            b: self.b,
            u,
            w,
        };
        plan
    }
}

impl Call {
    /// The members that are read; of too many those that there are.
    pub fn read(&self) -> &[Member] {
        &self.members[..self.count.min(MEMBERS)]
    }

    /// The coefficients of each member, one after another in the slice; none if they pass it.
    fn curves(&self) -> Option<Vec<&[i64]>> {
        let mut rest = &self.c[..];
        let curves = self.read().iter().map(|member| {
            let (curve, behind) = rest.split_at_checked(member.count)?;
            rest = behind;
            Some(curve)
        });
        curves.collect()
    }

    fn knows_kinds(&self) -> bool {
        self.read().iter().all(|m| m.settings().is_some())
    }

    fn has_members(&self) -> bool {
        (1..=MEMBERS).contains(&self.count)
    }

    /// Whether all members have the first one's basis and fold and, when folded, its parity.
    fn alike(&self) -> bool {
        let common = |m: &Member| {
            let (basis, parity, _, fold) = m.known();
            (basis, fold, fold.then_some(parity))
        };
        let first = common(&self.members[0]);
        self.read().iter().all(|m| common(m) == first)
    }

    /// The set, or its refusal: 43, 35, 36, then the members' own, each member after the one before it, then 21, 22, 23.
    pub fn answer(&self) -> Result<Set, u8> {
        if !self.knows_kinds() {
            return Err(43);
        }
        if !self.has_members() {
            return Err(35);
        }
        let curves = self.curves().ok_or(35)?;
        if !self.alike() {
            return Err(36);
        }
        let both = || self.read().iter().zip(&curves);
        if let Some(refusal) = both().find_map(|(m, c)| m.refused(c)) {
            return Err(refusal);
        }
        let plans: Vec<Lent> = both().map(|(m, c)| m.planned(c)).collect();
        let set = together(&plans, self.members[0].fold == 1);
        let filled = [set.c.len(), set.bounds.len(), set.numbers.len()];
        let short = (0..3).find(|&i| self.places[i] < filled[i]);
        short.map_or(Ok(set), |i| Err(21 + i as u8))
    }

    /// How many coefficients, lists and steps every set with these settings and lengths has; or its refusal: 43, 35, 36, then the members'
    /// own by settings and length. Zero curves are planned: no other curve has more or fewer.
    pub fn sizes(&self) -> Result<Sizes, u8> {
        if !self.knows_kinds() {
            return Err(43);
        }
        if !self.has_members() {
            return Err(35);
        }
        if !self.alike() {
            return Err(36);
        }
        if let Some(refusal) = self.read().iter().find_map(|m| m.refused_unseen()) {
            return Err(refusal);
        }
        let zeros = |m: &Member| m.planned(&vec![0; m.count]);
        let plans: Vec<Lent> = self.read().iter().map(zeros).collect();
        let set = together(&plans, self.members[0].fold == 1);
        Ok([set.c.len(), set.bounds.len(), set.numbers.len() / 4])
    }
}

/// Puts the members' plans together: the common powers once, then each member's loads and combines.
fn together(plans: &[Lent], folded: bool) -> Set {
    let union = union(plans);
    let mut set = Set {
        ct: 0,
        pt: 0,
        powers: union.len(),
        heads: vec![],
        c: vec![],
        bounds: vec![],
        numbers: vec![],
    };
    for &n in &union {
        let (a, b, _) = parts(n);
        set.numbers.extend([1, n as u16, a as u16, b as u16]);
    }
    for plan in plans {
        let own: Vec<u16> = steps(plan).filter(|s| s[0] != 1).flatten().collect();
        set.heads.push(Head {
            steps: own.len() / 4,
            ..plan.head
        });
        set.c.extend(&plan.c);
        set.bounds.extend(&plan.bounds);
        set.numbers.extend(own);
        set.pt += multiplied(plan);
        // The product of the member's value and the input.
        set.ct += matches!(plan.head.transform, 2 | 4) as usize;
    }
    let of_kind = |kind| set.numbers.chunks(4).filter(|s| s[0] == kind).count();
    // The input is squared once, whatever the number of members.
    set.ct += union.len() + of_kind(3) + folded as usize;
    set.pt += of_kind(4);
    set
}

fn steps(plan: &Lent) -> impl Iterator<Item = [u16; 4]> + '_ {
    plan.numbers.as_chunks::<4>().0.iter().copied()
}

/// The allowed powers, 1 and up, of all lists of a plan.
fn multiplied(plan: &Lent) -> usize {
    let parity = PARITIES[plan.head.parity as usize];
    let (mut begin, mut sum) = (0, 0);
    for &end in &plan.bounds {
        sum += (1..(end - begin) as usize)
            .filter(|&j| allows(parity, j))
            .count();
        begin = end;
    }
    sum
}

/// The union of the powers that the members need: the least set that holds each member's own ones and, with each power, what it is made of.
fn union(plans: &[Lent]) -> BTreeSet<usize> {
    let mut union = BTreeSet::new();
    for Lent { head, .. } in plans.iter().filter(|p| p.head.degree > 1) {
        let mut wanted = vec![1 << head.degree.ilog2()];
        let parity = PARITIES[head.parity as usize];
        let below = head.base.min(head.degree + 1);
        wanted.extend((3..below).filter(|&n| allows(parity, n)));
        while let Some(n) = wanted.pop() {
            if n > 1 && union.insert(n) {
                let (a, b, distance) = parts(n);
                wanted.extend([a, b]);
                if BASES[head.basis as usize] == Basis::Chebyshev {
                    wanted.push(distance);
                }
            }
        }
    }
    // Another way to the same powers: those that the members planned alone make.
    let makes = plans.iter().flat_map(steps).filter(|s| s[0] == 1);
    let made: BTreeSet<usize> = makes.map(|s| s[1] as usize).collect();
    assert_eq!(union, made, "the powers of the members planned alone");
    union
}
