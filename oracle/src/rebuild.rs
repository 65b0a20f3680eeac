//! The coefficients of a curve, rebuilt from its lists. The published planner has no such call: it is worked out here from the
//! request's words and docs/RULES.md, in exact arithmetic. Base and boundaries of the lists are those of the published list call.

#[cfg(test)]
mod tests;

use crate::calls::{BASES, Basis, PARITIES, Parity, STRATEGIES, SplitStrategy};
use crate::inputs::MAX_DEGREE;
use crate::layouts::polynomial_evaluation::Polynomial;
use crate::texts::top;

/// The coefficients, or the number of the refusal.
pub type Rebuilt = Result<Vec<i64>, u8>;

/// The numbers of strategy, parity and basis, which may be those of none.
pub type Kinds = [u8; 3];

/// One call: its settings, what is lent to it, and how many places it may write to.
#[derive(Clone, Debug)]
pub struct Call {
    pub kinds: Kinds,
    pub degree: usize,
    pub base: usize,
    pub lists: Vec<i64>,
    pub bounds: Vec<u16>,
    pub room: usize,
}

/// The kinds of the published planner by their numbers; none if one of them is unknown.
pub fn settings([strategy, parity, basis]: Kinds) -> Option<(Basis, Parity, SplitStrategy)> {
    let basis = BASES.get(basis as usize)?;
    let parity = PARITIES.get(parity as usize)?;
    let strategy = STRATEGIES.get(strategy as usize)?;
    Some((*basis, *parity, *strategy))
}

/// The numbers of all known kinds, the strategy changing slowest.
pub fn all_kinds() -> impl Iterator<Item = Kinds> {
    (0..12).map(|k| [k / 6, k / 2 % 3, k % 2])
}

impl Call {
    /// The call that undoes the published list call on whole coefficients; its buffers end where they must.
    pub fn of(kinds: Kinds, c: &[f64]) -> Self {
        let (basis, parity, strategy) = settings(kinds).expect("known kinds");
        let p = Polynomial::new_with_parity(basis, c.to_vec(), parity);
        let plan = p.decompose_bsgs_with(strategy, |list| Ok(list.to_vec()));
        let plan = plan.expect("lists of a degree from 1");
        let mut call = Call {
            kinds,
            degree: plan.degree(),
            base: plan.base(),
            lists: vec![],
            bounds: vec![],
            room: c.len(),
        };
        for list in plan.baby_steps() {
            call.lists.extend(list.iter().map(|&x| whole(x)));
            call.bounds.push(call.lists.len() as u16);
        }
        call
    }

    /// Refusals in their order: 43, 2, 1, 33, 34, 21.
    pub fn answer(&self) -> Rebuilt {
        let (basis, ..) = settings(self.kinds).ok_or(43)?;
        if self.degree > MAX_DEGREE {
            return Err(2);
        }
        if self.degree == 0 {
            return Err(1);
        }
        let bounds = self.shape().ok_or(33)?;
        let all = self.part(basis, &bounds, 0, self.degree + 1).ok_or(34)?;
        if self.room <= self.degree {
            return Err(21);
        }
        // Each number was tested at the last cut, or is one of a list.
        Ok(all.iter().map(|&x| x as i64).collect())
    }

    /// The boundaries of the settings' lists; none if the base is another or a buffer does not begin with such lists.
    fn shape(&self) -> Option<Vec<u16>> {
        let own = Call::of(self.kinds, &vec![0.0; self.degree + 1]);
        let same = self.base == own.base && self.bounds.starts_with(&own.bounds);
        (same && self.lists.len() > self.degree).then_some(own.bounds)
    }

    /// The coefficients of the part that stands in the places from `from` to ahead of `to`, all its cuts undone; none if one
    /// of them can't be. A part with a boundary inside was cut at the greatest power of two up to its degree.
    fn part(&self, basis: Basis, bounds: &[u16], from: usize, to: usize) -> Option<Vec<i128>> {
        let inside = |&end: &u16| from < end as usize && (end as usize) < to;
        if !bounds.iter().any(inside) {
            return Some(self.lists[from..to].iter().map(|&x| x.into()).collect());
        }
        let cut = from + top(to - from - 1);
        let low = self.part(basis, bounds, from, cut)?;
        let high = self.part(basis, bounds, cut, to)?;
        joined(basis, low, &high)
    }
}

/// Undoes a cut; none if a doubled coefficient is odd, or a number of the part beyond i64.
fn joined(basis: Basis, low: Vec<i128>, high: &[i128]) -> Option<Vec<i128>> {
    let p = low.len();
    let mut c = [&low, high].concat();
    if basis == Basis::Chebyshev {
        for j in 1..high.len() {
            if high[j] % 2 != 0 {
                return None;
            }
            c[p + j] = high[j] / 2;
            c[p - j] = low[p - j] + high[j] / 2;
        }
    }
    let fits = |&x: &i128| i64::try_from(x).is_ok();
    c.iter().all(fits).then_some(c)
}

/// A whole number as such.
fn whole(x: f64) -> i64 {
    assert_eq!(x as i64 as f64, x, "a whole number");
    x as i64
}
