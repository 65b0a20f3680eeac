//! From a call that shows a difference to a smaller one that shows one too.

use super::call::*;
use super::differs;

/// A change that makes a call simpler.
enum Edit {
    /// Lowers the degree.
    Degree(usize),
    InputScale(usize),
    CoeffScale(usize),
    /// Leaves the first coefficients only.
    Cut(usize),
    /// Removes coefficient, or node, at a place.
    Drop(usize),
    Put(usize, f64),
    Value(usize, f64),
    Point(f64),
    Ends(f64, f64),
    Lower(f64),
    Upper(f64),
    /// Leaves one walk only.
    Walk(usize),
    WalkAt(i64, u64),
}

use Edit::*;

/// Goes over all edits until none is left that keeps the difference.
pub fn smallest(mut call: Call) -> Call {
    loop {
        let mut done = true;
        for edit in edits(&call) {
            if let Some(next) = edited(&call, edit)
                && differs(&next)
            {
                call = next;
                done = false;
            }
        }
        if done {
            return call;
        }
    }
}

/// Short lengths and low degrees come first, so the first that keeps the difference is the least.
fn edits(call: &Call) -> Vec<Edit> {
    let mut all = vec![];
    all.extend((0..call.degree.min(5_000)).map(Degree));
    all.extend((1..32).rev().map(|k| Degree(call.degree >> k)));
    all.push(Degree(call.degree.saturating_sub(1)));
    let (input, coeff) = call.scales;
    all.extend(
        (0..=100)
            .chain([input / 2, input.saturating_sub(1)])
            .map(InputScale),
    );
    all.extend(
        (0..=100)
            .chain([coeff / 2, coeff.saturating_sub(1)])
            .map(CoeffScale),
    );
    all.extend((0..call.walks.len()).map(Walk));
    all.extend([(0, 2), (1, 2), (1, 3), (2, 3), (2, 1_000)].map(|(x, m)| WalkAt(x, m)));
    all.extend((0..call.c.len()).map(Cut));
    all.extend((0..call.c.len().min(64)).rev().map(Drop));
    for x in [0.0, 1.0] {
        all.extend((0..call.c.len()).map(|i| Put(i, x)));
        all.extend((0..call.values.len()).map(|i| Value(i, x)));
        all.extend([Point(x), Lower(x), Upper(x)]);
    }
    all.extend([Ends(-1.0, 1.0), Ends(0.0, 1.0)]);
    all
}

/// The call with the edit; none if it gets no simpler by it.
fn edited(call: &Call, edit: Edit) -> Option<Call> {
    let mut next = call.clone();
    let simpler = match edit {
        Degree(d) => {
            next.degree = d;
            d < call.degree
        }
        InputScale(n) => {
            next.scales.0 = n;
            n < call.scales.0
        }
        CoeffScale(n) => {
            next.scales.1 = n;
            n < call.scales.1
        }
        Cut(n) => {
            next.c.truncate(n);
            next.values.truncate(n);
            n < call.c.len()
        }
        Drop(i) if i < call.c.len() => {
            next.c.remove(i);
            if i < call.values.len() {
                next.values.remove(i);
            }
            true
        }
        Drop(_) => false,
        Put(i, x) => next.c.get_mut(i).is_some_and(|c| put(c, x)),
        Value(i, x) => next.values.get_mut(i).is_some_and(|v| put(v, x)),
        Point(x) => put(&mut next.x, x),
        Ends(a, b) => {
            next.ends = (a, b);
            !plain(call.ends)
        }
        // A plain interval stays, else these edits and the one above would take turns without end.
        Lower(x) => !plain(call.ends) && put(&mut next.ends.0, x),
        Upper(x) => !plain(call.ends) && put(&mut next.ends.1, x),
        Walk(i) => {
            next.walks = call.walks.get(i).copied().into_iter().collect();
            call.walks.len() > 1
        }
        WalkAt(x, m) => {
            next.walks = vec![(x, m)];
            matches!(call.walks[..], [(y, n)] if (n, y.unsigned_abs()) > (m, x as u64))
        }
    };
    simpler.then_some(next)
}

/// Whether an interval is one of the simplest.
fn plain(ends: (f64, f64)) -> bool {
    [(-1.0, 1.0), (0.0, 1.0)].contains(&ends)
}

/// Whether the number gets simpler: 0 is the simplest, then comes 1.
fn put(at: &mut f64, x: f64) -> bool {
    let rank = |x: f64| {
        [0.0f64, 1.0]
            .iter()
            .position(|s| s.to_bits() == x.to_bits())
    };
    let simpler = rank(x).unwrap_or(2) < rank(*at).unwrap_or(2);
    *at = x;
    simpler
}
