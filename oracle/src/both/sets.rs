//! Sets of curves, planned together by the proved library and worked out by src/sets.rs: of one member at every degree in every setting, of 16
//! members of the greatest degree, with each refusal at each place, and random ones, sound and damaged.

use std::process::exit;
use std::sync::atomic::{AtomicU64, Ordering};

use super::parts::{self, PART};
use super::set_calls::{Answer, Planned, alone, by_crate, plan_set, set_sizes, sizes_by_crate};
use super::{modulus, point, value};
use crate::inputs::{MAX_DEGREE, Rng};
use crate::sets::random::{Common, DAMAGES, OWN, damaged, least, setting, sound, spoil_member};
use crate::sets::{Call, MEMBERS, Member, Set};

/// The sweeps and the sound sets; then the rows of the damages.
const FIRST: [&str; 5] = [
    "one member, every degree",
    "16 members, degree 4,095",
    "a refusal at each place",
    "random, not folded",
    "random, folded",
];
const ROWS: usize = FIRST.len() + DAMAGES.len();
/// 0 is an accepted set.
const REFUSALS: [u8; 14] = [0, 1, 2, 3, 4, 5, 6, 7, 21, 22, 23, 35, 36, 43];
/// The parts of the work ahead of the random ones: the two other sweeps, and one for each degree.
const SWEEPS: usize = 2 + MAX_DEGREE;

/// For each row how many sets each refusal had.
type Tally = parts::Tally<ROWS, { REFUSALS.len() }>;

/// A call with its row, a seed for the points at which the members are walked, and the refusal that it must have, where it is known.
#[derive(Clone)]
struct Case {
    row: usize,
    call: Call,
    points: u64,
    known: Option<u8>,
}

impl Case {
    fn new(g: &mut Rng, row: usize, call: Call) -> Self {
        Case {
            row,
            call,
            points: g.next(),
            known: None,
        }
    }

    /// The refusal, and how many walks there were; or what is wrong.
    fn judged(&self) -> Result<(u8, u64), String> {
        let set = self.call.answer();
        let refusal = set.as_ref().err().copied().unwrap_or(0);
        if self.known.is_some_and(|known| known != refusal) {
            return Err(format!("src/sets.rs: refusal {refusal}"));
        }
        let must = Answer::expected(&self.call, &set);
        let ours = plan_set(&self.call);
        right("the library's set", &ours.answer, &must)?;
        if let Some(ours) = by_crate(&self.call) {
            right("the crate's set", &ours, &must)?;
        }
        self.sizes_are_right(&set)?;
        let Ok(set) = set else {
            return Ok((refusal, 0));
        };
        if self.call.count == 1 {
            right("the member planned alone", &alone(&self.call), &must)?;
        }
        Ok((0, self.walks(&set, &ours)?))
    }

    fn sizes_are_right(&self, set: &Result<Set, u8>) -> Result<(), String> {
        let sizes = self.call.sizes();
        let must = sizes.map_or_else(|refusal| (refusal, [0; 3]), |sizes| (0, sizes));
        let ours = set_sizes(&self.call);
        if ours != must {
            return Err(format!("the library's sizes: {ours:?}, not {must:?}"));
        }
        if let Some(ours) = sizes_by_crate(&self.call).filter(|ours| *ours != must) {
            return Err(format!("the crate's sizes: {ours:?}, not {must:?}"));
        }
        if let Ok(set) = set {
            let filled = [set.c.len(), set.bounds.len(), set.numbers.len() / 4];
            if must != (0, filled) {
                return Err(format!("the sizes: {must:?}, and the set has {filled:?}"));
            }
        }
        Ok(())
    }

    /// Walks each member of an accepted set to the remainder of its curve's value.
    fn walks(&self, set: &Set, ours: &Planned) -> Result<u64, String> {
        let g = &mut Rng::new(self.points);
        let mut walks = 0;
        for (i, member) in self.call.read().iter().enumerate() {
            let (basis, ..) = member.settings().expect("known kinds");
            let c = self.call.c[self.call.place(i)].iter();
            let c: Vec<f64> = c.map(|&x| x as f64).collect();
            for _ in 0..if set.heads[i].degree > 300 { 1 } else { 2 } {
                let (x, m) = (point(g), modulus(g));
                let (ours, must) = (ours.walk(i, x, m), (0, value(basis, &c, x, m)));
                if ours != must {
                    return Err(format!(
                        "member {i} at {x} modulo {m}: refusal and remainder {ours:?}, not {must:?}"
                    ));
                }
                walks += 1;
            }
        }
        Ok(walks)
    }
}

/// Says where an answer is not the one that it must be.
fn right(what: &str, ours: &Answer, must: &Answer) -> Result<(), String> {
    let wrong = ours.difference(must);
    wrong.map_or(Ok(()), |wrong| Err(format!("{what}: {wrong}")))
}

/// One part of the work: first the sweeps that soon end, then each degree from 1, then the random sets.
fn part(k: usize, count: u64, seed: u64) -> Vec<Case> {
    let g = &mut Rng::new(seed ^ (k as u64) << 32);
    match k {
        0 => places(g),
        1 => greatest(g),
        _ if k < SWEEPS => degree(g, k - 1),
        _ => {
            let here = PART.min(count - (k - SWEEPS) as u64 * PART);
            (0..here).map(|_| random(g)).collect()
        }
    }
}

/// A set of one, in every setting in which this degree is accepted.
fn degree(g: &mut Rng, degree: usize) -> Vec<Case> {
    let mut cases = vec![];
    for (common, strategy) in (0..20).map(setting) {
        let (member, c) = common.member(g, degree + 1);
        // A fold of a lower degree is refused.
        if member.count > degree + 1 {
            continue;
        }
        let mut call = Call::of(&[(Member { strategy, ..member }, c)]);
        call.fit();
        call.places.iter_mut().for_each(|n| *n += g.below(3));
        cases.push(Case::new(g, 0, call));
    }
    cases
}

/// 16 members of degree 4,095, with buffers that are exactly long enough, and then with each one place too short.
fn greatest(g: &mut Rng) -> Vec<Case> {
    let mut cases = vec![];
    for (fold, parity) in [
        (false, Some(0)),
        (false, None),
        (true, Some(1)),
        (true, Some(2)),
    ] {
        for (basis, strategy) in (0..6).map(|k| (k % 2, [Some(0), Some(1), None][k as usize / 2])) {
            let common = Common {
                basis,
                fold,
                parity,
            };
            let members = [(); MEMBERS].map(|()| common.member(g, MAX_DEGREE + 1));
            let mut call = Call::of(&members);
            if let Some(strategy) = strategy {
                call.members.iter_mut().for_each(|m| m.strategy = strategy);
            }
            call.fit();
            cases.push(Case::new(g, 1, call.clone()));
            if strategy.is_none() {
                for i in 0..3 {
                    let mut call = call.clone();
                    call.places[i] = call.places[i].saturating_sub(1);
                    let known = Some(21 + i as u8);
                    cases.push(Case {
                        known,
                        ..Case::new(g, 1, call)
                    });
                }
            }
        }
    }
    cases
}

/// Sets of every size, with each refusal at each place.
fn places(g: &mut Rng) -> Vec<Case> {
    let mut cases = vec![];
    for (members, place) in (1..=MEMBERS).flat_map(|n| (0..n).map(move |i| (n, i))) {
        for refusal in OWN {
            cases.extend(own(g, members, place, refusal));
        }
        cases.extend(unlike(g, members, place));
        cases.extend(unknown(g, members, place));
        cases.extend(beyond(g, members, place));
    }
    cases
}

/// A sound set of so many members.
fn alike(g: &mut Rng, members: usize, fold: bool) -> Call {
    let common = Common {
        basis: g.below(2) as u8,
        fold,
        parity: Some(1 + g.below(2)),
    };
    common.set(g, members, 9)
}

/// A case with a known refusal, which is ahead of those of buffers that are too short.
fn refused(g: &mut Rng, mut call: Call, refusal: u8) -> Case {
    if g.one_in(2) {
        call.places = [0; 3];
    }
    Case {
        known: Some(refusal),
        ..Case::new(g, 2, call)
    }
}

/// A member's own refusal, ahead of those of the members behind it.
fn own(g: &mut Rng, members: usize, place: usize, refusal: u8) -> Vec<Case> {
    let mut cases = vec![];
    for fold in [false, true] {
        // Where one folded member has parity `Full`, all have, so 5 is always the first one's.
        if refusal == 5 && (place > 0 || !fold) || refusal == 6 && !fold {
            continue;
        }
        let mut call = alike(g, members, fold);
        spoil_member(g, &mut call, place, refusal);
        spoil_some(g, &mut call, place + 1);
        cases.push(refused(g, call, refusal));
    }
    cases
}

/// Brings refusals to some of the members from this one on.
fn spoil_some(g: &mut Rng, call: &mut Call, from: usize) {
    for i in from..call.count {
        if g.one_in(3) {
            let refusal = g.pick(&[1, 6, 4, 3, 7]);
            spoil_member(g, call, i, refusal);
        }
    }
}

/// Another basis, fold or, when folded, parity at one member, ahead of all members' own refusals.
fn unlike(g: &mut Rng, members: usize, place: usize) -> Vec<Case> {
    let mut cases = vec![];
    for (fold, way) in [(false, 0), (true, 0), (false, 1), (true, 1), (true, 2)] {
        let mut call = alike(g, members, fold);
        spoil_some(g, &mut call, 0);
        let member = &mut call.members[place];
        match way {
            0 => member.basis ^= 1,
            1 => member.fold ^= 1,
            _ => member.parity = g.pick(&[0, 3 - member.parity]),
        }
        // A single member differs from no other.
        if members > 1 {
            cases.push(refused(g, call, 36));
        }
    }
    cases
}

/// A number of no kind at one member, ahead of lengths that pass the slice.
fn unknown(g: &mut Rng, members: usize, place: usize) -> Vec<Case> {
    let mut cases = vec![];
    for way in 0..4 {
        let fold = g.one_in(2);
        let mut call = alike(g, members, fold);
        spoil_some(g, &mut call, 0);
        let (more, short) = (g.below(100) as u8, g.one_in(2));
        let member = &mut call.members[place];
        match way {
            0 => member.strategy = 2 + more,
            1 => member.parity = 3 + more,
            2 => member.basis = 2 + more,
            _ => member.fold = 2 + more,
        }
        if short {
            call.c.pop();
        }
        cases.push(refused(g, call, 43));
    }
    cases
}

/// Lengths that pass the slice, by one and so far that no usize holds their sum, and numbers of members, ahead of all that is said of a member.
fn beyond(g: &mut Rng, members: usize, place: usize) -> Vec<Case> {
    let mut cases = vec![];
    for way in 0..5 {
        let fold = g.one_in(2);
        let mut call = alike(g, members, fold);
        if g.one_in(2) {
            call.members[place].basis ^= 1;
        }
        let rest = call.c.len() - call.members[place].count;
        match way {
            0 => drop(call.c.pop()),
            1 => call.members[place].count += 1,
            // With the others it is 2^64 or a little more, and alone it is no length.
            2 if rest == 0 => continue,
            2 => call.members[place].count = usize::MAX - rest + 1 + g.below(rest.min(4)),
            3 => call.members[place].count = usize::MAX - g.below(4),
            _ => call.count = g.pick(&[0, 17, 32, 257, 1 << 32, usize::MAX]),
        }
        // Of too many members all 16 must have known kinds, as they have here.
        cases.push(refused(g, call, 35));
    }
    cases
}

fn random(g: &mut Rng) -> Case {
    let most = MAX_DEGREE + 1;
    if g.one_in(2) {
        let call = sound(g, most);
        let row = 3 + call.members[0].fold as usize;
        return Case {
            known: Some(0),
            ..Case::new(g, row, call)
        };
    }
    let (row, call) = damaged(g, most);
    Case::new(g, FIRST.len() + row, call)
}

/// Compares the sweeps and `count` random sets. At the first difference it says a small set that shows one and ends with status 1.
pub fn compare(count: u64, seed: u64) {
    let parts = SWEEPS + count.div_ceil(PART) as usize;
    let walked = AtomicU64::new(0);
    let agrees = |case: &Case, _: usize, tally: &mut Tally| {
        let Ok((refusal, walks)) = case.judged() else {
            return false;
        };
        let place = REFUSALS.iter().position(|&r| r == refusal);
        tally[case.row][place.expect("a refusal of the call")] += 1;
        walked.fetch_add(walks, Ordering::Relaxed);
        true
    };
    match parts::compare(parts, |k| part(k, count, seed), agrees) {
        Ok(total) => summary(&total, walked.into_inner(), seed),
        Err(case) => stop(case, seed),
    }
}

fn row_name(row: usize) -> &'static str {
    let damages = DAMAGES.iter().map(|d| d.0);
    let names = FIRST.into_iter().chain(damages);
    names.into_iter().nth(row).expect("a row")
}

/// The same with fewer members, shorter curves, zeros in place of numbers, the usual intervals and settings, and without what stands beyond,
/// as long as a difference stays.
fn smallest(mut case: Case) -> Case {
    for i in (0..MEMBERS).rev() {
        take(&mut case, |call| remove(call, i));
    }
    for i in 0..case.call.read().len() {
        shorten(&mut case, i);
        take(&mut case, |call| {
            (call.members[i].a, call.members[i].b) = (-1.0, 1.0)
        });
        take(&mut case, |call| call.members[i].strategy = 0);
    }
    take(&mut case, |call| {
        let end = call.place(call.read().len().max(1) - 1).end;
        call.c.truncate(end)
    });
    take(&mut case, |call| {
        let read = call.read().len();
        call.members[read..].fill(Member::default())
    });
    take(&mut case, Call::fit);
    let mut block = case.call.c.len().next_power_of_two();
    while block > 0 {
        for from in (0..case.call.c.len()).step_by(block) {
            take(&mut case, |call| {
                let places = call.c.iter_mut().skip(from).take(block);
                places.for_each(|x| *x = 0)
            });
        }
        block /= 2;
    }
    case
}

/// Gives a member fewer coefficients, as long as a difference stays.
fn shorten(case: &mut Case, i: usize) {
    let settings = case.call.members[i].settings();
    let fewest = settings.map_or(0, |(_, parity, _, fold)| least(fold, parity));
    loop {
        let n = case.call.members[i].count;
        // A length that passes the slice says nothing of the coefficients.
        let within = case.call.place(i).len() == n;
        let fewer = [fewest, fewest + 1, n / 4, n / 2, n - n.min(1)];
        for less in fewer {
            if within && less < n && case.call.members[i].count == n {
                take(case, |call| call.resize(i, less));
            }
        }
        if case.call.members[i].count == n {
            return;
        }
    }
}

/// Takes a member and its coefficients away.
fn remove(call: &mut Call, i: usize) {
    if i < call.read().len() {
        call.c.drain(call.place(i));
        call.members[i..].rotate_left(1);
        call.count -= 1;
    }
}

/// Takes an edit if a difference stays, with the buffers as long as they were, or with as many places beyond the set or too few for it. The
/// known refusal is none of the edited call's.
fn take(case: &mut Case, edit: impl FnOnce(&mut Call)) {
    let mut next = Case {
        known: None,
        ..case.clone()
    };
    edit(&mut next.call);
    if next.judged().is_err() {
        *case = next;
        return;
    }
    let exact = |call: &Call| {
        let mut call = call.clone();
        call.fit();
        call.places
    };
    let (before, after) = (exact(&case.call), exact(&next.call));
    for i in 0..3 {
        let places = case.call.places[i] + after[i];
        next.call.places[i] = places.saturating_sub(before[i]);
    }
    if next.judged().is_err() {
        *case = next;
    }
}

fn stop(case: Case, seed: u64) -> ! {
    println!("a difference, seed {seed}, {}", row_name(case.row));
    let small = smallest(case);
    let call = &small.call;
    println!(
        "{} members; basis, parity, strategy, fold, interval, length:",
        call.count
    );
    for (i, m) in call.read().iter().enumerate() {
        let numbers = || format!("{:?}", [m.basis, m.parity, m.strategy, m.fold]);
        let settings = m.letters().map_or_else(numbers, |letters| letters.concat());
        println!("{i}: {settings} {:?} {}", (m.a, m.b), m.count);
    }
    let places = call.c.iter().enumerate();
    let numbers: Vec<(usize, &i64)> = places.filter(|(_, x)| **x != 0).collect();
    let slice = call.c.len();
    println!("{slice} numbers in the slice; by place those that are not 0: {numbers:?}");
    println!(
        "places for coefficients, boundaries and steps: {:?}",
        call.places
    );
    match small.judged() {
        Err(wrong) => println!("{wrong}"),
        Ok(_) => println!("the difference did not come again"),
    }
    exit(1)
}

fn summary(total: &Tally, walks: u64, seed: u64) {
    let columns: Vec<String> = REFUSALS[1..].iter().map(|r| format!("by {r}")).collect();
    println!("| sets | accepted | refused {} |", columns.join(" | "));
    let names: [&str; ROWS] = std::array::from_fn(row_name);
    let sets = parts::table(&names, total);
    if let Some(column) = parts::empty_column(total) {
        println!("seed {seed}: no set had refusal {}", REFUSALS[column]);
        exit(1)
    }
    println!("seed {seed}: {sets} sets, {walks} walks of their members, no difference");
}
