//! Random sets of curves: sound ones, and what can be wrong with one.

use super::{Call, MEMBERS, Member};
use crate::calls::{PARITIES, Parity};
use crate::inputs::*;

const MAX: i64 = i64::MAX;
const MIN: i64 = i64::MIN;

/// What the members of a set have in common, and a parity that all of them have, folded or not, if one is named.
#[derive(Clone, Copy)]
pub struct Common {
    pub basis: u8,
    pub fold: bool,
    pub parity: Option<usize>,
}

impl Common {
    /// A sound member with so many coefficients; more, if these are too few.
    pub fn member(&self, g: &mut Rng, n: usize) -> (Member, Vec<i64>) {
        let parity = self.parity.unwrap_or_else(|| g.below(3));
        let count = n.max(least(self.fold, PARITIES[parity]));
        let (a, b) = rising(g);
        let member = Member {
            strategy: g.below(2) as u8,
            parity: parity as u8,
            basis: self.basis,
            fold: self.fold as u8,
            a,
            b,
            count,
        };
        (member, curve(g, PARITIES[parity], count))
    }

    /// A sound set of so many members with up to `most` coefficients, and buffers that are just long enough.
    pub fn set(&self, g: &mut Rng, members: usize, most: usize) -> Call {
        let members: Vec<(Member, Vec<i64>)> = (0..members)
            .map(|_| {
                let n = g.below(most + 1);
                self.member(g, n)
            })
            .collect();
        let mut call = Call::of(&members);
        call.fit();
        call
    }
}

/// A sound set with buffers that are long enough. Its curves have at most so many coefficients.
pub fn sound(g: &mut Rng, most: usize) -> Call {
    let members = match g.below(6) {
        0 => 1,
        1 => MEMBERS,
        _ => 1 + g.below(MEMBERS),
    };
    let fold = g.one_in(2);
    let common = Common {
        basis: g.below(2) as u8,
        fold,
        parity: fold.then(|| 1 + g.below(2)),
    };
    let members: Vec<(Member, Vec<i64>)> = (0..members)
        .map(|_| {
            let n = length(g, most);
            common.member(g, n)
        })
        .collect();
    let mut call = Call::of(&members);
    call.fit();
    call.places.iter_mut().for_each(|n| *n += g.below(3));
    (call.count..MEMBERS).for_each(|i| call.members[i] = junk(g));
    if g.one_in(4) {
        (0..1 + g.below(3)).for_each(|_| call.c.push(any(g)));
    }
    call
}

/// The 20 settings in which a member is planned alone, with the number of the strategy: 12 without folding, 8 with it.
pub fn setting(k: usize) -> (Common, u8) {
    let (strategy, basis) = (k % 2, k / 2 % 2);
    let parities = [0, 1, 2, 1, 2];
    let common = Common {
        basis: basis as u8,
        fold: k >= 12,
        parity: Some(parities[k / 4]),
    };
    (common, strategy as u8)
}

/// The fewest coefficients that are not refused for their number.
pub fn least(fold: bool, parity: Parity) -> usize {
    match (fold, parity) {
        (false, _) => 2,
        (_, Parity::Even) => 3,
        _ => 4,
    }
}

/// An accepted curve.
fn curve(g: &mut Rng, parity: Parity, n: usize) -> Vec<i64> {
    whole(g, parity, n).iter().map(|&x| x as i64).collect()
}

/// An interval with its lower end below the upper one.
fn rising(g: &mut Rng) -> (f64, f64) {
    if g.one_in(3) {
        return (-1.0, 1.0);
    }
    loop {
        let (a, b) = interval(g);
        if a < b {
            return (a, b);
        }
    }
}

/// What stands in the place of a member that is not read.
fn junk(g: &mut Rng) -> Member {
    match g.below(3) {
        0 => Member::default(),
        1 => Member {
            strategy: 255,
            parity: 3,
            basis: 2,
            fold: 2,
            a: f64::NAN,
            b: f64::NAN,
            count: usize::MAX,
        },
        _ => Member {
            strategy: g.next() as u8,
            parity: g.next() as u8,
            basis: g.next() as u8,
            fold: g.next() as u8,
            a: float(g, 2),
            b: float(g, 3),
            count: g.next() as usize,
        },
    }
}

fn any(g: &mut Rng) -> i64 {
    let number = g.next() as i64;
    g.pick(&[MIN, MAX, number, 1])
}

impl Call {
    /// A call on these members and curves, with empty buffers.
    pub fn of(members: &[(Member, Vec<i64>)]) -> Self {
        let mut call = Call {
            count: members.len(),
            members: Default::default(),
            c: vec![],
            places: [0; 3],
        };
        for (i, (member, c)) in members.iter().enumerate() {
            call.members[i] = Member {
                count: c.len(),
                ..*member
            };
            call.c.extend(c);
        }
        call
    }

    /// Gives the buffers exactly the places that the set fills, or none if there is no set.
    pub fn fit(&mut self) {
        let [c, lists, steps] = self.sizes().unwrap_or_default();
        self.places = [c, lists, 4 * steps];
    }

    /// Where a member's coefficients stand in the slice; what would pass the slice is cut off.
    pub fn place(&self, i: usize) -> std::ops::Range<usize> {
        let end = |from: usize, m: &Member| from.saturating_add(m.count).min(self.c.len());
        let from = self.members[..i].iter().fold(0, end);
        from..end(from, &self.members[i])
    }

    /// Gives a member so many coefficients: its first ones, and zeros behind these.
    pub fn resize(&mut self, i: usize, n: usize) {
        let place = self.place(i);
        let mut c = self.c[place.clone()].to_vec();
        c.resize(n, 0);
        self.c.splice(place, c);
        self.members[i].count = n;
    }

    fn any_member(&self, g: &mut Rng) -> usize {
        g.below(self.read().len().max(1))
    }
}

type Damage = fn(&mut Rng, &mut Call);

/// What can be wrong with a set, each with its name in a table.
pub const DAMAGES: [(&str, Damage); 7] = [
    ("short buffers", short),
    ("a wrong member", wrong_member),
    ("wrong members", wrong_members),
    ("unlike members", unlike),
    ("other settings", other),
    ("unknown kinds", unknown),
    ("wrong lengths", lengths),
];

/// A set with one of the damages, and its row; now and then with several, so that the order of the refusals counts. They come in the order of the
/// table, so that kinds are known and lengths are true where a damage reads them.
pub fn damaged(g: &mut Rng, most: usize) -> (usize, Call) {
    let mut call = sound(g, most);
    let row = g.below(DAMAGES.len());
    let mut rows = vec![row];
    while g.one_in(3) {
        rows.push(row + g.below(DAMAGES.len() - row));
    }
    rows.sort();
    rows.iter().for_each(|&next| DAMAGES[next].1(g, &mut call));
    (row, call)
}

/// Buffers that are exactly long enough, some of them one place too short or much too short.
fn short(g: &mut Rng, call: &mut Call) {
    call.fit();
    let some = 1 + g.below(7);
    for (i, n) in call.places.iter_mut().enumerate() {
        if some >> i & 1 == 1 {
            *n = if g.one_in(6) {
                g.below(*n + 1)
            } else {
                n.saturating_sub(1)
            };
        }
    }
}

/// The members' own refusals.
pub const OWN: [u8; 7] = [2, 1, 5, 6, 4, 3, 7];

fn wrong_member(g: &mut Rng, call: &mut Call) {
    let (i, refusal) = (call.any_member(g), g.pick(&OWN));
    // Longer curves than there may be are rare: they take their time.
    let refusal = if refusal == 2 && !g.one_in(8) {
        7
    } else {
        refusal
    };
    spoil_member(g, call, i, refusal);
}

fn wrong_members(g: &mut Rng, call: &mut Call) {
    (0..2 + g.below(3)).for_each(|_| wrong_member(g, call));
}

/// Brings this refusal to a member, if its settings and those of the set allow it: 5 comes to all members at once.
pub fn spoil_member(g: &mut Rng, call: &mut Call, i: usize, refusal: u8) {
    let member = call.members[i];
    let place = call.place(i);
    let Some((_, parity, _, fold)) = member.settings() else {
        return;
    };
    match refusal {
        2 => call.resize(i, MAX_DEGREE + 2 + g.below(3)),
        1 => call.resize(i, g.below(2)),
        5 => call.members.iter_mut().for_each(|m| {
            (m.parity, m.fold) = (0, 1);
        }),
        6 if fold => call.resize(i, 2 + g.below(least(true, parity) - 2)),
        4 => {
            let wrong: Vec<usize> = (0..place.len()).filter(|&j| wrong(parity, j)).collect();
            if !wrong.is_empty() {
                let x = any(g);
                call.c[place.start + g.pick(&wrong)] = if x == 0 { 1 } else { x };
            }
        }
        3 => exceed(g, &mut call.c[place], parity),
        7 => (call.members[i].a, call.members[i].b) = g.pick(&NOT_RISING),
        _ => {}
    }
}

/// Numbers of the parity whose magnitudes sum above the limit: by one, or so far that 64 bits do not hold the sum.
fn exceed(g: &mut Rng, c: &mut [i64], parity: Parity) {
    let allowed: Vec<usize> = (0..c.len()).filter(|&j| !wrong(parity, j)).collect();
    let Some(&first) = allowed.first() else {
        return;
    };
    match g.below(3) {
        0 => {
            let sum = spread(g, parity, c.len(), MAX_SUM + 1);
            c.iter_mut().zip(sum).for_each(|(c, x)| *c = x as i64);
        }
        1 => c[g.pick(&allowed)] = any(g),
        _ => {
            let far = g.pick(&[MIN, MAX, 1 << 62]);
            allowed.iter().for_each(|&j| c[j] = far);
        }
    }
    if c.iter().map(|&x| i128::from(x).abs()).sum::<i128>() <= MAX_SUM.into() {
        c[first] = MIN;
    }
}

/// One of the settings that the members have in common is another at one member.
fn unlike(g: &mut Rng, call: &mut Call) {
    let i = call.any_member(g);
    let member = &mut call.members[i];
    match g.below(3) {
        0 => member.basis ^= 1,
        1 => member.fold ^= 1,
        _ => member.parity = (member.parity + 1 + g.below(2) as u8) % 3,
    }
}

/// Any settings at one member, or the same at all of them.
fn other(g: &mut Rng, call: &mut Call) {
    let i = call.any_member(g);
    let all = g.one_in(2);
    let (which, kind) = (g.below(4), g.below(6) as u8);
    for (j, m) in call.members.iter_mut().enumerate() {
        if all || j == i {
            match which {
                0 => m.strategy = kind % 2,
                1 => m.parity = kind % 3,
                2 => m.basis = kind % 2,
                _ => m.fold = kind % 2,
            }
        }
    }
}

/// A number of no kind at a member.
fn unknown(g: &mut Rng, call: &mut Call) {
    let i = call.any_member(g);
    let any = g.next() as u8;
    let member = &mut call.members[i];
    let (field, known) = match g.below(4) {
        0 => (&mut member.strategy, 2),
        1 => (&mut member.parity, 3),
        2 => (&mut member.basis, 2),
        _ => (&mut member.fold, 2),
    };
    *field = g.pick(&[known, known + 1, 128, 255, any]);
}

/// No member, too many, or lengths that pass the slice: by one, by far, or so that their sum does not fit into a usize.
fn lengths(g: &mut Rng, call: &mut Call) {
    let i = call.any_member(g);
    let all: usize = call.read().iter().fold(0, |n, m| n.wrapping_add(m.count));
    let rest = all.wrapping_sub(call.members[i].count);
    match g.below(8) {
        0 => call.count = 0,
        1 => call.count = MEMBERS + 1,
        2 => {
            let any = g.next() as usize;
            let far = MEMBERS + 1 + g.below(1 << 40);
            call.count = g.pick(&[far, 256, 1 << 32, 1 << 63, usize::MAX, any]);
        }
        // The slice ends where the last member does, or one place ahead of it.
        3 => call.c.truncate(all),
        4 => call.c.truncate(all.saturating_sub(1)),
        5 => {
            let short = g.below(call.c.len() + 1);
            call.c.truncate(short);
        }
        // All lengths together are, modulo 2^64, no more than the slice has places.
        6 => {
            let within = g.below(call.c.len() + 1);
            call.members[i].count = within.wrapping_sub(rest);
        }
        _ => {
            let far = usize::MAX - g.below(3);
            call.members[i].count = g.pick(&[far, 1 << 63, 1 << 32, call.c.len() + 1]);
            let j = call.any_member(g);
            if g.one_in(2) {
                call.members[j].count = g.pick(&[far, 1 << 63, 0]);
            }
        }
    }
}
