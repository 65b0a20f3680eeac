//! Sets below the safe types: kinds that the library does not know, members beyond the count, counts of any size, and the zeros of answers.

use super::*;

const NO_SET: CCurveSet = CCurveSet {
    ct: 0,
    pt: 0,
    powers: 0,
    heads: [NO_HEAD; SET_MEMBERS],
};

/// Five coefficients of x^0 to x^4, of least depth.
const MEMBER: CMember = CMember {
    strategy: 0,
    parity: 0,
    basis: 0,
    fold: 0,
    a: -1.0,
    b: 1.0,
    count: 5,
};

/// Nothing of it is a member's.
const ODD_ONE: CMember = CMember {
    strategy: 2,
    parity: 3,
    basis: 255,
    fold: 77,
    a: f64::NAN,
    b: f64::NEG_INFINITY,
    count: usize::MAX,
};

/// Coefficients of sixteen members.
const COEFFS: [i64; 80] = [1; 80];

/// Members with a count of their own, and odd ones in the places beyond.
fn counted(count: usize, members: &[CMember]) -> CMembers {
    let mut places = [ODD_ONE; SET_MEMBERS];
    places[..members.len()].copy_from_slice(members);
    CMembers {
        count,
        members: places,
    }
}

fn all(members: &[CMember]) -> CMembers {
    counted(members.len(), members)
}

/// The members with one of them changed.
fn with(members: &[CMember], i: usize, change: impl Fn(&mut CMember)) -> Vec<CMember> {
    let mut changed = members.to_vec();
    change(&mut changed[i]);
    changed
}

type Change = Box<dyn Fn(&mut CMember)>;

/// Every change of one member by a number that is no kind's.
fn unknown_kinds() -> Vec<Change> {
    let mut changes: Vec<Change> = Vec::new();
    for n in unknown(2) {
        changes.push(Box::new(move |member| member.strategy = n));
        changes.push(Box::new(move |member| member.basis = n));
        changes.push(Box::new(move |member| member.fold = n));
    }
    for n in unknown(3) {
        changes.push(Box::new(move |member| member.parity = n));
    }
    changes
}

/// A refused answer is all zeros, +0 for each f64, and leaves the buffers as they were.
fn refuses(refusal: u8, members: CMembers, c: &[i64]) {
    let (mut out, mut bounds, mut steps) = ([9; 80], [9; 80], [9; 800]);
    let answer = plan_set(members, c, &mut out, &mut bounds, &mut steps);
    assert_eq!(
        answer,
        CSetPlanned {
            refusal,
            set: NO_SET
        }
    );
    answer.set.heads.into_iter().for_each(has_no_interval);
    assert_eq!((out, bounds, steps), ([9; 80], [9; 80], [9; 800]));
}

fn refuses_sizes(refusal: u8, members: CMembers) {
    let answer = set_sizes(members);
    assert_eq!(
        answer,
        CSizes {
            refusal,
            coefficients: 0,
            lists: 0,
            steps: 0
        }
    );
}

/// The answer, and what was written into buffers that are long enough.
fn planned(members: CMembers, c: &[i64]) -> (CSetPlanned, [i64; 80], [u16; 80], [u16; 800]) {
    let (mut out, mut bounds, mut steps) = ([9; 80], [9; 80], [9; 800]);
    let answer = plan_set(members, c, &mut out, &mut bounds, &mut steps);
    (answer, out, bounds, steps)
}

#[test]
fn unknown_kinds_of_each_member() {
    for count in [1, 2, 3, 16] {
        for i in 0..count {
            for change in unknown_kinds() {
                let members = all(&with(&[MEMBER; 16][..count], i, change));
                refuses(43, members, &COEFFS);
                refuses_sizes(43, members);
            }
        }
    }
}

/// 43 comes ahead of lengths that pass the slice, of members that differ and of a member's own refusal, wherever these are.
#[test]
fn unknown_kinds_come_first() {
    for i in 0..3 {
        for j in 0..3 {
            for other in [
                CMember {
                    count: usize::MAX,
                    ..MEMBER
                },
                CMember { basis: 1, ..MEMBER },
                CMember { fold: 1, ..MEMBER },
                CMember { count: 1, ..MEMBER },
                CMember { b: -1.0, ..MEMBER },
            ] {
                let members = with(&[MEMBER; 3], j, |member| *member = other);
                let members = all(&with(&members, i, |member| member.strategy = 2));
                refuses(43, members, &COEFFS);
                refuses(43, members, &[]);
                refuses_sizes(43, members);
            }
        }
    }
}

/// With a count above 16 all sixteen places are read, and none beyond.
#[test]
fn counts_above_sixteen() {
    for count in [17, 18, 1 << 32, usize::MAX] {
        let members = counted(count, &[MEMBER; 16]);
        refuses(35, members, &COEFFS);
        refuses(35, members, &[]);
        refuses_sizes(35, members);
        for i in 0..16 {
            for change in unknown_kinds() {
                let members = counted(count, &with(&[MEMBER; 16], i, change));
                refuses(43, members, &COEFFS);
                refuses_sizes(43, members);
            }
        }
        // Ahead of 36 and of a member's own refusals, too.
        let unlike = with(&[MEMBER; 16], 0, |member| member.basis = 1);
        refuses(35, counted(count, &unlike), &COEFFS);
        refuses_sizes(35, counted(count, &unlike));
        let short = with(&[MEMBER; 16], 0, |member| member.count = 0);
        refuses(35, counted(count, &short), &COEFFS);
        refuses_sizes(35, counted(count, &short));
    }
}

/// No member is read of none.
#[test]
fn no_member() {
    for members in [&[][..], &[MEMBER], &[MEMBER; 16]] {
        refuses(35, counted(0, members), &COEFFS);
        refuses(35, counted(0, members), &[]);
        refuses_sizes(35, counted(0, members));
    }
}

#[test]
fn members_beyond_the_count() {
    for count in 1..=16 {
        let (answer, out, bounds, steps) = planned(all(&[MEMBER; 16][..count]), &COEFFS);
        assert_eq!(answer.refusal, 0);
        assert_eq!(answer.set.powers, 3);
        // Whatever stands beyond the count.
        for beyond in [
            MEMBER,
            CMember { basis: 1, ..MEMBER },
            CMember { count: 0, ..MEMBER },
        ] {
            let mut members = [beyond; 16];
            members[..count].fill(MEMBER);
            let same = planned(counted(count, &members), &COEFFS);
            assert_eq!(same, (answer, out, bounds, steps));
            let sizes = set_sizes(counted(count, &members));
            assert_eq!(sizes, set_sizes(all(&[MEMBER; 16][..count])));
            assert_eq!(
                (sizes.refusal, sizes.coefficients, sizes.lists, sizes.steps),
                (0, 5 * count, 2 * count, 3 + 3 * count)
            );
        }
        // The heads of the members, and zeros beyond.
        for (i, head) in answer.set.heads.into_iter().enumerate() {
            if i < count {
                assert_eq!((head.degree, head.ct, head.pt, head.steps), (4, 3, 4, 3));
            } else {
                assert_eq!(head, NO_HEAD);
                has_no_interval(head);
            }
        }
        // Places beyond those of the set are as they were.
        let (a, b, s) = (5 * count, 2 * count, 4 * (3 + 3 * count));
        assert!(out[..a].iter().all(|&place| place == 1));
        assert!(out[a..].iter().all(|&place| place == 9));
        assert!(bounds[..b].chunks(2).all(|ends| ends == [4, 5]));
        assert!(bounds[b..].iter().all(|&place| place == 9));
        assert!(steps[s..].iter().all(|&place| place == 9));
    }
}

/// Lengths that together pass the slice, also such as would come around to a small sum in 64 bits.
#[test]
fn lengths_beyond_the_slice() {
    let counts = |counts: &[usize]| {
        let members: Vec<CMember> = counts
            .iter()
            .map(|&count| CMember { count, ..MEMBER })
            .collect();
        all(&members)
    };
    const MAX: usize = usize::MAX;
    for lengths in [
        &[MAX][..],
        &[5, MAX],
        &[5, MAX - 4],
        &[5, MAX - 3],
        &[MAX, 5],
        &[MAX - 4, 5],
        &[MAX - 3, 5],
        &[MAX, MAX],
        &[1 << 63, 1 << 63],
        &[5, 1 << 63, 1 << 63],
        &[1 << 60; 16],
        &[MAX; 16],
        &[5, 5, 5, 5, 5, 5, 5, 5, 5, 5, 5, 5, 5, 5, 5, MAX - 74],
        &[81],
        &[40, 41],
        &[5, 76],
        &[76, 5],
    ] {
        refuses(35, counts(lengths), &COEFFS);
        // There is no slice for the sizes: the first degree above 4,095 refuses them, or none.
        let above = lengths.iter().any(|&count| count > 4096);
        let sizes = set_sizes(counts(lengths));
        assert_eq!(sizes.refusal, if above { 2 } else { 0 }, "{lengths:?}");
    }
    for lengths in [&[80][..], &[40, 40], &[75, 5], &[5; 16]] {
        let members = counts(lengths);
        assert_eq!(planned(members, &COEFFS).0.refusal, 0, "{lengths:?}");
        // One place fewer is too few, and a slice that ends with the members enough.
        refuses(35, members, &COEFFS[1..]);
        let more = [&COEFFS[..], &[i64::MIN; 3]].concat();
        assert_eq!(planned(members, &more), planned(members, &COEFFS));
    }
    // 35 comes ahead of 36.
    let mut unlike = counts(&[40, 41]);
    unlike.members[1].basis = 1;
    refuses(35, unlike, &COEFFS);
    unlike.members[1].count = 40;
    refuses(36, unlike, &COEFFS);
    refuses_sizes(36, unlike);
}

/// The zeros of the refusals that come last, and of those of an interval: +0, where -0 was handed in.
#[test]
fn the_zeros_of_refusals() {
    let lent = |places: (usize, usize, usize), members: CMembers| {
        let (mut out, mut bounds, mut steps) =
            (vec![9; places.0], vec![9; places.1], vec![9; places.2]);
        let answer = plan_set(members, &COEFFS, &mut out, &mut bounds, &mut steps);
        let set = NO_SET;
        let refusal = answer.refusal;
        assert_eq!(answer, CSetPlanned { refusal, set });
        answer.set.heads.into_iter().for_each(has_no_interval);
        assert!(out.iter().all(|&place| place == 9));
        assert!(bounds.iter().chain(&steps).all(|&place| place == 9));
        refusal
    };
    let member = CMember {
        a: -0.0,
        b: 4.0,
        ..MEMBER
    };
    let members = all(&[member; 3]);
    assert_eq!(lent((14, 6, 48), members), 21);
    assert_eq!(lent((15, 5, 48), members), 22);
    assert_eq!(lent((15, 6, 47), members), 23);
    assert_eq!(lent((0, 0, 0), members), 21);
    assert_eq!(lent((15, 0, 0), members), 22);
    let empty = all(&with(&[member; 3], 2, |member| member.b = -0.0));
    assert_eq!(lent((15, 6, 48), empty), 7);
}
