//! Lent plans for the trial walk, written by hand from docs/RULES.md: for each reason of refusal 24 a plan that has it,
//! and beside it a sound one. No published function walks a plan.

use crate::Rec;

/// A plan as it is lent: head, coefficients, boundaries, steps.
#[derive(Clone)]
struct Plan {
    basis: char,
    parity: char,
    transform: u8,
    coefficients: usize,
    lists: usize,
    steps: usize,
    c: Vec<i64>,
    bounds: Vec<u16>,
    numbers: Vec<u16>,
}

impl Plan {
    fn step(&mut self, i: usize, step: [u16; 4]) {
        self.numbers[4 * i..4 * i + 4].copy_from_slice(&step);
    }

    fn push(&mut self, step: [u16; 4]) {
        self.numbers.extend(step);
        self.steps += 1;
    }

    fn drop_last(&mut self) {
        self.numbers.truncate(self.numbers.len() - 4);
        self.steps -= 1;
    }
}

/// 1 + 2x + 3x² + 4x³ + 5x⁴ by lists of four and one: 129 at 2.
fn sound() -> Plan {
    let numbers = [
        [1, 2, 1, 1],
        [1, 3, 1, 2],
        [1, 4, 2, 2],
        [2, 0, 0, 0],
        [2, 1, 0, 0],
        [4, 4, 0, 0],
    ];
    Plan {
        basis: 'M',
        parity: 'F',
        transform: 0,
        coefficients: 5,
        lists: 2,
        steps: 6,
        c: vec![1, 2, 3, 4, 5],
        bounds: vec![4, 5],
        numbers: numbers.concat(),
    }
}

/// 3 + T_3 as one list.
fn one_list() -> Plan {
    Plan {
        basis: 'C',
        parity: 'F',
        transform: 0,
        coefficients: 4,
        lists: 1,
        steps: 3,
        c: vec![3, 0, 0, 1],
        bounds: vec![4],
        numbers: [[1, 2, 1, 1], [1, 3, 1, 2], [2, 0, 0, 0]].concat(),
    }
}

/// `count` loads of a constant, each waiting, then combined at power 0.
fn waiting(count: usize) -> Plan {
    let mut plan = Plan {
        basis: 'M',
        parity: 'F',
        transform: 0,
        coefficients: 1,
        lists: 1,
        steps: 0,
        c: vec![1],
        bounds: vec![1],
        numbers: vec![],
    };
    (0..count).for_each(|_| plan.push([2, 0, 0, 0]));
    (1..count).for_each(|_| plan.push([3, 0, 0, 0]));
    plan
}

fn line(plan: &Plan, point: i64, modulus: u64, refusal: u8, remainder: u64) -> String {
    let list = |out: &mut String, numbers: Vec<String>| {
        out.push_str(&format!("\t{}", numbers.len()));
        numbers.iter().for_each(|n| out.push_str(&format!("\t{n}")));
    };
    let mut out = format!(
        "trial_walk\t{}\t{}\t{}\t{}\t{}\t{}\t{point}\t{modulus}",
        plan.basis, plan.parity, plan.transform, plan.coefficients, plan.lists, plan.steps
    );
    list(&mut out, plan.c.iter().map(|x| x.to_string()).collect());
    list(
        &mut out,
        plan.bounds.iter().map(|x| x.to_string()).collect(),
    );
    list(
        &mut out,
        plan.numbers.iter().map(|x| x.to_string()).collect(),
    );
    out.push_str(&format!("\t=\t{refusal}\t{remainder}"));
    out
}

pub fn plans(r: &mut Rec) {
    // A modulus outside 2 to 2,147,483,647 is 11, whatever the plan.
    for modulus in [0, 1, 2_147_483_648, 999_999_999_999_999_999] {
        r.by_hand(&line(&sound(), 2, modulus, 11, 0));
    }
    for (point, modulus, remainder) in [(2, 100, 29), (2, 2, 1), (-1, 7, 3), (0, 2_147_483_647, 1)]
    {
        r.by_hand(&line(&sound(), point, modulus, 0, remainder));
    }
    for damage in damages() {
        let mut plan = sound();
        damage(&mut plan);
        r.by_hand(&line(&plan, 2, 100, 24, 0));
        r.by_hand(&line(&sound(), 2, 100, 0, 29));
    }
    chebyshev(r);
    zeros(r);
    waits(r);
    beyond(r);
    refusals(r);
}

/// Each for a reason of its own.
fn damages() -> Vec<fn(&mut Plan)> {
    vec![
        // A count in the head passes its buffer.
        |p| p.coefficients = 6,
        |p| p.lists = 3,
        |p| p.steps = 7,
        |p| {
            p.numbers.pop();
        },
        // A kind is unknown.
        |p| p.step(5, [0, 4, 0, 0]),
        |p| p.step(5, [5, 4, 0, 0]),
        |p| p.step(5, [65_535, 4, 0, 0]),
        // An unused field isn't 0.
        |p| p.step(3, [2, 0, 1, 0]),
        |p| p.step(4, [2, 1, 0, 1]),
        |p| p.step(5, [4, 4, 7, 0]),
        |p| p.step(5, [3, 4, 0, 7]),
        // A power made is above 4,095.
        |p| p.step(2, [1, 4_096, 2_048, 2_048]),
        // Or was made before; 0 and 1 count as made.
        |p| p.step(2, [1, 3, 1, 2]),
        |p| p.step(0, [1, 1, 1, 0]),
        |p| p.step(0, [1, 0, 0, 0]),
        // A split is wrong, its order too.
        |p| p.step(1, [1, 3, 2, 1]),
        |p| p.step(2, [1, 4, 1, 3]),
        |p| p.step(2, [1, 4, 2, 3]),
        // A power that the step uses isn't there: a part, an allowed power of a list, the power of a combine.
        |p| {
            p.step(0, [1, 3, 1, 2]);
            p.step(1, [1, 2, 1, 1]);
        },
        |p| {
            p.step(1, [1, 4, 2, 2]);
            p.step(2, [1, 5, 3, 2]);
        },
        |p| p.step(1, [2, 0, 0, 0]),
        |p| p.step(5, [4, 8, 0, 0]),
        // A list isn't there.
        |p| p.step(4, [2, 2, 0, 0]),
        // Boundaries don't rise strictly from 0, or pass the head's number of coefficients.
        |p| p.bounds = vec![0, 5],
        |p| p.bounds = vec![4, 4],
        |p| p.bounds = vec![5, 4],
        |p| p.bounds = vec![4, 6],
        // Fewer than two wait at a combine.
        |p| p.step(3, [3, 4, 0, 0]),
        |p| p.step(4, [3, 4, 0, 0]),
        // The end hasn't exactly one.
        |p| p.drop_last(),
        |p| p.push([2, 1, 0, 0]),
        |p| p.steps = 0,
    ]
}

/// In Chebyshev a make also uses the power at the distance of its parts.
fn chebyshev(r: &mut Rec) {
    // 3 + T_3, and T_3 is 26 at 2.
    r.by_hand(&line(&one_list(), 2, 100, 0, 29));
    // T_6 is of T_3 twice, which isn't there.
    let mut plan = one_list();
    plan.step(1, [1, 6, 3, 3]);
    r.by_hand(&line(&plan, 2, 100, 24, 0));
    // T_7 is of T_3 and T_4, at distance 1; T_10 of T_7 and T_3, at distance 4.
    let mut plan = one_list();
    for step in [[1, 4, 2, 2], [1, 7, 3, 4], [1, 10, 7, 3]] {
        plan.push(step);
    }
    r.by_hand(&line(&plan, 2, 100, 0, 29));
    // T_9 is of T_7 and T_2, at distance 5, which isn't there.
    let mut plan = one_list();
    for step in [[1, 4, 2, 2], [1, 7, 3, 4], [1, 9, 7, 2]] {
        plan.push(step);
    }
    r.by_hand(&line(&plan, 2, 100, 24, 0));
    // In the monomial basis the distance is not used.
    plan.basis = 'M';
    r.by_hand(&line(&plan, 2, 100, 0, 11));
}

/// An allowed power of a zero coefficient counts as used.
fn zeros(r: &mut Rec) {
    // 1 + 2x + 3x² + 5x⁴: 97 at 2. Without power 3 the list 1 2 3 0 isn't loaded.
    let mut plan = sound();
    plan.c[3] = 0;
    r.by_hand(&line(&plan, 2, 100, 0, 97));
    plan.numbers.drain(4..8);
    plan.steps -= 1;
    r.by_hand(&line(&plan, 2, 100, 24, 0));
}

/// More than 16 values wait.
fn waits(r: &mut Rec) {
    r.by_hand(&line(&waiting(16), 5, 100, 0, 16));
    r.by_hand(&line(&waiting(17), 5, 100, 24, 0));
    r.by_hand(&line(&waiting(1), 5, 100, 0, 1));
}

/// No reason: what stands beyond the head's counts, a transform of the other basis, a combine at power 1, the allowed places alone.
fn beyond(r: &mut Rec) {
    let mut plan = sound();
    plan.c.push(9);
    plan.bounds.extend([1, 0]);
    plan.numbers.extend([7, 7, 7, 7, 7]);
    r.by_hand(&line(&plan, 2, 100, 0, 29));
    // y = 2·2² - 1 = 7: 1 + 14 + 147 + 1372 + 12005 = 13539; TimesInput makes it 27078.
    let mut plan = sound();
    plan.transform = 3;
    r.by_hand(&line(&plan, 2, 1_000_000, 0, 13_539));
    plan.transform = 4;
    r.by_hand(&line(&plan, 2, 1_000_000, 0, 27_078));
    // y = 2² = 4: 1 + 8 + 48 + 256 + 1280 = 1593.
    plan.transform = 1;
    r.by_hand(&line(&plan, 2, 1_000_000, 0, 1_593));
    plan.transform = 2;
    r.by_hand(&line(&plan, 2, 1_000_000, 0, 3_186));
    // 5·y + (1 + 2y + 3y² + 4y³) with the combine at power 1: 10 + 49 at 2.
    let mut plan = sound();
    plan.step(5, [3, 1, 0, 0]);
    r.by_hand(&line(&plan, 2, 100, 0, 59));
    // Of the lists 1 2 3 4 and 5, Even allows 1, 3 and 5: 1 + 12 + 80; Odd 2 and 4: 4 + 32.
    let mut plan = sound();
    plan.parity = 'E';
    r.by_hand(&line(&plan, 2, 1_000, 0, 93));
    plan.parity = 'O';
    r.by_hand(&line(&plan, 2, 1_000, 0, 36));
    // Coefficients past the last boundary are read by no list.
    let mut plan = sound();
    plan.coefficients = 6;
    plan.c.push(9);
    r.by_hand(&line(&plan, 2, 100, 0, 29));
}

/// What the plan call refuses, on `c` with buffers of so many places.
fn refused(settings: &str, room: [usize; 3], c: &[i64], refusal: u8) -> String {
    let mut out = format!("plan_refused\t{settings}");
    room.iter().for_each(|n| out.push_str(&format!("\t{n}")));
    out.push_str(&format!("\t{}", c.len()));
    c.iter().for_each(|x| out.push_str(&format!("\t{x}")));
    out.push_str(&format!("\t=\t{refusal}"));
    out
}

/// Each refusal of the plan call, and that those ahead in the order win: 2, 1, then with folding 5, 6, 4, without it 4; then 3, 21, 22, 23.
fn refusals(r: &mut Rec) {
    let max = 1 << 30;
    let none = [0, 0, 0];
    let long = vec![max; 4_097];
    let cases: [(&str, [usize; 3], &[i64], u8); 22] = [
        ("M\tO\tD\tN", none, &long, 2),
        ("M\tF\tD\tY", none, &long, 2),
        ("M\tF\tD\tN", none, &[], 1),
        ("C\tO\tM\tN", none, &[max + 1], 1),
        ("C\tF\tM\tY", none, &[5], 1),
        ("M\tF\tD\tY", none, &[max, max], 5),
        ("M\tE\tD\tY", none, &[max, max], 6),
        ("M\tO\tD\tY", none, &[max, max, max], 6),
        ("C\tE\tD\tY", none, &[max, max, max], 4),
        ("C\tO\tD\tY", none, &[max, 0, 0, max], 4),
        ("C\tE\tD\tN", none, &[max, max], 4),
        ("M\tO\tM\tN", none, &[max, max], 4),
        ("M\tF\tD\tN", none, &[max, 1], 3),
        ("M\tF\tD\tN", none, &[-max, -1], 3),
        ("C\tE\tD\tY", none, &[max, 0, 1], 3),
        ("M\tF\tD\tN", none, &[max, 0], 21),
        // Five coefficients, two lists, six steps.
        ("M\tF\tD\tN", [4, 2, 24], &[1, 2, 3, 4, 5], 21),
        ("M\tF\tD\tN", [5, 1, 0], &[1, 2, 3, 4, 5], 22),
        ("M\tF\tD\tN", [5, 2, 23], &[1, 2, 3, 4, 5], 23),
        // A fold of two coefficients, one list, one step.
        ("C\tO\tD\tY", [1, 1, 4], &[0, 1, 0, 2], 21),
        ("C\tO\tD\tY", [2, 0, 4], &[0, 1, 0, 2], 22),
        ("C\tO\tD\tY", [2, 1, 3], &[0, 1, 0, 2], 23),
    ];
    for (settings, room, c, refusal) in cases {
        r.by_hand(&refused(settings, room, c, refusal));
    }
}
