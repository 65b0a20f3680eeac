//! The text that `planlines` answers to a line. Degree, base, transform, lists, depth and each split come from the
//! published Rust. It has no steps, no counts of a plan and no refusals by number: these are written from docs/RULES.md.

use crate::calls::{Basis, Parity, SplitStrategy};
use crate::inputs::{MAX_DEGREE, MAX_SUM};
use crate::layouts::polynomial_evaluation as rust;
use crate::split::parts;

/// The most bytes of a line, and the most digits of a coefficient in it.
pub const MAX_LINE: usize = 65_535;
pub const MAX_DIGITS: usize = 18;

/// The four fields ahead of the coefficients.
#[derive(Clone, Copy)]
struct Settings {
    basis: Basis,
    parity: Parity,
    strategy: SplitStrategy,
    fold: bool,
}

/// Answers lines; its buffers are kept from one line to the next.
#[derive(Default)]
pub struct Answerer {
    whole: Vec<i64>,
    floats: Vec<f64>,
    lists: Vec<u8>,
    steps: Vec<u8>,
}

/// The answer to one line, which has no line feed.
pub fn answer(line: &[u8]) -> Vec<u8> {
    let mut out = vec![];
    Answerer::default().answer(line, &mut out);
    out
}

impl Answerer {
    /// Adds the answer to `out`.
    pub fn answer(&mut self, line: &[u8], out: &mut Vec<u8>) {
        let refused = match read(line, &mut self.whole) {
            None => 12,
            Some(settings) => match refusal(settings, &self.whole) {
                0 => return self.plan(settings, out),
                number => number,
            },
        };
        print(out, b'R', &[refused]);
    }

    /// The plan of an accepted line: no call of the Rust panics or fails here.
    fn plan(&mut self, s: Settings, out: &mut Vec<u8>) {
        let mut c = std::mem::take(&mut self.floats);
        c.clear();
        c.extend(self.whole.iter().map(|&x| x as f64));
        let p = rust::Polynomial::new_with_parity(s.basis, c, s.parity);
        let lists = &mut self.lists;
        lists.clear();
        let encode = |list: &[f64]| {
            print_list(lists, list);
            Ok(list.len())
        };
        let plan = if s.fold {
            p.decompose_bsgs_folded_with(s.strategy, encode)
        } else {
            p.decompose_bsgs_with(s.strategy, encode)
        };
        let plan = plan.expect("an accepted line has a plan");
        self.floats = p.coeffs;

        self.steps.clear();
        let mut steps = Steps::new(&mut self.steps, &plan, s.strategy);
        steps.all();
        let (ctct, ptct) = (steps.ctct, steps.ptct);
        let transform = plan.input_transform() as usize;
        let ctct = ctct + transform_cost(transform);
        let depth = plan.eval_depth();
        let head = [plan.degree(), plan.base(), transform, ctct, ptct, depth];
        print(out, b'H', &head);
        out.extend_from_slice(&self.lists);
        out.extend_from_slice(&self.steps);
    }
}

/// The settings of a line; its coefficients go to `whole`. None if the line does not have the form.
fn read(line: &[u8], whole: &mut Vec<i64>) -> Option<Settings> {
    whole.clear();
    if line.len() > MAX_LINE {
        return None;
    }
    let mut fields = line.split(|&b| b == b'\t');
    let basis = match fields.next()? {
        b"M" => Basis::Monomial,
        b"C" => Basis::Chebyshev,
        _ => return None,
    };
    let parity = match fields.next()? {
        b"F" => Parity::Full,
        b"E" => Parity::Even,
        b"O" => Parity::Odd,
        _ => return None,
    };
    let strategy = match fields.next()? {
        b"D" => SplitStrategy::MinDepth,
        b"M" => SplitStrategy::MinMult,
        _ => return None,
    };
    let fold = match fields.next()? {
        b"N" => false,
        b"Y" => true,
        _ => return None,
    };
    for field in fields {
        whole.push(number(field)?);
    }
    Some(Settings {
        basis,
        parity,
        strategy,
        fold,
    })
}

/// A coefficient: an optional minus and 1 to 18 digits.
fn number(field: &[u8]) -> Option<i64> {
    let (minus, digits) = match field {
        [b'-', digits @ ..] => (true, digits),
        digits => (false, digits),
    };
    if digits.is_empty() || digits.len() > MAX_DIGITS {
        return None;
    }
    let mut n = 0;
    for &d in digits {
        if !d.is_ascii_digit() {
            return None;
        }
        n = 10 * n + (d - b'0') as i64;
    }
    Some(if minus { -n } else { n })
}

/// The first test of the plan call that holds, 0 if none does: 2, 1, with folding 5 and 6, then 4 and 3.
fn refusal(s: Settings, c: &[i64]) -> usize {
    let degree = c.len().saturating_sub(1);
    let least = if s.parity == Parity::Even { 2 } else { 3 };
    let sum = || c.iter().map(|&x| (x as i128).abs()).sum::<i128>();
    if degree > MAX_DEGREE {
        2
    } else if degree == 0 {
        1
    } else if s.fold && s.parity == Parity::Full {
        5
    } else if s.fold && degree < least {
        6
    } else if (c.iter().enumerate()).any(|(j, &x)| x != 0 && !allows(s.parity, j)) {
        4
    } else if sum() > MAX_SUM as i128 {
        3
    } else {
        0
    }
}

pub fn allows(parity: Parity, place: usize) -> bool {
    match parity {
        Parity::Full => true,
        Parity::Even => place.is_multiple_of(2),
        Parity::Odd => !place.is_multiple_of(2),
    }
}

/// The allowed powers from 1 to `degree`.
fn allowed_powers(parity: Parity, degree: usize) -> usize {
    match parity {
        Parity::Full => degree,
        Parity::Even => degree / 2,
        Parity::Odd => degree.div_ceil(2),
    }
}

/// The ct-ct multiplications of a transform by its number: none, of a square 1, of one that is times the input 2.
fn transform_cost(transform: usize) -> usize {
    [0, 1, 2, 1, 2][transform]
}

/// The steps of a plan as text, and the counts that they give.
struct Steps<'a> {
    out: &'a mut Vec<u8>,
    basis: Basis,
    parity: Parity,
    min_depth: bool,
    degree: usize,
    split: usize,
    /// The length of each list, by the Rust.
    lengths: &'a [usize],
    loaded: usize,
    ctct: usize,
    ptct: usize,
}

impl<'a> Steps<'a> {
    fn new(
        out: &'a mut Vec<u8>,
        plan: &'a rust::BSGSPolynomial<usize>,
        strategy: SplitStrategy,
    ) -> Self {
        Steps {
            out,
            basis: plan.basis(),
            parity: plan.parity(),
            min_depth: strategy == SplitStrategy::MinDepth,
            degree: plan.degree(),
            split: plan.log_split(),
            lengths: plan.baby_steps(),
            loaded: 0,
            ctct: 0,
            ptct: 0,
        }
    }

    fn all(&mut self) {
        self.makes();
        self.part(self.degree, self.split, self.min_depth);
        assert_eq!(self.loaded, self.lengths.len(), "every list is loaded");
    }

    /// One make for each needed power, rising.
    fn makes(&mut self) {
        let needed = self.needed();
        for n in (2..=self.degree).filter(|&n| needed[n]) {
            let (a, b) = rust::split_degree(n);
            print(self.out, b'P', &[n, a, b]);
            self.ctct += 1;
        }
    }

    /// Marks of the needed powers. The parts of a power are below it, so one sweep downwards finds all.
    fn needed(&self) -> [bool; MAX_DEGREE + 1] {
        let mut marks = [false; MAX_DEGREE + 1];
        if self.degree < 2 {
            return marks;
        }
        marks[top(self.degree)] = true;
        let babies = 3..(1 << self.split).min(self.degree + 1);
        for n in babies.filter(|&n| allows(self.parity, n)) {
            marks[n] = true;
        }
        for n in (2..=self.degree).rev() {
            if marks[n] {
                let (a, b, distance) = parts(n);
                // Powers 0 and 1 are there: their marks are never read.
                marks[a] = true;
                marks[b] = true;
                if self.basis == Basis::Chebyshev {
                    marks[distance] = true;
                }
            }
        }
        marks
    }

    /// Loads and combines of a part of degree `d` at split `t`.
    fn part(&mut self, d: usize, t: usize, leading: bool) {
        if d >= 1 << t {
            let p = top(d);
            self.part(p - 1, t, false);
            self.part(d - p, t, leading);
            self.combine(p, d == p);
        } else if let Some(smaller) = self.relisted(d, t, leading) {
            self.part(d, smaller, leading);
        } else {
            self.load(d);
        }
    }

    /// The smaller split at which a leading part is listed again.
    fn relisted(&self, d: usize, t: usize, leading: bool) -> Option<usize> {
        let next_power = 2 * top(self.degree);
        if !leading || d == 0 || t <= 1 || self.degree <= next_power - (1 << (t - 1)) {
            return None;
        }
        let smaller = rust::min_depth_split(d.ilog2() as usize + 1);
        (smaller < t).then_some(smaller)
    }

    fn load(&mut self, degree: usize) {
        // The cuts of docs/RULES.md are those of the Rust's lists.
        assert_eq!(self.lengths[self.loaded], degree + 1, "a list's length");
        print(self.out, b'B', &[self.loaded]);
        self.loaded += 1;
        self.ptct += allowed_powers(self.parity, degree);
    }

    /// High is plain where it is a list of one. Such a list is the last: every low part is cut into lists as long as the base.
    fn combine(&mut self, p: usize, plain: bool) {
        if plain {
            assert_eq!(self.loaded, self.lengths.len(), "a list of one is the last");
            print(self.out, b'Q', &[p]);
            self.ptct += 1;
        } else {
            print(self.out, b'G', &[p]);
            self.ctct += 1;
        }
    }
}

/// The greatest power of two that is at most `d`.
pub fn top(d: usize) -> usize {
    1 << d.ilog2()
}

/// A line of the answer.
fn print(out: &mut Vec<u8>, letter: u8, numbers: &[usize]) {
    out.push(letter);
    for &n in numbers {
        out.push(b'\t');
        digits(out, n as u64);
    }
    out.push(b'\n');
}

fn print_list(out: &mut Vec<u8>, list: &[f64]) {
    out.push(b'L');
    for &x in list {
        out.push(b'\t');
        let whole = x as i64;
        // Nothing is lost: the number is whole, and no zero is negative.
        assert_eq!((whole as f64).to_bits(), x.to_bits(), "{x} is not whole");
        if whole < 0 {
            out.push(b'-');
        }
        digits(out, whole.unsigned_abs());
    }
    out.push(b'\n');
}

fn digits(out: &mut Vec<u8>, mut n: u64) {
    let mut text = [0; 20];
    let mut at = text.len();
    loop {
        at -= 1;
        text[at] = b'0' + (n % 10) as u8;
        n /= 10;
        if n == 0 {
            break;
        }
    }
    out.extend_from_slice(&text[at..]);
}
