//! One call of the published planner as one line: its name, its arguments, `=`, its answers.

use std::cell::Cell;
use std::fmt::Display;
use std::fmt::Write as _;
use std::io::Write;
use std::panic::{AssertUnwindSafe, catch_unwind, set_hook, take_hook};

use anyhow::Result;

use crate::conversions;
use crate::layouts::polynomial_evaluation as rust;
use crate::rebuild;
use crate::sets;
pub use rust::{Basis, Parity, SplitStrategy};

pub const BASES: [Basis; 2] = [Basis::Monomial, Basis::Chebyshev];
pub const PARITIES: [Parity; 3] = [Parity::Full, Parity::Even, Parity::Odd];
pub const STRATEGIES: [SplitStrategy; 2] = [SplitStrategy::MinDepth, SplitStrategy::MinMult];

/// How a call's coefficients are written: f64 by its bits, or as decimal integers.
#[derive(Clone, Copy, PartialEq)]
pub enum Form {
    Bits,
    Whole,
}

thread_local! {
    /// Set while a published function runs: its panics are answers and print nothing.
    static ASKING: Cell<bool> = const { Cell::new(false) };
}

pub fn quiet_while_asking() {
    let loud = take_hook();
    set_hook(Box::new(move |info| {
        if !ASKING.get() {
            loud(info)
        }
    }));
}

/// The published function's answer; none if it panics or returns an error.
pub fn ask<T>(call: impl FnOnce() -> Result<T>) -> Option<T> {
    ASKING.set(true);
    let answer = catch_unwind(AssertUnwindSafe(call));
    ASKING.set(false);
    answer.ok()?.ok()
}

pub fn bit_len(n: usize) -> usize {
    (usize::BITS - n.leading_zeros()) as usize
}

pub fn basis_letter(b: Basis) -> char {
    match b {
        Basis::Monomial => 'M',
        Basis::Chebyshev => 'C',
    }
}

pub fn parity_letter(p: Parity) -> char {
    match p {
        Parity::Full => 'F',
        Parity::Even => 'E',
        Parity::Odd => 'O',
    }
}

pub fn strategy_letter(s: SplitStrategy) -> char {
    match s {
        SplitStrategy::MinDepth => 'D',
        SplitStrategy::MinMult => 'M',
    }
}

/// Writes recorded lines, one after another.
pub struct Recorder<W: Write> {
    out: W,
    line: String,
    form: Form,
    pub lines: u64,
}

impl<W: Write> Recorder<W> {
    pub fn new(out: W) -> Self {
        Recorder {
            out,
            line: String::new(),
            form: Form::Bits,
            lines: 0,
        }
    }

    pub fn finish(mut self) -> u64 {
        self.out.flush().expect("recording");
        self.lines
    }

    fn begin(&mut self, name: &str, form: Form) {
        self.line.clear();
        self.line.push_str(name);
        if form == Form::Whole {
            self.line.push_str("_whole");
        }
        self.form = form;
    }

    fn field(&mut self, x: impl Display) {
        write!(self.line, "\t{x}").unwrap();
    }

    fn number(&mut self, x: f64) {
        match self.form {
            Form::Bits if x.is_nan() => self.line.push_str("\tnan"),
            Form::Bits => write!(self.line, "\t{:016x}", x.to_bits()).unwrap(),
            Form::Whole => {
                let whole = x as i64;
                // The comparison with i64 holds only if nothing is lost here, the sign of a zero too.
                assert_eq!(
                    (whole as f64).to_bits(),
                    x.to_bits(),
                    "{x} is no whole number"
                );
                write!(self.line, "\t{whole}").unwrap()
            }
        }
    }

    fn numbers(&mut self, list: &[f64]) {
        list.iter().for_each(|&x| self.number(x));
    }

    fn list(&mut self, list: &[f64]) {
        self.field(list.len());
        self.numbers(list);
    }

    /// Writes `=` and the answers, or the refusal, and ends the line.
    fn end<T>(&mut self, answer: Option<T>, write: impl FnOnce(&mut Self, T)) {
        self.field('=');
        match answer {
            Some(x) => write(self, x),
            None => self.field("refused"),
        }
        self.line.push('\n');
        self.out.write_all(self.line.as_bytes()).expect("recording");
        self.lines += 1;
    }

    pub fn split_degree(&mut self, n: usize) {
        self.begin("split_degree", Form::Bits);
        self.field(n);
        self.end(ask(|| Ok(rust::split_degree(n))), |r, (a, b)| {
            r.field(a);
            r.field(b);
        });
    }

    pub fn min_depth_split(&mut self, degree: usize) {
        self.begin("min_depth_split", Form::Bits);
        self.field(degree);
        self.end(
            ask(|| Ok(rust::min_depth_split(bit_len(degree)))),
            |r, s| r.field(s),
        );
    }

    pub fn min_mult_split(&mut self, degree: usize, parity: Parity, basis: Basis) {
        self.begin("min_mult_split", Form::Bits);
        self.field(degree);
        self.field(parity_letter(parity));
        self.field(basis_letter(basis));
        self.end(
            ask(|| Ok(rust::min_mult_split(degree, parity, basis))),
            |r, s| r.field(s),
        );
    }

    pub fn bsgs_op_counts(
        &mut self,
        degree: usize,
        strategy: SplitStrategy,
        parity: Parity,
        basis: Basis,
    ) {
        self.begin("bsgs_op_counts", Form::Bits);
        self.field(degree);
        self.field(strategy_letter(strategy));
        self.field(parity_letter(parity));
        self.field(basis_letter(basis));
        self.end(
            ask(|| Ok(rust::bsgs_op_counts(degree, strategy, parity, basis))),
            |r, (ctct, ptct)| {
                r.field(ctct);
                r.field(ptct);
            },
        );
    }

    pub fn bsgs_eval_depth(&mut self, degree: usize, strategy: SplitStrategy) {
        self.begin("bsgs_eval_depth", Form::Bits);
        self.field(degree);
        self.field(strategy_letter(strategy));
        self.end(
            ask(|| Ok(rust::bsgs_eval_depth(degree, strategy))),
            |r, d| r.field(d),
        );
    }

    pub fn bsgs_consumed_bits(
        &mut self,
        degree: usize,
        strategy: SplitStrategy,
        input: usize,
        coeff: usize,
    ) {
        self.begin("bsgs_consumed_bits", Form::Bits);
        self.field(degree);
        self.field(strategy_letter(strategy));
        self.field(input);
        self.field(coeff);
        // The published function does not read parity and basis.
        let ask_bits = || {
            Ok(rust::bsgs_consumed_bits(
                degree,
                strategy,
                Parity::Full,
                Basis::Monomial,
                input,
                coeff,
            ))
        };
        self.end(ask(ask_bits), |r, bits| r.field(bits));
    }

    /// The largest degree for a budget. No published function answers it: refusal and degree are given.
    pub fn largest_degree(
        &mut self,
        strategy: SplitStrategy,
        budget: u64,
        (input, coeff): (usize, usize),
        (refusal, degree): (u8, usize),
    ) {
        self.begin("largest_degree", Form::Bits);
        self.field(strategy_letter(strategy));
        self.field(budget);
        self.field(input);
        self.field(coeff);
        self.end(Some(()), |r, ()| {
            r.field(refusal);
            r.field(degree);
        });
    }

    pub fn parity(&mut self, form: Form, c: &[f64]) {
        self.begin("parity", form);
        self.list(c);
        // The published detection does not read the basis.
        let answer = ask(|| Ok(rust::Polynomial::new(Basis::Monomial, c.to_vec()).parity));
        self.end(answer, |r, p| r.field(parity_letter(p)));
    }

    pub fn decompose(
        &mut self,
        form: Form,
        basis: Basis,
        parity: Parity,
        strategy: SplitStrategy,
        c: &[f64],
    ) {
        self.begin("decompose", form);
        self.setting(basis, parity, strategy);
        self.list(c);
        let p = rust::Polynomial::new_with_parity(basis, c.to_vec(), parity);
        let answer = ask(|| p.decompose_bsgs_with(strategy, |list| Ok(list.to_vec())));
        self.end(answer, |r, plan| {
            r.field(plan.degree());
            r.field(plan.base());
            r.lists(plan.baby_steps());
        });
    }

    pub fn decompose_folded(
        &mut self,
        form: Form,
        basis: Basis,
        parity: Parity,
        strategy: SplitStrategy,
        c: &[f64],
    ) {
        self.begin("decompose_folded", form);
        self.setting(basis, parity, strategy);
        self.list(c);
        let p = rust::Polynomial::new_with_parity(basis, c.to_vec(), parity);
        let answer = ask(|| p.decompose_bsgs_folded_with(strategy, |list| Ok(list.to_vec())));
        self.end(answer, |r, plan| {
            r.field(plan.degree());
            r.field(plan.base());
            r.field(plan.input_transform() as u8);
            r.lists(plan.baby_steps());
        });
    }

    pub fn fold_parity(&mut self, form: Form, basis: Basis, parity: Parity, c: &[f64]) {
        self.begin("fold_parity", form);
        self.field(basis_letter(basis));
        self.field(parity_letter(parity));
        self.list(c);
        let p = rust::Polynomial::new_with_parity(basis, c.to_vec(), parity);
        self.end(ask(|| p.fold_parity()), |r, (folded, transform)| {
            r.field(transform as u8);
            r.list(&folded.coeffs);
        });
    }

    pub fn evaluate(&mut self, basis: Basis, c: &[f64], x: f64) {
        self.begin("evaluate", Form::Bits);
        self.field(basis_letter(basis));
        self.list(c);
        self.number(x);
        self.end(ask(|| Ok(rust::evaluate_coeffs(basis, c, x))), |r, y| {
            r.number(y)
        });
    }

    pub fn change_of_basis(&mut self, basis: Basis, a: f64, b: f64) {
        self.begin("change_of_basis", Form::Bits);
        self.field(basis_letter(basis));
        self.numbers(&[a, b]);
        self.end(
            ask(|| Ok(rust::change_of_basis(basis, a, b))),
            |r, (u, w)| r.numbers(&[u, w]),
        );
    }

    /// `nodes` and `values` stand in the order in which the published loop asks for them.
    pub fn interpolate(&mut self, a: f64, b: f64, nodes: &[f64], values: &[f64]) {
        assert!(!nodes.is_empty() && nodes.len() == values.len());
        self.begin("interpolate", Form::Bits);
        self.numbers(&[a, b]);
        self.list(nodes);
        self.numbers(values);
        let asked = Cell::new((0, 0));
        let value = |_| {
            let (u, v) = asked.replace((asked.get().0, asked.get().1 + 1));
            assert_eq!(u, v + 1, "a value is asked for after its node");
            values[v]
        };
        let node = |_| {
            let (u, v) = asked.replace((asked.get().0 + 1, asked.get().1));
            assert_eq!(u, v, "a node is asked for after the last value");
            nodes[u]
        };
        let answer = ask(|| {
            rust::Polynomial::chebyshev_interpolate_with_cos(nodes.len() - 1, a, b, value, node)
        });
        // A refusal by one of the two closures would pass for one of the interval.
        assert_eq!(
            answer.is_some(),
            a < b,
            "only an interval without a < b is refused"
        );
        self.end(answer, |r, p| {
            r.list(&p.coeffs);
            r.field(parity_letter(p.parity));
        });
    }

    /// The remainder of a polynomial's value at a point. No published function answers it: it is worked out here.
    #[allow(clippy::too_many_arguments)]
    pub fn plan_value(
        &mut self,
        basis: Basis,
        parity: Parity,
        strategy: SplitStrategy,
        fold: bool,
        point: i64,
        modulus: u64,
        c: &[f64],
    ) {
        self.begin("plan_value", Form::Bits);
        self.form = Form::Whole;
        self.setting(basis, parity, strategy);
        self.field(if fold { 'Y' } else { 'N' });
        self.field(point);
        self.field(modulus);
        self.list(c);
        self.end(Some(value_mod(basis, c, point, modulus)), |r, v| r.field(v));
    }

    /// The interval in a plan's head, with its pair: those of the published lists. The published code takes every interval; the
    /// refusal of one without a < b is ours.
    pub fn plan_interval(
        &mut self,
        basis: Basis,
        parity: Parity,
        strategy: SplitStrategy,
        fold: bool,
        (a, b): (f64, f64),
        c: &[f64],
    ) {
        self.begin("plan_interval", Form::Bits);
        self.setting(basis, parity, strategy);
        self.field(if fold { 'Y' } else { 'N' });
        self.numbers(&[a, b]);
        self.form = Form::Whole;
        self.list(c);
        self.form = Form::Bits;
        let p = rust::Polynomial::new_with_parity(basis, c.to_vec(), parity).with_interval(a, b);
        let copy = |list: &[f64]| Ok(list.to_vec());
        let lists = ask(|| match fold {
            true => p.decompose_bsgs_folded_with(strategy, copy),
            false => p.decompose_bsgs_with(strategy, copy),
        });
        // A refusal for another reason would pass for one of the interval.
        let lists = lists.expect("lists on every interval");
        let answer = (a < b).then(|| (lists.interval(), lists.change_of_basis()));
        self.end(answer, |r, ((a, b), (u, w))| r.numbers(&[a, b, u, w]));
    }

    /// Coefficients rebuilt from lists. No published function answers it: the answer is given.
    pub fn rebuild(&mut self, call: &rebuild::Call, answer: &rebuild::Rebuilt) {
        let (basis, parity, strategy) = rebuild::settings(call.kinds).expect("letters");
        self.begin("rebuild", Form::Bits);
        self.setting(basis, parity, strategy);
        self.field(call.degree);
        self.field(call.base);
        self.plain(&call.lists);
        self.plain(&call.bounds);
        self.field(call.room);
        self.whole_answer(answer);
    }

    /// Coefficients in the other basis. No published function answers it: the answer is given.
    pub fn convert_coeffs(&mut self, call: &conversions::Call, answer: &conversions::Converted) {
        self.begin("convert_coeffs", Form::Bits);
        self.field(basis_letter(call.basis().expect("a letter")));
        self.plain(&call.c);
        self.field(call.room);
        self.whole_answer(answer);
    }

    /// A set of curves, planned together. No published function answers it: the answer is given.
    pub fn plan_set(&mut self, call: &sets::Call, answer: &Result<sets::Set, u8>) {
        self.begin("plan_set", Form::Bits);
        call.places.iter().for_each(|n| self.field(n));
        self.members(call);
        self.plain(&call.c);
        self.end(Some(()), |r, ()| match answer {
            Ok(set) => r.set(set),
            Err(refusal) => r.field(refusal),
        });
    }

    /// The sizes of a set, which are given too.
    pub fn set_sizes(&mut self, call: &sets::Call, answer: Result<sets::Sizes, u8>) {
        self.begin("set_sizes", Form::Bits);
        self.members(call);
        self.end(Some(()), |r, ()| match answer {
            Ok(sizes) => [0].iter().chain(&sizes).for_each(|n| r.field(n)),
            Err(refusal) => r.field(refusal),
        });
    }

    /// How many members there are, and for each of the first 16 its settings, interval and length.
    fn members(&mut self, call: &sets::Call) {
        self.field(call.count);
        for member in call.read() {
            let letters = member.letters().expect("known kinds");
            letters.iter().for_each(|letter| self.field(letter));
            self.numbers(&[member.a, member.b]);
            self.field(member.count);
        }
    }

    fn set(&mut self, set: &sets::Set) {
        let counts = [0, set.ct, set.pt, set.powers];
        counts.iter().for_each(|n| self.field(n));
        self.plain(&set.c);
        self.plain(&set.bounds);
        self.plain(&set.numbers);
        for head in &set.heads {
            self.field(head.degree);
            self.field(head.base);
            self.field(head.transform);
            let rest = [
                head.ct,
                head.pt,
                head.depth,
                head.coefficients,
                head.lists,
                head.steps,
            ];
            rest.iter().for_each(|n| self.field(n));
        }
    }

    /// A line that was written by hand.
    pub fn by_hand(&mut self, line: &str) {
        self.line.clear();
        self.line.push_str(line);
        self.line.push('\n');
        self.out.write_all(self.line.as_bytes()).expect("recording");
        self.lines += 1;
    }

    fn setting(&mut self, basis: Basis, parity: Parity, strategy: SplitStrategy) {
        self.field(basis_letter(basis));
        self.field(parity_letter(parity));
        self.field(strategy_letter(strategy));
    }

    /// Ends the line with a refusal, 0 for none, and the coefficients, none in a refusal.
    fn whole_answer(&mut self, answer: &Result<Vec<i64>, u8>) {
        let (refusal, c) = match answer {
            Ok(c) => (0, &c[..]),
            Err(refusal) => (*refusal, &[][..]),
        };
        self.end(Some(()), |r, ()| {
            r.field(refusal);
            r.plain(c);
        });
    }

    /// A list of whole numbers of any size.
    fn plain(&mut self, list: &[impl Display]) {
        self.field(list.len());
        list.iter().for_each(|x| self.field(x));
    }

    fn lists(&mut self, lists: &[Vec<f64>]) {
        self.field(lists.len());
        lists.iter().for_each(|list| self.list(list));
    }
}

/// The sum of c_j times power j at the point, modulo `modulus`: exact, since a modulus is below 2^62.
pub fn value_mod(basis: Basis, c: &[f64], point: i64, modulus: u64) -> u64 {
    let m = modulus as i128;
    let x = (point as i128).rem_euclid(m);
    let factor = match basis {
        Basis::Monomial => x,
        Basis::Chebyshev => 2 * x % m,
    };
    // The powers j and j + 1.
    let (mut power, mut next) = (1 % m, x);
    let mut sum = 0;
    for &c in c {
        sum = (sum + (c as i128).rem_euclid(m) * power) % m;
        let later = match basis {
            Basis::Monomial => factor * next % m,
            Basis::Chebyshev => (factor * next - power).rem_euclid(m),
        };
        (power, next) = (next, later);
    }
    sum as u64
}
