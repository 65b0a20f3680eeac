//! A call with its input, and an answer to it.

use std::fmt::{Display, Formatter, Result};

use crate::calls::{
    Basis, Form, Parity, SplitStrategy, basis_letter, parity_letter, strategy_letter,
};

#[derive(Clone, Copy, PartialEq)]
pub enum Name {
    SplitDegree,
    MinDepthSplit,
    MinMultSplit,
    OpCounts,
    EvalDepth,
    ConsumedBits,
    DetectParity,
    FoldParity,
    Evaluate,
    EvaluateOnInterval,
    ChangeOfBasis,
    Interpolate,
    Decompose,
    DecomposeFolded,
    Plan,
    PlanFolded,
}

pub use Name::*;

pub const NAMES: [(Name, &str); 16] = [
    (SplitDegree, "split_degree"),
    (MinDepthSplit, "min_depth_split"),
    (MinMultSplit, "min_mult_split"),
    (OpCounts, "bsgs_op_counts"),
    (EvalDepth, "bsgs_eval_depth"),
    (ConsumedBits, "bsgs_consumed_bits"),
    (DetectParity, "parity"),
    (FoldParity, "fold_parity"),
    (Evaluate, "evaluate"),
    (EvaluateOnInterval, "evaluate_on_interval"),
    (ChangeOfBasis, "change_of_basis"),
    (Interpolate, "interpolate"),
    (Decompose, "decompose"),
    (DecomposeFolded, "decompose_folded"),
    (Plan, "plan"),
    (PlanFolded, "plan_folded"),
];

/// A call with its input. What a call does not read has the first value.
#[derive(Clone)]
pub struct Call {
    pub name: Name,
    pub form: Form,
    pub basis: Basis,
    pub parity: Parity,
    pub strategy: SplitStrategy,
    /// A degree or an index.
    pub degree: usize,
    /// The bit scales of the input and of the coefficients.
    pub scales: (usize, usize),
    /// The coefficients, or the nodes of an interpolation.
    pub c: Vec<f64>,
    pub values: Vec<f64>,
    pub x: f64,
    pub ends: (f64, f64),
    /// Where a plan is walked: points and moduli.
    pub walks: Vec<(i64, u64)>,
}

impl Call {
    pub fn new(name: Name) -> Self {
        Call {
            name,
            form: Form::Bits,
            basis: Basis::Monomial,
            parity: Parity::Full,
            strategy: SplitStrategy::MinDepth,
            degree: 0,
            scales: (0, 0),
            c: vec![],
            values: vec![],
            x: 0.0,
            ends: (-1.0, 1.0),
            walks: vec![],
        }
    }

    /// A call on coefficients.
    pub fn on(name: Name, form: Form, c: &[f64]) -> Self {
        let c = c.to_vec();
        Call {
            form,
            c,
            ..Call::new(name)
        }
    }

    pub fn at(self, basis: Basis, parity: Parity, strategy: SplitStrategy) -> Self {
        Call {
            basis,
            parity,
            strategy,
            ..self
        }
    }

    /// The row of the summary.
    pub fn row(&self) -> usize {
        let place = NAMES.iter().position(|n| n.0 == self.name);
        2 * place.expect("a name") + (self.form == Form::Whole) as usize
    }

    pub fn whole(&self) -> Vec<i64> {
        self.c.iter().map(|&x| x as i64).collect()
    }

    fn reads_coefficients(&self) -> bool {
        self.row() >= 2 * DetectParity as usize && self.name != ChangeOfBasis
    }
}

/// The text of a row: the name, with `_whole` as in the recordings. A plan is of whole coefficients only.
pub fn row_name(row: usize) -> String {
    let (name, text) = NAMES[row / 2];
    let whole = row % 2 == 1 && !matches!(name, Plan | PlanFolded);
    format!("{text}{}", if whole { "_whole" } else { "" })
}

impl Display for Call {
    fn fmt(&self, f: &mut Formatter) -> Result {
        write!(f, "{}", row_name(self.row()))?;
        let letters = (
            basis_letter(self.basis),
            parity_letter(self.parity),
            strategy_letter(self.strategy),
        );
        write!(
            f,
            " basis={} parity={} strategy={}",
            letters.0, letters.1, letters.2
        )?;
        if !self.reads_coefficients() {
            write!(f, " degree={} scales={:?}", self.degree, self.scales)?;
        } else {
            write!(f, " c={}", Numbers(self.form, &self.c))?;
        }
        match self.name {
            Evaluate => write!(f, " x={}", Float(self.x)),
            EvaluateOnInterval => {
                write!(f, " x={}", Float(self.x))?;
                write!(f, " from={} to={}", Float(self.ends.0), Float(self.ends.1))
            }
            Interpolate => {
                write!(f, " values={}", Numbers(self.form, &self.values))?;
                write!(f, " from={} to={}", Float(self.ends.0), Float(self.ends.1))
            }
            ChangeOfBasis => write!(f, " from={} to={}", Float(self.ends.0), Float(self.ends.1)),
            Plan | PlanFolded => {
                write!(f, " from={} to={}", Float(self.ends.0), Float(self.ends.1))?;
                write!(f, " points and moduli={:?}", self.walks)
            }
            _ => Ok(()),
        }
    }
}

/// A float, with its bits if it is no small whole number.
struct Float(f64);

impl Display for Float {
    fn fmt(&self, f: &mut Formatter) -> Result {
        let x = self.0;
        if x.fract() == 0.0 && x.abs() < 1e6 {
            write!(f, "{x}")
        } else {
            write!(f, "{x:?}({:016x})", x.to_bits())
        }
    }
}

struct Numbers<'a>(Form, &'a [f64]);

impl Display for Numbers<'_> {
    fn fmt(&self, f: &mut Formatter) -> Result {
        write!(f, "[")?;
        for (i, &x) in self.1.iter().enumerate() {
            let gap = if i > 0 { " " } else { "" };
            match self.0 {
                Form::Bits => write!(f, "{gap}{}", Float(x))?,
                Form::Whole => write!(f, "{gap}{x}")?,
            }
        }
        write!(f, "]")
    }
}

/// One number of an answer.
#[derive(Clone, Copy, PartialEq)]
pub enum Word {
    Number(u64),
    /// The bits of an f64; any NaN has those of one.
    Bits(u64),
    Whole(i64),
}

#[derive(PartialEq)]
pub enum Answer {
    Refused(u8),
    Said(Vec<Word>),
}

impl Answer {
    /// Where two answers first differ.
    pub fn place(&self, other: &Answer) -> String {
        let (Answer::Said(a), Answer::Said(b)) = (self, other) else {
            return "one is a refusal, or both are".to_string();
        };
        let same = a.iter().zip(b).take_while(|(a, b)| a == b).count();
        format!("number {} of {} and {} differs", same + 1, a.len(), b.len())
    }
}

impl Display for Answer {
    fn fmt(&self, f: &mut Formatter) -> Result {
        match self {
            Answer::Refused(0) => write!(f, "refused, which docs/RULES.md does not"),
            Answer::Refused(number) => write!(f, "refused ({number})"),
            Answer::Said(words) => words.iter().try_for_each(|word| match word {
                Word::Number(n) => write!(f, "{n} "),
                Word::Bits(b) => write!(f, "{} ", Float(f64::from_bits(*b))),
                Word::Whole(n) => write!(f, "{n} "),
            }),
        }
    }
}

/// Words of an answer, one after another.
#[derive(Default)]
pub struct Words(pub Vec<Word>);

impl Words {
    pub fn number(&mut self, n: usize) {
        self.0.push(Word::Number(n as u64));
    }

    pub fn numbers(&mut self, list: &[usize]) {
        list.iter().for_each(|&n| self.number(n));
    }

    pub fn float(&mut self, x: f64) {
        let x = if x.is_nan() { f64::NAN } else { x };
        self.0.push(Word::Bits(x.to_bits()));
    }

    pub fn floats(&mut self, list: &[f64]) {
        list.iter().for_each(|&x| self.float(x));
    }

    pub fn whole(&mut self, n: i64) {
        self.0.push(Word::Whole(n));
    }

    /// A published number by its form. What is not whole, or a negative zero, equals no whole number.
    pub fn by_form(&mut self, form: Form, x: f64) {
        let whole = x as i64;
        if form == Form::Whole && (whole as f64).to_bits() == x.to_bits() {
            self.whole(whole);
        } else {
            self.float(x);
        }
    }
}
