//! Plans as they are lent, read back from the printed ones; and for each zero curve the heaviest chain of its plan beside the
//! published bits.

use std::fs::File;
use std::io::{BufWriter, Result, Write};
use std::path::Path;

use crate::calls::{BASES, PARITIES, STRATEGIES, basis_letter, parity_letter, strategy_letter};
use crate::chain::{Head, chain_of};
use crate::layouts::polynomial_evaluation::bsgs_consumed_bits;
use crate::texts::answer;

/// The degrees of the zero curves, and the bit scales of input and coefficients.
const DEGREES: std::ops::RangeInclusive<usize> = 2..=511;
const SCALES: (usize, usize) = (30, 20);

/// A plan as it is lent.
#[derive(Clone, Debug, Default)]
pub struct Lent {
    pub head: Head,
    pub c: Vec<i64>,
    pub bounds: Vec<u16>,
    pub numbers: Vec<u16>,
}

impl Lent {
    /// The plan of a line of `planlines`; none if the line is refused.
    pub fn of(line: &str) -> Option<Self> {
        let text = String::from_utf8(answer(line.as_bytes())).expect("an answer is ASCII");
        let place =
            |letters: &str, at: usize| letters.find(&line[at..at + 1]).expect("a kind") as u8;
        let mut plan = Lent::default();
        for answered in text.lines() {
            let (letter, fields) = answered.split_once('\t').expect("a letter");
            let numbers = fields
                .split('\t')
                .map(|f| f.parse::<i64>().expect("a number"));
            match letter {
                "R" => return None,
                "H" => {
                    let n: Vec<usize> = numbers.map(|n| n as usize).collect();
                    plan.head = Head {
                        basis: place("MC", 0),
                        parity: if n[2] > 0 { 0 } else { place("FEO", 2) },
                        strategy: place("DM", 4),
                        transform: n[2] as u8,
                        degree: n[0],
                        base: n[1],
                        ct: n[3],
                        pt: n[4],
                        depth: n[5],
                        ..Head::default()
                    };
                }
                "L" => {
                    plan.c.extend(numbers);
                    plan.bounds.push(plan.c.len() as u16);
                }
                _ => {
                    let kind = 1 + "PBGQ".find(letter).expect("a step") as u16;
                    let all: Vec<u16> = numbers.map(|n| n as u16).chain([0, 0]).collect();
                    plan.numbers.extend([kind, all[0], all[1], all[2]]);
                }
            }
        }
        plan.count();
        Some(plan)
    }

    /// Puts into the head how many coefficients, lists and steps there are.
    pub fn count(&mut self) {
        self.head.coefficients = self.c.len();
        self.head.lists = self.bounds.len();
        self.head.steps = self.numbers.len() / 4;
    }

    pub fn chain(&self, (input, coeff): (usize, usize)) -> (u8, u64) {
        chain_of(
            &self.head,
            &self.c,
            &self.bounds,
            &self.numbers,
            input,
            coeff,
        )
    }
}

/// Records what `chains` prints.
pub fn record(dir: &Path) {
    let file = File::create(dir.join("chains.stdout")).expect("recording");
    write(BufWriter::new(file)).expect("recording");
    println!("chains.stdout: every line");
}

/// A line for each degree and setting without folding: degree, letters, chain, bits.
pub fn write(mut out: impl Write) -> Result<()> {
    for degree in DEGREES {
        let zeros = "\t0".repeat(degree + 1);
        for basis in BASES {
            for parity in PARITIES {
                for strategy in STRATEGIES {
                    let letters = [
                        basis_letter(basis),
                        parity_letter(parity),
                        strategy_letter(strategy),
                    ];
                    let letters = letters.map(String::from).join("\t");
                    let plan = Lent::of(&format!("{letters}\tN{zeros}")).expect("a plan");
                    let (refusal, chain) = plan.chain(SCALES);
                    assert_eq!(refusal, 0, "a plan can be walked");
                    let (input, coeff) = SCALES;
                    let bits = bsgs_consumed_bits(degree, strategy, parity, basis, input, coeff);
                    writeln!(out, "{degree}\t{letters}\t{chain}\t{bits}")?;
                }
            }
        }
    }
    out.flush()
}
