//! A check of the answers of `planlines` by their text alone. A plan is read back and walked, and its value held against the
//! polynomial's; its counts are held against its steps, and what the published Rust chooses against the Rust's choice; a refusal is
//! worked out from docs/RULES.md. No answer that this program itself gives to a line has a part in it.

use std::collections::BTreeMap;
use std::io::Read;
use std::str::{FromStr, from_utf8};

use anyhow::{Context, Result, bail, ensure};

use crate::answers::Answers;
use crate::calls::{Basis, Parity, SplitStrategy, value_mod};
use crate::inputs::Rng;
use crate::layouts::polynomial_evaluation::{bsgs_eval_depth, bsgs_op_counts, split_for_strategy};
use crate::lines::each_line;
use crate::split::parts;

#[cfg(test)]
mod tests;

/// A prime: the powers of a point are spread over the remainders.
const PRIME: u64 = (1 << 61) - 1;

/// Checks the answers to all lines, and says how many plans each setting had, and how many refusals each number. The error names the
/// first line whose answer is wrong.
pub fn check(lines: impl Read, answers: impl Read) -> Result<()> {
    let mut answers = Answers::new(answers);
    let mut seen: BTreeMap<String, u64> = BTreeMap::new();
    let (mut g, mut all) = (Rng::new(5), 0);
    each_line(lines, |line| -> Result<()> {
        all += 1;
        let answer = answers.next()?;
        let key =
            held(&mut g, line, &answer).with_context(|| format!("line {all}, {}", shown(line)))?;
        *seen.entry(key.replace('\t', " ")).or_default() += 1;
        Ok(())
    })?;
    ensure!(
        answers.next()?.is_empty(),
        "{all} lines, and more answers than lines"
    );
    seen.iter().for_each(|(key, n)| println!("{key}: {n}"));
    println!("{all} answers, each right");
    Ok(())
}

/// The first bytes of a line, for a message.
fn shown(line: &[u8]) -> String {
    let short = &line[..line.len().min(200)];
    let rest = if short.len() < line.len() { "…" } else { "" };
    format!("'{}'{rest}", short.escape_ascii())
}

/// Holds an answer against its line. Returns the line's settings, or the refusal.
fn held(g: &mut Rng, line: &[u8], answer: &[String]) -> Result<String> {
    ensure!(!answer.is_empty(), "no answer");
    match refusal(line) {
        0 => plan(g, from_utf8(line)?, answer),
        number => {
            let name = format!("R\t{number}");
            ensure!(
                answer == [&name[..]],
                "the answer is {}, not {}",
                shown(answer.join("\n").as_bytes()),
                shown(name.as_bytes())
            );
            Ok(name)
        }
    }
}

/// The refusal of a line, by the words of docs/RULES.md one after another; 0 for none.
fn refusal(line: &[u8]) -> u8 {
    let Ok(line) = std::str::from_utf8(line) else {
        return 12;
    };
    let fields: Vec<&str> = line.split('\t').collect();
    let letters = ["M C", "F E O", "D M", "N Y"];
    let in_form = line.len() < 65_536
        && fields.len() >= 4
        && (letters.iter().zip(&fields)).all(|(l, f)| l.split(' ').any(|l| l == *f))
        && fields[4..].iter().all(|f| is_number(f));
    if !in_form {
        return 12;
    }
    let c: Vec<i128> = fields[4..].iter().map(|f| f.parse().unwrap()).collect();
    let wrong = match fields[1] {
        "E" => c.iter().skip(1).step_by(2).any(|&x| x != 0),
        "O" => c.iter().step_by(2).any(|&x| x != 0),
        _ => false,
    };
    let folds = fields[3] == "Y";
    let short = c.len() < if fields[1] == "E" { 3 } else { 4 };
    let tests = [
        (c.len() > 4_096, 2),
        (c.len() < 2, 1),
        (folds && fields[1] == "F", 5),
        (folds && short, 6),
        (wrong, 4),
        (c.iter().map(|x| x.abs()).sum::<i128>() > 1_073_741_824, 3),
    ];
    tests.iter().find(|t| t.0).map_or(0, |t| t.1)
}

fn is_number(field: &str) -> bool {
    let digits = field.strip_prefix('-').unwrap_or(field);
    (1..=18).contains(&digits.len()) && digits.bytes().all(|b| b.is_ascii_digit())
}

/// A printed plan, read back.
struct Plan {
    basis: Basis,
    parity: Parity,
    strategy: SplitStrategy,
    head: [usize; 6],
    lists: Vec<Vec<i64>>,
    steps: Vec<(char, Vec<usize>)>,
}

/// Holds a plan against its line, which is accepted. Returns the line's settings.
fn plan(g: &mut Rng, line: &str, answer: &[String]) -> Result<String> {
    let fields: Vec<&str> = line.split('\t').collect();
    let c: Vec<f64> = fields[4..]
        .iter()
        .map(|f| f.parse::<i64>().map(|c| c as f64))
        .collect::<Result<_, _>>()?;
    let plan = read(&fields, answer)?;
    let half = [c.len(), c.len().div_ceil(2), c.len() / 2];
    let (transform, cost, numbers) = match (fields[0], fields[1], fields[3]) {
        (_, _, "N") => (0, 0, half[0]),
        ("M", "E", _) => (1, 1, half[1]),
        ("M", _, _) => (2, 2, half[2]),
        (_, "E", _) => (3, 1, half[1]),
        _ => (4, 2, half[2]),
    };
    same("the transform", plan.head[2], transform)?;
    for x in [2, g.next() as i64] {
        let (walked, value) = (plan.walk(x)?, value_mod(plan.basis, &c, x, PRIME));
        ensure!(
            walked == value,
            "at {x} the walk ends with {walked}, and the value is {value}, modulo {PRIME}"
        );
    }
    plan.shape(numbers)?;
    plan.order()?;
    plan.fits(g)?;
    plan.plain()?;
    plan.counts(cost)?;
    let depth = bsgs_eval_depth(plan.head[0], plan.strategy);
    same("the depth", plan.head[5], depth + cost)?;
    Ok(fields[..4].join("\t"))
}

/// An error that names what is not as it must be.
fn same<T: PartialEq + std::fmt::Debug>(what: &str, found: T, right: T) -> Result<()> {
    ensure!(found == right, "{what}: {found:?}, not {right:?}");
    Ok(())
}

/// Reads a plan by the fields of its line and the lines of its answer.
fn read(settings: &[&str], answer: &[String]) -> Result<Plan> {
    let (first, rest) = answer.split_first().context("no answer")?;
    let (letter, head) = fields(first)?;
    ensure!(
        letter == 'H' && head.len() == 6,
        "'{first}' is no head of a plan"
    );
    let lists = rest.iter().take_while(|l| l.starts_with('L')).count();
    let (lists, steps) = rest.split_at(lists);
    Ok(Plan {
        basis: if settings[0] == "M" {
            Basis::Monomial
        } else {
            Basis::Chebyshev
        },
        parity: match (settings[1], settings[3]) {
            ("E", "N") => Parity::Even,
            ("O", "N") => Parity::Odd,
            _ => Parity::Full,
        },
        strategy: if settings[2] == "M" {
            SplitStrategy::MinMult
        } else {
            SplitStrategy::MinDepth
        },
        head: std::array::from_fn(|i| head[i]),
        lists: lists
            .iter()
            .map(|l| Ok(fields(l)?.1))
            .collect::<Result<_>>()?,
        steps: steps.iter().map(|l| fields(l)).collect::<Result<_>>()?,
    })
}

/// The letter of a line and the numbers behind it.
fn fields<T: FromStr>(line: &str) -> Result<(char, Vec<T>)> {
    let mut fields = line.split('\t');
    let letter = fields.next().and_then(|f| f.parse().ok());
    let letter = letter.with_context(|| format!("'{line}' has no letter ahead of a tab"))?;
    Ok((letter, fields.map(number).collect::<Result<_>>()?))
}

/// A number as it is printed: no plus sign, no zero ahead of another digit, no minus ahead of 0.
fn number<T: FromStr>(field: &str) -> Result<T> {
    let digits = field.strip_prefix('-').unwrap_or(field);
    let plain = field == "0" || digits.starts_with(|d| matches!(d, '1'..='9'));
    let number = if plain { field.parse().ok() } else { None };
    number.with_context(|| format!("'{field}' is no number of this line"))
}

fn remainder(x: i64) -> u64 {
    (x as i128).rem_euclid(PRIME as i128) as u64
}

fn times(a: u64, b: u64) -> u64 {
    (a as u128 * b as u128 % PRIME as u128) as u64
}

fn plus(a: u64, b: u64) -> u64 {
    (a + b) % PRIME
}

fn minus(a: u64, b: u64) -> u64 {
    (a + PRIME - b) % PRIME
}

/// The powers that are there, by their indices.
type Powers = BTreeMap<usize, u64>;

fn power(powers: &Powers, n: usize) -> Result<u64> {
    let power = powers.get(&n).copied();
    power.with_context(|| format!("power {n} is used, and no step before made it"))
}

impl Plan {
    fn allowed(&self, j: usize) -> bool {
        match self.parity {
            Parity::Full => true,
            Parity::Even => j.is_multiple_of(2),
            Parity::Odd => !j.is_multiple_of(2),
        }
    }

    /// The value at `x` modulo the prime.
    fn walk(&self, x: i64) -> Result<u64> {
        let x = remainder(x);
        let square = times(x, x);
        let y = match self.head[2] {
            0 => x,
            1 | 2 => square,
            _ => minus(times(2, square), 1),
        };
        let value = self.run(self.basis, &self.lists, y)?;
        let times_input = matches!(self.head[2], 2 | 4);
        Ok(if times_input { times(value, x) } else { value })
    }

    /// The steps fit every curve with these settings, and not this one alone, whose zeros may hide a wrong step: with any numbers in the
    /// lists, and powers of x, they end with the sum of all numbers, the first times power 0, the second times power 1, and so on. Power
    /// 0 is always there, so that the first number of a list is never 0.
    fn fits(&self, g: &mut Rng) -> Result<()> {
        let mut any = |j| match j == 0 || self.allowed(j) {
            true => 1 + g.below(1 << 30) as i64,
            false => 0,
        };
        let lists = self
            .lists
            .iter()
            .map(|l| (0..l.len()).map(&mut any).collect());
        let lists: Vec<Vec<i64>> = lists.collect();
        let c: Vec<f64> = lists.concat().into_iter().map(|c| c as f64).collect();
        let x = g.next() as i64;
        let walked = self.run(Basis::Monomial, &lists, remainder(x))?;
        let value = value_mod(Basis::Monomial, &c, x, PRIME);
        ensure!(
            walked == value,
            "the steps do not fit curves with other numbers in the lists"
        );
        Ok(())
    }

    /// Runs the steps with these lists and this power 1.
    fn run(&self, basis: Basis, lists: &[Vec<i64>], y: u64) -> Result<u64> {
        let mut powers = BTreeMap::from([(0, 1), (1, y)]);
        let mut waiting = vec![];
        for (letter, numbers) in &self.steps {
            match (letter, &numbers[..]) {
                ('P', &[n, a, b]) => make(basis, &mut powers, n, (a, b))?,
                ('B', &[i]) => {
                    let list = lists.get(i).with_context(|| format!("no list {i}"))?;
                    waiting.push(value(list, &powers)?);
                }
                ('G' | 'Q', &[p]) => combine(&mut waiting, power(&powers, p)?)?,
                _ => bail!("no step: {letter} {numbers:?}"),
            }
            ensure!(waiting.len() <= 16, "more than 16 values wait");
        }
        same("values at the end", waiting.len(), 1)?;
        Ok(waiting[0])
    }

    /// Degree, base, the lengths of the lists, and zeros where the parity allows no power.
    fn shape(&self, numbers: usize) -> Result<()> {
        let [degree, base, ..] = self.head;
        same("the degree and one more", degree + 1, numbers)?;
        same(
            "the numbers of all lists",
            self.lists.iter().map(|l| l.len()).sum(),
            numbers,
        )?;
        let split = split_for_strategy(self.strategy, degree, self.parity, self.basis);
        same("the base", base, 1 << split)?;
        ensure!(
            self.lists.iter().all(|l| l.len() <= base),
            "a list is longer than the base"
        );
        let fall = self.lists.is_sorted_by(|a, b| a.len() >= b.len());
        ensure!(fall, "a list is longer than the one ahead of it");
        for (i, list) in self.lists.iter().enumerate() {
            let wrong = (0..list.len()).find(|&j| !self.allowed(j) && list[j] != 0);
            ensure!(
                wrong.is_none(),
                "place {wrong:?} of list {i} is not 0, and the parity allows no such power"
            );
        }
        Ok(())
    }

    /// Powers come first and rise; lists are loaded in order.
    fn order(&self) -> Result<()> {
        let makes = self.numbers_of("P");
        ensure!(makes.is_sorted(), "the powers do not rise");
        let late = self.steps.iter().skip(makes.len()).any(|s| s.0 == 'P');
        ensure!(!late, "a power is made behind another step");
        let loads = self.numbers_of("B");
        ensure!(
            loads.into_iter().eq(0..self.lists.len()),
            "the lists are not loaded in order"
        );
        Ok(())
    }

    /// The first number of each step with one of these letters.
    fn numbers_of(&self, letters: &str) -> Vec<usize> {
        let steps = self.steps.iter().filter(|s| letters.contains(s.0));
        steps.map(|s| s.1[0]).collect()
    }

    /// The reported pair by the steps; and by the Rust's estimate, which leaves relisting out, and moves the multiplication of a last
    /// list of one only at a power of two.
    fn counts(&self, cost: usize) -> Result<()> {
        let [degree, base, _, reported @ .., _] = self.head;
        let ctct = self.numbers_of("PG").len();
        let powers = self
            .lists
            .iter()
            .map(|l| (1..l.len()).filter(|&j| self.allowed(j)).count());
        let ptct = powers.sum::<usize>() + self.numbers_of("Q").len();
        same(
            "the reported ct-ct and pt-ct",
            reported,
            [ctct + cost, ptct],
        )?;
        let (ct, pt) = bsgs_op_counts(degree, self.strategy, self.parity, self.basis);
        let lengths: Vec<usize> = self.lists.iter().map(|l| l.len()).collect();
        let (more, moved) = (
            relisted(degree, base, lengths.len())?,
            moved(degree, &lengths),
        );
        ensure!(
            more == 0 || self.strategy == SplitStrategy::MinDepth,
            "MinMult lists nothing again"
        );
        let less = if self.parity == Parity::Odd { 0 } else { more };
        let found = (ctct + moved, ptct + less);
        same(
            "the steps' ct-ct and pt-ct, relisting and a last list of one aside",
            found,
            (ct + more, pt + moved),
        )
    }

    /// A last list of one after another list is combined by Q, right behind its load; no other combine is.
    fn plain(&self) -> Result<()> {
        let last = self.lists.len() - 1;
        let lone = last > 0 && self.lists[last].len() == 1;
        let load = self.steps.iter().position(|s| *s == ('B', vec![last]));
        let behind = load.context("the last list is not loaded")? + 1;
        let plain: Vec<usize> = (0..self.steps.len())
            .filter(|&i| self.steps[i].0 == 'Q')
            .collect();
        let right = if lone { vec![behind] } else { vec![] };
        same("the places of the combines Q", plain, right)
    }
}

/// Makes a power, which must not be there, from the parts that the Rust splits it into.
fn make(basis: Basis, powers: &mut Powers, n: usize, found: (usize, usize)) -> Result<()> {
    ensure!(
        !powers.contains_key(&n),
        "power {n} is made, and it is there"
    );
    let (a, b, distance) = parts(n);
    ensure!(
        found == (a, b),
        "power {n} is made of {found:?}, not of {:?}",
        (a, b)
    );
    let product = times(power(powers, a)?, power(powers, b)?);
    let made = match basis {
        Basis::Monomial => product,
        Basis::Chebyshev => minus(times(2, product), power(powers, distance)?),
    };
    powers.insert(n, made);
    Ok(())
}

/// The value of a list. A number that is 0 needs no power.
fn value(list: &[i64], powers: &Powers) -> Result<u64> {
    let mut sum = 0;
    for (j, &c) in list.iter().enumerate().filter(|(_, c)| **c != 0) {
        sum = plus(sum, times(remainder(c), power(powers, j)?));
    }
    Ok(sum)
}

/// Takes high and low, and puts high times the power plus low.
fn combine(waiting: &mut Vec<u64>, power: u64) -> Result<()> {
    let (Some(high), Some(low)) = (waiting.pop(), waiting.pop()) else {
        bail!("a combine without two values");
    };
    waiting.push(plus(times(high, power), low));
    Ok(())
}

/// How many lists a plan has more than the slices of its degree.
fn relisted(degree: usize, base: usize, lists: usize) -> Result<usize> {
    let more = lists.checked_sub(slices(degree, base));
    more.with_context(|| format!("{lists} lists are too few"))
}

/// The number of slices of a degree at a base.
pub fn slices(degree: usize, base: usize) -> usize {
    if degree < base {
        return 1;
    }
    let p = 1 << degree.ilog2();
    slices(p - 1, base) + slices(degree - p, base)
}

/// How many multiplications a plan moves from ct-ct to pt-ct beside the estimate: that of a last list of one after another list, but at a
/// power of two the estimate has moved it.
pub fn moved(degree: usize, lengths: &[usize]) -> usize {
    let lone = lengths.len() > 1 && lengths.last() == Some(&1);
    (lone && !degree.is_power_of_two()) as usize
}
