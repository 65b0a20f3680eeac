//! The answers of `planlines` before a change and after it, to the same lines. They are equal; or, if the change is that of request Q-2,
//! they differ in one way alone: in each plan whose last list is one after another list, and whose degree is no power of two, the combine
//! right behind the load of that list is `Q` for `G`, and one multiplication of the head moves from ct-ct to pt-ct.

use std::io::{Read, Result, Write};

use crate::answers::Answers;
use crate::inputs::{MAX_DEGREE, Rng};
use crate::printed::{plan, settings};

/// A line for every degree in every setting, the degree slowest, with small numbers.
pub fn degrees(seed: u64, mut output: impl Write) -> Result<()> {
    let g = &mut Rng::new(seed);
    let all = settings();
    for degree in 1..=MAX_DEGREE {
        for settings in &all {
            output.write_all(&plan(g, settings, degree, 19))?;
            output.write_all(b"\n")?;
        }
    }
    output.flush()
}

/// With `moves` the answers have the changes of Q-2, and it says of each that has one its number, from 1, and its head; without they have
/// none. Anything else is a panic.
pub fn compare(
    before: impl Read,
    after: impl Read,
    moves: bool,
    mut output: impl Write,
) -> Result<()> {
    let mut before = Answers::new(before);
    let mut after = Answers::new(after);
    let (mut all, mut moved) = (0, 0);
    loop {
        let (old, new) = (before.next()?, after.next()?);
        if old.is_empty() && new.is_empty() {
            break;
        }
        all += 1;
        let expected = if moves { with_move(&old) } else { None };
        assert!(
            expected.as_ref().unwrap_or(&old) == &new,
            "answer {all}: {} became {}",
            old.first().map_or("nothing", String::as_str),
            new.first().map_or("nothing", String::as_str)
        );
        if expected.is_some() {
            moved += 1;
            writeln!(output, "{all}\t{}", new[0])?;
        }
    }
    writeln!(
        output,
        "{all} answers, {moved} with one plain combine more, no other difference"
    )
}

/// The old plan with its one change; none if it has no such change.
fn with_move(old: &[String]) -> Option<Vec<String>> {
    let lists = old.iter().filter(|l| l.starts_with('L')).count();
    let last = old.iter().rfind(|l| l.starts_with('L'))?;
    let mut head: Vec<usize> = old[0][2..]
        .split('\t')
        .map(|f| f.parse().unwrap())
        .collect();
    if lists < 2 || last.matches('\t').count() > 1 || head[0].is_power_of_two() {
        return None;
    }
    let load = format!("B\t{}", lists - 1);
    let combine = old.iter().position(|l| *l == load).expect("its load") + 1;
    let power = old[combine].strip_prefix('G').expect("a combine of kind 3");
    let mut new = old.to_vec();
    new[combine] = format!("Q{power}");
    head[3] -= 1;
    head[4] += 1;
    let head: Vec<String> = head.iter().map(usize::to_string).collect();
    new[0] = format!("H\t{}", head.join("\t"));
    Some(new)
}
