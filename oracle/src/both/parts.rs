//! A comparison in parts, on all cores. What it finds does not hang on the number of threads.

use std::sync::Mutex;
use std::sync::atomic::{AtomicUsize, Ordering};
use std::thread::{available_parallelism, scope};

/// How many random cases a part has; each part has a seed of its own.
pub const PART: u64 = 1_000;

/// Counts for each row of a table, four unless it is said otherwise.
pub type Tally<const ROWS: usize, const COLUMNS: usize = 4> = [[u64; COLUMNS]; ROWS];

/// Works through the cases of each part; `agrees` counts a case in the tally, unless the two sides differ in it. It answers all
/// counts, or the first case with a difference: parts are taken in order, and each before that one is worked through, so it is
/// the same whatever the threads do.
pub fn compare<C: Send, const ROWS: usize, const COLUMNS: usize>(
    parts: usize,
    cases: impl Fn(usize) -> Vec<C> + Sync,
    agrees: impl Fn(&C, usize, &mut Tally<ROWS, COLUMNS>) -> bool + Sync,
) -> Result<Tally<ROWS, COLUMNS>, C> {
    let next = AtomicUsize::new(0);
    let total = Mutex::new([[0; COLUMNS]; ROWS]);
    let found: Mutex<Option<(usize, C)>> = Mutex::new(None);
    let part = |k: usize, tally: &mut Tally<ROWS, COLUMNS>| {
        let mut cases = cases(k).into_iter();
        if let Some(case) = cases.find(|case| !agrees(case, k, tally)) {
            let mut found = found.lock().unwrap();
            if found.as_ref().is_none_or(|f| k < f.0) {
                *found = Some((k, case));
            }
        }
    };
    let work = || {
        let mut tally = [[0; COLUMNS]; ROWS];
        loop {
            let k = next.fetch_add(1, Ordering::Relaxed);
            let late = found.lock().unwrap().as_ref().is_some_and(|f| f.0 < k);
            if k >= parts || late {
                break;
            }
            part(k, &mut tally);
        }
        let mut total = total.lock().unwrap();
        for (t, n) in total.iter_mut().flatten().zip(tally.iter().flatten()) {
            *t += n;
        }
    };
    scope(|s| {
        let threads = available_parallelism().map_or(1, |n| n.get());
        (0..threads).for_each(|_| drop(s.spawn(work)));
    });
    match found.into_inner().unwrap() {
        Some((_, case)) => Err(case),
        None => Ok(total.into_inner().unwrap()),
    }
}

/// Prints a table's rows, below its line of headings, and answers the sum of all counts.
pub fn table<const ROWS: usize, const COLUMNS: usize>(
    names: &[&str; ROWS],
    total: &Tally<ROWS, COLUMNS>,
) -> u64 {
    println!("|---{}|", "|---".repeat(COLUMNS));
    let mut all = [0; COLUMNS];
    for (name, row) in names.iter().zip(total) {
        line(name, row);
        (all.iter_mut().zip(row)).for_each(|(a, n)| *a += n);
    }
    line("all", &all);
    all.iter().sum()
}

/// The first column in which no row has a count, if there is one: the comparison has then missed what it was made for.
pub fn empty_column<const ROWS: usize, const COLUMNS: usize>(
    total: &Tally<ROWS, COLUMNS>,
) -> Option<usize> {
    (0..COLUMNS).find(|&column| total.iter().all(|row| row[column] == 0))
}

fn line(name: &str, counts: &[u64]) {
    let counts: Vec<String> = counts.iter().map(u64::to_string).collect();
    println!("| {name} | {} |", counts.join(" | "));
}
