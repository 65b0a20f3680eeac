//! Records what the published planner answers, one call a line, and answers lines as `planlines` does; README.md has
//! the formats. With the feature `both` it also compares the published planner with the proved library, and times both.

mod answers;
#[cfg(feature = "both")]
mod bench;
#[cfg(feature = "both")]
mod both;
mod budgets;
mod calls;
mod chain;
mod chains;
mod conversions;
mod curves;
mod damaged;
mod gate;
mod inputs;
mod large;
mod layouts;
mod lines;
mod printed;
mod rebuild;
mod rebuilds;
mod sets;
mod since;
mod split;
mod texts;
mod walked;

use std::fs::{File, create_dir_all};
use std::io::{BufWriter, stdin, stdout};
use std::path::{Path, PathBuf};

use calls::Recorder;

pub type Rec = Recorder<BufWriter<File>>;

/// Writes one recording and says how long it is.
pub fn recording(dir: &Path, name: &str, record: impl FnOnce(&mut Rec)) {
    let file = File::create(dir.join(name)).expect("a folder to write recordings to");
    let mut r = Recorder::new(BufWriter::with_capacity(1 << 20, file));
    record(&mut r);
    println!("{name}: {} lines", r.finish());
}

fn main() {
    calls::quiet_while_asking();
    let words: Vec<String> = std::env::args().skip(1).collect();
    let words: Vec<&str> = words.iter().map(String::as_str).collect();
    let number = |w: &str| w.parse::<u64>().unwrap_or_else(|_| usage());
    match words[..] {
        ["gate", dir] => gate::record(&folder(dir)),
        ["large", dir, count, seed] => large::record(&folder(dir), number(count), number(seed)),
        ["lines"] => lines::answer_all(stdin().lock(), stdout().lock()).expect("lines"),
        ["curves", count, seed] => {
            curves::write(number(count), number(seed), stdout().lock()).expect("lines")
        }
        ["chains"] => chains::write(BufWriter::new(stdout().lock())).expect("lines"),
        #[cfg(feature = "both")]
        ["both", count, seed] => both::compare(number(count), number(seed)),
        #[cfg(feature = "both")]
        ["heaviest", count, seed] => both::chains::compare(number(count), number(seed)),
        #[cfg(feature = "both")]
        ["budgets", count, seed] => both::budgets::compare(number(count), number(seed)),
        #[cfg(feature = "both")]
        ["rebuilds", count, seed] => both::rebuilds::compare(number(count), number(seed)),
        #[cfg(feature = "both")]
        ["sums", count, seed] => both::sums::compare(number(count), number(seed)),
        #[cfg(feature = "both")]
        ["sets", count, seed] => both::sets::compare(number(count), number(seed)),
        #[cfg(feature = "both")]
        ["conversions", count, seed] => both::conversions::compare(number(count), number(seed)),
        #[cfg(feature = "both")]
        ["bench", rounds, seed] => bench::run(number(rounds) as usize, number(seed)),
        ["degrees", seed] => {
            since::degrees(number(seed), BufWriter::new(stdout().lock())).expect("lines")
        }
        ["since", before, after] => since(before, after, false),
        ["since", "--moved", before, after] => since(before, after, true),
        ["walks", lines, answers] => walks(lines, answers),
        _ => usage(),
    }
}

fn since(before: &str, after: &str, moves: bool) {
    let open = |name| File::open(name).expect("answers");
    since::compare(open(before), open(after), moves, stdout().lock()).expect("answers")
}

fn walks(lines: &str, answers: &str) {
    let open = |name| File::open(name).expect("lines and answers");
    if let Err(error) = walked::check(open(lines), open(answers)) {
        eprintln!("oracle walks: {error:#}");
        std::process::exit(1)
    }
}

fn folder(dir: &str) -> PathBuf {
    create_dir_all(dir).expect("a folder to write recordings to");
    PathBuf::from(dir)
}

fn usage() -> ! {
    eprintln!("usage: oracle gate DIR | oracle large DIR COUNT SEED");
    eprintln!("       oracle lines < LINES | oracle curves COUNT SEED");
    eprintln!("       oracle degrees SEED | oracle since [--moved] BEFORE AFTER");
    eprintln!("       oracle chains | oracle walks LINES ANSWERS");
    eprintln!("       oracle both COUNT SEED | oracle heaviest COUNT SEED (with the feature both)");
    eprintln!("       oracle budgets COUNT SEED (with the feature both)");
    eprintln!("       oracle rebuilds COUNT SEED (with the feature both)");
    eprintln!("       oracle sums COUNT SEED (with the feature both)");
    eprintln!("       oracle sets COUNT SEED (with the feature both)");
    eprintln!("       oracle conversions COUNT SEED (with the feature both)");
    eprintln!("       oracle bench ROUNDS SEED (with the feature both)");
    std::process::exit(2)
}
