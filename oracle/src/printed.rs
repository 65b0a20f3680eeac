//! The recording of `planlines`: every edge of the form, every refusal of a line, plans of every setting, random lines.

use std::fs::write;
use std::path::Path;

use crate::calls::Parity;
use crate::curves::{line, padded, shape};
use crate::inputs::{BANDS, MAX_DEGREE, MAX_SUM, Rng};
use crate::texts::{MAX_LINE, answer};

const SEED: u64 = 0x1_0000_000d;
/// Up to the first every degree is planned in every setting, up to the second each end of a band or power of two.
const ALL: usize = 33;
const ENDS: usize = 70;
/// Above, each degree has so many of the settings, by turns.
const TURNS: usize = 4;

/// Writes `planlines.stdin`, whose last line lacks its line feed, and `planlines.stdout`.
pub fn record(dir: &Path) {
    let g = &mut Rng::new(SEED);
    let mut lines = vec![];
    forms(&mut lines);
    refusals(&mut lines);
    lengths(g, &mut lines);
    plans(g, &mut lines);
    lines.extend((0..400).map(|_| line(g)));
    lines.iter_mut().for_each(|l| l.retain(|&b| b != b'\n'));
    lines.push(tabs("C O M Y 0 1 0 2"));
    let stdout: Vec<u8> = lines.iter().flat_map(|l| answer(l)).collect();
    let put = |name, bytes: &[u8]| write(dir.join(name), bytes).expect("recording");
    put("planlines.stdin", &lines.join(&b'\n'));
    put("planlines.stdout", &stdout);
    println!("planlines.stdin: {} lines", lines.len());
}

/// A line written with spaces for tabs.
fn tabs(text: &str) -> Vec<u8> {
    text.replace(' ', "\t").into_bytes()
}

/// What has the form, and beside it what has not.
fn forms(lines: &mut Vec<Vec<u8>>) {
    let with_tabs = [
        "M F D N 1 2 3 4 5",
        "",
        "M F D N",
        "M F D",
        "M F",
        "M",
        " ",
        "   ",
        "    ",
        " M F D N 1 2",
        "M F D N ",
        "M F D N 1 2 ",
        "M F D N 1 2  ",
        "M  F D N 1 2",
        "M F D N  1 2",
        "M F D N 1  2",
        "M F D 1 2",
        "F M D N 1 2",
        "MF D N 1 2",
        "MM F D N 1 2",
        "M F D N 1 2 M",
        "m F D N 1 2",
        "M f D N 1 2",
        "M F d N 1 2",
        "M F D n 1 2",
        "C E M Y 0 0 1",
        "c E M Y 0 0 1",
        "X F D N 1 2",
        "M X D N 1 2",
        "M F X N 1 2",
        "M F D X 1 2",
        "M F C N 1 2",
        "0 0 0 0 1 2",
        "M F D N 000000000000000001 -000000000000000002",
        "M F D N 0000000000000000001 2",
        "M F D N 1 -0000000000000000002",
        "M F D N 999999999999999999 1",
        "M F D N 9999999999999999999 1",
        "M F D N -999999999999999999 1",
        "M F D N 1 -",
        "M F D N - 1",
        "M F D N -",
        "M F D N -0 0",
        "M F D N 0 -0",
        "M E D N -0 -0 -00",
        "M F D N +1 2",
        "M F D N 1 +2",
        "M F D N --1 2",
        "M F D N 1- 2",
        "M F D N 1 2-",
        "M F D N 1.0 2",
        "M F D N 1e1 2",
        "M F D N 0x1 2",
        "M F D N 1 a",
        "M F D N 1,2",
        "M F D N / 1",
        "M F D N : 1",
    ];
    lines.extend(with_tabs.map(tabs));
    let as_they_are: [&[u8]; 15] = [
        b"M F D N 1 2",
        b"M\tF\tD\tN\t1 \t2",
        b"M\tF\tD\tN\t 1\t2",
        b"M\tF\tD\tN\t1\t2 ",
        b" M\tF\tD\tN\t1\t2",
        b"M\tF\tD\tN\t1\t2\r",
        b"\r",
        b"M\tF\tD\tN\r\t1\t2",
        b"\0",
        b"M\tF\tD\tN\t1\t2\0",
        b"M\tF\tD\tN\t1\0\t2",
        b"\xff",
        b"M\tF\tD\tN\t1\t\xff",
        b"\xcd\tF\tD\tN\t1\t2",
        b"M\tF\tD\tN\t\xb1\t2",
    ];
    lines.extend(as_they_are.map(|l| l.to_vec()));
    // The program goes on after a refused line.
    lines.push(tabs("M F D N 1 2"));
}

/// Each refusal of the plan call, and that those ahead in the order win.
fn refusals(lines: &mut Vec<Vec<u8>>) {
    let texts = [
        // 1, also ahead of 5, 4 and 3.
        "M O M N 5",
        "C F D Y",
        "C F D Y 1073741825",
        "M O M N 1073741825",
        // 5, also ahead of 3.
        "M F D Y 1 2",
        "C F M Y 1073741824 1073741824 1",
        // 6, also ahead of 4 and 3.
        "M E D Y 1 0",
        "C E M Y 1073741824 1073741824",
        "M O D Y 0 1",
        "C O D Y 0 1 0",
        "M O M Y 1073741824 1073741824 1073741824",
        // Not 6.
        "M E D Y 1 0 1",
        "C O M Y 0 1 0 0",
        // 4, also ahead of 3, with folding and without.
        "M E D N 1 1",
        "C O M N 1 1",
        "C E D Y 1 0 1 0 1 1",
        "M O D Y 0 1 1 1",
        "C E D Y 1073741824 1073741824 1073741824",
        "M O M N 1073741824 1073741824",
        "M E M N 1 000000000000000000 1 -0 1",
        // 3.
        "M F D N 1073741824 1",
        "M F D N -1073741824 -1",
        "M F D N 1 1073741824",
        "C E D Y 1073741824 0 1",
        "C O D Y 0 536870913 0 536870912",
        "M F M N 536870912 -536870912 1",
        "M F M N 999999999999999999 999999999999999999",
        "M F M N 999999999999999999 -999999999999999999",
        // Just not 3; the fold of the last two sums above 2^30.
        "M F D N 1073741824 0",
        "M F D N 0 -1073741824",
        "M F M N 536870912 -536870912 0",
        "C F D N 1 1 1 1 1 1 1 1 1073741816",
        "C E M Y 0 0 -1073741824",
        "C O D Y 0 0 0 536870912",
        "C O M Y 0 0 0 0 0 0 0 -1073741824",
    ];
    lines.extend(texts.map(tabs));
    // Sums that pass 2^63; a wrong place behind many zeros.
    lines.push(repeated("C\tF\tD\tN", "999999999999999999", 3_000));
    lines.push(repeated("M\tF\tD\tN", "-999999999999999999", 12));
    for (settings, bad) in [("M\tE\tD\tN", "\t0\t1"), ("M\tO\tM\tY", "\t1\t0")] {
        lines.push([repeated(settings, "0", 128), bad.into()].concat());
    }
}

fn repeated(settings: &str, field: &str, count: usize) -> Vec<u8> {
    let fields = format!("\t{field}").repeat(count);
    [settings, &fields].concat().into_bytes()
}

/// Numbers of coefficients and of bytes around their limits.
fn lengths(g: &mut Rng, lines: &mut Vec<Vec<u8>>) {
    let most = MAX_DEGREE + 1;
    lines.push(repeated("M\tF\tM\tN", "1", most));
    lines.push(repeated("M\tF\tM\tN", "1", most + 1));
    lines.push(repeated("C\tE\tD\tY", "0", most));
    lines.push(repeated("C\tE\tD\tY", "0", most + 1));
    // 2 is ahead of 5, 4 and 3.
    lines.push(repeated("C\tF\tD\tY", "1", most + 1));
    lines.push(repeated("C\tO\tD\tN", "1", most + 1));
    lines.push(repeated("M\tF\tD\tN", "2147483648", most + 1));
    // The form is tested ahead of the content.
    for bad in ["\t", "\t-", "\t1a", "\t+1", "\r"] {
        lines.push([repeated("M\tF\tD\tN", "1", 5_000), bad.into()].concat());
    }
    for settings in ["M\tF\tD\tX", "m\tF\tD\tN"] {
        lines.push(repeated(settings, "1", 5_000));
    }
    // The greatest number of coefficients in a line that is not too long, and one byte more.
    let full = repeated("M\tF\tD\tN", "1", (MAX_LINE - 7) / 2);
    assert_eq!(full.len(), MAX_LINE);
    lines.push(full.clone());
    lines.push([full, b"1".to_vec()].concat());
    // In the form, and planned up to the last byte that a line may have.
    for (settings, parity) in [("M\tF\tD\tN", Parity::Full), ("C\tO\tM\tY", Parity::Odd)] {
        let settings = settings.as_bytes().to_vec();
        lines.push(padded(g, settings.clone(), parity, MAX_LINE));
        lines.push(padded(g, settings, parity, MAX_LINE + 1));
    }
    // Not in the form by the last byte alone.
    let mut bad = padded(g, b"M\tF\tD\tN".to_vec(), Parity::Full, MAX_LINE);
    bad[MAX_LINE - 1] = b' ';
    lines.push(bad);
    lines.push(vec![b'1'; MAX_LINE]);
    lines.push(vec![b'\t'; MAX_LINE + 1]);
    // Much longer, then a good line.
    lines.push(repeated("M\tF\tD\tN", "1", 70_000));
    lines.push(tabs("M F D N 1 2 3"));
    lines.push(vec![0; 2 * MAX_LINE + 2]);
    lines.push(tabs("C F M N 1 2 3 4 5 6"));
}

/// The settings in which plans are made: without folding all, with it `Even` and `Odd`.
pub fn settings() -> Vec<String> {
    let mut all = vec![];
    for basis in ["M", "C"] {
        for (parity, folds) in [("F", "N"), ("E", "NY"), ("O", "NY")] {
            for strategy in ["D", "M"] {
                for fold in folds.chars() {
                    all.push(format!("{basis}\t{parity}\t{strategy}\t{fold}"));
                }
            }
        }
    }
    all
}

fn plans(g: &mut Rng, lines: &mut Vec<Vec<u8>>) {
    let all = settings();
    let (small, large): (Vec<usize>, Vec<usize>) = ends(ALL + 1).iter().partition(|&&d| d <= ENDS);
    for degree in (1..=ALL).chain(small) {
        all.iter().for_each(|s| lines.push(plan(g, s, degree, 19)));
    }
    for (k, degree) in large.into_iter().enumerate() {
        for turn in 0..TURNS {
            let settings = &all[(TURNS * k + turn) % all.len()];
            lines.push(plan(g, settings, degree, 3));
        }
    }
    // The greatest numbers in a plan.
    for settings in &all {
        lines.push(greatest(settings, 63));
    }
}

/// Powers of two and the ends of the bands, each with its neighbours, from `least` up.
fn ends(least: usize) -> Vec<usize> {
    let powers = (0..=12).map(|k| 1 << k);
    let bands = BANDS.into_iter().flat_map(|(a, b)| [a, b]);
    let mut all: Vec<usize> = powers.chain(bands).flat_map(|d| d - 1..=d + 1).collect();
    all.retain(|d| (least..=MAX_DEGREE).contains(d));
    all.sort();
    all.dedup();
    all
}

fn parity(settings: &str) -> Parity {
    match settings.as_bytes()[2] {
        b'F' => Parity::Full,
        b'E' => Parity::Even,
        _ => Parity::Odd,
    }
}

/// So many different coefficients about 0.
pub fn plan(g: &mut Rng, settings: &str, degree: usize, most: usize) -> Vec<u8> {
    let half = (most / 2) as i64;
    let mut c: Vec<i64> = (0..=degree).map(|_| g.below(most) as i64 - half).collect();
    shape(parity(settings), &mut c);
    write_line(settings, &c)
}

/// The greatest sum, at the last place that the parity allows.
fn greatest(settings: &str, degree: usize) -> Vec<u8> {
    let mut c = vec![0; degree + 1];
    c[degree - (parity(settings) == Parity::Even) as usize] = -MAX_SUM;
    write_line(settings, &c)
}

fn write_line(settings: &str, c: &[i64]) -> Vec<u8> {
    let fields = c.iter().map(|x| format!("\t{x}")).collect::<String>();
    [settings, &fields].concat().into_bytes()
}
