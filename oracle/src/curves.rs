//! Random lines for `planlines`, good ones and damaged ones, from a seed.

use std::io::{BufWriter, Result, Write};

use crate::calls::{PARITIES, Parity};
use crate::inputs::{MAX_DEGREE, MAX_SUM, Rng, edges, spread};
use crate::texts::{MAX_DIGITS, MAX_LINE, allows};

/// Fields that no coefficient may be, and two that it may.
const FIELDS: [&str; 16] = [
    "-",
    "",
    "+1",
    "--1",
    "1-",
    "-+1",
    "1 ",
    " 1",
    "1.0",
    "1e3",
    "0x1",
    "1234567890123456789",
    "-0000000000000000001",
    "N",
    "-000000000000000001",
    "999999999999999999",
];

/// `count` lines. By the seed the last one may lack its line feed, if it is not empty.
pub fn write(count: u64, seed: u64, out: impl Write) -> Result<()> {
    let g = &mut Rng::new(seed);
    let mut out = BufWriter::with_capacity(1 << 16, out);
    let bare_end = g.one_in(2);
    for k in 1..=count {
        let mut line = line(g);
        line.iter_mut().for_each(|b| {
            if *b == b'\n' {
                *b = b'\r'
            }
        });
        out.write_all(&line)?;
        if k < count || !bare_end || line.is_empty() {
            out.write_all(b"\n")?;
        }
    }
    out.flush()
}

pub fn line(g: &mut Rng) -> Vec<u8> {
    match g.below(10_000) {
        0..3 => long(g),
        3..53 => vec![],
        53..153 => {
            let n = g.below(80);
            random_bytes(g, n)
        }
        153..2_000 => {
            let mut line = curve(g);
            damage(g, &mut line);
            if g.one_in(4) {
                damage(g, &mut line);
            }
            line
        }
        _ => curve(g),
    }
}

fn random_bytes(g: &mut Rng, n: usize) -> Vec<u8> {
    (0..n).map(|_| g.next() as u8).collect()
}

/// A line of the form, accepted or not.
fn curve(g: &mut Rng) -> Vec<u8> {
    let n = length(g);
    let parity = g.pick(&PARITIES);
    let c = content(g, parity, n);
    let mut line = settings(g, parity);
    // Most lines have plain numbers only.
    let plain = !g.one_in(5);
    for x in c {
        line.push(b'\t');
        line.extend(text(g, x, plain).bytes());
    }
    line
}

fn settings(g: &mut Rng, parity: Parity) -> Vec<u8> {
    let (letter, fold) = match parity {
        // Refused by 5, so rare.
        Parity::Full => (b'F', g.one_in(20)),
        Parity::Even => (b'E', g.one_in(2)),
        Parity::Odd => (b'O', g.one_in(2)),
    };
    let fold = if fold { b'Y' } else { b'N' };
    let (basis, strategy) = (g.pick(b"MC"), g.pick(b"DM"));
    vec![basis, b'\t', letter, b'\t', strategy, b'\t', fold]
}

/// A number of coefficients, mostly small.
fn length(g: &mut Rng) -> usize {
    match g.below(1_000) {
        0..500 => 1 + g.below(16),
        500..962 => 1 + g.below(64),
        962..990 => 65 + g.below(536),
        990..996 => 1 + g.pick(&edges(700, 1)),
        996 => 1 + g.below(MAX_DEGREE + 1),
        997 => 1 + g.pick(&edges(MAX_DEGREE, 1)),
        998 => g.pick(&[MAX_DEGREE, MAX_DEGREE + 1, MAX_DEGREE + 2]),
        _ => 0,
    }
}

fn content(g: &mut Rng, parity: Parity, n: usize) -> Vec<i64> {
    let mut c = match g.below(20) {
        0..9 => (0..n).map(|_| g.below(19) as i64 - 9).collect(),
        9..13 => (0..n).map(|_| g.below(1_999) as i64 - 999).collect(),
        13..16 => near_limit(g, parity, n),
        16 => vec![0; n],
        17 => one_place(g, n),
        18 => (0..n).map(|_| scaled(g)).collect(),
        _ => (0..n).map(|_| if g.one_in(2) { 0 } else { 1 }).collect(),
    };
    if !g.one_in(12) {
        shape(parity, &mut c);
    }
    if n > 0 && g.one_in(25) {
        c[g.below(n)] = scaled(g);
    }
    c
}

/// Magnitudes that sum to about 2^30, one above or below.
fn near_limit(g: &mut Rng, parity: Parity, n: usize) -> Vec<i64> {
    let random = g.next() as i64 & (MAX_SUM - 1);
    let sum = g.pick(&[MAX_SUM - 1, MAX_SUM, MAX_SUM, MAX_SUM + 1, random]);
    spread(g, parity, n, sum)
        .iter()
        .map(|&x| x as i64)
        .collect()
}

fn one_place(g: &mut Rng, n: usize) -> Vec<i64> {
    let mut c = vec![0; n];
    if n > 0 {
        let x = g.pick(&[MAX_SUM, MAX_SUM + 1, MAX_SUM / 2]);
        c[g.below(n)] = if g.one_in(2) { x } else { -x };
    }
    c
}

/// Any number of digits up to 18.
fn scaled(g: &mut Rng) -> i64 {
    let digits = 1 + g.below(MAX_DIGITS);
    let x = (g.next() % 10u64.pow(digits as u32)) as i64;
    if g.one_in(2) { x } else { -x }
}

pub fn shape(parity: Parity, c: &mut [i64]) {
    let places = c.iter_mut().enumerate();
    places
        .filter(|(j, _)| !allows(parity, *j))
        .for_each(|(_, x)| *x = 0);
}

/// A number as decimal digits; if not plain, now and then with leading zeros, or a zero with a minus.
fn text(g: &mut Rng, x: i64, plain: bool) -> String {
    if plain || !g.one_in(4) {
        return x.to_string();
    }
    let minus = if x < 0 || x == 0 && g.one_in(2) {
        "-"
    } else {
        ""
    };
    let digits = x.unsigned_abs().to_string();
    let zeros = g.below(MAX_DIGITS + 1 - digits.len());
    format!("{minus}{}{digits}", "0".repeat(zeros))
}

/// A line about as long as the limit, in the form or not, or much longer.
fn long(g: &mut Rng) -> Vec<u8> {
    match g.below(4) {
        0 | 1 => {
            let n = MAX_LINE - 3 + g.below(7);
            let parity = g.pick(&PARITIES);
            let line = settings(g, parity);
            padded(g, line, parity, n)
        }
        2 => {
            let n = MAX_LINE + 1 + g.below(100_000);
            let mut line = curve(g);
            while line.len() < n {
                line.extend(b"\t1");
            }
            line
        }
        _ => {
            let n = MAX_LINE - 100 + g.below(50_000);
            random_bytes(g, n)
        }
    }
}

/// A line of `bytes` bytes in the form: digits with leading zeros after the settings.
pub fn padded(g: &mut Rng, settings: Vec<u8>, parity: Parity, bytes: usize) -> Vec<u8> {
    let mut line = settings;
    let mut place = 0;
    // A field has 1 to 18 digits, and the last two fill the line up exactly.
    while line.len() < bytes {
        let left = bytes - line.len() - 1;
        let width = match left {
            0..=MAX_DIGITS => left,
            _ if left < 2 * MAX_DIGITS + 1 => left / 2,
            _ => MAX_DIGITS,
        };
        let x = if allows(parity, place) {
            g.below(10)
        } else {
            0
        };
        line.extend(format!("\t{x:0width$}").bytes());
        place += 1;
    }
    line
}

/// One damage; some leave the line in the form.
fn damage(g: &mut Rng, line: &mut Vec<u8>) {
    let at = g.below(line.len() + 1);
    match g.below(16) {
        0 => line.insert(at, g.next() as u8),
        1 if at < line.len() => line[at] = g.next() as u8,
        2 if at < line.len() => {
            line.remove(at);
        }
        3 => line.insert(at, b'\t'),
        4 => line.push(b'\t'),
        5 => line.push(b'\r'),
        6 => line.insert(at, g.pick(&[0, 255, b' ', b'-', b'+'])),
        7 => line.truncate(at),
        8 => replace_tab(g, line),
        9 => lower_case(g, line),
        10 => {
            let i = g.below(4);
            let letter = g.pick(b"MCFEODNYmcX01 ");
            replace_field(line, i, &[letter]);
        }
        _ => {
            let fields = line.split(|&b| b == b'\t').count();
            let i = g.below(fields);
            replace_field(line, i, g.pick(&FIELDS).as_bytes());
        }
    }
}

fn tabs(line: &[u8]) -> Vec<usize> {
    (0..line.len()).filter(|&i| line[i] == b'\t').collect()
}

/// A tab becomes two, a space or nothing.
fn replace_tab(g: &mut Rng, line: &mut Vec<u8>) {
    let tabs = tabs(line);
    if !tabs.is_empty() {
        let at = g.pick(&tabs);
        let other: &[u8] = g.pick(&[b"\t\t" as &[u8], b" ", b""]);
        line.splice(at..at + 1, other.iter().copied());
    }
}

fn lower_case(g: &mut Rng, line: &mut [u8]) {
    let letters: Vec<usize> = (0..line.len())
        .filter(|&i| line[i].is_ascii_uppercase())
        .collect();
    if !letters.is_empty() {
        line[g.pick(&letters)].make_ascii_lowercase();
    }
}

fn replace_field(line: &mut Vec<u8>, i: usize, other: &[u8]) {
    let mut fields: Vec<&[u8]> = line.split(|&b| b == b'\t').collect();
    if i < fields.len() {
        fields[i] = other;
        *line = fields.join(&b'\t');
    }
}
