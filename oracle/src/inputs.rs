//! Inputs: a generator with a fixed seed, special floats, degrees where the planner's rules change.

use crate::calls::Parity;

/// Splitmix64: the same seed gives the same inputs on every machine.
pub struct Rng(u64);

impl Rng {
    pub fn new(seed: u64) -> Self {
        Rng(seed)
    }

    pub fn next(&mut self) -> u64 {
        self.0 = self.0.wrapping_add(0x9e37_79b9_7f4a_7c15);
        let z = (self.0 ^ (self.0 >> 30)).wrapping_mul(0xbf58_476d_1ce4_e5b9);
        let z = (z ^ (z >> 27)).wrapping_mul(0x94d0_49bb_1331_11eb);
        z ^ (z >> 31)
    }

    /// From 0 to `n` less 1.
    pub fn below(&mut self, n: usize) -> usize {
        (self.next() % n as u64) as usize
    }

    pub fn one_in(&mut self, n: usize) -> bool {
        self.below(n) == 0
    }

    pub fn pick<T: Copy>(&mut self, list: &[T]) -> T {
        list[self.below(list.len())]
    }
}

/// The greatest degree of folds, lists and counts, and of the calls on a bare degree.
pub const MAX_DEGREE: usize = 4_095;
pub const MAX_BARE: usize = 4_294_967_295;
pub const MAX_SCALE: usize = 65_535;
/// The greatest sum of the magnitudes of whole coefficients.
pub const MAX_SUM: i64 = 1 << 30;

/// Degrees at which MinDepth lists the leading slice again.
pub const BANDS: [(usize, usize); 10] = [
    (7, 7),
    (15, 15),
    (29, 31),
    (61, 63),
    (121, 127),
    (249, 255),
    (497, 511),
    (1_009, 1_023),
    (2_017, 2_047),
    (4_065, 4_095),
];

pub const SPECIAL: [f64; 18] = [
    f64::NAN,
    f64::INFINITY,
    f64::NEG_INFINITY,
    0.0,
    -0.0,
    f64::from_bits(1),
    -f64::from_bits(1),
    f64::from_bits(0x0000_0000_1234_5678),
    f64::from_bits(0x000f_ffff_ffff_ffff),
    f64::MIN_POSITIVE,
    f64::MAX,
    f64::MIN,
    f64::from_bits(0x7fdf_ffff_ffff_ffff),
    1.0,
    -1.0,
    1.0 + f64::EPSILON,
    0.5,
    -2.0,
];

const LEAST: f64 = f64::from_bits(1);
/// The greatest subnormal number.
const SUBNORMAL: f64 = f64::from_bits(0x000f_ffff_ffff_ffff);

/// Intervals with the lower end below the upper one: infinite ones, such whose difference overflows, zeros of both signs,
/// subnormal ends, neighbours.
pub const RISING: [(f64, f64); 20] = [
    (-1.0, 1.0),
    (0.0, 4.0),
    (-0.0, 1.0),
    (-3.5, -0.0),
    (f64::NEG_INFINITY, f64::INFINITY),
    (f64::NEG_INFINITY, -0.0),
    (0.0, f64::INFINITY),
    (f64::NEG_INFINITY, f64::MIN),
    (f64::MAX, f64::INFINITY),
    (f64::MIN, f64::MAX),
    (-1.7e308, 1.7e308),
    (1.0, f64::MAX),
    (-0.0, LEAST),
    (-LEAST, 0.0),
    (-LEAST, LEAST),
    (LEAST, SUBNORMAL),
    (-SUBNORMAL, f64::MIN_POSITIVE),
    (SUBNORMAL, f64::MIN_POSITIVE),
    (1.0, 1.0 + f64::EPSILON),
    (0.1, 0.3),
];

/// Intervals without a lower end below the upper one.
pub const NOT_RISING: [(f64, f64); 14] = [
    (1.0, 1.0),
    (1.0, -1.0),
    (0.0, 0.0),
    (-0.0, 0.0),
    (0.0, -0.0),
    (LEAST, -LEAST),
    (f64::MAX, f64::MIN),
    (f64::INFINITY, f64::INFINITY),
    (f64::NEG_INFINITY, f64::NEG_INFINITY),
    (f64::INFINITY, f64::NEG_INFINITY),
    (f64::NAN, 1.0),
    (-1.0, f64::NAN),
    (f64::NAN, f64::INFINITY),
    (f64::NAN, f64::NAN),
];

/// Every list of length `n` over `pool`.
pub fn all_lists(pool: &[f64], n: usize) -> Vec<Vec<f64>> {
    let mut lists = vec![vec![]];
    for _ in 0..n {
        lists = lists
            .iter()
            .flat_map(|l| pool.iter().map(move |&x| [&l[..], &[x]].concat()))
            .collect();
    }
    lists
}

/// Degrees up to `max` around each power of two and over each band, with `near` more at each end.
pub fn edges(max: usize, near: usize) -> Vec<usize> {
    let powers = (1..=max.ilog2() + 1).map(|k| (1usize << k, 1usize << k));
    let ends = powers.chain(BANDS);
    let mut all: Vec<usize> = ends
        .flat_map(|(a, b)| a.saturating_sub(near)..=b + near)
        .collect();
    all.retain(|&d| d <= max);
    all.sort();
    all.dedup();
    all
}

/// A degree up to 2^32 - 1, each number of binary digits about as likely as another.
pub fn bare_degree(r: &mut Rng) -> usize {
    let bits = 1 + r.below(32);
    r.next() as usize & ((1 << bits) - 1)
}

/// A number of coefficients up to `max`, mostly small.
pub fn length(r: &mut Rng, max: usize) -> usize {
    let top = match r.below(1_000) {
        0..600 => 12,
        600..900 => 70,
        900..990 => 300,
        990..998 => return r.pick(&edges(MAX_DEGREE, 2)).min(max - 1) + 1,
        _ => max,
    };
    r.below(top.min(max) + 1)
}

fn scaled(r: &mut Rng, low: u64, high: u64) -> f64 {
    let exponent = low + r.next() % (high - low + 1);
    f64::from_bits(r.next() & 0x800f_ffff_ffff_ffff | exponent << 52)
}

/// A number from -1 to 1 with 53 random digits.
pub fn unit(r: &mut Rng) -> f64 {
    (r.next() >> 10) as f64 / (1u64 << 53) as f64 - 1.0
}

pub const KINDS: usize = 8;

/// A float of one of the kinds that are worth mixing in one list.
pub fn float(r: &mut Rng, kind: usize) -> f64 {
    match kind {
        0 => r.below(19) as f64 - 9.0,
        1 => unit(r),
        2 => f64::from_bits(r.next()),
        3 => r.pick(&SPECIAL),
        4 => scaled(r, 983, 1_063),
        5 if r.one_in(8) => r.pick(&SPECIAL),
        5 => unit(r),
        6 => scaled(r, 2_036, 2_046),
        _ => scaled(r, 0, 3),
    }
}

pub fn floats(r: &mut Rng, n: usize) -> Vec<f64> {
    let kind = r.below(KINDS);
    (0..n).map(|_| float(r, kind)).collect()
}

/// An interval for a plan: the special ones, and others of all kinds of numbers, mostly from the lower end to the upper one.
pub fn interval(r: &mut Rng) -> (f64, f64) {
    match r.below(8) {
        0 | 1 => return r.pick(&RISING),
        2 => return r.pick(&NOT_RISING),
        _ => {}
    }
    let ends = floats(r, 2);
    match r.below(8) {
        0 => (ends[0], ends[0]),
        1 => (ends[0], ends[1]),
        _ if ends[1] < ends[0] => (ends[1], ends[0]),
        _ => (ends[0], ends[1]),
    }
}

/// Puts a zero of either sign on the places that `parity` does not allow.
pub fn shape(r: &mut Rng, parity: Parity, mut c: Vec<f64>) -> Vec<f64> {
    for (i, x) in c.iter_mut().enumerate() {
        if wrong(parity, i) {
            *x = r.pick(&[0.0, -0.0]);
        }
    }
    c
}

/// The same with the zero of whole numbers, which has no sign.
pub fn shape_whole(parity: Parity, mut c: Vec<f64>) -> Vec<f64> {
    for (i, x) in c.iter_mut().enumerate() {
        if wrong(parity, i) {
            *x = 0.0;
        }
    }
    c
}

pub fn wrong(parity: Parity, i: usize) -> bool {
    match parity {
        Parity::Full => false,
        Parity::Even => i % 2 == 1,
        Parity::Odd => i.is_multiple_of(2),
    }
}

/// Now and then a place gets a number, whether its parity allows one or not.
pub fn spoil(r: &mut Rng, c: &mut [f64], x: f64) {
    if !c.is_empty() && r.one_in(10) {
        let at = r.below(c.len());
        c[at] = x;
    }
}

pub fn digits(r: &mut Rng, n: usize) -> Vec<f64> {
    (0..n).map(|_| r.below(19) as f64 - 9.0).collect()
}

/// Whole coefficients of the given parity whose magnitudes sum to `sum`, if a place is allowed.
pub fn spread(r: &mut Rng, parity: Parity, n: usize, sum: i64) -> Vec<f64> {
    let places: Vec<usize> = (0..n).filter(|&i| !wrong(parity, i)).collect();
    let mut left = sum;
    let mut c = vec![0.0; n];
    for (k, &i) in places.iter().enumerate() {
        let rest = (places.len() - k) as i64;
        // The last place takes what is left, so the sum is met exactly.
        let part = if rest == 1 {
            left
        } else {
            r.below((2 * left / rest + 1) as usize) as i64
        };
        left -= part;
        c[i] = if part == 0 || r.one_in(2) {
            part as f64
        } else {
            -part as f64
        };
    }
    c
}

/// The whole sum on one place, the rest zeros.
pub fn one_place(n: usize, at: usize, sum: i64) -> Vec<f64> {
    let mut c = vec![0.0; n];
    c[at] = sum as f64;
    c
}

/// Whole coefficients of the given parity within the limit on their sum.
pub fn whole(r: &mut Rng, parity: Parity, n: usize) -> Vec<f64> {
    if n == 0 {
        return vec![];
    }
    match r.below(4) {
        0 | 1 => {
            let c = digits(r, n);
            shape_whole(parity, c)
        }
        2 => {
            let sum = if r.one_in(2) {
                MAX_SUM
            } else {
                r.next() as i64 & (MAX_SUM - 1)
            };
            spread(r, parity, n, sum)
        }
        _ => {
            let at = r.below(n);
            let sum = if r.one_in(2) { MAX_SUM } else { -MAX_SUM };
            shape_whole(parity, one_place(n, at, sum))
        }
    }
}

/// The cosine by its series: the machine's library may differ from another's, sums and products don't.
pub fn cosine(t: f64) -> f64 {
    let (mut sum, mut term) = (1.0, 1.0);
    for k in 1..30 {
        term = -term * t * t / ((2 * k - 1) * (2 * k)) as f64;
        sum += term;
    }
    sum
}

/// The nodes of an interpolation at `n` points, for k = n down to 1.
pub fn nodes(n: usize) -> Vec<f64> {
    (1..=n)
        .rev()
        .map(|k| cosine((k as f64 - 0.5) * std::f64::consts::PI / n as f64))
        .collect()
}
