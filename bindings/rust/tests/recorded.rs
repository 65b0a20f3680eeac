//! The repository's recorded answers of the published Rust (`oracle/README.md` has their form), through this crate: equal to the last
//! bit, any NaN for any other. `refused` in a recording is a refusal of any number here; the lines written by hand, those of sets and those of
//! conversions name the number.

mod common;

use common::{BASES, PARITIES, STRATEGIES, TRANSFORMS};
use firrozun::buffers::{
    chebyshev_interpolate_into, convert_coeffs_into, plan_into, plan_set_into, rebuild_into,
    set_sizes, trial_walk, Lists, Member, PlanBuffers, SetHead,
};
use firrozun::{
    bsgs_consumed_bits, bsgs_eval_depth, bsgs_op_counts, change_of_basis, detect_parity,
    evaluate_coeffs, largest_degree, min_depth_split, min_mult_split, split_degree, Basis,
    Coefficient, Curve, CurveSet, Head, Interval, Parity, Plan, Polynomial,
    PolynomialInputTransform, Refusal, SplitStrategy,
};
use std::fmt::Display;
use std::path::Path;
use std::str::{FromStr, Split};

/// A number as a recording writes it.
trait Recorded: Coefficient {
    fn read(field: &str) -> Self;
    fn write(self) -> String;
}

impl Recorded for i64 {
    fn read(field: &str) -> Self {
        field.parse().expect("a whole number")
    }

    fn write(self) -> String {
        self.to_string()
    }
}

impl Recorded for f64 {
    fn read(field: &str) -> Self {
        match field {
            "nan" => f64::NAN,
            _ => f64::from_bits(u64::from_str_radix(field, 16).expect("the bits of an f64")),
        }
    }

    fn write(self) -> String {
        if self.is_nan() {
            "nan".to_string()
        } else {
            format!("{:016x}", self.to_bits())
        }
    }
}

/// The arguments of a recorded call.
struct Arguments<'a>(Split<'a, char>);

impl Arguments<'_> {
    fn field(&mut self) -> &str {
        self.0.next().expect("one more field")
    }

    fn number<T: FromStr>(&mut self) -> T {
        self.field().parse().ok().expect("a number")
    }

    fn one<F: Recorded>(&mut self) -> F {
        F::read(self.field())
    }

    fn take<F: Recorded>(&mut self, count: usize) -> Vec<F> {
        (0..count).map(|_| self.one()).collect()
    }

    /// A count, and so many numbers.
    fn list<F: Recorded>(&mut self) -> Vec<F> {
        let count = self.number();
        self.take(count)
    }

    fn short_list(&mut self) -> Vec<u16> {
        let count = self.number();
        (0..count).map(|_| self.number()).collect()
    }

    fn letter<T: Copy>(&mut self, letters: &str, kinds: &[T]) -> T {
        let field = self.field();
        kinds[letters.find(field).expect("a kind's letter")]
    }

    fn basis(&mut self) -> Basis {
        self.letter("MC", &BASES)
    }

    fn parity(&mut self) -> Parity {
        self.letter("FEO", &PARITIES)
    }

    fn strategy(&mut self) -> SplitStrategy {
        self.letter("DM", &STRATEGIES)
    }

    fn fold(&mut self) -> bool {
        self.letter("NY", &[false, true])
    }

    fn polynomial<F: Recorded>(&mut self) -> Polynomial<F> {
        let (basis, parity) = (self.basis(), self.parity());
        Polynomial::new_with_parity(basis, self.list(), parity)
    }

    fn member(&mut self) -> Member {
        let (basis, parity) = (self.basis(), self.parity());
        Member {
            basis,
            parity,
            strategy: self.strategy(),
            fold: self.fold(),
            interval: (self.one(), self.one()),
            count: self.number(),
        }
    }

    /// A count, and so many members, but at most 16. A slice of a greater count has others behind them, though never as many as the
    /// greatest counts say.
    fn members(&mut self) -> Vec<Member> {
        let count: usize = self.number();
        let mut members: Vec<Member> = (0..count.min(16)).map(|_| self.member()).collect();
        if let Some(&last) = members.last() {
            members.resize(count.min(1000), last);
        }
        members
    }

    /// Basis, parity, strategy and coefficients.
    fn settings<F: Recorded>(&mut self) -> (Polynomial<F>, SplitStrategy) {
        let (basis, parity, strategy) = (self.basis(), self.parity(), self.strategy());
        (
            Polynomial::new_with_parity(basis, self.list(), parity),
            strategy,
        )
    }
}

/// Fields of an answer.
type Answer = Result<Vec<String>, Refusal>;

fn parity_letter(parity: Parity) -> String {
    ["F", "E", "O"][usize::from(parity.number())].to_string()
}

fn put<F: Recorded>(fields: &mut Vec<String>, list: &[F]) {
    fields.push(list.len().to_string());
    fields.extend(list.iter().map(|&c| c.write()));
}

fn put_numbers<T: Display>(fields: &mut Vec<String>, list: &[T]) {
    fields.push(list.len().to_string());
    fields.extend(list.iter().map(|number| number.to_string()));
}

fn parity<F: Recorded>(arguments: &mut Arguments) -> Answer {
    let coeffs: Vec<F> = arguments.list();
    let detected = detect_parity(&coeffs);
    assert_eq!(Polynomial::new(Basis::Monomial, coeffs).parity, detected);
    Ok(vec![parity_letter(detected)])
}

fn fold<F: Recorded>(arguments: &mut Arguments) -> Answer {
    let (folded, transform) = arguments.polynomial::<F>().fold_parity()?;
    let mut fields = vec![transform.number().to_string()];
    put(&mut fields, &folded.coeffs);
    Ok(fields)
}

fn decompose<F: Recorded>(arguments: &mut Arguments) -> Answer {
    let (p, strategy) = arguments.settings::<F>();
    let bsgs = p.decompose_bsgs_with(strategy, |list| Ok::<_, Refusal>(list.to_vec()))?;
    assert_eq!(bsgs.input_transform(), PolynomialInputTransform::Identity);
    assert_eq!(1 << bsgs.log_split(), bsgs.base());
    let mut fields = [bsgs.degree(), bsgs.base(), bsgs.baby_steps().len()]
        .map(|n| n.to_string())
        .to_vec();
    bsgs.baby_steps()
        .iter()
        .for_each(|list| put(&mut fields, list));
    Ok(fields)
}

fn decompose_folded(arguments: &mut Arguments) -> Answer {
    let (p, strategy) = arguments.settings::<f64>();
    let bsgs = p.decompose_bsgs_folded_with(strategy, |list| Ok::<_, Refusal>(list.to_vec()))?;
    let transform = usize::from(bsgs.input_transform().number());
    let numbers = [
        bsgs.degree(),
        bsgs.base(),
        transform,
        bsgs.baby_steps().len(),
    ];
    let mut fields = numbers.map(|n| n.to_string()).to_vec();
    bsgs.baby_steps()
        .iter()
        .for_each(|list| put(&mut fields, list));
    Ok(fields)
}

/// By the plan, which takes folds above 2^30 too.
fn decompose_folded_whole(arguments: &mut Arguments) -> Answer {
    let (p, strategy) = arguments.settings::<i64>();
    let plan = p.plan_folded(strategy)?;
    let head = plan.head();
    let numbers = [
        head.degree,
        head.base,
        usize::from(head.transform.number()),
        head.lists,
    ];
    let mut fields = numbers.map(|n| n.to_string()).to_vec();
    plan.lists().for_each(|list| put(&mut fields, list));
    Ok(fields)
}

fn interpolate(arguments: &mut Arguments) -> Answer {
    let (a, b): (f64, f64) = (arguments.one(), arguments.one());
    let count = arguments.number();
    let (nodes, values) = (arguments.take(count), arguments.take(count));
    let mut out = vec![0.0; count];
    let answer = chebyshev_interpolate_into(&nodes, &values, a, b, &mut out)?;
    let mut fields = vec![];
    put(&mut fields, &out[..answer.count]);
    fields.push(parity_letter(answer.parity));
    Ok(fields)
}

fn plan_value(arguments: &mut Arguments) -> Answer {
    let (basis, parity) = (arguments.basis(), arguments.parity());
    let (strategy, fold) = (arguments.strategy(), arguments.fold());
    let (point, modulus) = (arguments.number(), arguments.number());
    let plan = Plan::new(basis, &arguments.list(), parity, strategy, fold)?;
    Ok(vec![plan.walk(point, modulus)?.to_string()])
}

/// The head's interval with its pair.
fn plan_interval(arguments: &mut Arguments) -> Answer {
    let (basis, parity) = (arguments.basis(), arguments.parity());
    let (strategy, fold) = (arguments.strategy(), arguments.fold());
    let ends = (arguments.one(), arguments.one());
    let plan = Plan::on_interval(basis, &arguments.list(), parity, strategy, fold, ends);
    let Interval { a, b, u, w } = match plan {
        Ok(plan) => plan.head().interval,
        Err(refusal) => {
            assert_eq!(refusal, Refusal::Interval);
            return Err(refusal);
        }
    };
    Ok([a, b, u, w].map(Recorded::write).to_vec())
}

fn plan_refused(arguments: &mut Arguments) -> Answer {
    let (basis, parity) = (arguments.basis(), arguments.parity());
    let (strategy, fold) = (arguments.strategy(), arguments.fold());
    let mut coefficients = vec![9; arguments.number()];
    let mut boundaries = vec![9; arguments.number()];
    let mut steps = vec![9; arguments.number()];
    let buffers = PlanBuffers {
        coefficients: &mut coefficients,
        boundaries: &mut boundaries,
        steps: &mut steps,
    };
    let answer = plan_into(
        strategy,
        parity,
        basis,
        fold,
        &arguments.list::<i64>(),
        (-1.0, 1.0),
        buffers,
    );
    assert!(coefficients.iter().all(|&place| place == 9));
    assert!(boundaries.iter().chain(&steps).all(|&place| place == 9));
    Ok(vec![answer.expect_err("a refusal").number().to_string()])
}

/// Refusal and coefficients, in the basis of the line. The places beyond are unchanged, after a refusal all of them. The call with memory of
/// its own says the same, but for the refusal of the buffer.
fn convert(arguments: &mut Arguments) -> Answer {
    let (to, coeffs) = (arguments.basis(), arguments.list::<i64>());
    let mut out = vec![9; arguments.number()];
    let answer = convert_coeffs_into(to, &coeffs, &mut out);
    let (refusal, count) = match answer {
        Ok(count) => (0, count),
        Err(refusal) => (refusal.number(), 0),
    };
    assert!(out[count..].iter().all(|&place| place == 9));
    let from = match to {
        Basis::Monomial => Basis::Chebyshev,
        Basis::Chebyshev => Basis::Monomial,
    };
    let owned = Polynomial::new(from, coeffs).to_basis(to);
    match answer {
        Ok(_) => assert_eq!(owned.map(|p| p.coeffs), Ok(out[..count].to_vec())),
        Err(Refusal::CoefficientBuffer) => assert!(owned.is_ok()),
        Err(refusal) => assert_eq!(owned, Err(refusal)),
    }
    let mut fields = vec![refusal.to_string()];
    put(&mut fields, &out[..count]);
    Ok(fields)
}

/// Refusal and coefficients. The places beyond are unchanged, after a refusal all of them.
fn rebuild(arguments: &mut Arguments) -> Answer {
    let (basis, parity) = (arguments.basis(), arguments.parity());
    let strategy = arguments.strategy();
    let (degree, base) = (arguments.number(), arguments.number());
    let (coefficients, boundaries) = (arguments.list::<i64>(), arguments.short_list());
    let lists = Lists {
        degree,
        base,
        coefficients: &coefficients,
        boundaries: &boundaries,
    };
    let mut out = vec![9; arguments.number()];
    let (refusal, count) = match rebuild_into(strategy, parity, basis, lists, &mut out) {
        Ok(count) => (0, count),
        Err(refusal) => (refusal.number(), 0),
    };
    assert!(out[count..].iter().all(|&place| place == 9));
    let mut fields = vec![refusal.to_string()];
    put(&mut fields, &out[..count]);
    Ok(fields)
}

/// The curves of members whose coefficients stand one after another, if there are enough.
fn curves<'a>(members: &[Member], mut coeffs: &'a [i64]) -> Option<Vec<Curve<'a>>> {
    let mut curves = Vec::new();
    for member in members {
        let (own, others) = coeffs.split_at_checked(member.count)?;
        coeffs = others;
        curves.push(Curve {
            basis: member.basis,
            coeffs: own,
            parity: member.parity,
            strategy: member.strategy,
            fold: member.fold,
            interval: member.interval,
        });
    }
    Some(curves)
}

/// What a recorded head does not tell follows from the member.
fn is_head_of(head: &Head, member: &Member) {
    let folded = head.transform != PolynomialInputTransform::Identity;
    let parity = if folded { Parity::Full } else { member.parity };
    assert_eq!((head.basis, head.strategy), (member.basis, member.strategy));
    assert_eq!((head.parity, folded), (parity, member.fold));
    let (a, b) = member.interval;
    let (u, w) = change_of_basis(member.basis, a, b);
    assert_eq!(head.interval, Interval { a, b, u, w });
}

fn head_numbers(head: &Head) -> [usize; 9] {
    [
        head.degree,
        head.base,
        head.transform.number().into(),
        head.ct_ct,
        head.pt_ct,
        head.depth,
        head.coefficients,
        head.lists,
        head.steps,
    ]
}

/// How many places of each buffer a set takes.
fn places(set: &SetHead) -> (usize, usize, usize) {
    let sum = |of: fn(&Head) -> usize| set.members().iter().map(of).sum::<usize>();
    let steps = set.powers + sum(|head| head.steps);
    (
        sum(|head| head.coefficients),
        sum(|head| head.lists),
        4 * steps,
    )
}

/// The refusal alone, or the set with what it filled. The places beyond are unchanged, after a refusal all of them. The call with memory of
/// its own says the same, but for the refusals of buffers, and of coefficients that are too few for the members.
fn plan_set(arguments: &mut Arguments) -> Answer {
    let mut coefficients = vec![9; arguments.number()];
    let mut boundaries = vec![9; arguments.number()];
    let mut steps = vec![9; arguments.number()];
    let (members, coeffs) = (arguments.members(), arguments.list::<i64>());
    let buffers = PlanBuffers {
        coefficients: &mut coefficients,
        boundaries: &mut boundaries,
        steps: &mut steps,
    };
    let answer = plan_set_into(&members, &coeffs, buffers);
    let (a, b, c) = answer.as_ref().map_or((0, 0, 0), places);
    assert!(coefficients[a..].iter().all(|&place| place == 9));
    let beyond = boundaries[b..].iter().chain(&steps[c..]);
    assert!(beyond.into_iter().all(|&place| place == 9));
    let owned = curves(&members, &coeffs).map(|curves| CurveSet::plan(&curves));
    let set = match answer {
        Err(refusal) => {
            let of_buffers = (21..=23).contains(&refusal.number());
            match owned {
                Some(Ok(_)) => assert!(of_buffers),
                Some(Err(owned)) => assert_eq!(owned, refusal),
                None => assert_eq!(refusal, Refusal::Members),
            }
            return Ok(vec![refusal.number().to_string()]);
        }
        Ok(set) => set,
    };
    let owned = owned.expect("enough coefficients").expect("the same set");
    assert_eq!(*owned.head(), set);
    assert_eq!(owned.coefficients(), &coefficients[..a]);
    assert_eq!(owned.boundaries(), &boundaries[..b]);
    assert_eq!(owned.step_numbers(), &steps[..c]);
    assert_eq!(set.members().len(), members.len());
    let numbers = [0, set.ct_ct, set.pt_ct, set.powers];
    let mut fields = numbers.map(|n| n.to_string()).to_vec();
    put(&mut fields, &coefficients[..a]);
    put_numbers(&mut fields, &boundaries[..b]);
    put_numbers(&mut fields, &steps[..c]);
    for (head, member) in set.members().iter().zip(&members) {
        is_head_of(head, member);
        fields.extend(head_numbers(head).map(|n| n.to_string()));
    }
    for beyond in &set.heads[members.len()..] {
        assert_eq!(head_numbers(beyond), [0; 9]);
    }
    Ok(fields)
}

/// The refusal alone, or 0 and the sizes.
fn sizes_of_set(arguments: &mut Arguments) -> Answer {
    let numbers = match set_sizes(&arguments.members()) {
        Err(refusal) => vec![refusal.number().into()],
        Ok(sizes) => vec![0, sizes.coefficients, sizes.lists, sizes.steps],
    };
    Ok(numbers.iter().map(|n| n.to_string()).collect())
}

fn walk(arguments: &mut Arguments) -> Answer {
    let head = Head {
        basis: arguments.basis(),
        parity: arguments.parity(),
        transform: TRANSFORMS[arguments.number::<usize>()],
        coefficients: arguments.number(),
        lists: arguments.number(),
        steps: arguments.number(),
        strategy: SplitStrategy::MinDepth,
        degree: 0,
        base: 0,
        ct_ct: 0,
        pt_ct: 0,
        depth: 0,
        // Not read, like the others that no line has.
        interval: Interval {
            a: f64::NAN,
            b: f64::NAN,
            u: f64::NAN,
            w: f64::NAN,
        },
    };
    let (point, modulus) = (arguments.number(), arguments.number());
    let coefficients: Vec<i64> = arguments.list();
    let (boundaries, steps) = (arguments.short_list(), arguments.short_list());
    let (refusal, remainder) =
        match trial_walk(&head, &coefficients, &boundaries, &steps, point, modulus) {
            Ok(remainder) => (0, remainder),
            Err(refusal) => (refusal.number(), 0),
        };
    Ok(vec![refusal.to_string(), remainder.to_string()])
}

fn pair(answer: Result<(usize, usize), Refusal>) -> Answer {
    answer.map(|(a, b)| vec![a.to_string(), b.to_string()])
}

fn single(answer: Result<usize, Refusal>) -> Answer {
    answer.map(|n| vec![n.to_string()])
}

fn answer(call: &str, arguments: &mut Arguments) -> Answer {
    let a = arguments;
    match call {
        // The Rust has no third number.
        "split_degree" => pair(split_degree(a.number()).map(|(a, b, _)| (a, b))),
        "min_depth_split" => single(min_depth_split(a.number())),
        "min_mult_split" => single(min_mult_split(a.number(), a.parity(), a.basis())),
        "bsgs_op_counts" => pair(bsgs_op_counts(
            a.number(),
            a.strategy(),
            a.parity(),
            a.basis(),
        )),
        "bsgs_eval_depth" => single(bsgs_eval_depth(a.number(), a.strategy())),
        "bsgs_consumed_bits" => {
            let (degree, strategy, input, coeff) =
                (a.number(), a.strategy(), a.number(), a.number());
            single(bsgs_consumed_bits(
                degree,
                strategy,
                Parity::Odd,
                Basis::Chebyshev,
                input,
                coeff,
            ))
        }
        "largest_degree" => {
            let (strategy, budget) = (a.strategy(), a.number());
            let answer = largest_degree(strategy, budget, a.number(), a.number());
            let (refusal, degree) =
                answer.map_or_else(|refusal| (refusal.number(), 0), |degree| (0, degree));
            Ok(vec![refusal.to_string(), degree.to_string()])
        }
        "parity" => parity::<f64>(a),
        "parity_whole" => parity::<i64>(a),
        "fold_parity" => fold::<f64>(a),
        "fold_parity_whole" => fold::<i64>(a),
        "evaluate" => Ok(vec![
            evaluate_coeffs(a.basis(), &a.list::<f64>(), a.one()).write()
        ]),
        "change_of_basis" => {
            let (u, w) = change_of_basis(a.basis(), a.one(), a.one());
            Ok(vec![u.write(), w.write()])
        }
        "interpolate" => interpolate(a),
        "convert_coeffs" => convert(a),
        "decompose" => decompose::<f64>(a),
        "decompose_whole" => decompose::<i64>(a),
        "decompose_folded" => decompose_folded(a),
        "decompose_folded_whole" => decompose_folded_whole(a),
        "rebuild" => rebuild(a),
        "plan_value" => plan_value(a),
        "plan_interval" => plan_interval(a),
        "plan_refused" => plan_refused(a),
        "plan_set" => plan_set(a),
        "set_sizes" => sizes_of_set(a),
        "trial_walk" => walk(a),
        _ => panic!("no call {call}"),
    }
}

/// Replays the recording of a program; answers how many calls it has.
fn replay(program: &str) -> usize {
    replay_file(&format!("crates/{program}/stdin"))
}

/// The same of a file of the repository.
fn replay_file(file: &str) -> usize {
    let path = Path::new(env!("CARGO_MANIFEST_DIR"))
        .join("../..")
        .join(file);
    let recording = std::fs::read_to_string(&path).expect("a recording");
    for line in recording.lines() {
        let (called, answered) = line.split_once("\t=\t").expect("an answer");
        let (call, arguments) = called.split_once('\t').expect("arguments");
        let mut arguments = Arguments(arguments.split('\t'));
        let found =
            answer(call, &mut arguments).map_or("refused".to_string(), |fields| fields.join("\t"));
        assert_eq!(arguments.0.next(), None, "arguments left over: {line}");
        assert_eq!(found, answered, "{line}");
    }
    recording.lines().count()
}

#[test]
fn number() {
    assert!(replay("replay_number") > 8000);
}

#[test]
fn conversions() {
    assert!(replay_file("oracle/vectors/conversions.tsv") > 600);
}

#[test]
fn counts() {
    assert!(replay("replay_counts") > 20_000);
}

#[test]
fn lists() {
    assert!(replay("replay_lists") > 3100);
}

#[test]
fn plans() {
    assert!(replay("replay_plans") > 2800);
}

#[test]
fn sets() {
    assert!(replay("replay_sets") > 700);
}
