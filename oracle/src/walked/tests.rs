//! The check takes the answers of `oracle lines`, and sees every change of an answer that is made here.

use super::*;
use crate::curves;
use crate::lines::answer_all;
use crate::printed;
use crate::texts::answer;

/// Random lines, good ones and damaged ones, behind a line for each small degree in every setting; without a line feed at the end.
fn lines() -> Vec<Vec<u8>> {
    let g = &mut Rng::new(11);
    let mut all = vec![];
    for settings in printed::settings() {
        all.extend((1..40).map(|degree| printed::plan(g, &settings, degree, 19)));
        all.push(printed::plan(g, &settings, 11, 1));
    }
    all.extend((0..1_000).map(|_| curves::line(g)));
    all.iter_mut().for_each(|l| l.retain(|&b| b != b'\n'));
    all.push(b"M\tF\tD\tN\t1\t2".to_vec());
    all
}

fn texts(line: &[u8]) -> Vec<String> {
    let text = String::from_utf8(answer(line)).unwrap();
    text.lines().map(String::from).collect()
}

#[test]
fn answers_of_the_oracle_are_right() {
    let lines = lines();
    let mut answers = vec![];
    answer_all(&lines.join(&b'\n')[..], &mut answers).unwrap();
    let alone: Vec<u8> = lines.iter().flat_map(|l| answer(l)).collect();
    assert!(answers == alone, "kept buffers change no answer");
    check(&lines.join(&b'\n')[..], &answers[..]).unwrap();
}

/// Adds one to a number of a line, or takes one from it; a number ahead of which nothing stands becomes another letter.
fn other_number(g: &mut Rng, line: &mut String) {
    let mut fields: Vec<String> = line.split('\t').map(String::from).collect();
    let i = g.below(fields.len());
    fields[i] = match fields[i].parse::<i64>() {
        Ok(n) => (n + g.pick(&[1, -1])).to_string(),
        Err(_) => g.pick(&["H", "L", "P", "B", "G", "Q", "R"]).to_string(),
    };
    *line = fields.join("\t");
}

/// One change of an answer; now and then it changes nothing.
fn change(g: &mut Rng, answer: &mut Vec<String>) {
    let i = g.below(answer.len());
    match g.below(8) {
        0 => {
            answer.remove(i);
        }
        1 => answer.insert(i, answer[i].clone()),
        2 if i > 0 => answer.swap(i - 1, i),
        3 => answer[i].push_str("\t0"),
        4 => answer[i] = answer[i].replacen('\t', "\t0", 1),
        _ => other_number(g, &mut answer[i]),
    }
}

#[test]
fn a_changed_answer_is_wrong() {
    let g = &mut Rng::new(12);
    for line in lines() {
        let right = texts(&line);
        for _ in 0..20 {
            let mut wrong = right.clone();
            change(g, &mut wrong);
            let held = held(&mut Rng::new(5), &line, &wrong);
            assert_eq!(held.is_ok(), wrong == right, "{}: {wrong:?}", shown(&line));
        }
    }
}

/// The error of the check for these lines and this text.
fn error(lines: &str, answers: &str) -> String {
    let error = check(lines.as_bytes(), answers.as_bytes()).unwrap_err();
    format!("{error:#}")
}

#[test]
fn answers_and_lines_go_together() {
    let line = "M\tF\tD\tN\t7\n";
    assert!(check(line.as_bytes(), "R\t1\n".as_bytes()).is_ok());
    assert!(error(line, "").contains("line 1, 'M\\tF\\tD\\tN\\t7': no answer"));
    assert!(error(line, "R\t1\nR\t1\n").contains("more answers than lines"));
    assert!(error(line, "R\t1").contains("no line feed"));
    assert!(error(line, "R\t12\n").contains("not 'R\\t1'"));
    assert!(error("", "R\t1\n").contains("more answers than lines"));
}
