//! The script program over the Rust's own store, with two more commands: `w` writes whole contents,
//! sorted, and `p` the Rust's own printed form, in its hash order.
//! Nothing is refused: what 01 refuses goes to the Rust as it is.

use super::RustStore;
use crate::answer::{shown, Answer, Code, CLASH, DONE};
use crate::contents::Samples;
use crate::sample::Declarations;
use crate::script::{self, Line};

/// Answers a whole input; draws are `-`, and a failure that is no contradiction is a word.
pub fn run(input: &[u8], seed: u64) -> String {
    let Some(lines) = script::lines(input) else {
        return Answer::Bad.to_string();
    };
    let mut store = RustStore::new(&all_declarations(&lines), seed);
    let mut declared = Declarations::new();
    let mut output = String::new();
    for line in lines {
        match script::read(line, &declared) {
            Some(Line::Declare(sorts)) => {
                let answer = Answer::Declared { code: DONE, pred: declared.len() };
                output += &answer.to_string();
                declared.push(sorts)
            }
            Some(line) => output += &carry_out(&mut store, &line).to_string(),
            None if line == b"w" => output += &below("w", &store.contents().lines(&declared)),
            None if line == b"p" => output += &below("p", &store.printed()),
            None => output += &Answer::Bad.to_string(),
        }
    }
    output
}

/// The letter, and a line each below it.
fn below(letter: &str, lines: &[String]) -> String {
    letter.to_string() + "\n" + &lines.iter().map(|line| line.clone() + "\n").collect::<String>()
}

fn all_declarations(lines: &[&[u8]]) -> Declarations {
    let declare = |line: &&[u8]| match script::read(line, &Declarations::new()) {
        Some(Line::Declare(sorts)) => Some(sorts),
        _ => None,
    };
    lines.iter().filter_map(declare).collect()
}

/// Carries out any line but a declaration.
pub fn carry_out(store: &mut RustStore, line: &Line) -> Answer {
    match line {
        Line::Declare(_) => unreachable!("the Rust's predicates are declared when it is made"),
        Line::Add(clause) => {
            let (code, new) = parted(store.add(clause));
            Answer::Added { code, new }
        }
        Line::Settle => {
            let (code, (positives, negatives)) = parted(store.settle());
            Answer::Settled { code, positives, negatives, draws: None }
        }
        Line::Check => {
            let (code, clash) = parted(store.check());
            Answer::Checked { code: if clash { CLASH } else { code } }
        }
        Line::Force { pred, value } => {
            Answer::Forced { code: parted(store.force(*pred, *value)).0 }
        }
        Line::Show { pred } => show(store, *pred),
    }
}

/// The code, and the answer or zeros.
fn parted<T: Default>(outcome: Result<T, Code>) -> (Code, T) {
    match outcome {
        Ok(answer) => (DONE, answer),
        Err(code) => (code, T::default()),
    }
}

/// The Rust's sets have no stated order: they are shown in 01's.
fn show(store: &mut RustStore, pred: i64) -> Answer {
    let declared = store.declared.clone();
    let (code, groups) = parted(store.show(pred));
    let rows = |samples: &Samples| shown(samples.iter(), &declared);
    Answer::Shown {
        code,
        positives: rows(&groups.kept.positives),
        negatives: rows(&groups.kept.negatives),
        unclassified: rows(&groups.unclassified),
    }
}
