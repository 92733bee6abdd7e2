//! The script program over the plain reading: a whole input in, 01's whole output back.

use super::{rows_of, Store};
use crate::answer::{shown, Answer, Code};
use crate::sample::Sort;
use crate::script::{self, Line};

/// Answers a whole input.
pub fn run(input: &[u8]) -> String {
    let Some(lines) = script::lines(input) else {
        return Answer::Bad.to_string();
    };
    let mut store = Store::new();
    lines.into_iter().map(|line| answer(&mut store, line).to_string()).collect()
}

/// Answers one line.
pub fn answer(store: &mut Store, line: &[u8]) -> Answer {
    match script::read(line, &store.declared) {
        Some(line) => carry_out(store, &line),
        None => Answer::Bad,
    }
}

/// Carries out a readable line.
pub fn carry_out(store: &mut Store, line: &Line) -> Answer {
    match line {
        Line::Declare(sorts) => {
            let numbers: Vec<i64> =
                sorts.iter().map(|sort| i64::from(*sort == Sort::Truth)).collect();
            let (code, pred) = store.declare(&numbers);
            Answer::Declared { code: Code::Number(code), pred }
        }
        Line::Add(clause) => {
            let added = store.add(&rows_of(clause), clause.right.is_some());
            Answer::Added { code: Code::Number(added.code), new: added.new }
        }
        Line::Settle => {
            let settled = store.settle();
            Answer::Settled {
                code: Code::Number(settled.code),
                positives: settled.positives,
                negatives: settled.negatives,
                draws: Some(settled.draws),
            }
        }
        Line::Check => Answer::Checked { code: Code::Number(store.check().code) },
        Line::Force { pred, value } => {
            Answer::Forced { code: Code::Number(store.force(*pred, *value).code) }
        }
        Line::Show { pred } => show(store, *pred),
    }
}

fn show(store: &Store, pred: i64) -> Answer {
    let code = if store.sorts(pred).is_some() { 0 } else { 1 };
    let [positives, negatives, unclassified, ..] = store.groups(pred);
    let rows = |samples: &Vec<_>| shown(samples.iter(), &store.declared);
    Answer::Shown {
        code: Code::Number(code),
        positives: rows(&positives),
        negatives: rows(&negatives),
        unclassified: rows(&unclassified),
    }
}
