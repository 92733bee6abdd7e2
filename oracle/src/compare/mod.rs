//! Comparing: a history run by the plain reading and by the Rust, over several orders of its sets.

pub mod domain;
pub mod outside;
mod renumber;
pub mod shrink;

use crate::answer::Answer;
use crate::contents::Contents;
use crate::plain::{program as plain, Store};
use crate::rust::{program as rust, RustStore};
use crate::sample::Declarations;
use crate::script::{self, Line};
use domain::{finds, Compared, Domain};

/// The lines of a script.
pub type History = Vec<String>;

/// One line of a history, as the plain reading answers it.
pub struct Step {
    pub line: Option<Line>,
    pub answer: Answer,
    pub compared: Compared,
    /// The contents afterwards, where they are compared.
    contents: Option<Contents>,
    pub sizes: Sizes,
}

/// How much is kept (+, -), waits (+, -) and lives after a step.
pub type Sizes = [usize; 5];

/// The first line at which two differ.
#[derive(Clone, Debug, PartialEq, Eq)]
pub struct Difference {
    pub line: usize,
    pub between: String,
    pub expected: String,
    pub got: String,
}

/// Runs the plain reading.
pub fn plain_steps(history: &[String]) -> (Declarations, Vec<Step>) {
    let mut store = Store::new();
    let mut domain = Domain::new();
    let mut steps = Vec::new();
    for text in history {
        let line = script::read(text.as_bytes(), &store.declared);
        let compared = domain.next(&store, line.as_ref());
        let answer = match &line {
            Some(line) => plain::carry_out(&mut store, line),
            None => Answer::Bad,
        };
        let contents = (compared == Compared::Whole).then(|| store.contents());
        steps.push(Step { line, answer, compared, contents, sizes: sizes(&store) })
    }
    (store.declared, steps)
}

fn sizes(store: &Store) -> Sizes {
    [
        store.kept.positives.len(),
        store.kept.negatives.len(),
        store.waiting.positives.len(),
        store.waiting.negatives.len(),
        store.live().count(),
    ]
}

/// Compares the plain reading with the Rust under each seed; hands back the plain steps.
pub fn with_rust(history: &[String], seeds: &[u64]) -> Result<Vec<Step>, Difference> {
    let (declared, steps) = plain_steps(history);
    for seed in seeds {
        rust_agrees(&declared, &steps, *seed)?
    }
    Ok(steps)
}

fn rust_agrees(declared: &Declarations, steps: &[Step], seed: u64) -> Result<(), Difference> {
    let mut store = RustStore::new(declared, seed);
    // The Rust forgets a contradiction after its error, so that it was found is remembered here.
    let (mut plain_found, mut rust_found) = (false, false);
    let difference = |line, expected, got| {
        let between = format!("the Rust (seed {}) and the plain reading", seed);
        Err(Difference { line, between, expected, got })
    };
    for (number, step) in steps.iter().enumerate() {
        let Some(line) = &step.line else {
            continue;
        };
        if matches!(step.compared, Compared::OursAlone | Compared::Over) {
            continue;
        }
        let answer = rust::carry_out(&mut store, line);
        plain_found |= finds(&step.answer);
        rust_found |= finds(&answer);
        if step.compared == Compared::Found && plain_found != rust_found {
            return difference(number, found(rust_found), found(plain_found));
        }
        if step.compared == Compared::Whole {
            let ours = step.answer.without_draws();
            if answer != ours {
                return difference(number, answer.to_string(), ours.to_string());
            }
            let (rusts, ours) = (store.contents(), step.contents.as_ref());
            if Some(&rusts) != ours {
                let text = |contents: &Contents| contents.lines(declared).join("\n");
                return difference(number, text(&rusts), ours.map(text).unwrap_or_default());
            }
        }
    }
    Ok(())
}

/// How a check after the end of the domain is told.
pub fn found(yes: bool) -> String {
    let text = if yes { "contradiction found" } else { "no contradiction found" };
    text.to_string()
}
