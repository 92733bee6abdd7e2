//! A plain reading of document 01: every call on simple sets, written from 01 and the readings of
//! its open points, not from the Rust. It decides what a script program must print.

mod add;
mod classify;
mod force;
pub mod mistake;
pub mod program;
mod rows;
mod settle;
mod show;
#[cfg(test)]
mod tests;

use crate::contents::{Constraint, Contents, Samples, Signed};
use crate::sample::{Declarations, Sample, Sort};

pub use add::Added;
pub use classify::classify;
pub use rows::{row_of, rows_of, shown_row, ROW, SHOWN};
pub use settle::{Checked, Settled};
pub use show::Shown;

pub const MOST_PREDICATES: usize = 16;
pub const MOST_POSITIONS: usize = 6;
pub const MOST_LEFT: usize = 16;
pub const MOST_SAMPLES: usize = 256;
pub const MOST_CONSTRAINTS: usize = 128;

/// The sign of a kept or waiting sample. Positives come first, as in the order of draws.
#[derive(Clone, Copy, Debug, PartialEq, Eq, PartialOrd, Ord)]
pub enum Sign {
    Positive,
    Negative,
}

/// A contradiction was found: the caller answers 9 and restores the contents at entry.
#[derive(Debug)]
pub struct Contradiction;

/// A live constraint and its modified mark.
#[derive(Clone, Debug, PartialEq, Eq)]
pub struct Live {
    pub constraint: Constraint,
    pub modified: bool,
}

/// Declarations, kept and waiting sets, constraints by number, and the contradiction mark.
#[derive(Clone, Debug, PartialEq, Eq)]
pub struct Store {
    pub declared: Declarations,
    pub kept: Signed,
    pub waiting: Signed,
    pub constraints: Vec<Option<Live>>,
    pub marked: bool,
}

impl Signed {
    pub fn of(&self, sign: Sign) -> &Samples {
        match sign {
            Sign::Positive => &self.positives,
            Sign::Negative => &self.negatives,
        }
    }
    pub fn of_mut(&mut self, sign: Sign) -> &mut Samples {
        match sign {
            Sign::Positive => &mut self.positives,
            Sign::Negative => &mut self.negatives,
        }
    }
    /// True if a sample of this sign covers the given one.
    pub fn covers(&self, sign: Sign, sample: &Sample) -> bool {
        self.of(sign).iter().any(|other| other.covers(sample))
    }
}

impl Store {
    pub fn new() -> Self {
        Store {
            declared: Vec::new(),
            kept: Signed::default(),
            waiting: Signed::default(),
            constraints: vec![None; MOST_CONSTRAINTS],
            marked: false,
        }
    }

    /// Declares a predicate by its sorts (0 an integer, 1 a truth value): code and number.
    pub fn declare(&mut self, sorts: &[i64]) -> (u8, usize) {
        if self.marked {
            return (8, 0);
        }
        if self.declared.len() == MOST_PREDICATES {
            return (10, 0);
        }
        if sorts.len() > MOST_POSITIONS {
            return (2, 0);
        }
        let sort = |number: &i64| match number {
            0 => Some(Sort::Integer),
            1 => Some(Sort::Truth),
            _ => None,
        };
        let Some(sorts) = sorts.iter().map(sort).collect() else {
            return (3, 0);
        };
        self.declared.push(sorts);
        (0, self.declared.len() - 1)
    }

    /// The sorts of a predicate, if it is declared.
    pub fn sorts(&self, pred: i64) -> Option<&Vec<Sort>> {
        usize::try_from(pred).ok().and_then(|pred| self.declared.get(pred))
    }

    /// The live constraints, by rising number.
    pub fn live(&self) -> impl Iterator<Item = &Constraint> {
        self.constraints.iter().flatten().map(|live| &live.constraint)
    }

    /// Each sample that is kept, waiting or in a live constraint, once.
    pub fn held(&self) -> Samples {
        let mut held = Samples::new();
        for set in [&self.kept, &self.waiting] {
            held.extend(set.positives.iter().chain(&set.negatives).cloned())
        }
        for constraint in self.live() {
            held.extend(constraint.samples().cloned())
        }
        held
    }

    /// The contents in the form that is compared with the Rust's.
    pub fn contents(&self) -> Contents {
        let singles = |samples: &Samples| -> Samples {
            samples.iter().filter(|sample| sample.is_single()).cloned().collect()
        };
        Contents {
            kept: self.kept.clone(),
            waiting: self.waiting.clone(),
            constraints: self.live().cloned().collect(),
            unclassified: self.live().flat_map(|live| live.samples().cloned()).collect(),
            singles: Signed {
                positives: singles(&self.kept.positives),
                negatives: singles(&self.kept.negatives),
            },
        }
    }
}
