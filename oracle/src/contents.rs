//! Whole contents of a store as sets, so that two stores can be compared, and how `w` writes them.

use crate::sample::{written, Declarations, Sample};
use std::collections::BTreeSet;

pub type Samples = BTreeSet<Sample>;

/// A live constraint. Equal ones are one element of the set: 01 merges the Rust's duplicates.
#[derive(Clone, Debug, PartialEq, Eq, PartialOrd, Ord)]
pub struct Constraint {
    pub left: Samples,
    pub right: Option<Sample>,
}

impl Constraint {
    pub fn samples(&self) -> impl Iterator<Item = &Sample> {
        self.left.iter().chain(self.right.iter())
    }
}

/// One set for the positives, one for the negatives.
#[derive(Clone, Debug, Default, PartialEq, Eq)]
pub struct Signed {
    pub positives: Samples,
    pub negatives: Samples,
}

#[derive(Clone, Debug, Default, PartialEq, Eq)]
pub struct Contents {
    pub kept: Signed,
    pub waiting: Signed,
    pub constraints: BTreeSet<Constraint>,
    pub unclassified: Samples,
    pub singles: Signed,
}

impl Contents {
    /// The lines that `w` writes: a word for the place, a sign, the samples.
    pub fn lines(&self, declared: &Declarations) -> Vec<String> {
        let mut lines = Vec::new();
        let mut group = |name: &str, samples: &Samples| {
            for sample in samples {
                lines.push(format!("{} {}", name, written(sample, declared)))
            }
        };
        group("kept +", &self.kept.positives);
        group("kept -", &self.kept.negatives);
        group("waiting +", &self.waiting.positives);
        group("waiting -", &self.waiting.negatives);
        group("unclassified .", &self.unclassified);
        group("single +", &self.singles.positives);
        group("single -", &self.singles.negatives);
        for constraint in &self.constraints {
            let left: String =
                constraint.left.iter().map(|sample| written(sample, declared) + " ").collect();
            let right = constraint.right.as_ref().map(|sample| written(sample, declared));
            lines.push(format!("live {}> {}", left, right.unwrap_or("!".to_string())))
        }
        lines
    }
}
