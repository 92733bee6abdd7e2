//! Show: the samples of one predicate in five groups, into one lent list.

use super::mistake::{is, Mistake};
use super::rows::{shown_row, SHOWN};
use super::Store;
use crate::contents::Samples;
use crate::sample::Sample;

/// A show's code and the counts of positives, negatives, unclassified, single positives and
/// single negatives.
#[derive(Clone, Copy, Debug, PartialEq, Eq)]
pub struct Shown {
    pub code: u8,
    pub counts: [usize; 5],
}

impl Store {
    /// Writes the shown rows; numbers after them stay. A marked store can be shown.
    pub fn show(&self, pred: i64, out: &mut [i64]) -> Shown {
        let refused = |code| Shown { code, counts: [0; 5] };
        if self.sorts(pred).is_none() {
            return refused(1);
        }
        let groups = self.groups(pred);
        let rows: Vec<i64> = groups.iter().flatten().flat_map(shown_row).collect();
        debug_assert_eq!(rows.len() % SHOWN, 0);
        if out.len() < rows.len() {
            return refused(11);
        }
        out[..rows.len()].copy_from_slice(&rows);
        Shown { code: 0, counts: groups.map(|group| group.len()) }
    }

    /// The five groups of a predicate, each rising.
    pub fn groups(&self, pred: i64) -> [Vec<Sample>; 5] {
        let contents = self.contents();
        [
            of_pred(&contents.kept.positives, pred),
            of_pred(&contents.kept.negatives, pred),
            of_pred(&contents.unclassified, pred),
            of_pred(&contents.singles.positives, pred),
            of_pred(&contents.singles.negatives, pred),
        ]
    }
}

fn of_pred(samples: &Samples, pred: i64) -> Vec<Sample> {
    let mut rows: Vec<Sample> =
        samples.iter().filter(|sample| sample.pred == pred).cloned().collect();
    if is(Mistake::UnknownLast) {
        let unknown_last = |value: &Option<i64>| (value.is_none(), *value);
        rows.sort_by_key(|row| row.values.iter().map(unknown_last).collect::<Vec<_>>())
    }
    rows
}
