//! Classify: the first lent row that covers a row, positives asked first.

use super::rows::{sample_of, SHOWN};
use super::MOST_POSITIONS;

/// Gives back the first covering row as a part of the caller's list; which list it lies in tells
/// the sign. None: the empty part at the start of the positives.
pub fn classify<'a>(
    positives: &'a [i64],
    negatives: &'a [i64],
    row: &[i64],
    positions: usize,
) -> &'a [i64] {
    let none = &positives[..0];
    if row.len() != SHOWN || positions > MOST_POSITIONS {
        return none;
    }
    let asked = sample_of(row, positions);
    let covering = |list: &'a [i64]| {
        list.chunks_exact(SHOWN).find(|candidate| sample_of(candidate, positions).covers(&asked))
    };
    covering(positives).or_else(|| covering(negatives)).unwrap_or(none)
}
