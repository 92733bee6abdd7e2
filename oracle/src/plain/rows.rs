//! Rows of numbers: how a clause is handed in, what is refused of it, and shown rows.

use super::{Store, MOST_LEFT, MOST_POSITIONS};
use crate::sample::{Sample, Sort};
use crate::script::Clause;

/// Numbers in a clause's row: predicate, mask, six values.
pub const ROW: usize = 8;
/// Numbers in a shown row: mask, six values.
pub const SHOWN: usize = 7;

/// A clause as samples, the right side apart.
pub struct Read {
    pub left: Vec<Sample>,
    pub right: Option<Sample>,
}

impl Store {
    /// Reads lent rows; the first refusal among 5, then 1, 2, 3 for each row, left to right.
    pub(super) fn read_rows(&self, rows: &[i64], has_right: bool) -> Result<Read, u8> {
        let count = rows.len() / ROW;
        let ragged = rows.len() % ROW != 0;
        if ragged || (has_right && count == 0) || count - usize::from(has_right) > MOST_LEFT {
            return Err(5);
        }
        let mut left: Vec<Sample> =
            rows.chunks(ROW).map(|row| self.read_row(row)).collect::<Result<_, u8>>()?;
        let right = if has_right { left.pop() } else { None };
        Ok(Read { left, right })
    }

    fn read_row(&self, row: &[i64]) -> Result<Sample, u8> {
        let (pred, mask, values) = (row[0], row[1], &row[2..]);
        let sorts = self.sorts(pred).ok_or(1)?;
        if mask < 0 || mask >> sorts.len() != 0 {
            return Err(2);
        }
        let known = |i: usize| mask >> i & 1 == 1;
        for (i, value) in values.iter().enumerate() {
            let truth = sorts.get(i) == Some(&Sort::Truth);
            let wrong_truth = known(i) && truth && *value != 0 && *value != 1;
            if (!known(i) && *value != 0) || wrong_truth {
                return Err(3);
            }
        }
        let values = (0..sorts.len()).map(|i| known(i).then_some(values[i])).collect();
        Ok(Sample { pred, values })
    }
}

/// A sample of at most six values as a shown row.
pub fn shown_row(sample: &Sample) -> [i64; SHOWN] {
    let mut row = [0; SHOWN];
    for (i, value) in sample.values.iter().enumerate() {
        if let Some(number) = value {
            row[0] |= 1 << i;
            row[1 + i] = *number
        }
    }
    row
}

/// A sample as a clause's row.
pub fn row_of(sample: &Sample) -> [i64; ROW] {
    let mut row = [0; ROW];
    row[0] = sample.pred;
    row[1..].copy_from_slice(&shown_row(sample));
    row
}

/// A clause as lent rows, the right side last.
pub fn rows_of(clause: &Clause) -> Vec<i64> {
    clause.samples().flat_map(row_of).collect()
}

/// A shown row as a sample: the mask counts by its lowest bits, one a position.
pub fn sample_of(row: &[i64], positions: usize) -> Sample {
    debug_assert!(positions <= MOST_POSITIONS);
    let value = |i: usize| (row[0] >> i & 1 == 1).then_some(row[1 + i]);
    Sample { pred: 0, values: (0..positions).map(value).collect() }
}
