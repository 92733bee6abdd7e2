//! Adding a clause: refusals, the waiting rule, and steps 1 to 7 of document 01.

use super::mistake::{is, Mistake};
use super::rows::{Read, ROW};
use super::{Contradiction, Live, Sign, Store, MOST_CONSTRAINTS, MOST_SAMPLES};
use crate::contents::{Constraint, Samples};
use crate::sample::Sample;

pub struct Added {
    pub code: u8,
    pub new: bool,
}

impl Store {
    /// Adds a clause lent as rows; `has_right` says that the last row is the right side.
    pub fn add(&mut self, rows: &[i64], has_right: bool) -> Added {
        let refused = |code| Added { code, new: false };
        if self.marked {
            return refused(8);
        }
        let Read { left, right } = match self.read_rows(rows, has_right) {
            Ok(read) => read,
            Err(code) => return refused(code),
        };
        if let Some(code) = self.no_room(&left, &right) {
            return refused(code);
        }
        match (left.as_slice(), &right) {
            ([], Some(sample)) => self.add_one(Sign::Positive, sample),
            ([sample], None) => self.add_one(Sign::Negative, sample),
            _ => self.add_many(left, right),
        }
    }

    /// The thin add: one row with its sign, answered as the clause of that row alone.
    pub fn add_waiting(&mut self, row: &[i64], sign: Sign) -> Added {
        if !self.marked && row.len() != ROW {
            return Added { code: 5, new: false };
        }
        self.add(row, sign == Sign::Positive)
    }

    /// Refusals 4, 6 and 7, all judged at entry.
    fn no_room(&self, left: &[Sample], right: &Option<Sample>) -> Option<u8> {
        let rows: Vec<&Sample> = left.iter().chain(right).collect();
        let many = rows.len() > 1;
        if many && rows.iter().any(|sample| sample.is_partial()) {
            return Some(4);
        }
        let mut held = self.held();
        held.extend(rows.into_iter().cloned());
        if held.len() > MOST_SAMPLES {
            return Some(6);
        }
        if many && self.live().count() == MOST_CONSTRAINTS {
            return Some(7);
        }
        None
    }

    /// A clause of one row: it waits, and nothing settles.
    fn add_one(&mut self, sign: Sign, sample: &Sample) -> Added {
        let mut new = self.wait(sign, sample.clone());
        if is(Mistake::KeptAskedWhenWaiting) && self.kept.covers(sign, sample) {
            new = false
        }
        Added { code: 0, new }
    }

    /// Any other clause; a contradiction leaves the contents at entry and the mark.
    fn add_many(&mut self, left: Vec<Sample>, right: Option<Sample>) -> Added {
        let entry = self.clone();
        match self.add_steps(left, right) {
            Ok(new) => Added { code: 0, new },
            Err(Contradiction) => {
                *self = Store { marked: true, ..entry };
                Added { code: 9, new: false }
            }
        }
    }

    /// Steps 1 to 7; says whether the clause is new.
    fn add_steps(
        &mut self,
        left: Vec<Sample>,
        right: Option<Sample>,
    ) -> Result<bool, Contradiction> {
        self.settle_all()?; // 1
        let Some(right) = self.right_by_kept(right) else {
            return Ok(false); // 2
        };
        let Some(left) = self.left_by_kept(left) else {
            return Ok(false); // 3
        };
        if left.is_empty() && right.is_none() {
            return Err(Contradiction); // 3
        }
        let rows = left.len();
        let left: Samples = left.into_iter().collect(); // 4
        let among = right.as_ref().is_some_and(|sample| left.contains(sample));
        if among && !is(Mistake::RightAmongLeftGoesLive) {
            return Ok(false); // 4
        }
        let lefts = if is(Mistake::EqualLeftCountTwice) { rows } else { left.len() };
        match (lefts, right) {
            (0, Some(sample)) => self.add_right_alone(sample), // 5
            (1, None) => Ok(self.add_left_alone(left)),        // 6
            (_, right) => Ok(self.add_constraint(Constraint { left, right })), // 7
        }
    }

    /// Step 2: the right side that remains, or nothing if the clause is done.
    fn right_by_kept(&self, right: Option<Sample>) -> Option<Option<Sample>> {
        let Some(sample) = right else {
            return Some(None);
        };
        if self.kept.covers(Sign::Positive, &sample) {
            return None;
        }
        if self.kept.covers(Sign::Negative, &sample) {
            return if is(Mistake::NegativeRightEndsTheAdd) { None } else { Some(None) };
        }
        Some(Some(sample))
    }

    /// Step 3: the left samples that remain, or nothing if the clause is done.
    fn left_by_kept(&self, mut left: Vec<Sample>) -> Option<Vec<Sample>> {
        left.retain(|sample| !self.kept.covers(Sign::Positive, sample));
        let one_out = left.iter().any(|sample| self.kept.covers(Sign::Negative, sample));
        (!one_out).then_some(left)
    }

    /// Step 5: the right waits, is settled, and waits again.
    fn add_right_alone(&mut self, sample: Sample) -> Result<bool, Contradiction> {
        self.wait(Sign::Positive, sample.clone());
        self.settle_all()?;
        if !is(Mistake::RightWaitsOnce) {
            self.wait(Sign::Positive, sample);
        }
        Ok(true)
    }

    /// Step 6: the one left sample waits as negative.
    fn add_left_alone(&mut self, left: Samples) -> bool {
        for sample in left {
            self.wait(Sign::Negative, sample);
        }
        true
    }

    /// Step 7: the constraint takes the lowest free number and is tested; new if it stays.
    fn add_constraint(&mut self, constraint: Constraint) -> bool {
        if is(Mistake::DuplicateNotNew) && self.live().any(|other| *other == constraint) {
            return false;
        }
        let free = self.constraints.iter().position(|slot| slot.is_none());
        let number = free.expect("7 was judged at entry and settling adds none");
        self.constraints[number] = Some(Live { constraint, modified: true });
        self.test_redundancy(number);
        self.constraints[number].is_some()
    }

    /// The waiting rule: says whether the sample is new. Kept samples are not asked.
    pub(super) fn wait(&mut self, sign: Sign, sample: Sample) -> bool {
        if self.waiting.covers(sign, &sample) {
            return false;
        }
        let waiting = self.waiting.of_mut(sign);
        waiting.retain(|other| !sample.covers(other));
        waiting.insert(sample);
        true
    }

    /// Redundancy of a live constraint, among those with the same right side.
    pub(super) fn test_redundancy(&mut self, number: usize) {
        let Some(Live { constraint, .. }) = self.constraints[number].clone() else {
            return;
        };
        let mut smaller = false;
        for other in 0..MOST_CONSTRAINTS {
            let Some(live) = &self.constraints[other] else {
                continue;
            };
            let same_right =
                live.constraint.right == constraint.right || is(Mistake::RedundancyAcrossRights);
            if other == number || !same_right {
                continue;
            }
            if live.constraint.left.is_superset(&constraint.left) {
                self.constraints[other] = None
            } else if live.constraint.left.is_subset(&constraint.left) {
                smaller = true
            }
        }
        if smaller && !is(Mistake::LargerConstraintStays) {
            self.constraints[number] = None
        }
    }
}
