//! Settling by draws, what a loss makes of a constraint, and the check.

use super::mistake::{is, Mistake};
use super::rows::{shown_row, SHOWN};
use super::{Contradiction, Sign, Store, MOST_CONSTRAINTS};
use crate::contents::Constraint;
use crate::sample::Sample;

#[derive(Clone, Copy, Debug, Default, PartialEq, Eq)]
pub struct Settled {
    pub code: u8,
    pub positives: usize,
    pub negatives: usize,
    pub draws: usize,
}

/// A check's code; beside 12 the first overlapping pair, as predicate and shown rows.
#[derive(Debug, PartialEq, Eq)]
pub struct Checked {
    pub code: u8,
    pub pred: i64,
    pub positive: [i64; SHOWN],
    pub negative: [i64; SHOWN],
}

impl Store {
    pub fn settle(&mut self) -> Settled {
        if self.marked {
            return Settled { code: 8, ..Settled::default() };
        }
        self.or_mark(|store| store.settle_all())
    }

    /// Settles, then seeks the first kept positive and kept negative that overlap.
    pub fn check(&mut self) -> Checked {
        let without_pair =
            |code| Checked { code, pred: 0, positive: [0; SHOWN], negative: [0; SHOWN] };
        let settled = self.settle();
        if settled.code != 0 {
            return without_pair(settled.code);
        }
        for positive in &self.kept.positives {
            for negative in &self.kept.negatives {
                let clash = if is(Mistake::ClashByCovering) {
                    positive.covers(negative) || negative.covers(positive)
                } else {
                    positive.overlaps(negative)
                };
                if clash {
                    return Checked {
                        code: 12,
                        pred: positive.pred,
                        positive: shown_row(positive),
                        negative: shown_row(negative),
                    };
                }
            }
        }
        without_pair(0)
    }

    /// Runs a change; a contradiction leaves the contents at entry and the mark, with 9.
    pub(super) fn or_mark(
        &mut self,
        change: impl FnOnce(&mut Store) -> Result<Settled, Contradiction>,
    ) -> Settled {
        let entry = self.clone();
        change(self).unwrap_or_else(|Contradiction| {
            *self = Store { marked: true, ..entry };
            Settled { code: 9, ..Settled::default() }
        })
    }

    /// Draws until nothing waits.
    pub(super) fn settle_all(&mut self) -> Result<Settled, Contradiction> {
        let mut settled = Settled::default();
        while let Some((sign, sample)) = self.least_waiting() {
            self.waiting.of_mut(sign).remove(&sample);
            settled.draws += 1;
            if self.kept.covers(sign, &sample) {
                continue;
            }
            match sign {
                Sign::Positive => settled.positives += 1,
                Sign::Negative => settled.negatives += 1,
            }
            self.keep(sign, &sample);
            self.lose_covered(sign, &sample)?;
        }
        Ok(settled)
    }

    /// Positives first, then lower predicate, then sample order.
    fn least_waiting(&self) -> Option<(Sign, Sample)> {
        let least = |sign| self.waiting.of(sign).first().map(|sample| (sign, sample.clone()));
        least(Sign::Positive).or_else(|| least(Sign::Negative))
    }

    fn keep(&mut self, sign: Sign, sample: &Sample) {
        let kept = self.kept.of_mut(sign);
        if !is(Mistake::CoveredStayKept) {
            kept.retain(|other| !sample.covers(other))
        }
        kept.insert(sample.clone());
        if is(Mistake::NegativeTakesBack) && sign == Sign::Negative {
            self.kept.positives.retain(|other| !sample.covers(other))
        }
    }

    /// Each live constraint holding a covered sample loses all of them; modified ones are tested.
    fn lose_covered(&mut self, sign: Sign, sample: &Sample) -> Result<(), Contradiction> {
        let modified = self.lose(sign, |other| sample.covers(other))?;
        if is(Mistake::DrawsTestNothing) {
            return Ok(());
        }
        for number in modified {
            self.test_redundancy(number)
        }
        Ok(())
    }

    /// Takes the chosen samples, of the given sign, from each live constraint by rising number.
    /// Returns the numbers of those that stay live as modified.
    pub(super) fn lose(
        &mut self,
        sign: Sign,
        chosen: impl Fn(&Sample) -> bool,
    ) -> Result<Vec<usize>, Contradiction> {
        let mut modified = Vec::new();
        for number in 0..MOST_CONSTRAINTS {
            let Some(live) = &mut self.constraints[number] else {
                continue;
            };
            let lost = take(&mut live.constraint, &chosen);
            if !lost.left && !lost.right {
                continue;
            }
            let left_false = lost.left && sign == Sign::Negative;
            let right_true = lost.right && sign == Sign::Positive;
            if left_false || right_true {
                self.constraints[number] = None
            } else if self.stays(number)? {
                modified.push(number)
            }
        }
        Ok(modified)
    }

    /// What a loss makes of a constraint: one waiting sample, a contradiction, or it stays live.
    fn stays(&mut self, number: usize) -> Result<bool, Contradiction> {
        let live = self.constraints[number].as_mut().expect("a live constraint");
        let Constraint { left, right } = &live.constraint;
        let (sign, sample) = match (left.len(), right) {
            (0, Some(right)) => (Sign::Positive, right.clone()),
            (0, None) => return Err(Contradiction),
            (1, None) => (Sign::Negative, left.first().expect("one left").clone()),
            _ => {
                live.modified = true;
                return Ok(true);
            }
        };
        self.constraints[number] = None;
        self.wait(sign, sample);
        Ok(false)
    }
}

/// What a constraint lost.
struct Lost {
    left: bool,
    right: bool,
}

fn take(constraint: &mut Constraint, chosen: &impl Fn(&Sample) -> bool) -> Lost {
    let before = constraint.left.len();
    if is(Mistake::OneIsLost) {
        let first = constraint.left.iter().find(|sample| chosen(sample)).cloned();
        first.map(|sample| constraint.left.remove(&sample));
    } else {
        constraint.left.retain(|sample| !chosen(sample))
    }
    let right = constraint.right.as_ref().is_some_and(chosen);
    if right {
        constraint.right = None
    }
    Lost { left: constraint.left.len() < before, right }
}
