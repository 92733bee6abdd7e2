//! Decides exactly whether some assignment satisfies what is held.
//!
//! Each constraint asks for at most one sample to be in, and its samples are total. So there is a
//! least assignment: the completions of the positives, and then the right side of every constraint
//! whose left samples are all in. If that one breaks a constraint or a negative, all do.

use crate::contents::{Constraint, Contents, Samples};
use crate::plain::Store;
use crate::sample::Sample;
use crate::script::Clause;

/// What an assignment must satisfy.
pub struct Asked {
    pub positives: Samples,
    pub negatives: Samples,
    pub constraints: Vec<Constraint>,
}

impl Asked {
    /// All that a store holds; waiting samples count.
    pub fn of(contents: &Contents) -> Self {
        let both = |kept: &Samples, waiting: &Samples| kept.union(waiting).cloned().collect();
        Asked {
            positives: both(&contents.kept.positives, &contents.waiting.positives),
            negatives: both(&contents.kept.negatives, &contents.waiting.negatives),
            constraints: contents.constraints.iter().cloned().collect(),
        }
    }

    /// A clause being added: one row may be partial, more rows are total.
    pub fn and(mut self, clause: &Clause) -> Self {
        match (clause.left.as_slice(), &clause.right) {
            ([], Some(sample)) => drop(self.positives.insert(sample.clone())),
            ([sample], None) => drop(self.negatives.insert(sample.clone())),
            (left, right) => self
                .constraints
                .push(Constraint { left: left.iter().cloned().collect(), right: right.clone() }),
        }
        self
    }

    pub fn satisfiable(self) -> bool {
        let Asked { positives: mut inside, negatives, constraints } = self;
        let is_in =
            |inside: &Samples, sample: &Sample| inside.iter().any(|box_| box_.covers(sample));
        let mut open = constraints;
        loop {
            let asks = |constraint: &Constraint| {
                constraint.left.iter().all(|sample| is_in(&inside, sample))
            };
            let Some(found) = open.iter().position(asks) else {
                break;
            };
            match open.swap_remove(found).right {
                Some(sample) => inside.insert(sample),
                None => return false,
            };
        }
        !inside.iter().any(|sample| negatives.iter().any(|out| out.overlaps(sample)))
    }
}

/// After a force's losses, before it settles.
pub fn force_satisfiable(store: &Store, pred: i64, value: bool) -> bool {
    let mut after = store.clone();
    after.force_losses(pred, value).is_ok() && Asked::of(&after.contents()).satisfiable()
}

#[cfg(test)]
mod tests {
    use super::*;
    use crate::histories::dice::Dice;

    /// Two predicates of one truth value each: four total vectors, sixteen assignments.
    fn vectors() -> Vec<Sample> {
        let total = |pred, value| Sample { pred, values: vec![Some(value)] };
        vec![total(0, 0), total(0, 1), total(1, 0), total(1, 1)]
    }

    fn by_trying_all(asked: &Asked) -> bool {
        let vectors = vectors();
        (0..16).any(|assignment| {
            let is_in = |sample: &Sample| {
                (0..4).filter(|i| sample.covers(&vectors[*i])).all(|i| assignment >> i & 1 == 1)
            };
            let is_out = |sample: &Sample| {
                (0..4).filter(|i| sample.covers(&vectors[*i])).all(|i| assignment >> i & 1 == 0)
            };
            let holds = |constraint: &Constraint| {
                !constraint.left.iter().all(is_in) || constraint.right.as_ref().is_some_and(is_in)
            };
            asked.positives.iter().all(is_in)
                && asked.negatives.iter().all(is_out)
                && asked.constraints.iter().all(holds)
        })
    }

    #[test]
    fn agrees_with_trying_all_assignments() {
        let mut dice = Dice::new(7);
        let (mut yes, mut no) = (0, 0);
        for _ in 0..20_000 {
            let mut samples = vectors();
            samples.extend((0..2).map(|pred| Sample { pred, values: vec![None] }));
            let mut some = |most: usize, from: usize| -> Samples {
                (0..dice.below(most + 1)).map(|_| samples[dice.below(from)].clone()).collect()
            };
            let (positives, negatives) = (some(2, 6), some(2, 6));
            let constraints = (0..4)
                .map(|_| Constraint { left: some(2, 4), right: some(1, 4).pop_first() })
                .collect();
            let asked = Asked { positives, negatives, constraints };
            let expected = by_trying_all(&asked);
            assert_eq!(asked.satisfiable(), expected);
            *(if expected { &mut yes } else { &mut no }) += 1
        }
        assert!(yes > 1_000 && no > 1_000, "{} {}", yes, no)
    }
}
