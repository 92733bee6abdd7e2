//! Force: a predicate is taken to be true, or false, everywhere.

use super::mistake::{is, Mistake};
use super::{Settled, Sign, Store};

impl Store {
    /// Forces a predicate to a truth value; returns what settling returns.
    pub fn force(&mut self, pred: i64, value: bool) -> Settled {
        let refused = |code| Settled { code, ..Settled::default() };
        if self.marked {
            return refused(8);
        }
        if self.sorts(pred).is_none() {
            return refused(1);
        }
        self.or_mark(|store| {
            let modified = store.force_losses(pred, value)?;
            for number in modified {
                store.test_redundancy(number)
            }
            store.settle_all()
        })
    }

    /// The constraints lose the predicate's samples, and its kept samples are cleared.
    pub fn force_losses(
        &mut self,
        pred: i64,
        value: bool,
    ) -> Result<Vec<usize>, super::Contradiction> {
        let sign = if value { Sign::Positive } else { Sign::Negative };
        let modified = self.lose(sign, |sample| sample.pred == pred)?;
        let mut cleared = vec![&mut self.kept];
        if is(Mistake::ForceClearsWaiting) {
            cleared.push(&mut self.waiting)
        }
        for set in cleared {
            set.positives.retain(|sample| sample.pred != pred);
            set.negatives.retain(|sample| sample.pred != pred)
        }
        Ok(modified)
    }
}
