//! Stands in for `instance.rs`: an instance that knows signatures only, without clauses or proofs.

use crate::common::*;
use crate::info::Pred;
use std::ops::Index;

pub struct Instance {
    preds: Preds,
    any_clause: Clause,
}

impl Instance {
    /// Predicates named by their numbers.
    pub fn of_signatures(signatures: Vec<Vec<Typ>>) -> Self {
        let preds = signatures
            .into_iter()
            .enumerate()
            .map(|(number, sorts)| Pred { name: number.to_string(), sig: sorts.into() });
        Instance { preds: preds.collect(), any_clause: Clause }
    }
    pub fn preds(&self) -> &Preds {
        &self.preds
    }
    pub fn proofs(&self) -> bool {
        false
    }
}

impl Index<PrdIdx> for Instance {
    type Output = Pred;
    fn index(&self, pred: PrdIdx) -> &Pred {
        &self.preds[pred]
    }
}

/// Clauses matter for entry points alone, which are left out: one stands for all.
impl Index<ClsIdx> for Instance {
    type Output = Clause;
    fn index(&self, _: ClsIdx) -> &Clause {
        &self.any_clause
    }
}

pub struct Clause;

impl Clause {
    pub fn lhs_preds(&self) -> &[PrdIdx] {
        &[]
    }
}
