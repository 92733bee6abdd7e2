//! Stands in for `CData` of `learning/ice/data.rs`: five lists of samples, and their classification.

use crate::common::*;

pub struct CData {
    pos: Vec<VarVals>,
    neg: Vec<VarVals>,
    unc: Vec<VarVals>,
    pos_single: Vec<VarVals>,
    neg_single: Vec<VarVals>,
}

impl CData {
    pub fn new(
        pos: Vec<VarVals>,
        neg: Vec<VarVals>,
        unc: Vec<VarVals>,
        pos_single: Vec<VarVals>,
        neg_single: Vec<VarVals>,
    ) -> Self {
        CData { pos, neg, unc, pos_single, neg_single }
    }

    pub fn pos(&self) -> &Vec<VarVals> {
        &self.pos
    }
    pub fn neg(&self) -> &Vec<VarVals> {
        &self.neg
    }
    pub fn unc(&self) -> &Vec<VarVals> {
        &self.unc
    }
    pub fn pos_single(&self) -> &Vec<VarVals> {
        &self.pos_single
    }
    pub fn neg_single(&self) -> &Vec<VarVals> {
        &self.neg_single
    }

    /// Moves each unclassified sample to where the function says, if it says anything.
    pub fn classify<F: Fn(&VarVals) -> Option<bool>>(&mut self, sign_of: F) {
        for sample in std::mem::take(&mut self.unc) {
            match sign_of(&sample) {
                Some(true) => self.pos.push(sample),
                Some(false) => self.neg.push(sample),
                None => self.unc.push(sample),
            }
        }
    }
}
