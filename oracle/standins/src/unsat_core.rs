//! Stands in for `unsat_core.rs`: the result of a check, without a proof.

use crate::common::*;

pub mod entry_points;

pub struct UnsatRes;

impl UnsatRes {
    pub fn new(_entry_points: Option<entry_points::EntryPoints>) -> Self {
        UnsatRes
    }
}
