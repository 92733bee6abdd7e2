//! Stands in for `parse.rs`: nothing is parsed, so no parsed terms exist.

use crate::common::*;

pub enum PTTerms {}

impl PTTerms {
    pub fn to_term(&self) -> Res<Option<Term>> {
        match *self {}
    }
}
