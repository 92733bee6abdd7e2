//! Stands in for `var_to/terms.rs`: maps from variables to terms; never made, there are no terms.

use crate::common::*;
use hashconsing::HConsed;

pub type VarTerms = HConsed<VarMap<Term>>;
pub type VarTermsSet = HConSet<VarTerms>;
