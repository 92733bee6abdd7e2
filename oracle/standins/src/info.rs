//! Stands in for `info.rs`: what is known of a predicate and of a variable.

use crate::common::*;

/// A predicate: its name and the sorts of its positions.
pub struct Pred {
    pub name: String,
    pub sig: Sig,
}

impl Pred {
    /// Strength is left out by document 01: no predicate has a strengthening term.
    pub fn strength(&self) -> Option<&Term> {
        None
    }
}

impl fmt::Display for Pred {
    fn fmt(&self, f: &mut fmt::Formatter) -> fmt::Result {
        self.name.fmt(f)
    }
}

pub struct VarInfo {
    pub typ: Typ,
}
