//! Stands in for `var_to.rs`: names the given `vals` and the stand-in `terms`.

pub mod terms;
pub mod vals;

pub use self::terms::VarTerms;
pub use self::vals::VarVals;
