//! Stands in for `fun.rs`: defined functions are left out, so none exists.

pub enum Fun {}
