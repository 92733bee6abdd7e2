//! Stands in for the root of hoice: names its modules. The given files stand beside the stand-ins,
//! linked in unchanged when the oracle is built.
#![allow(warnings)]

#[macro_use]
pub mod common;
pub mod data;
pub mod dtyp;
pub mod errors;
pub mod fun;
pub mod info;
pub mod instance;
pub mod learning;
pub mod parse;
pub mod term;
pub mod unsat_core;
pub mod val;
pub mod var_to;

pub use hashconsing::order;
