//! The oracle: the given Rust as a script program, a plain reading of document 01, and the
//! comparison of any script program with both.

pub mod answer;
pub mod compare;
pub mod contents;
pub mod histories;
pub mod plain;
pub mod rust;
pub mod sample;
pub mod satisfying;
pub mod script;
