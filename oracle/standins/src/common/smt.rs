//! Stands in for `common/smt.rs`: empty, no solver is asked.
