//! Stands in for `learning.rs` and `learning/ice.rs`: the path to the projected data.

pub mod ice {
    pub mod data;
}
