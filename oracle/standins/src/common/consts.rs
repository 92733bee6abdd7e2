//! Stands in for `common/consts.rs`: three words of the solver language.

pub mod keywords {
    pub mod op {
        pub const as_: &str = "as";
        pub const const_: &str = "const";
        pub const store_: &str = "store";
    }
}
