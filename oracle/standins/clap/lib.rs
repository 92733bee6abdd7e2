//! Stands in for the crate `clap`, of which the given files name only `crate_version!`.

/// The version text; nothing carried over reads it.
#[macro_export]
macro_rules! crate_version {
    () => {
        "oracle"
    };
}
