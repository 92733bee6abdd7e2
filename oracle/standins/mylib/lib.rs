//! Stands in for the crate `mylib`, of which the given files name only `impl_fmt!`.

/// Implements `Display` by the given body.
#[macro_export]
macro_rules! impl_fmt {
    ($ty:ident($slf:ident, $fmt:ident) $body:block) => {
        impl ::std::fmt::Display for $ty {
            fn fmt(&$slf, $fmt: &mut ::std::fmt::Formatter) -> ::std::fmt::Result $body
        }
    };
}
