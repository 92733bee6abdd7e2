//! Stands in for `common/macros.rs`: no profiling, no logging; blocks, failures and values printed.

/// Profiling is left out: only the wrapped expression is run.
#[macro_export]
macro_rules! profile {
    (|$prof:ident| wrap $body:block $($scope:expr),+ $(,)*) => {
        $body
    };
    ($slf:ident wrap $body:block $($scope:expr),+ $(,)*) => {
        $body
    };
    ($($ignored:tt)*) => {
        ()
    };
}

/// Logging is left out.
#[macro_export]
macro_rules! log {
    ($($ignored:tt)*) => {
        ()
    };
}
#[macro_export]
macro_rules! log_verb {
    ($($ignored:tt)*) => {
        ()
    };
}
#[macro_export]
macro_rules! if_log {
    ($($ignored:tt)*) => {
        ()
    };
}

/// A block of its own, for the sake of borrows.
#[macro_export]
macro_rules! scoped {
    ($($body:tt)*) => {{ $($body)* }};
}

/// A failure that should never happen.
#[macro_export]
macro_rules! fail_with {
    ($($message:tt)*) => { panic!($($message)*) };
}

/// The error that says the data contradicts itself.
#[macro_export]
macro_rules! unsat {
    ($($message:tt)*) => {
        error_chain::bail!($crate::errors::ErrorKind::Unsat)
    };
}

/// The integer of a value; an unknown one is returned as unknown.
#[macro_export]
macro_rules! try_val {
    (int $e:expr) => {
        if let Some(i) = $e.to_int()? {
            i
        } else {
            return Ok($crate::val::none($crate::term::typ::int()));
        }
    };
}

/// Writes an integer in plain decimal, so that the printed form can be read back.
#[macro_export]
macro_rules! int_to_smt {
    ($writer:expr, $i:expr) => {
        write!($writer, "{}", $i)
    };
}
#[macro_export]
macro_rules! rat_to_smt {
    ($writer:expr, $r:expr) => {
        write!($writer, "{}", $r)
    };
}
