//! Stands in for `errors.rs`: the error type, with the one kind that says "contradiction".

use error_chain::error_chain;

error_chain! {
    types {
        Error, ErrorKind, ResExt, Res;
    }
    foreign_links {
        Io(::std::io::Error);
    }
    errors {
        Unsat {
            description("unsat")
            display("unsat")
        }
    }
}

impl Error {
    /// True if the cause of all is a contradiction, whatever was said on the way up.
    pub fn is_unsat(&self) -> bool {
        let first = self.iter().last().map(|cause| cause.to_string());
        matches!(self.kind(), ErrorKind::Unsat) || first.as_deref() == Some("unsat")
    }
}

pub fn print_err(error: &Error) {
    eprintln!("{}", error)
}
