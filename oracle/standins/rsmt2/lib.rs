//! Stands in for the crate `rsmt2` (solvers): names and types only, no solver is ever run.

pub type SmtRes<T> = std::io::Result<T>;

pub enum Solver {}

pub mod actlit {
    pub enum Actlit {}
}

pub mod print {
    /// How an expression is written for a solver.
    pub trait Expr2Smt<Info> {
        fn expr_to_smt2<W: std::io::Write>(&self, w: &mut W, info: Info) -> super::SmtRes<()>;
    }
}
