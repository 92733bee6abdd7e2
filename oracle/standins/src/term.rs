//! Stands in for `term.rs`: terms are left out, so none exists and none can be made.

use crate::common::*;
use hashconsing::HConsed;

pub mod typ;
pub use self::typ::Typ;

#[derive(Clone, Debug, PartialEq, Eq, Hash)]
pub enum RTerm {}
pub type Term = HConsed<RTerm>;

pub enum TTerm {}
pub enum TTermSet {}
pub enum TTerms {}
pub enum Quant {}

impl fmt::Display for RTerm {
    fn fmt(&self, _: &mut fmt::Formatter) -> fmt::Result {
        match *self {}
    }
}

impl RTerm {
    pub fn typ(&self) -> Typ {
        match *self {}
    }
    pub fn val(&self) -> Option<Val> {
        match *self {}
    }
    pub fn var_idx(&self) -> Option<VarIdx> {
        match *self {}
    }
    pub fn ite_inspect(&self) -> Option<(&Term, &Term, &Term)> {
        match *self {}
    }
    pub fn eq_inspect(&self) -> Option<&Vec<Term>> {
        match *self {}
    }
    pub fn invert(&self, _term: Term) -> Option<(VarIdx, Term)> {
        match *self {}
    }
    pub fn eval<E: Evaluator>(&self, _args: &E) -> Res<Val> {
        match *self {}
    }
    pub fn bool_eval<E: Evaluator>(&self, _args: &E) -> Res<Option<bool>> {
        match *self {}
    }
}

fn none_exists<T>() -> T {
    unreachable!("terms are left out")
}

pub fn vars(_term: &Term) -> Vec<VarIdx> {
    none_exists()
}
pub fn var(_var: VarIdx, _typ: Typ) -> Term {
    none_exists()
}
pub fn int(_int: Int) -> Term {
    none_exists()
}
pub fn real(_real: Rat) -> Term {
    none_exists()
}
pub fn bool(_bool: bool) -> Term {
    none_exists()
}
pub fn cst_array(_typ: Typ, _default: Term) -> Term {
    none_exists()
}
pub fn store(_array: Term, _index: Term, _value: Term) -> Term {
    none_exists()
}
pub fn dtyp_new(_typ: Typ, _name: String, _args: Vec<Term>) -> Term {
    none_exists()
}

/// The one operator that the given files name (for arrays, which are left out).
pub enum Op {
    Eql,
}

impl Op {
    pub fn eval(&self, _args: Vec<Val>) -> Res<Val> {
        none_exists()
    }
}
