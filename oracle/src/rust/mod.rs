//! The given Rust's own store, driven call by call.

mod printed;
pub mod program;
#[cfg(test)]
mod tests;

use crate::answer::Code;
use crate::contents::{Constraint, Contents, Samples, Signed};
use crate::sample::{Declarations, Sample, Sort};
use crate::script::Clause;
use hoice::common::{conf, PrdIdx, VarVals};
use hoice::data::{Data, LrnData};
use hoice::errors::Res;
use hoice::instance::Instance;
use hoice::learning::ice::data::CData;
use hoice::term::{typ, Typ};
use hoice::val::{self, RVal, Val};
use hoice::var_to::vals::RVarVals;
use std::panic::{catch_unwind, AssertUnwindSafe};
use std::sync::atomic::{AtomicBool, Ordering::Relaxed};
use std::sync::Arc;

/// True while the Rust runs.
static CALLING: AtomicBool = AtomicBool::new(false);

/// From now on a panic of the Rust is an answer and not a message. Others are told as usual.
pub fn hush() {
    let usual = std::panic::take_hook();
    std::panic::set_hook(Box::new(move |panic| {
        if !CALLING.load(Relaxed) {
            usual(panic)
        }
    }))
}

/// The Rust's learning data and the declarations it was made for.
pub struct RustStore {
    data: LrnData,
    declared: Declarations,
}

impl RustStore {
    /// A store for these predicates; the seed chooses the order of its sets and maps.
    /// The Rust fixes its predicates when a store is made, so all are declared at once.
    pub fn new(declared: &Declarations, seed: u64) -> Self {
        assert!(conf.teacher.partial, "the oracle runs with partial samples");
        assert!(!cfg!(debug_assertions), "the oracle is a release build");
        hoice::order::choose(seed);
        let signatures =
            declared.iter().map(|sorts| sorts.iter().map(sort_type).collect()).collect();
        let instance = Arc::new(Instance::of_signatures(signatures));
        RustStore { data: Data::new(instance).to_lrn_data(), declared: declared.clone() }
    }

    pub fn add(&mut self, clause: &Clause) -> Result<bool, Code> {
        self.run(|store| {
            let left = clause.left.iter().map(|sample| store.sample_in(sample)).collect();
            let right = clause.right.as_ref().map(|sample| store.sample_in(sample));
            store.data.add_data(0.into(), left, right)
        })
    }

    /// The numbers of newly kept positives and negatives.
    pub fn settle(&mut self) -> Result<(usize, usize), Code> {
        self.run(|store| store.data.propagate())
    }

    /// True if a kept positive and a kept negative overlap. `LrnData` has no check, so it is asked
    /// of the data inside, and what it left becomes the store.
    pub fn check(&mut self) -> Result<bool, Code> {
        self.run(|store| {
            let mut inside: Data = (*store.data).clone();
            let answer = inside.check_unsat();
            store.data = inside.to_lrn_data();
            answer
        })
    }

    pub fn force(&mut self, pred: i64, value: bool) -> Result<(), Code> {
        self.run(|store| store.data.force_pred(index(pred), value))
    }

    /// The projected data of a predicate: positives, negatives, unclassified, singles.
    pub fn show(&mut self, pred: i64) -> Result<Groups, Code> {
        self.run(|store| Ok(groups(pred, &store.data.data_of(index(pred)))))
    }

    pub fn contents(&self) -> Contents {
        let mut contents = Contents::default();
        for pred in 0..self.declared.len() as i64 {
            let shown = groups(pred, &self.data.data_of(index(pred)));
            contents.kept.positives.extend(shown.kept.positives);
            contents.kept.negatives.extend(shown.kept.negatives);
            contents.unclassified.extend(shown.unclassified);
            contents.singles.positives.extend(shown.singles.positives);
            contents.singles.negatives.extend(shown.singles.negatives)
        }
        contents.waiting = printed::waiting(&self.data);
        for constraint in self.data.constraints.iter().filter(|live| !live.is_tautology()) {
            contents.constraints.insert(constraint_out(constraint));
        }
        contents
    }

    /// The lines of the Rust's own printed form.
    pub fn printed(&self) -> Vec<String> {
        printed::text(&self.data).lines().map(str::to_string).collect()
    }

    /// Runs a call: a contradiction is 9, other errors and panics are told apart from it.
    fn run<T>(&mut self, call: impl FnOnce(&mut Self) -> Res<T>) -> Result<T, Code> {
        CALLING.store(true, Relaxed);
        let outcome = catch_unwind(AssertUnwindSafe(|| call(self)));
        CALLING.store(false, Relaxed);
        match outcome {
            Ok(Ok(answer)) => Ok(answer),
            Ok(Err(error)) if error.is_unsat() => Err(Code::Number(9)),
            Ok(Err(error)) => Err(Code::Error(error.to_string())),
            Err(_) => Err(Code::Panic),
        }
    }

    fn sample_in(&self, sample: &Sample) -> (PrdIdx, RVarVals) {
        let sorts = usize::try_from(sample.pred).ok().and_then(|pred| self.declared.get(pred));
        let sort = |i: usize| sorts.and_then(|sorts| sorts.get(i)).unwrap_or(&Sort::Integer);
        let values: Vec<Val> =
            sample.values.iter().enumerate().map(|(i, value)| value_in(*value, sort(i))).collect();
        (index(sample.pred), values.into())
    }
}

/// The samples of one predicate.
#[derive(Default)]
pub struct Groups {
    pub kept: Signed,
    pub unclassified: Samples,
    pub singles: Signed,
}

/// A predicate number; a negative one becomes one that is never declared.
fn index(pred: i64) -> PrdIdx {
    usize::try_from(pred).unwrap_or(usize::MAX).into()
}

fn sort_type(sort: &Sort) -> Typ {
    match sort {
        Sort::Integer => typ::int(),
        Sort::Truth => typ::bool(),
    }
}

/// A number at a truth position that is neither 0 nor 1 goes in as it is: the Rust does not ask.
fn value_in(value: Option<i64>, sort: &Sort) -> Val {
    match (value, sort) {
        (None, sort) => val::none(sort_type(sort)),
        (Some(0), Sort::Truth) => val::bool(false),
        (Some(1), Sort::Truth) => val::bool(true),
        (Some(number), _) => val::int(number),
    }
}

fn value_out(value: &Val) -> Option<i64> {
    match value.get() {
        RVal::N(_) => None,
        RVal::B(truth) => Some(i64::from(*truth)),
        RVal::I(number) => Some(i64::try_from(number).expect("only i64 values go in")),
        other => unreachable!("a value of another sort: {}", other),
    }
}

fn sample_out(pred: i64, values: &VarVals) -> Sample {
    Sample { pred, values: values.iter().map(value_out).collect() }
}

fn groups(pred: i64, data: &CData) -> Groups {
    let out = |samples: &Vec<VarVals>| -> Samples {
        samples.iter().map(|values| sample_out(pred, values)).collect()
    };
    Groups {
        kept: Signed { positives: out(data.pos()), negatives: out(data.neg()) },
        unclassified: out(data.unc()),
        singles: Signed { positives: out(data.pos_single()), negatives: out(data.neg_single()) },
    }
}

fn constraint_out(constraint: &hoice::data::Constraint) -> Constraint {
    let mut left = Samples::new();
    for (pred, argss) in constraint.lhs().expect("a live constraint") {
        left.extend(argss.iter().map(|values| sample_out(**pred as i64, values)))
    }
    let right = constraint.rhs().map(|sample| sample_out(*sample.pred as i64, &sample.args));
    Constraint { left, right }
}
