//! The Rust's waiting samples. They are private there, so they are read from the printed form:
//! lines such as `  0 | (1 _) (2 true)` after a headline for each sign.

use crate::contents::{Samples, Signed};
use crate::sample::Sample;
use hoice::common::PebcakFmt;
use hoice::data::Data;

pub fn text(data: &Data) -> String {
    data.to_string_info(&()).expect("the printed form")
}

pub fn waiting(data: &Data) -> Signed {
    let text = text(data);
    let between = |start: &str, end: &str| -> Samples {
        let after = text.split_once(start).expect("a headline").1;
        after.split_once(end).expect("the next headline").0.lines().flat_map(samples).collect()
    };
    Signed {
        positives: between("positive examples staged (", ") negative examples staged ("),
        negatives: between("negative examples staged (", ") modded ("),
    }
}

/// The samples of one line; none on a line without a predicate.
fn samples(line: &str) -> Vec<Sample> {
    let Some((pred, rest)) = line.split_once('|') else {
        return Vec::new();
    };
    let pred = pred.trim().parse().expect("predicates are named by number");
    let inside = rest.split('(').skip(1).map(|part| part.split_once(')').expect("a closing").0);
    inside
        .map(|values| Sample { pred, values: values.split_whitespace().map(value).collect() })
        .collect()
}

fn value(word: &str) -> Option<i64> {
    match word {
        "_" => None,
        "true" => Some(1),
        "false" => Some(0),
        number => Some(number.parse().expect("only i64 values go in")),
    }
}
