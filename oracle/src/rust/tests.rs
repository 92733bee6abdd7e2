//! What the Rust does where a script cannot show it: integers past i64, and classify by equality.

use crate::plain::classify;
use hoice::common::{Int, PrdIdx};
use hoice::data::{Data, LrnData};
use hoice::instance::Instance;
use hoice::learning::ice::data::CData;
use hoice::term::typ;
use hoice::val::{self, Val};
use std::sync::Arc;

/// A store with one predicate of one integer that keeps one positive sample.
fn keeping(value: Val) -> (PrdIdx, LrnData) {
    let instance = Instance::of_signatures(vec![vec![typ::int()]]);
    let mut data = Data::new(Arc::new(instance)).to_lrn_data();
    let pred = PrdIdx::from(0);
    assert!(data.add_data(0.into(), vec![], Some((pred, vec![value].into()))).unwrap());
    assert_eq!(data.propagate().unwrap(), (1, 0));
    (pred, data)
}

#[test]
fn the_rust_keeps_integers_past_i64() {
    let (pred, data) = keeping(val::int(Int::from(i64::MAX) + 1));
    assert_eq!(data.data_of(pred).pos()[0].to_string(), "9223372036854775808")
}

#[test]
fn the_rust_classifies_by_equality_and_01_by_covering() {
    let (pred, data) = keeping(val::none(typ::int()));
    let one = hoice::var_to::vals::of(vec![val::int(1)]);
    let mut asked = CData::new(vec![], vec![], vec![one], vec![], vec![]);
    data.classify(pred, &mut asked);
    assert_eq!((asked.pos().len(), asked.unc().len()), (0, 1));

    let unknown = [0; 7];
    assert_eq!(classify(&unknown, &[], &[1, 1, 0, 0, 0, 0, 0], 1), unknown)
}
