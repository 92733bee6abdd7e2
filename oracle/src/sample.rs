//! Samples of document 01: covering, overlapping, singles and the order.

/// A predicate and its positions, each unknown or a value.
/// The derived order is 01's: by predicate, then by position, unknown first, then rising value.
#[derive(Clone, Debug, PartialEq, Eq, PartialOrd, Ord)]
pub struct Sample {
    pub pred: i64,
    pub values: Vec<Option<i64>>,
}

impl Sample {
    pub fn covers(&self, other: &Sample) -> bool {
        self.pred == other.pred
            && self.pairs(other).all(|(mine, theirs)| mine.is_none() || mine == theirs)
    }

    pub fn overlaps(&self, other: &Sample) -> bool {
        self.pred == other.pred
            && self
                .pairs(other)
                .all(|(mine, theirs)| mine.is_none() || theirs.is_none() || mine == theirs)
    }

    pub fn is_single(&self) -> bool {
        let known = self.values.iter().filter(|value| value.is_some()).count();
        self.values.len() > 1 && known == 1
    }

    pub fn is_partial(&self) -> bool {
        self.values.iter().any(|value| value.is_none())
    }

    fn pairs<'a>(
        &'a self,
        other: &'a Sample,
    ) -> impl Iterator<Item = (&'a Option<i64>, &'a Option<i64>)> {
        self.values.iter().zip(other.values.iter())
    }
}

/// The sort of a position.
#[derive(Clone, Copy, Debug, PartialEq, Eq)]
pub enum Sort {
    Integer,
    Truth,
}

/// The sorts of each declared predicate.
pub type Declarations = Vec<Vec<Sort>>;

/// The sample as a script writes it, truth values as `t` and `f` where the sort says so.
pub fn written(sample: &Sample, declared: &Declarations) -> String {
    let sorts = usize::try_from(sample.pred).ok().and_then(|pred| declared.get(pred));
    let value = |(i, value): (usize, &Option<i64>)| {
        let truth = sorts.and_then(|sorts| sorts.get(i)) == Some(&Sort::Truth);
        match value {
            None => "?".to_string(),
            Some(0) if truth => "f".to_string(),
            Some(1) if truth => "t".to_string(),
            Some(number) => number.to_string(),
        }
    };
    let values: Vec<String> = sample.values.iter().enumerate().map(value).collect();
    format!("{}:{}", sample.pred, values.join(","))
}
