//! A history without one of its predicates, the later ones renumbered.

use super::History;
use crate::sample::{Declarations, Sample};
use crate::script::{line_text, read, Clause, Line};

/// Nothing if a line names the predicate or cannot be read.
pub fn without_predicate(history: &History, gone: i64) -> Option<History> {
    let (mut before, mut after) = (Declarations::new(), Declarations::new());
    let mut fewer = History::new();
    for text in history {
        let line = read(text.as_bytes(), &before)?;
        if let Line::Declare(sorts) = &line {
            before.push(sorts.clone());
            if before.len() as i64 == gone + 1 {
                continue;
            }
            after.push(sorts.clone())
        }
        fewer.push(line_text(&renumbered(line, gone)?, &after))
    }
    Some(fewer)
}

fn renumbered(line: Line, gone: i64) -> Option<Line> {
    let number = |pred: i64| match pred {
        _ if pred == gone => None,
        _ if pred > gone => Some(pred - 1),
        _ => Some(pred),
    };
    let sample =
        |sample: Sample| Some(Sample { pred: number(sample.pred)?, values: sample.values });
    Some(match line {
        Line::Add(Clause { left, right }) => Line::Add(Clause {
            left: left.into_iter().map(sample).collect::<Option<_>>()?,
            right: match right {
                Some(right) => Some(sample(right)?),
                None => None,
            },
        }),
        Line::Force { pred, value } => Line::Force { pred: number(pred)?, value },
        Line::Show { pred } => Line::Show { pred: number(pred)? },
        other => other,
    })
}
