//! Histories to compare by: all short ones over small alphabets, random ones, and boundaries.

pub mod boundary;
pub mod dice;
pub mod exhaustive;
pub mod random;
pub mod refused;

use crate::compare::History;

/// Longer histories are shown at every sixteenth call only: the output would be very long.
const SHOWN_AT_EVERY_CALL: usize = 100;

/// The history with a `q` of every predicate after its calls.
pub fn with_shows(history: &History) -> History {
    let every = if history.len() <= SHOWN_AT_EVERY_CALL { 1 } else { 16 };
    let mut shown = History::new();
    let mut predicates = 0;
    for (number, line) in history.iter().enumerate() {
        shown.push(line.clone());
        if line.starts_with("d ") {
            predicates = (predicates + 1).min(16)
        } else if number % every == 0 || number + 1 == history.len() {
            shown.extend((0..predicates).map(|pred| format!("q {}", pred)))
        }
    }
    shown
}
