//! What a script program answers to one line, and how it is written.

use crate::sample::{written, Declarations, Sample};
use std::fmt;

/// The number beside the letter. Only the Rust's own store can fail in another way.
#[derive(Clone, Debug, PartialEq, Eq)]
pub enum Code {
    Number(u8),
    Error(String),
    Panic,
}

pub const DONE: Code = Code::Number(0);
pub const CONTRADICTION: Code = Code::Number(9);
pub const CLASH: Code = Code::Number(12);

impl fmt::Display for Code {
    fn fmt(&self, f: &mut fmt::Formatter) -> fmt::Result {
        match self {
            Code::Number(number) => write!(f, "{}", number),
            Code::Error(_) => write!(f, "error"),
            Code::Panic => write!(f, "panic"),
        }
    }
}

#[derive(Clone, Debug, PartialEq, Eq)]
pub enum Answer {
    Bad,
    Declared {
        code: Code,
        pred: usize,
    },
    Added {
        code: Code,
        new: bool,
    },
    /// The Rust does not count draws.
    Settled {
        code: Code,
        positives: usize,
        negatives: usize,
        draws: Option<usize>,
    },
    Checked {
        code: Code,
    },
    Forced {
        code: Code,
    },
    Shown {
        code: Code,
        positives: Vec<String>,
        negatives: Vec<String>,
        unclassified: Vec<String>,
    },
}

impl Answer {
    pub fn code(&self) -> Option<&Code> {
        match self {
            Answer::Bad => None,
            Answer::Declared { code, .. }
            | Answer::Added { code, .. }
            | Answer::Settled { code, .. }
            | Answer::Checked { code }
            | Answer::Forced { code }
            | Answer::Shown { code, .. } => Some(code),
        }
    }

    /// The same answer with the draws left out: what can be compared with the Rust.
    pub fn without_draws(&self) -> Answer {
        let mut same = self.clone();
        if let Answer::Settled { draws, .. } = &mut same {
            *draws = None
        }
        same
    }
}

/// The written lines of samples.
pub fn shown<'a>(
    samples: impl Iterator<Item = &'a Sample>,
    declared: &Declarations,
) -> Vec<String> {
    samples.map(|sample| written(sample, declared)).collect()
}

impl fmt::Display for Answer {
    fn fmt(&self, f: &mut fmt::Formatter) -> fmt::Result {
        match self {
            Answer::Bad => writeln!(f, "bad"),
            Answer::Declared { code, pred } => writeln!(f, "d {} {}", code, pred),
            Answer::Added { code, new } => writeln!(f, "c {} {}", code, u8::from(*new)),
            Answer::Settled { code, positives, negatives, draws } => {
                let draws = draws.map_or("-".to_string(), |draws| draws.to_string());
                writeln!(f, "s {} {} {} {}", code, positives, negatives, draws)
            }
            Answer::Checked { code } => writeln!(f, "k {}", code),
            Answer::Forced { code } => writeln!(f, "f {}", code),
            Answer::Shown { code, positives, negatives, unclassified } => {
                let groups = [('+', positives), ('-', negatives), ('.', unclassified)];
                let [a, b, c] = groups.map(|(_, rows)| rows.len());
                writeln!(f, "q {} {} {} {}", code, a, b, c)?;
                for (sign, rows) in groups {
                    for row in rows {
                        writeln!(f, "{} {}", sign, row)?
                    }
                }
                Ok(())
            }
        }
    }
}
