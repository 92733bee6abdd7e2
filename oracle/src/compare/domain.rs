//! Document 01's domain of the equality: what of each line is compared with the Rust.

use crate::answer::{Answer, Code};
use crate::plain::{program, Store};
use crate::satisfying::{force_satisfiable, Asked};
use crate::script::Line;

/// What of a line's answer counts against the Rust.
#[derive(Clone, Copy, Debug, PartialEq, Eq)]
pub enum Compared {
    /// The answer but for draws, and the contents after it.
    Whole,
    /// A line that 01 answers by itself: a declaration, `bad`, a refusal. The Rust is not called.
    OursAlone,
    /// A check after the end: whether contradiction has been found by then.
    Found,
    /// The Rust is called, nothing is compared.
    Nothing,
    /// Past the last call that is compared. The Rust is not called.
    Over,
}

enum State {
    Inside,
    /// No assignment satisfies what is held.
    Unsatisfiable,
    Over,
}

pub struct Domain {
    state: State,
}

impl Domain {
    pub fn new() -> Self {
        Domain { state: State::Inside }
    }

    /// The line about to be carried out on this store; nothing stands for an unreadable one.
    pub fn next(&mut self, store: &Store, line: Option<&Line>) -> Compared {
        if let State::Over = self.state {
            return Compared::Over;
        }
        let Some(line) = line else {
            return Compared::OursAlone;
        };
        match refusal(store, line) {
            Some(5 | 6 | 7 | 10) => {
                self.state = State::Over;
                return Compared::OursAlone;
            }
            Some(_) => return Compared::OursAlone,
            None => (),
        }
        if let Line::Declare(_) = line {
            return Compared::OursAlone;
        }
        match self.state {
            State::Inside if satisfiable_with(store, line) => Compared::Whole,
            State::Inside => {
                self.state = State::Unsatisfiable;
                Compared::Nothing
            }
            _ => self.after_the_end(line),
        }
    }

    fn after_the_end(&mut self, line: &Line) -> Compared {
        match line {
            Line::Check => Compared::Found,
            Line::Force { .. } => {
                self.state = State::Over;
                Compared::Nothing
            }
            _ => Compared::Nothing,
        }
    }
}

/// The refusal that this line meets, the mark left aside.
fn refusal(store: &Store, line: &Line) -> Option<u8> {
    let mut unmarked = Store { marked: false, ..store.clone() };
    match program::carry_out(&mut unmarked, line).code() {
        Some(Code::Number(code @ (1..=7 | 10))) => Some(*code),
        _ => None,
    }
}

/// What is held satisfies some assignment; a clause being added and a force's losses count.
fn satisfiable_with(store: &Store, line: &Line) -> bool {
    match line {
        Line::Add(clause) => Asked::of(&store.contents()).and(clause).satisfiable(),
        Line::Force { pred, value } => force_satisfiable(store, *pred, *value),
        _ => true,
    }
}

/// True if this answer says that contradiction has been found: an error or a check.
pub fn finds(answer: &Answer) -> bool {
    matches!(answer.code(), Some(Code::Number(9 | 12)))
}
