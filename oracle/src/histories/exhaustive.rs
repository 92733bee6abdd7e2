//! All histories of a given length over four small alphabets, each ended by a check.

use crate::compare::History;

pub struct Alphabet {
    pub name: &'static str,
    declarations: &'static [&'static str],
    calls: &'static [&'static str],
}

pub const ALPHABETS: [Alphabet; 4] = [
    Alphabet {
        name: "two predicates of one integer",
        declarations: &["d i", "d i"],
        calls: &[
            "c > 0:1",
            "c > 0:?",
            "c 0:1 > !",
            "c 1:1 > !",
            "c 0:1 > 1:1",
            "c 1:1 > 0:2",
            "c 0:1 0:2 > !",
            "c 0:1 0:2 > 1:1",
            "s",
            "k",
            "f 0 0",
            "f 0 1",
        ],
    },
    Alphabet {
        name: "partial samples of an integer and a truth value",
        declarations: &["d ib"],
        calls: &[
            "c > 0:1,?",
            "c > 0:?,t",
            "c > 0:1,t",
            "c 0:2,? > !",
            "c 0:?,f > !",
            "c 0:1,t > 0:2,f",
            "c 0:1,f > 0:1,t",
            "c 0:2,f 0:1,f > !",
            "c 0:2,t 0:1,f > 0:1,t",
            "s",
            "k",
            "f 0 1",
        ],
    },
    Alphabet {
        name: "three predicates of no position",
        declarations: &["d -", "d -", "d -"],
        calls: &[
            "c > 0:",
            "c 1: > !",
            "c 0: > 1:",
            "c 1: > 2:",
            "c 0: 1: > 2:",
            "c 0: 1: > !",
            "c 0: 1: 2: > !",
            "c 0: 2: > !",
            "s",
            "f 1 0",
            "f 1 1",
        ],
    },
    Alphabet {
        name: "draws and forces that make constraints redundant",
        declarations: &["d i", "d i"],
        calls: &[
            "c 0:1 1:1 > 1:3",
            "c 1:1 1:2 > 1:3",
            "c 1:1 1:2 > 0:1",
            "c 1:1 1:2 1:3 > !",
            "c 0:1 1:1 1:2 > !",
            "c > 0:1",
            "c > 1:2",
            "c 1:3 > !",
            "s",
            "f 0 0",
            "f 0 1",
        ],
    },
];

impl Alphabet {
    /// How many histories of this length there are.
    pub fn count(&self, length: u32) -> usize {
        self.calls.len().pow(length)
    }

    /// The history with this number, its calls being the number's digits.
    pub fn history(&self, length: u32, mut number: usize) -> History {
        let mut history: History = self.declarations.iter().map(|line| line.to_string()).collect();
        for _ in 0..length {
            history.push(self.calls[number % self.calls.len()].to_string());
            number /= self.calls.len()
        }
        history.push("k".to_string());
        history
    }

    /// Every history of this length; shorter ones are their beginnings.
    pub fn all(&self, length: u32) -> impl Iterator<Item = History> + '_ {
        (0..self.count(length)).map(move |number| self.history(length, number))
    }
}
