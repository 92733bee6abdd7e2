//! Histories with lines that document 01 refuses or cannot read, also on marked stores. The Rust has
//! no such answers.

use super::dice::Dice;
use super::random;
use crate::compare::History;

/// Lines that are refused or unreadable whatever is declared (but for the fifth: one predicate more).
const LINES: [&str; 30] = [
    "d iiiiiii",
    "d -i",
    "d",
    "d x",
    "d bi",
    "q 16",
    "q -1",
    "q",
    "f 16 0",
    "f -1 1",
    "f 0 2",
    "f 0 01",
    "c > 16:1",
    "c > -1:",
    "c 77: > !",
    "c > 99:1,2,3,4,5,6,7",
    "c >",
    "c",
    "c ! > 0:",
    "c > !",
    "c > 0:9223372036854775808",
    "c > 0:+1",
    "c > 0:--1",
    "s s",
    "S",
    "k ",
    " k",
    "",
    "w",
    "c > 0;1",
];

/// A random history with such lines put in.
pub fn history(number: u64) -> History {
    let mut dice = Dice::new(number ^ 0x5EED);
    let mut mixed = History::new();
    for line in random::history(number) {
        while dice.chance(15) {
            mixed.push(unusual(&mut dice, &line))
        }
        mixed.push(line)
    }
    mixed
}

fn unusual(dice: &mut Dice, line: &str) -> String {
    match dice.below(10) {
        0 => line.replacen(' ', "  ", 1),
        1 => format!("{} ", line),
        2 => line.replacen(',', ",?,", 1),
        3 => line.replacen(['0', '1'], "?", 1),
        4 => line.replacen('t', "7", 1),
        5 => line.replacen("c ", &format!("c {}", "0:5 ".repeat(17)), 1),
        _ => dice.pick(&LINES).to_string(),
    }
}
