//! Comparing a script program, run as a process, with the Rust and with the plain reading.

use super::domain::{finds, Compared};
use super::{found, with_rust, Difference, Step};
use crate::plain;
use crate::script::MOST_BYTES;
use std::fs::File;
use std::process::{Command, Stdio};

/// A program that reads a whole script and writes its answers.
pub struct Program {
    pub path: String,
    /// Only what the Rust answered counts: no draws, no refusals, and past the domain only whether
    /// contradiction has been found.
    pub rust_only: bool,
}

impl Program {
    /// Runs a history by all three; the plain steps, or the first difference.
    pub fn agrees(&self, history: &[String], seeds: &[u64]) -> Result<Vec<Step>, Difference> {
        let steps = with_rust(history, seeds)?;
        let answers = answers(&self.run(&script_of(history)));
        let mut by_check = Found { expected: false, got: false };
        for (line, step) in steps.iter().enumerate() {
            let got = answers.get(line).cloned().unwrap_or("(no answer)\n".to_string());
            if matches!(step.compared, Compared::Nothing | Compared::Found) {
                by_check.expected |= finds(&step.answer);
                by_check.got |= code_of(&got).is_some_and(|code| code == "9" || code == "12")
            }
            self.judge(line, step, got, &by_check)?
        }
        if answers.len() > steps.len() && !self.rust_only {
            let got = answers[steps.len()].clone();
            return Err(differs(steps.len(), PLAIN, "(no more answers)\n".to_string(), got));
        }
        Ok(steps)
    }

    fn judge(
        &self,
        line: usize,
        step: &Step,
        got: String,
        by_check: &Found,
    ) -> Result<(), Difference> {
        let expected = step.answer.to_string();
        let against_rust = match step.compared {
            Compared::Whole => without_draws(&expected) != without_draws(&got),
            _ => false,
        };
        if against_rust {
            let rusts = step.answer.without_draws().to_string();
            return Err(differs(line, RUST, rusts, got));
        }
        if step.compared == Compared::Found && by_check.expected != by_check.got {
            return Err(differs(line, RUST, found(by_check.expected), found(by_check.got)));
        }
        if !self.rust_only && expected != got {
            return Err(differs(line, PLAIN, expected, got));
        }
        Ok(())
    }

    /// Runs inputs that are about the whole and not about a line; the first that differs.
    pub fn whole_inputs_agree(&self) -> Result<(), Difference> {
        let no_newline = b"d i\nc > 0:1\ns".to_vec();
        let (most, over) = (vec![b'\n'; MOST_BYTES], vec![b'\n'; MOST_BYTES + 1]);
        let mut long_lines = "c > 0:1 \n".repeat(MOST_BYTES / 9 + 1).into_bytes();
        long_lines.truncate(MOST_BYTES);
        let other_bytes = b"d i\n\xFF\ns\0\ns\r\nq 0".to_vec();
        let inputs = [vec![], b"\n".to_vec(), no_newline, most, over, long_lines, other_bytes];
        for (number, input) in inputs.iter().enumerate() {
            let (expected, got) = (plain::program::run(input), self.run(input));
            if !self.rust_only && expected != got {
                return Err(differs(number, PLAIN, expected, got));
            }
        }
        Ok(())
    }

    /// The program's output. One that does not end in ten seconds is ended.
    pub fn run(&self, input: &[u8]) -> String {
        let script = std::env::temp_dir().join(format!("oracle-script-{}", std::process::id()));
        std::fs::write(&script, input).expect("the script is written");
        let standard_input = File::open(&script).expect("the script is there");
        let ran = Command::new("timeout")
            .args(["10", &self.path])
            .stdin(Stdio::from(standard_input))
            .output();
        let output = ran.expect("`timeout` runs the program");
        std::fs::remove_file(&script).expect("the script is removed");
        String::from_utf8_lossy(&output.stdout).into_owned()
    }
}

/// Whether contradiction has been found since the domain ended; the Rust and the plain reading are
/// known to agree on what is expected.
struct Found {
    expected: bool,
    got: bool,
}

const RUST: &str = "the Rust";
const PLAIN: &str = "the plain reading";

fn differs(line: usize, from: &str, expected: String, got: String) -> Difference {
    Difference { line, between: format!("{} and the program", from), expected, got }
}

/// A history as a whole input.
pub fn script_of(history: &[String]) -> Vec<u8> {
    history.iter().map(|line| line.clone() + "\n").collect::<String>().into_bytes()
}

/// The answers of an output, each with the rows below it.
fn answers(output: &str) -> Vec<String> {
    let mut answers: Vec<String> = Vec::new();
    for line in output.split_inclusive('\n') {
        match answers.last_mut() {
            Some(last) if line.starts_with(['+', '-', '.']) => last.push_str(line),
            _ => answers.push(line.to_string()),
        }
    }
    answers
}

fn code_of(answer: &str) -> Option<&str> {
    answer.split_whitespace().nth(1)
}

fn without_draws(answer: &str) -> &str {
    let (head, _) = answer.trim_end().rsplit_once(' ').unwrap_or((answer, ""));
    if answer.starts_with("s ") {
        head
    } else {
        answer
    }
}
