//! The script language of document 01: one line read, against the declarations so far.

use crate::sample::{written, Declarations, Sample, Sort};

pub const MOST_BYTES: usize = 65_536;
pub const MOST_VALUES: usize = 6;

/// A readable line.
#[derive(Clone, Debug, PartialEq, Eq)]
pub enum Line {
    Declare(Vec<Sort>),
    Add(Clause),
    Settle,
    Check,
    Force { pred: i64, value: bool },
    Show { pred: i64 },
}

#[derive(Clone, Debug, PartialEq, Eq)]
pub struct Clause {
    pub left: Vec<Sample>,
    pub right: Option<Sample>,
}

impl Clause {
    pub fn samples(&self) -> impl Iterator<Item = &Sample> {
        self.left.iter().chain(self.right.iter())
    }
}

/// The lines of an input, or nothing if it is too long. The last newline may lack.
pub fn lines(input: &[u8]) -> Option<Vec<&[u8]>> {
    if input.len() > MOST_BYTES {
        return None;
    }
    let mut lines: Vec<&[u8]> = input.split(|byte| *byte == b'\n').collect();
    if lines.last() == Some(&&b""[..]) {
        lines.pop();
    }
    Some(lines)
}

/// Reads one line; nothing if it is unreadable (`bad`).
pub fn read(line: &[u8], declared: &Declarations) -> Option<Line> {
    let text = std::str::from_utf8(line).ok()?;
    let words: Vec<&str> = text.split(' ').collect();
    match words.as_slice() {
        ["d", word] => Some(Line::Declare(sorts(word)?)),
        ["c", left @ .., ">", right] => clause(left, right, declared),
        ["s"] => Some(Line::Settle),
        ["k"] => Some(Line::Check),
        ["f", pred, value] => Some(Line::Force { pred: number(pred)?, value: truth(value)? }),
        ["q", pred] => Some(Line::Show { pred: number(pred)? }),
        _ => None,
    }
}

fn sorts(word: &str) -> Option<Vec<Sort>> {
    let sort = |letter| match letter {
        'i' => Some(Sort::Integer),
        'b' => Some(Sort::Truth),
        _ => None,
    };
    match word {
        "" => None,
        "-" => Some(Vec::new()),
        _ => word.chars().map(sort).collect(),
    }
}

fn clause(left: &[&str], right: &str, declared: &Declarations) -> Option<Line> {
    let left: Option<Vec<Sample>> = left.iter().map(|word| sample(word, declared)).collect();
    let right = match right {
        "!" => None,
        word => Some(sample(word, declared)?),
    };
    Some(Line::Add(Clause { left: left?, right }))
}

fn sample(word: &str, declared: &Declarations) -> Option<Sample> {
    let (pred, values) = word.split_once(':')?;
    let pred = number(pred)?;
    let values: Vec<Option<i64>> = match values {
        "" => Vec::new(),
        _ => values.split(',').map(value).collect::<Option<_>>()?,
    };
    let positions = usize::try_from(pred).ok().and_then(|pred| declared.get(pred));
    let wrong_number = positions.is_some_and(|sorts| sorts.len() != values.len());
    if values.len() > MOST_VALUES || wrong_number {
        return None;
    }
    Some(Sample { pred, values })
}

/// One value: the outer nothing is unreadable, the inner one unknown.
fn value(word: &str) -> Option<Option<i64>> {
    match word {
        "?" => Some(None),
        "t" => Some(Some(1)),
        "f" => Some(Some(0)),
        _ => number(word).map(Some),
    }
}

fn truth(word: &str) -> Option<bool> {
    match word {
        "0" => Some(false),
        "1" => Some(true),
        _ => None,
    }
}

/// Digits, perhaps after `-`, within i64. (Rust's own reading takes a `+` too.)
fn number(word: &str) -> Option<i64> {
    let digits = word.strip_prefix('-').unwrap_or(word);
    if digits.is_empty() || !digits.bytes().all(|byte| byte.is_ascii_digit()) {
        return None;
    }
    word.parse().ok()
}

/// The line as a script writes it.
pub fn line_text(line: &Line, declared: &Declarations) -> String {
    match line {
        Line::Declare(sorts) if sorts.is_empty() => "d -".to_string(),
        Line::Declare(sorts) => {
            let letter = |sort: &Sort| if *sort == Sort::Integer { 'i' } else { 'b' };
            format!("d {}", sorts.iter().map(letter).collect::<String>())
        }
        Line::Add(clause) => {
            let left: String =
                clause.left.iter().map(|sample| written(sample, declared) + " ").collect();
            let right = clause.right.as_ref().map(|sample| written(sample, declared));
            format!("c {}> {}", left, right.unwrap_or("!".to_string()))
        }
        Line::Settle => "s".to_string(),
        Line::Check => "k".to_string(),
        Line::Force { pred, value } => format!("f {} {}", pred, u8::from(*value)),
        Line::Show { pred } => format!("q {}", pred),
    }
}
