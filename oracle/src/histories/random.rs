//! Random histories over few samples, so that they cover, overlap, displace and repeat each other.

use super::dice::Dice;
use crate::compare::History;
use crate::sample::{written, Declarations, Sample, Sort};

/// What the clauses of a history may say of a predicate, so that many stay satisfiable.
#[derive(Clone, Copy)]
enum Hidden {
    AllIn,
    AllOut,
    /// In if the first value is the one sought.
    ByFirst,
}

struct Writer {
    dice: Dice,
    declared: Declarations,
    /// The value that the hidden assignment looks for.
    sought: i64,
    /// The few total vectors of each predicate that samples are made from.
    vectors: Vec<Vec<Vec<i64>>>,
    /// One a predicate; none if clauses are written without regard to satisfiability.
    hidden: Option<Vec<Hidden>>,
    /// Of a hundred calls, so many are forces.
    forces: usize,
}

/// The history of this number.
pub fn history(number: u64) -> History {
    let mut dice = Dice::new(number);
    let predicates = if dice.chance(5) { 16 } else { 1 + dice.below(4) };
    let declared: Declarations = (0..predicates).map(|_| signature(&mut dice)).collect();
    let pools: [&[i64]; 4] = [&[0, 1], &[1, 2, 3], &[-1, 0, 7, 8], &[i64::MIN, i64::MAX, 0]];
    let pool = *dice.pick(&pools);
    let vectors = declared.iter().map(|sorts| some_vectors(&mut dice, sorts, pool)).collect();
    let guided = dice.chance(75);
    let hidden = guided.then(|| {
        let kinds = [Hidden::AllIn, Hidden::AllOut, Hidden::ByFirst, Hidden::ByFirst];
        (0..predicates).map(|_| *dice.pick(&kinds)).collect()
    });
    let longest = if dice.chance(20) { 80 } else { 24 };
    let length = 4 + dice.below(longest);
    let forces = if dice.chance(20) { 15 } else { 2 };
    let mut writer = Writer { dice, declared, sought: pool[0], vectors, hidden, forces };
    writer.write(length)
}

fn signature(dice: &mut Dice) -> Vec<Sort> {
    let positions = *dice.pick(&[0, 1, 1, 2, 2, 2, 3, 3, 4, 5, 6]);
    (0..positions).map(|_| if dice.chance(30) { Sort::Truth } else { Sort::Integer }).collect()
}

/// Two to eight total vectors with values of the pool; some may be equal.
fn some_vectors(dice: &mut Dice, sorts: &[Sort], pool: &[i64]) -> Vec<Vec<i64>> {
    let value = |dice: &mut Dice, sort: &Sort| match sort {
        Sort::Integer => *dice.pick(pool),
        Sort::Truth => dice.below(2) as i64,
    };
    let count = 2 + dice.below(7);
    (0..count).map(|_| sorts.iter().map(|sort| value(dice, sort)).collect()).collect()
}

impl Writer {
    fn write(&mut self, length: usize) -> History {
        let mut history: History = self.declared.iter().map(|sorts| declaration(sorts)).collect();
        for _ in 0..length {
            let line = if self.dice.chance(self.forces) {
                format!("f {} {}", self.pred(), self.dice.below(2))
            } else {
                self.call(&history)
            };
            history.push(line)
        }
        history.push("k".to_string());
        history
    }

    /// Any call but a force.
    fn call(&mut self, history: &History) -> String {
        match self.dice.below(100) {
            0..=20 => self.unit(true),
            21..=35 => self.unit(false),
            36..=70 => self.implication(),
            71..=81 => self.goal(),
            82..=89 => "s".to_string(),
            90..=92 => "k".to_string(),
            93..=97 => format!("q {}", self.pred()),
            98 => self.refused(),
            _ => self.again(history),
        }
    }

    fn pred(&mut self) -> usize {
        self.dice.below(self.declared.len())
    }

    fn sample(&mut self, partial: bool) -> Sample {
        let pred = self.pred();
        let vector = self.dice.pick(&self.vectors[pred]).clone();
        let unknown = |dice: &mut Dice| partial && dice.chance(45);
        let values =
            vector.into_iter().map(|value| (!unknown(&mut self.dice)).then_some(value)).collect();
        Sample { pred: pred as i64, values }
    }

    /// Where the hidden assignment puts a sample; nothing if partly in and partly out.
    fn is_in(&self, sample: &Sample) -> Option<bool> {
        let hidden = self.hidden.as_ref()?;
        match (hidden[sample.pred as usize], sample.values.first()) {
            (Hidden::AllIn, _) => Some(true),
            (Hidden::AllOut, _) | (Hidden::ByFirst, None) => Some(false),
            (Hidden::ByFirst, Some(first)) => first.map(|first| first == self.sought),
        }
    }

    /// A sample that may stand alone with this sign.
    fn unit(&mut self, positive: bool) -> String {
        let partial = self.dice.chance(60);
        let mut sample = self.sample(partial);
        for _ in 0..20 {
            if self.hidden.is_none() || self.is_in(&sample) == Some(positive) {
                break;
            }
            sample = self.sample(partial)
        }
        let text = written(&sample, &self.declared);
        if positive {
            format!("c > {}", text)
        } else {
            format!("c {} > !", text)
        }
    }

    fn implication(&mut self) -> String {
        for _ in 0..20 {
            let (left, right) = (self.left(1), self.sample(false));
            let holds = self.some_out(&left) || self.is_in(&right) == Some(true);
            if self.hidden.is_none() || holds {
                return self.clause(&left, &written(&right, &self.declared));
            }
        }
        "s".to_string()
    }

    fn goal(&mut self) -> String {
        for _ in 0..20 {
            let left = self.left(2);
            if self.hidden.is_none() || self.some_out(&left) {
                return self.clause(&left, "!");
            }
        }
        "s".to_string()
    }

    fn left(&mut self, least: usize) -> Vec<Sample> {
        let most = if self.dice.chance(4) { 16 } else { 4 };
        let count = least + self.dice.below(most - least + 1);
        (0..count).map(|_| self.sample(false)).collect()
    }

    fn some_out(&self, left: &[Sample]) -> bool {
        left.iter().any(|sample| self.is_in(sample) == Some(false))
    }

    fn clause(&self, left: &[Sample], right: &str) -> String {
        let left: String =
            left.iter().map(|sample| written(sample, &self.declared) + " ").collect();
        format!("c {}> {}", left, right)
    }

    /// A line that 01 refuses or cannot read, and the Rust never sees.
    fn refused(&mut self) -> String {
        let partial = written(&self.sample(true), &self.declared);
        match self.dice.below(4) {
            0 => "c > 99:1".to_string(),
            1 => format!("c {} {} > !", partial, partial),
            2 => "q 99".to_string(),
            _ => "c 0:1 >".to_string(),
        }
    }

    /// An earlier line once more.
    fn again(&mut self, history: &History) -> String {
        let calls = &history[self.declared.len()..];
        if calls.is_empty() {
            "s".to_string()
        } else {
            self.dice.pick(calls).clone()
        }
    }
}

pub fn declaration(sorts: &[Sort]) -> String {
    crate::script::line_text(&crate::script::Line::Declare(sorts.to_vec()), &Vec::new())
}
