//! Shrinking: the fewest lines, and the shortest clauses, that still differ.

use super::renumber::without_predicate;
use super::{Difference, History};

type Differs<'a> = &'a dyn Fn(&History) -> Option<Difference>;

/// Takes away lines, left samples and predicates as long as a difference remains.
pub fn shrink(history: History, difference: Difference, differs: Differs) -> (History, Difference) {
    let mut shrunk = Shrunk { history, difference };
    shrunk.cut();
    loop {
        let before = shrunk.history.clone();
        shrunk.drop_lines(differs);
        shrunk.drop_left_samples(differs);
        shrunk.drop_predicates(differs);
        shrunk.settle_instead(differs);
        if shrunk.history == before {
            return (shrunk.history, shrunk.difference);
        }
    }
}

/// A history that ends at its difference.
struct Shrunk {
    history: History,
    difference: Difference,
}

impl Shrunk {
    fn cut(&mut self) {
        self.history.truncate(self.difference.line + 1)
    }

    /// Takes the attempt if it still differs.
    fn take(&mut self, attempt: History, differs: Differs) -> bool {
        let Some(difference) = differs(&attempt) else {
            return false;
        };
        *self = Shrunk { history: attempt, difference };
        self.cut();
        true
    }

    /// Leaves out runs of lines from the end to the beginning, long runs first.
    fn drop_lines(&mut self, differs: Differs) {
        let mut run = self.history.len() / 2;
        while run > 0 {
            let mut end = self.history.len() - 1;
            while end > 0 {
                let start = end.saturating_sub(run);
                let mut attempt = self.history.clone();
                attempt.drain(start..end);
                self.take(attempt, differs);
                end = start.min(self.history.len() - 1)
            }
            run /= 2
        }
    }

    fn drop_left_samples(&mut self, differs: Differs) {
        for line in 0..self.history.len() {
            let mut word = 1;
            while let Some(attempt) = self.without_left_sample(line, word) {
                if !self.take(attempt, differs) {
                    word += 1
                }
            }
        }
    }

    fn drop_predicates(&mut self, differs: Differs) {
        let declared = self.history.iter().filter(|line| line.starts_with("d ")).count();
        for pred in (0..declared as i64).rev() {
            if let Some(attempt) = without_predicate(&self.history, pred) {
                self.take(attempt, differs);
            }
        }
    }

    /// Clauses that only made the store settle, and checks, become a plain `s`.
    fn settle_instead(&mut self, differs: Differs) {
        for line in 0..self.history.len() {
            let replaceable = |text: &String| text.starts_with("c ") || text == "k";
            if self.history.get(line).is_some_and(replaceable) {
                let mut attempt = self.history.clone();
                attempt[line] = "s".to_string();
                self.take(attempt, differs);
            }
        }
    }

    fn without_left_sample(&self, line: usize, word: usize) -> Option<History> {
        let mut words: Vec<&str> = self.history.get(line)?.split(' ').collect();
        if words[0] != "c" || word + 2 >= words.len() {
            return None;
        }
        words.remove(word);
        let mut attempt = self.history.clone();
        attempt[line] = words.join(" ");
        Some(attempt)
    }
}
