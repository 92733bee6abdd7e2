//! `oracle/record`: writes the recorded lists in oracle/recorded. How they are chosen and written is
//! told in oracle/recorded/README.md.

use oracle::compare::domain::Compared;
use oracle::compare::{plain_steps, with_rust, History, Step};
use oracle::histories::{boundary, exhaustive::ALPHABETS, random, refused};
use oracle::script::Line;
use std::collections::BTreeSet;
use std::fmt::Write;

const SEEDS: [u64; 8] = [0, 1, 2, 3, 4, 5, 6, 7];

fn main() {
    oracle::rust::hush();
    let exhaustive = ALPHABETS.iter().flat_map(|alphabet| alphabet.all(4));
    let candidates =
        exhaustive.chain(boundary::histories(0)).chain((0..30_000).map(random::history));
    let mut rusts = Recorded::new(1_500_000, true);
    rusts.take_all(candidates.map(|history| shown_at_the_end(inside_the_domain(history))));
    rusts.save("oracle/recorded/histories.txt");

    let mut ours = Recorded::new(300_000, false);
    ours.take_all((0..5_000).map(refused::history).map(shown_at_the_end));
    ours.save("oracle/recorded/ours.txt")
}

/// Cut after the check that follows the end of the domain, or at a refusal that ends it.
fn inside_the_domain(mut history: History) -> History {
    let (_, steps) = plain_steps(&history);
    let last = |step: &Step| matches!(step.compared, Compared::Found | Compared::Over);
    if let Some(end) = steps.iter().position(last) {
        history.truncate(end + 1)
    }
    history
}

fn shown_at_the_end(mut history: History) -> History {
    let (declared, _) = plain_steps(&history);
    history.extend((0..declared.len()).map(|pred| format!("q {}", pred)));
    history
}

/// A list that grows by histories that show something new, up to a size in bytes.
struct Recorded {
    text: String,
    most_bytes: usize,
    /// Whether the list claims anything for the Rust.
    for_rust: bool,
    count: usize,
    seen: BTreeSet<(String, String)>,
}

impl Recorded {
    fn new(most_bytes: usize, for_rust: bool) -> Self {
        Recorded { text: String::new(), most_bytes, for_rust, count: 0, seen: BTreeSet::new() }
    }

    fn take_all(&mut self, histories: impl Iterator<Item = History>) {
        for history in histories {
            let steps = with_rust(&history, &SEEDS).unwrap_or_else(|difference| {
                panic!("a difference, nothing can be recorded: {:?}", difference)
            });
            let features: Vec<String> = features(&steps);
            let pairs: Vec<(String, String)> =
                features.windows(2).map(|pair| (pair[0].clone(), pair[1].clone())).collect();
            let inside = if self.for_rust { lines_inside(&steps) } else { 0 };
            let entry = entry(self.count + 1, inside, &history, &steps);
            let room = self.text.len() + entry.len() <= self.most_bytes;
            if room && pairs.iter().any(|pair| !self.seen.contains(pair)) {
                self.seen.extend(pairs);
                self.text += &entry;
                self.count += 1
            }
        }
    }

    fn save(&self, path: &str) {
        std::fs::write(path, &self.text).expect("the list is written");
        let bytes = self.text.len();
        println!("{}: {} histories, {} pairs, {} bytes", path, self.count, self.seen.len(), bytes)
    }
}

/// How many lines come before the end of the domain: the Rust answered these too, but for
/// declarations, refusals and draws.
fn lines_inside(steps: &[Step]) -> usize {
    let outside = |step: &Step| !matches!(step.compared, Compared::Whole | Compared::OursAlone);
    steps.iter().position(outside).unwrap_or(steps.len())
}

/// Header, input, `=`, output. The header tells number, input lines, output lines, and how many of
/// the first input lines are inside the domain.
fn entry(number: usize, inside: usize, history: &History, steps: &[Step]) -> String {
    let output: String = steps.iter().map(|step| step.answer.to_string()).collect();
    let mut entry = String::new();
    let lines = output.lines().count();
    writeln!(entry, "#{} {} {} {}", number, history.len(), lines, inside).expect("written");
    for line in history {
        entry += &(line.clone() + "\n")
    }
    entry + "=\n" + &output
}

/// What each step shows: the shape of the call, its answer, and which sets grew or shrank.
fn features(steps: &[Step]) -> Vec<String> {
    let mut before = [0; 5];
    let mut features = Vec::new();
    for step in steps {
        let change = |i: usize| match step.sizes[i] as i64 - before[i] as i64 {
            0 => '=',
            1 => '+',
            -1 => '-',
            more if more > 0 => '#',
            _ => '_',
        };
        let changes: String = (0..5).map(change).collect();
        let answer = step.answer.to_string();
        let head: String = answer.split_whitespace().take(3).collect();
        features.push(format!("{} {} {} {:?}", shape(step), head, changes, step.compared));
        before = step.sizes
    }
    features
}

fn shape(step: &Step) -> String {
    match &step.line {
        Some(Line::Add(clause)) => {
            let partial = clause.samples().any(|sample| sample.is_partial());
            format!("{}>{} {}", clause.left.len().min(3), clause.right.is_some(), partial)
        }
        Some(Line::Force { value, .. }) => value.to_string(),
        _ => String::new(),
    }
}
