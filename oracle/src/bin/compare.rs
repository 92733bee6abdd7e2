//! `oracle/compare [options] [PROGRAM]`: compares a script program with the Rust over many
//! histories and orders of its sets, and tells the first difference, shrunk. Without PROGRAM the
//! plain reading is compared in this process, whole contents included.

use oracle::compare::domain::Compared;
use oracle::compare::outside::Program;
use oracle::compare::shrink::shrink;
use oracle::compare::{with_rust, Difference, History, Step};
use oracle::histories::{boundary, exhaustive::ALPHABETS, random, refused, with_shows};
use std::time::Instant;

const USAGE: &str = "oracle/compare [--length N] [--random N] [--first N] [--refused N] \
                     [--boundary N] [--seeds N] [--rust-only] [PROGRAM]";

struct Options {
    /// Length of the exhaustive histories.
    length: u32,
    /// How many random histories, and the number of the first.
    random: u64,
    first: u64,
    /// How many random histories with refused and unreadable lines put in.
    refused: u64,
    /// How many times the boundary histories, each time in another order.
    boundary: u64,
    seeds: u64,
    program: Option<Program>,
}

fn main() {
    oracle::rust::hush();
    let Some(options) = options() else {
        eprintln!("{}", USAGE);
        std::process::exit(2)
    };
    let started = Instant::now();
    let mut tally = Tally::default();
    let found = all_histories(&options).find_map(|(kind, history)| {
        let outcome = options.compare(&history);
        if let Ok(steps) = &outcome {
            tally.count(steps, options.seeds)
        }
        outcome.err().map(|difference| (kind, history, difference))
    });
    println!("{}, {} s", tally.text(options.seeds), started.elapsed().as_secs());
    match found {
        None => whole_inputs(&options),
        Some((kind, history, difference)) => {
            report(kind, &options, history, difference);
            std::process::exit(1)
        }
    }
}

/// The last step of a run without a difference.
fn whole_inputs(options: &Options) {
    let outcome = options.program.as_ref().map_or(Ok(()), |program| program.whole_inputs_agree());
    match outcome {
        Ok(()) => println!("no difference"),
        Err(difference) => {
            println!("difference between {}, on a whole input: see", difference.between);
            println!(
                "whole_inputs_agree in oracle/src/compare/outside.rs, number {}",
                difference.line
            );
            std::process::exit(1)
        }
    }
}

impl Options {
    fn seeds(&self) -> Vec<u64> {
        (0..self.seeds).collect()
    }

    fn compare(&self, history: &History) -> Result<Vec<Step>, Difference> {
        match &self.program {
            Some(program) => program.agrees(history, &self.seeds()),
            None => with_rust(history, &self.seeds()),
        }
    }
}

/// Every history of a run. A program's contents are compared through `q`, so `q` lines are put in.
fn all_histories(options: &Options) -> impl Iterator<Item = (&'static str, History)> + '_ {
    let exhaustive = ALPHABETS
        .iter()
        .flat_map(|alphabet| alphabet.all(options.length).map(|history| (alphabet.name, history)));
    let boundary =
        (0..options.boundary).flat_map(boundary::histories).map(|history| ("boundaries", history));
    let numbered = |count| options.first..options.first + count;
    let random = numbered(options.random).map(|number| ("random", random::history(number)));
    let refused = numbered(options.refused)
        .map(|number| ("random, with refused lines", refused::history(number)));
    let shows = options.program.is_some();
    let all = exhaustive.chain(boundary).chain(random).chain(refused);
    all.map(move |(kind, history)| (kind, if shows { with_shows(&history) } else { history }))
}

#[derive(Default)]
struct Tally {
    histories: usize,
    inside: usize,
    checks_after: usize,
}

impl Tally {
    fn count(&mut self, steps: &[Step], seeds: u64) {
        let number = |kind| steps.iter().filter(|step| step.compared == kind).count();
        self.histories += 1;
        if seeds > 0 {
            self.inside += number(Compared::Whole);
            self.checks_after += number(Compared::Found)
        }
    }

    fn text(&self, seeds: u64) -> String {
        format!(
            "{} histories, {} calls inside the domain and {} checks after it, each under {} seeds",
            self.histories, self.inside, self.checks_after, seeds
        )
    }
}

fn report(kind: &str, options: &Options, history: History, difference: Difference) {
    let differs = |attempt: &History| {
        options.compare(attempt).err().filter(|found| found.between == difference.between)
    };
    let (script, smallest) = shrink(history, difference.clone(), &differs);
    println!("difference between {} ({}), at the last line of:", smallest.between, kind);
    for line in script {
        println!("  {}", line)
    }
    println!("expected:\n{}\ngot:\n{}", smallest.expected.trim_end(), smallest.got.trim_end())
}

/// The options of the command line. A program is run as a process, so fewer histories are usual.
fn options() -> Option<Options> {
    let words: Vec<String> = std::env::args().skip(1).collect();
    let mut rust_only = false;
    let mut path = None;
    let mut numbers = std::collections::BTreeMap::new();
    let mut rest = words.iter();
    while let Some(word) = rest.next() {
        match word.strip_prefix("--") {
            Some("rust-only") => rust_only = true,
            Some(name @ ("length" | "random" | "first" | "refused" | "boundary" | "seeds")) => {
                numbers.insert(name, rest.next()?.parse::<u64>().ok()?);
            }
            Some(_) => return None,
            None => path = Some(word.clone()),
        }
    }
    let (length, random) = if path.is_some() { (3, 2_000) } else { (4, 60_000) };
    let number = |name: &str, usual: u64| numbers.get(name).copied().unwrap_or(usual);
    Some(Options {
        length: number("length", length) as u32,
        random: number("random", random),
        first: number("first", 0),
        refused: number("refused", 500),
        boundary: number("boundary", 3),
        seeds: number("seeds", 4),
        program: path.map(|path| Program { path, rust_only }),
    })
}
