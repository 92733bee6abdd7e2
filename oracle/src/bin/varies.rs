//! `oracle/varies < script`: the Rust's outputs under sixteen orders of its sets, each different one
//! with the seeds that give it.

use oracle::rust::program::run;
use std::io::Read;

const SEEDS: u64 = 16;

fn main() {
    let mut script = Vec::new();
    std::io::stdin().read_to_end(&mut script).expect("standard input");
    oracle::rust::hush();
    let mut outputs: Vec<(Vec<u64>, String)> = Vec::new();
    for seed in 0..SEEDS {
        let output = run(&script, seed);
        match outputs.iter_mut().find(|(_, other)| *other == output) {
            Some((seeds, _)) => seeds.push(seed),
            None => outputs.push((vec![seed], output)),
        }
    }
    for (seeds, output) in outputs {
        println!("seeds {:?}:\n{}", seeds, output.trim_end())
    }
}
