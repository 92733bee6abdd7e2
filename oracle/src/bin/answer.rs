//! `oracle/answer < script`: the script program on the Rust's own store. SEED chooses the order of
//! its sets (0 if not given).

use std::io::Read;

fn main() {
    let seed = std::env::var("SEED").ok().map_or(0, |text| text.parse().expect("SEED is a number"));
    let mut input = Vec::new();
    std::io::stdin().read_to_end(&mut input).expect("standard input");
    oracle::rust::hush();
    print!("{}", oracle::rust::program::run(&input, seed))
}
