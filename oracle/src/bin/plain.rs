//! `oracle/plain < script`: the script program of document 01 by the plain reading.

use std::io::Read;

fn main() {
    oracle::plain::mistake::choose_from_environment();
    let mut input = Vec::new();
    std::io::stdin().read_to_end(&mut input).expect("standard input");
    print!("{}", oracle::plain::program::run(&input))
}
