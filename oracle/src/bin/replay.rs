//! `oracle/replay PROGRAM`: runs a script program on both recorded lists and compares whole outputs.

use oracle::compare::outside::{script_of, Program};

fn main() {
    let path = std::env::args().nth(1).expect("oracle/replay PROGRAM");
    let program = Program { path, rust_only: false };
    let mut wrong = 0;
    for list in ["oracle/recorded/histories.txt", "oracle/recorded/ours.txt"] {
        let text = std::fs::read_to_string(list).expect("a recorded list");
        let mut lines = text.lines();
        let mut histories = 0;
        while let Some(header) = lines.next() {
            let counts: Vec<usize> =
                header[1..].split(' ').map(|word| word.parse().expect("a number")).collect();
            let mut next =
                |count| -> Vec<String> { lines.by_ref().take(count).map(str::to_string).collect() };
            let (input, parting, output) = (next(counts[1]), next(1), next(counts[2]));
            assert_eq!(parting, ["="], "{}", header);
            histories += 1;
            if program.run(&script_of(&input)).into_bytes() != script_of(&output) {
                println!("{}: {} differs", list, header);
                wrong += 1
            }
        }
        println!("{}: {} histories run", list, histories)
    }
    println!("{} differ", wrong);
    std::process::exit((wrong > 0).into())
}
