//! Histories at the sizes of document 01: 16 left rows, 256 samples, 128 constraints, 16
//! predicates, and stores with the contradiction mark.

use super::dice::Dice;
use crate::compare::History;

/// All of them; the seed only turns the order in which samples are handed in.
pub fn histories(seed: u64) -> Vec<History> {
    let mut dice = Dice::new(seed);
    vec![
        left_rows(&mut dice, 16),
        left_rows(&mut dice, 17),
        equal_left_rows(),
        left_rows_by_one_partial(&mut dice),
        samples(&mut dice, 256),
        samples(&mut dice, 257),
        samples_displaced(&mut dice),
        samples_after_force(),
        constraints(&mut dice, 128),
        constraints(&mut dice, 129),
        constraints_freed(&mut dice),
        chain(&mut dice),
        nested(&mut dice),
        predicates(),
        six_positions(&mut dice),
        marked_by_settling(),
        marked_by_adding(),
        marked_by_force(),
        clash_without_mark(),
    ]
}

fn script(declarations: &[&str], lines: impl IntoIterator<Item = String>) -> History {
    declarations.iter().map(|line| line.to_string()).chain(lines).collect()
}

fn lines(texts: &[&str]) -> Vec<String> {
    texts.iter().map(|text| text.to_string()).collect()
}

/// The numbers 0 to `count` - 1 in some order.
fn mixed(dice: &mut Dice, count: usize) -> Vec<usize> {
    let mut numbers: Vec<usize> = (0..count).collect();
    for i in (1..count).rev() {
        numbers.swap(i, dice.below(i + 1))
    }
    numbers
}

fn left_of(numbers: &[usize]) -> String {
    numbers.iter().map(|number| format!("0:{} ", number)).collect()
}

fn left_rows(dice: &mut Dice, count: usize) -> History {
    let numbers = mixed(dice, count);
    let mut calls = vec![format!("c {}> 1:5", left_of(&numbers)), "q 0".to_string()];
    calls.extend(mixed(dice, count).iter().map(|number| format!("c > 0:{}", number)));
    calls.extend(lines(&["s", "q 0", "q 1", "k"]));
    script(&["d i", "d i"], calls)
}

fn equal_left_rows() -> History {
    let same = "0:3 ".repeat(16);
    let calls = [format!("c {}> !", same), format!("c {}> 0:4", same), "s".to_string()];
    script(&["d i"], calls.into_iter().chain(lines(&["q 0", "k"])))
}

fn left_rows_by_one_partial(dice: &mut Dice) -> History {
    let first = left_of(&mixed(dice, 16));
    let second = left_of(&mixed(dice, 15));
    let calls = [format!("c {}> 1:1", first), format!("c {}> 1:2", second), "q 0".to_string()];
    let end = lines(&["c > 0:?", "s", "q 0", "q 1", "k"]);
    script(&["d i", "d i"], calls.into_iter().chain(end))
}

fn samples(dice: &mut Dice, count: usize) -> History {
    let sign = |number: &usize| match number % 2 {
        0 => format!("c > 0:{}", number),
        _ => format!("c 0:{} > !", number),
    };
    let mut calls: History = mixed(dice, count).iter().map(sign).collect();
    calls.extend(lines(&["s", "q 0", "c > 0:0", "c > 0:?", "k"]));
    script(&["d i"], calls)
}

fn samples_displaced(dice: &mut Dice) -> History {
    let mut calls: History =
        mixed(dice, 255).iter().map(|number| format!("c > 0:{},{}", number % 5, number)).collect();
    calls.extend(lines(&["s", "c > 0:1,?", "s", "c > 0:3,?", "c > 0:9,9", "s", "q 0", "k"]));
    script(&["d ii"], calls)
}

fn samples_after_force() -> History {
    let full = (0..256).map(|number| format!("c > {}:{}", number % 2, number));
    let end = lines(&["s", "c > 0:1000", "f 0 1", "c > 0:1000", "s", "q 0", "q 1", "k"]);
    script(&["d i", "d i"], full.chain(end))
}

fn constraints(dice: &mut Dice, count: usize) -> History {
    let implication = |number: &usize| format!("c 0:{} > 1:{}", number, number % 100);
    let mut calls: History = mixed(dice, count).iter().map(implication).collect();
    calls.extend(lines(&["s", "q 1", "c 1:7 > !", "s", "c > 0:8", "s", "q 0", "q 1", "k"]));
    script(&["d i", "d i"], calls)
}

fn constraints_freed(dice: &mut Dice) -> History {
    let goal = |number: &usize| format!("c 0:{} 1:{} > !", number, number % 7);
    let mut calls: History = mixed(dice, 128).iter().map(goal).collect();
    calls.extend(lines(&["c 1:3 > !", "s", "c 0:1 > 1:9", "c > 0:5", "s", "q 0", "q 1"]));
    calls.extend((0..10).map(|number| format!("c 0:{} 1:8 > !", 100 + number)));
    calls.extend(lines(&["f 1 1", "q 0", "k"]));
    script(&["d i", "d i"], calls)
}

fn chain(dice: &mut Dice) -> History {
    let link = |number: &usize| format!("c 0:{} > 0:{}", number, number + 1);
    let mut calls: History = mixed(dice, 127).iter().map(link).collect();
    calls.extend(lines(&["c > 0:60", "s", "q 0", "c 0:20 > !", "s", "c > 0:40", "s", "q 0", "k"]));
    script(&["d i"], calls)
}

fn nested(dice: &mut Dice) -> History {
    let mut calls = History::new();
    for size in mixed(dice, 15) {
        let left: Vec<usize> = (0..size + 2).collect();
        calls.push(format!("c {}> 1:0", left_of(&left)));
        calls.push(format!("c {}> !", left_of(&left)))
    }
    calls.extend(lines(&["s", "q 0", "q 1", "c > 0:0", "s", "q 0", "c 0:1 > !", "s", "q 0", "k"]));
    script(&["d i", "d i"], calls)
}

fn predicates() -> History {
    let mut calls: History = (0..16).map(|_| "d i".to_string()).collect();
    calls.extend((0..15).map(|number| format!("c {}:1 > {}:1", number, number + 1)));
    calls.extend(lines(&["c > 0:1", "s", "q 15", "d i", "k"]));
    script(&[], calls)
}

fn six_positions(dice: &mut Dice) -> History {
    let value = |dice: &mut Dice, known: usize| match dice.chance(known) {
        true => dice.below(2).to_string(),
        false => "?".to_string(),
    };
    let mut calls = History::new();
    for number in 0..40 {
        let known = if number % 4 == 3 { 100 } else { 50 };
        let values: Vec<String> = (0..5).map(|_| value(dice, known)).collect();
        // The first position parts positives from negatives, so that none clash.
        calls.push(match number % 4 {
            0 => format!("c 0:0,{} > !", values.join(",")),
            3 => format!("c 0:1,{} > 0:1,1,1,1,1,1", values.join(",")),
            _ => format!("c > 0:1,{}", values.join(",")),
        });
        if number % 5 == 4 {
            calls.extend(lines(&["s", "q 0"]))
        }
    }
    calls.push("k".to_string());
    script(&["d iibbii"], calls)
}

fn marked_by_settling() -> History {
    let calls = ["c 0:1 0:2 > !", "c > 0:?", "s", "s", "k", "c > 0:1", "q 0", "d i", "f 0 1", "k"];
    script(&["d i"], lines(&calls))
}

fn marked_by_adding() -> History {
    script(&["d i"], lines(&["c > 0:1", "c > 0:2", "s", "c 0:1 0:2 > !", "q 0", "s", "k", "k"]))
}

fn marked_by_force() -> History {
    let calls = ["c 0:1 1:1 > !", "c > 1:1", "c > 0:7", "f 0 1", "k", "q 0", "f 0 1", "k"];
    script(&["d i", "d i"], lines(&calls))
}

fn clash_without_mark() -> History {
    let calls =
        ["c > 0:1,?", "c 0:?,2 > !", "k", "k", "c > 0:3,3", "s", "q 0", "f 0 1", "k", "q 0"];
    script(&["d ii"], lines(&calls))
}
