//! The worked points of document 01, every code, and the readings of the script language.

use super::program::run;
use super::{classify, shown_row, Shown, Sign, Store};
use crate::sample::Sample;

fn script(text: &str) -> String {
    let lines: Vec<&str> = text.split(" / ").collect();
    run((lines.join("\n") + "\n").as_bytes()).trim_end().replace('\n', " / ")
}

fn sample(values: &[i64]) -> Sample {
    // -1 stands for an unknown here.
    let value = |value: &i64| (*value >= 0).then_some(*value);
    Sample { pred: 0, values: values.iter().map(value).collect() }
}

#[test]
fn the_example() {
    let input = "d i / d ii / c 0:1 > 1:1,2 / c 0:1 1:1,2 > ! / s / q 0 / c > 0:? / s / k";
    let output = "d 0 0 / d 0 1 / c 0 1 / c 0 1 / s 0 0 0 0 / q 0 0 0 1 / . 0:1 / c 0 1 / \
                  s 0 2 1 3 / k 12";
    assert_eq!(script(input), output)
}

#[test]
fn covering_overlapping_and_singles() {
    assert!(
        sample(&[-1, 2]).covers(&sample(&[1, 2])) && !sample(&[1, 2]).covers(&sample(&[-1, 2]))
    );
    let (a, b) = (sample(&[-1, 2]), sample(&[1, -1]));
    assert!(!a.covers(&b) && !b.covers(&a) && a.overlaps(&b));
    assert!(!sample(&[1, -1]).overlaps(&sample(&[2, -1])));
    assert!(sample(&[]).covers(&sample(&[])) && sample(&[]).overlaps(&sample(&[])));
    assert!(sample(&[-1, 5, -1]).is_single());
    for other in [sample(&[5]), sample(&[-1, -1]), sample(&[4, 5])] {
        assert!(!other.is_single())
    }
}

#[test]
fn worked_points() {
    for (input, output) in [
        ("d i / c 0:1 0:1 > ! / s / q 0", "d 0 0 / c 0 1 / s 0 0 1 1 / q 0 0 1 0 / - 0:1"),
        ("c > !", "c 9 0"),
        ("d i / d i / c 0:1 > 1:1 / c 0:1 > 1:1", "d 0 0 / d 0 1 / c 0 1 / c 0 1"),
        ("d i / c 0:1 0:2 > ! / c > 0:? / s", "d 0 0 / c 0 1 / c 0 1 / s 9 0 0 0"),
        ("d i / c 0:1 > 0:2 / c 0:? > ! / s", "d 0 0 / c 0 1 / c 0 1 / s 0 0 1 1"),
        (
            "d i / d i / c > 0:1 / s / c 0:1 > 1:3 / c > 1:3 / q 1",
            "d 0 0 / d 0 1 / c 0 1 / s 0 1 0 1 / c 0 1 / c 0 0 / q 0 1 0 0 / + 1:3",
        ),
    ] {
        assert_eq!(script(input), output)
    }
}

#[test]
fn of_two_equal_constraints_number_1_alone_lives() {
    let mut store = Store::new();
    store.declare(&[0]);
    store.declare(&[0]);
    let rows = [0, 1, 1, 0, 0, 0, 0, 0, 1, 1, 1, 0, 0, 0, 0, 0];
    assert!(store.add(&rows, true).new && store.add(&rows, true).new);
    let live: Vec<usize> = (0..128).filter(|n| store.constraints[*n].is_some()).collect();
    assert_eq!(live, [1])
}

#[test]
fn sizes() {
    let left = |count: usize| -> String { (0..count).map(|i| format!("0:{} ", i)).collect() };
    assert_eq!(script(&format!("d i / c {}> !", left(16))), "d 0 0 / c 0 1");
    assert_eq!(script(&format!("d i / c {}> 0:99", left(17))), "d 0 0 / c 5 0");
    let full: String = (0..256).map(|i| format!(" / c > {}:{}", i % 2, i)).collect();
    let end = "c > 0:1000 / s / f 0 1 / c > 0:1000";
    let output = script(&format!("d i / d i{} / {}", full, end));
    assert!(output.ends_with("c 0 1 / c 6 0 / s 0 256 0 256 / f 0 / c 0 1"));
    let many: String = (0..128).map(|i| format!(" / c 0:{} > 1:1", i)).collect();
    let output = script(&format!("d i / d i{} / c 0:0 > 0:1 / c > 0:1", many));
    assert!(output.ends_with("c 0 1 / c 7 0 / c 0 1"));
    let declarations = ["d i"; 17].join(" / ");
    assert!(script(&declarations).ends_with("d 0 15 / d 10 0"))
}

#[test]
fn codes_of_rows() {
    let mut store = Store::new();
    assert_eq!(store.declare(&[0; 7]), (2, 0));
    assert_eq!(store.declare(&[2]), (3, 0));
    assert_eq!(store.declare(&[0, 1]), (0, 0));
    let mut code = |rows: &[i64], right: bool| store.add(rows, right).code;
    assert_eq!(code(&[0, 3, 5, 1, 0, 0, 0], true), 5);
    assert_eq!(code(&[], true), 5);
    assert_eq!(code(&[1, 0, 0, 0, 0, 0, 0, 0], true), 1);
    assert_eq!(code(&[-1, 0, 0, 0, 0, 0, 0, 0], true), 1);
    assert_eq!(code(&[0, -1, 5, 1, 0, 0, 0, 0], true), 2);
    assert_eq!(code(&[0, 4, 5, 1, 0, 0, 0, 0], true), 2);
    assert_eq!(code(&[0, 1, 5, 1, 0, 0, 0, 0], true), 3);
    assert_eq!(code(&[0, 3, 5, 1, 1, 0, 0, 0], true), 3);
    assert_eq!(code(&[0, 3, 5, 7, 0, 0, 0, 0], true), 3);
    assert_eq!(code(&[0, 1, 5, 0, 0, 0, 0, 0, 0, 3, 5, 1, 0, 0, 0, 0], true), 4);
    assert_eq!(code(&[0, 1, 5, 0, 0, 0, 0, 0], true), 0)
}

#[test]
fn the_thin_add() {
    let mut store = Store::new();
    store.declare(&[0]);
    let row = [0, 1, 5, 0, 0, 0, 0, 0];
    assert!(store.add_waiting(&row, Sign::Positive).new);
    assert!(!store.add_waiting(&row, Sign::Positive).new);
    assert!(store.add_waiting(&row, Sign::Negative).new);
    assert_eq!(store.add_waiting(&row[..7], Sign::Negative).code, 5);
    assert_eq!(store.add_waiting(&[1, 0, 0, 0, 0, 0, 0, 0], Sign::Negative).code, 1)
}

#[test]
fn show_into_a_lent_list() {
    let mut store = Store::new();
    store.declare(&[0, 0]);
    store.add(&[0, 2, 0, 5, 0, 0, 0, 0], true);
    store.settle();
    let mut out = [9; 15];
    assert_eq!(store.show(1, &mut out), Shown { code: 1, counts: [0; 5] });
    assert_eq!(store.show(0, &mut out[..13]), Shown { code: 11, counts: [0; 5] });
    assert_eq!(out, [9; 15]);
    assert_eq!(store.show(0, &mut out), Shown { code: 0, counts: [1, 0, 0, 1, 0] });
    assert_eq!(out, [2, 0, 5, 0, 0, 0, 0, 2, 0, 5, 0, 0, 0, 0, 9])
}

#[test]
fn check_tells_the_first_pair_and_refusals_tell_nothing() {
    let mut store = Store::new();
    store.declare(&[0, 0]);
    store.add(&[0, 1, 1, 0, 0, 0, 0, 0], true);
    store.add(&[0, 2, 0, 2, 0, 0, 0, 0], false);
    let checked = store.check();
    assert_eq!((checked.code, checked.pred), (12, 0));
    assert_eq!(checked.positive, shown_row(&sample(&[1, -1])));
    assert_eq!(checked.negative, shown_row(&sample(&[-1, 2])));
    assert_eq!(store.check().code, 12);
    store.add(&[], false);
    assert_eq!((store.check().code, store.settle().draws), (8, 0))
}

#[test]
fn classify_by_covering() {
    let positives = [1, 5, 0, 0, 0, 0, 0, 3, 6, 7, 0, 0, 0, 0, 8];
    let negatives = [-2, 4, 7, 0, 0, 0, 0];
    let asked = |mask, first, second| [mask, first, second, 9, 9, 9, 9];
    let with = |row: &[i64], positions| classify(&positives, &negatives, row, positions).to_vec();
    assert_eq!(with(&asked(3, 5, 7), 2), positives[..7]);
    assert_eq!(with(&asked(3, 6, 7), 2), positives[7..14]);
    assert_eq!(with(&asked(3, 8, 7), 2), negatives);
    assert_eq!(with(&asked(3, 8, 8), 2), []);
    assert_eq!(with(&asked(0, 8, 8), 0), positives[..7]);
    assert_eq!(with(&asked(3, 5, 7)[..6], 2), []);
    assert_eq!(with(&asked(3, 5, 7), 7), [])
}

#[test]
fn marked_stores() {
    let input = "d i / c > 0:1 / c 0:1 0:1 > ! / d i / c > 0:2 / s / k / f 0 1 / q 0 / f 9 1 / x";
    let output = "d 0 0 / c 0 1 / c 9 0 / d 8 0 / c 8 0 / s 8 0 0 0 / k 8 / f 8 / q 0 0 0 0 / \
                  f 8 / bad";
    assert_eq!(script(input), output)
}

#[test]
fn readable_and_bad_lines() {
    for (line, answer) in [
        ("d iiiiiii", "d 2 0"),
        ("d -", "d 0 1"),
        ("q 00", "q 0 0 0 0"),
        ("q -1", "q 1 0 0 0"),
        ("q 99", "q 1 0 0 0"),
        ("f 9 1", "f 1"),
        ("c > 0:-0,t", "c 0 1"),
        ("c > 0:007,1", "c 0 1"),
        ("c > 0:t,f", "c 0 1"),
        ("c > 0:5,7", "c 3 0"),
        ("c > 9:", "c 1 0"),
        ("c > 9:1,2,3,4,5,6", "c 1 0"),
        ("c > 0:9223372036854775807,t", "c 0 1"),
        ("c > 0:-9223372036854775808,t", "c 0 1"),
        ("c 0:?,t > 0:1,t", "c 4 0"),
    ] {
        assert_eq!(script(&format!("d ib / {}", line)), format!("d 0 0 / {}", answer), "{}", line)
    }
    for line in [
        "",
        " ",
        "d",
        "d ",
        "d i-",
        "d x",
        "D i",
        "c",
        "c >",
        "c ! > 0:1,t",
        "c > 0:1,t ",
        "c  > 0:1,t",
        " c > 0:1,t",
        "c > 0:1",
        "c > 0:",
        "c > 0:1,t,1",
        "c > 0:+1,t",
        "c > 0:-,t",
        "c > 0:--1,t",
        "c > 0:9223372036854775808,t",
        "c > 9:1,2,3,4,5,6,7",
        "c > 0:1,T",
        "c 0:1,t",
        "c > > 0:1,t",
        "c > 0:1,t 0:1,t",
        "s ",
        "k\r",
        "s\0",
        "f 0 2",
        "f 0 01",
        "f 0",
        "q",
        "q ?",
        "q 0 0",
        "\t",
        "é",
        "w",
    ] {
        assert_eq!(script(&format!("d ib / {}", line)), "d 0 0 / bad", "{:?}", line)
    }
    assert_eq!(script("d - / c > 0:?"), "d 0 0 / bad");
}

#[test]
fn whole_inputs() {
    assert_eq!(run(b""), "");
    assert_eq!(run(b"\n"), "bad\n");
    assert_eq!(run(b"s"), "s 0 0 0 0\n");
    assert_eq!(run(b"s\n\n"), "s 0 0 0 0\nbad\n");
    assert_eq!(run(&[b'\n'; 65_536]), "bad\n".repeat(65_536));
    assert_eq!(run(&[b'\n'; 65_537]), "bad\n")
}
