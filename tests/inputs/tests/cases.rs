// The independent implementation prints what the cases say, and the proved table of the definitions has the same ones.

use inputs::cases::{idle, lettered, limits, picks, refusals, releases, Case};
use inputs::padded;
use std::fs;

#[test]
fn printed_by_the_independent_implementation() {
    let cases = [lettered(), limits(), refusals(), idle(), picks(), releases()].concat();
    assert_eq!(cases.len(), 12 + 11 + 18 + 5 + 14 + 7);
    for case in cases {
        assert_eq!(paper::report(&case.input), case.output, "{}", case.name);
    }
}

#[test]
fn one_for_each_refusal() {
    let numbers = (1..=15).chain([17, 18, 19]);
    assert_eq!(numbers.clone().count(), refusals().len());
    for (number, case) in numbers.zip(refusals()) {
        assert!(case.name.starts_with(&format!("{number}:")), "{}", case.name);
        assert!(case.output.starts_with(format!("{number:6}").as_bytes()), "{}", case.name);
    }
}

/// The quoted texts of a part of a definition, escapes resolved.
fn quoted(part: &str) -> Vec<String> {
    part.split('"').skip(1).step_by(2).map(|text| text.replace("\\n", "\n")).collect()
}

/// The inputs and outputs in the definitions' table, (a) to (l). An input is a text, the specification's own book and a log, or the nodes of a rule between the
/// two texts of `f_set_to`.
fn defined() -> Vec<(Vec<u8>, Vec<u8>)> {
    let path = concat!(env!("CARGO_MANIFEST_DIR"), "/../../crates/report/specs/Cases.antt");
    let file = fs::read_to_string(path).expect("the definitions");
    let lines: Vec<&str> = file.lines().filter(|line| !line.trim_start().starts_with("--")).collect();
    let code = lines.join("\n");
    let (head, table) = code.split_once("\ntable =").expect("a table");
    let [book, before, after] = quoted(head).try_into().expect("the book, and what stands around the nodes");
    let text = |text: &str| if text.contains('\n') { text.as_bytes().to_vec() } else { padded(text) };
    let case = |part: &str| {
        let [input, output] = quoted(part).try_into().expect("an input and an output");
        let input = if part.contains("book ++") {
            [padded(&book), padded(&input)].concat()
        } else if part.contains("f_set_to") {
            [padded(&before), padded(&input), padded(&after)].concat()
        } else {
            padded(&input)
        };
        (input, text(&output))
    };
    table.split("case").filter(|part| part.contains('"')).map(case).collect()
}

#[test]
fn proved_of_the_definitions() {
    let defined = defined();
    assert_eq!(defined.len(), lettered().len());
    for (Case { name, input: ours, output: printed }, (input, output)) in lettered().into_iter().zip(defined)
    {
        assert_eq!((input, output), (ours, printed), "{name}");
    }
}
