// The proved code replies as the independent implementation: each comparison of the table, over all its inputs.
use compare::comparison::differences;
use compare::comparisons::{comparisons, named};
use compare::question::{independent, proved};

const SEED: u64 = 1;

// Compares all inputs of a comparison, prints its counts and asserts that none differs and each floor is met.
fn compare_all(name: &str) {
    let comparison = named(name);
    let mut compared = comparison.begin(SEED, [proved, independent], differences());
    compared.compare(0..(comparison.inputs)()).expect("a folder that can be written");
    print!("{compared}");
    if let Some(fault) = compared.fault() {
        panic!("{fault}");
    }
}

// One test for each comparison, so that they run side by side.
macro_rules! tests {
    ($($test:ident: $name:literal,)*) => {
        $(#[test]
        fn $test() {
            compare_all($name);
        })*

        const TESTED: &[&str] = &[$($name),*];
    };
}

tests! {
    books: "books",
    single_moves: "single moves",
    logs: "logs",
    whole_inputs: "whole inputs",
    small_books: "small books",
    small_single_moves: "small single moves",
    small_logs: "small logs",
    small_whole_inputs: "small whole inputs",
    small_picks: "small picks",
    places_of_picks: "places of picks",
    logs_of_the_benchmarks: "logs of the benchmarks",
}

#[test]
fn each_comparison_has_a_test() {
    let names: Vec<&str> = comparisons().map(|comparison| comparison.name).collect();
    assert_eq!(names, TESTED);
}
