// Counts take any key, and their floors are noticed when they are missed.

use inputs::Counts;

fn some() -> Counts<u32> {
    [0, 18, 18, 19, 28, 1_000_000].into_iter().collect()
}

#[test]
fn any_number_of_an_answer() {
    let counts = some();
    assert_eq!([0, 16, 18, 19, 28, 1_000_000].map(|number| counts.of(number)), [1, 0, 2, 1, 1, 1]);
    assert_eq!(counts.to_string(), "0: 1  18: 2  19: 1  28: 1  1000000: 1  ");
    assert_eq!(counts.keys().copied().collect::<Vec<_>>(), [0, 18, 19, 28, 1_000_000]);
}

/// What is said of these floors.
fn fault(floors: &[(u32, u64)]) -> String {
    some().fault(floors.iter().copied()).unwrap_or_default()
}

#[test]
fn floors_that_are_met() {
    some().assert_all([0, 18, 19, 28, 1_000_000], 1);
    assert_eq!(fault(&[(0, 1), (18, 1), (18, 2), (19, 0), (28, 1), (1_000_000, 1), (5, 0)]), "");
}

#[test]
fn a_floor_that_is_missed() {
    let missed = fault(&[(0, 1), (18, 2), (19, 2), (28, 1), (1_000_000, 1)]);
    assert!(missed.starts_with("19 came up 1 times, not 2: "), "{missed}");
    let missed = fault(&[(0, 1), (17, 1), (18, 1), (19, 1), (28, 1), (1_000_000, 1)]);
    assert!(missed.starts_with("17 came up 0 times, not 1: "), "{missed}");
}

#[test]
fn a_key_that_is_not_expected() {
    let other = fault(&[(0, 1), (18, 1), (19, 1), (1_000_000, 1)]);
    assert!(other.starts_with("[28] should not come up: "), "{other}");
}

#[test]
#[should_panic(expected = "18 came up 2 times, not 3")]
fn an_assertion_fails() {
    some().assert_floors([(18, 3)]);
}
