// The cases (a) to (l) of the specification.

mod support;
use inputs::{compact_lines, specification, BookDraft};
use paper::{report, TRUE, UNDEF};
use support::*;

/// What `rental` prints for the shown book with this log.
fn shown_with(log: &str) -> String {
    printed(&specification::book_and(log))
}

/// The value that a nullary function has after it was set to a term in a book with E 8 and P 6.
/// The start value tells a term that gives undef from one that was never set.
fn value_of(term: &str, start: u16) -> u16 {
    let mut draft = BookDraft::new(8, 6, &[[0, 2]]);
    let value = draft.append(&compact_lines(term));
    let location = draft.nullary(1);
    let root = draft.set(location, value);
    draft.agent(root, 3);
    draft.holds(1, 0, u32::from(start));
    let (answer, contents, _) = step_of(&draft.text());
    assert_eq!(answer, accepted());
    contents[8]
}

#[test]
fn a_the_output_shown() {
    let input = specification::book_and(specification::LOG);
    let output = "     0     0     0     4\n     1     6     0     2\n     1     7     0     2\n     2     6     0     5\n     2     7     0     4\n";
    assert_eq!(String::from_utf8(report(&input)).unwrap(), output);
}

#[test]
fn b_without_the_pair_the_moves_touch() {
    assert_eq!(shown_with("2 0 0 0 / 0 0 0 0 / 1 0 0 0"), "17 0 1 0");
}

#[test]
fn c_no_moves_give_the_start() {
    assert_eq!(shown_with("0 0 0 0"), "0 0 0 3 / 0 7 0 2 / 1 6 0 2 / 2 6 0 4");
}

#[test]
fn d_no_label_for_the_second_import() {
    assert_eq!(shown_with("2 1 0 0 / 0 0 0 0 / 0 0 0 0 / 0 1 0 0"), "13 1 4 0");
}

#[test]
fn e_the_third_count_changes_nothing_and_stands() {
    let log = "3 2 0 0 / 1 0 0 0 / 1 0 0 0 / 1 0 0 0 / 0 1 0 0 / 1 2 0 0";
    assert_eq!(shown_with(log), "0 0 0 2 / 0 7 0 2 / 1 6 0 2");
}

#[test]
fn f_one_plus_one() {
    assert_eq!(value_of("1 4 0 0 / 1 4 0 0 / 11 0 1 0", 3), 5);
}

#[test]
fn g_two_plus_one_is_undef() {
    assert_eq!(value_of("1 5 0 0 / 1 4 0 0 / 11 0 1 0", 3), UNDEF);
}

#[test]
fn h_zero_minus_one_is_undef() {
    assert_eq!(value_of("1 3 0 0 / 1 4 0 0 / 12 0 1 0", 3), UNDEF);
}

#[test]
fn i_undef_equals_undef() {
    assert_eq!(value_of("1 0 0 0 / 1 0 0 0 / 7 0 1 0", 3), TRUE);
}

#[test]
fn j_false_and_undef_is_undef() {
    assert_eq!(value_of("1 1 0 0 / 1 0 0 0 / 9 0 1 0", 3), UNDEF);
}

#[test]
fn k_a_swap() {
    let set_both = "4 1 0 0 / 4 2 0 0 / 21 0 1 0 / 4 2 0 0 / 4 1 0 0 / 21 3 4 0 / 22 2 5 0";
    let book = book(8, 6, "0 2 0 0 / 0 2 0 0", set_both, "6 3 0 0", "1 0 0 4 / 2 0 0 5");
    let (answer, contents, _) = step_of(&book);
    assert_eq!(answer, accepted());
    assert_eq!(contents[8..], [5, 4]);
}

#[test]
fn l_a_release() {
    // For all x in Pair release x, from the start shown: Pair(6) and Wear(6) hold.
    let book = book(
        8,
        6,
        "1 3 0 0 / 1 2 0 0",
        "2 0 0 0 / 27 0 0 0 / 25 0 1 1",
        "2 4 0 0",
        "0 7 0 2 / 1 6 0 2 / 2 6 0 4",
    );
    assert_eq!(printed(&[book, ordered(&[0])].concat()), "0 0 0 2 / 0 6 0 2 / 0 7 0 2");
}
