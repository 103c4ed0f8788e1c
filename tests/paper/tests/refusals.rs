// One test for each example in the table of refusals, and for the order of the refusals (SPECIFICATION 8).

mod support;
use inputs::{padded, specification};
use paper::{book_answer, run, step, Answer};
use support::*;

/// The answer of a run of the shown book on tables of these lengths.
fn run_with_lengths([contents, readers, writers, instructions]: [usize; 4]) -> Answer {
    let log = padded("0 0 0 0");
    let mut contents = vec![LENT_VALUE; contents];
    let mut readers = vec![LENT_MARK; readers];
    let mut writers = vec![LENT_MARK; writers];
    let outcome = run(&specification::book(), &log, &mut contents, &mut readers, &mut writers, instructions);
    let answer = outcome.answer;
    if answer.number != 0 {
        assert!(contents.iter().all(|&value| value == LENT_VALUE));
        assert!(readers.iter().chain(&writers).all(|&mark| mark == LENT_MARK));
    }
    answer
}

#[test]
fn refusal_1_leading_zero() {
    let mut book = specification::book();
    let at = 3 * 25 + 4;
    book[at..at + 2].copy_from_slice(b"07");
    assert_eq!(book_answer(&book), refused(1, 3, 0));
}

#[test]
fn refusal_2_lent_tables_short() {
    assert_eq!(run_with_lengths([24, 24, 24, 256]), accepted());
    assert_eq!(run_with_lengths([23, 0, 0, 0]), refused(2, 24, 0));
    assert_eq!(run_with_lengths([24, 23, 0, 0]), refused(2, 24, 1));
    assert_eq!(run_with_lengths([24, 24, 23, 0]), refused(2, 24, 2));
    assert_eq!(run_with_lengths([24, 24, 24, 255]), refused(2, 256, 3));
}

#[test]
fn refusal_2_in_a_single_move() {
    let book = specification::book();
    let mut contents = start(&book);
    assert_eq!(step(&book, &mut contents[..23], 0, &[], 0), refused(2, 24, 0));
    assert_eq!(step(&book, &mut contents, 0, &[], 255), refused(2, 256, 3));
    assert_eq!(contents, start(&book));
}

#[test]
fn refusal_3_too_many_elements() {
    assert_eq!(book_answer(&padded("10001 4 1 1 / 1 0 0 0")), refused(3, 0, 0));
}

#[test]
fn refusal_4_arity_three() {
    assert_eq!(book_answer(&book(4, 4, "3 2 0 0", "20 0 0 0", "0 3 0 0", "")), refused(4, 1, 0));
}

#[test]
fn refusal_5_kind_fourteen() {
    let nodes = "1 3 0 0 / 14 0 0 0 / 20 0 0 0";
    assert_eq!(book_answer(&book(4, 4, "", nodes, "2 3 0 0", "")), refused(5, 1, 0));
}

#[test]
fn refusal_6_variable_alone() {
    assert_eq!(book_answer(&book(4, 4, "", "2 0 0 0", "0 3 0 0", "")), refused(6, 0, 0));
}

#[test]
fn refusal_7_element_no_permanent_one() {
    assert_eq!(book_answer(&book(5, 4, "", "20 0 0 0", "0 3 0 0 / 0 4 0 0", "")), refused(7, 1, 0));
}

#[test]
fn refusal_8_static_value_is_a_label() {
    let with_value =
        |value| book(6, 4, "1 0 0 0", "20 0 0 0", "0 3 0 0", &format!("1 0 0 3 / 1 3 0 {value}"));
    assert_eq!(book_answer(&with_value(3)), accepted());
    assert_eq!(book_answer(&with_value(4)), refused(8, 7, 0));
}

#[test]
fn refusal_9_pair_of_one_move() {
    let run = run_of(&specification::book(), &log(&[0, 1], &[(1, 1)]));
    assert_eq!(run.answer, refused(9, 3, 0));
}

#[test]
fn refusal_10_moves_of_one_agent() {
    let run = run_of(&specification::book(), &log(&[0, 0], &[]));
    assert_eq!(run.answer, refused(10, 0, 1));
    assert!(run.contents.iter().all(|&value| value == LENT_VALUE));
    assert!(run.readers.iter().chain(&run.writers).all(|&mark| mark == LENT_MARK));
}

#[test]
fn refusal_11_relation_set_to_a_number() {
    // For all x in Pair: Pair(x) := number 0, with Pair(6).
    let nodes = "2 0 0 0 / 5 1 0 0 / 1 3 0 0 / 21 1 2 0 / 25 0 1 3";
    let book = book(8, 6, "1 3 0 0", nodes, "4 3 0 0", "1 6 0 2");
    assert_eq!(step_of(&book), (refused(11, 0, 3), start(&book), vec![]));
}

#[test]
fn refusal_12_release_of_undef() {
    let book = book(8, 6, "", "1 0 0 0 / 27 0 0 0", "1 3 0 0", "");
    assert_eq!(step_of(&book), (refused(12, 0, 1), start(&book), vec![]));
}

#[test]
fn refusal_13_second_import() {
    let run = run_of(&specification::book(), &ordered(&[0, 0]));
    assert_eq!(run.answer, refused(13, 1, 4));
    // The contents after move 0 and its marks stay.
    assert_eq!(run.contents[16 + 7], 3);
    assert_eq!(run.written(0), [7, 8 + 7, 16 + 7]);
    assert_eq!(run.read(0), [6, 7]);
    assert_eq!((run.written(1), run.read(1)), (vec![], vec![]));
}

#[test]
fn refusal_14_forall_over_257() {
    // For all x in U: f := x, with U at elements 0 to 256.
    let nodes = "4 2 0 0 / 1 3 0 0 / 21 0 1 0 / 25 0 1 2";
    let book = book(300, 300, "1 1 0 0 / 0 2 0 0", nodes, "3 3 0 0", &members(1, 257));
    assert_eq!(step_of(&book), (refused(14, 0, 2), start(&book), vec![]));
}

#[test]
fn refusal_15_set_to_two_values() {
    let nodes = "4 1 0 0 / 1 3 0 0 / 21 0 1 0 / 4 1 0 0 / 1 4 0 0 / 21 3 4 0 / 22 2 5 0";
    let book = book(8, 6, "0 2 0 0", nodes, "6 3 0 0", "");
    let (answer, contents, list) = step_of(&book);
    assert_eq!((answer, contents), (refused(15, 0, 8), start(&book)));
    assert_eq!(list.len(), 2);
}

#[test]
fn refusal_16_is_not_given_when_set_to_its_own_value() {
    let book = book(8, 6, "0 2 0 0", "4 1 0 0 / 4 1 0 0 / 21 0 1 0", "2 3 0 0", "1 0 0 4");
    let (answer, contents, list) = step_of(&book);
    assert_eq!((answer, contents), (accepted(), start(&book)));
    assert_eq!(list.len(), 1);
}

#[test]
fn refusal_17_moves_that_touch() {
    let run = run_of(&specification::book(), &log(&[0, 1], &[]));
    assert_eq!(run.answer, refused(17, 0, 1));
    // Final contents and all marks stay.
    assert_eq!(run.contents[16 + 6..16 + 8], [5, 4]);
    assert_eq!(run.written(1), [16 + 6, 16 + 7]);
}

/// A book with every fault: each step mends the fault that was named, then the next is named.
#[test]
fn order_of_the_books_refusals() {
    let mut lines = vec![
        "3 4 3 4", "1 1 0 0", "1 3 0 0", "3 2 0 0", "2 0 0 0", "1 0 0 0", "14 0 0 0", "20 0 0 0", "20 0 0 0",
        "3 9 0 0", "1 0 0 0", "0 0 0 0",
    ];
    let steps = [
        (refused(3, 0, 0), 0, "900 4 3 4"),
        (refused(1, 11, 0), 11, ""),
        (refused(4, 1, 0), 3, "1 2 0 0"),
        (refused(3, 8, 0), 4, "1 0 0 0"),
        (refused(5, 1, 0), 6, "27 0 0 0"),
        (refused(6, 1, 0), 8, "22 1 2 0"),
        (refused(7, 0, 0), 9, "3 3 0 0"),
        (refused(8, 10, 0), 10, "1 0 0 1"),
    ];
    for (answer, line, mended) in steps {
        assert_eq!(book_answer(&padded(&lines.join("/"))), answer);
        lines[line] = mended;
    }
    assert_eq!(book_answer(&padded(&lines.join("/"))), accepted());
}

/// The same for a log: its header and lines, 10, the lent tables, the moves, 17.
#[test]
fn order_of_the_logs_refusals() {
    let book = specification::book();
    let mut lines = ["65 2 0 0", "0 0 0 0", "9 0 0 0", "0 0 0 0", "1 2 0 0", "1 2 0 0", "0 0 0 0"];
    let steps = [
        (refused(9, 0, 0), 0, "3 2 0 0"),
        (refused(1, 6, 1), 6, ""),
        (refused(9, 2, 0), 2, "1 0 0 0"),
        (refused(9, 5, 0), 0, "3 1 0 0"),
        (refused(1, 5, 1), 5, ""),
        (refused(10, 0, 2), 3, "1 0 0 0"),
        (refused(2, 24, 0), 0, "3 1 0 0"),
    ];
    for (answer, line, mended) in steps {
        let log = padded(&lines.join("/"));
        assert_eq!(run(&book, &log, &mut [], &mut [], &mut [], 0).answer, answer);
        lines[line] = mended;
    }
    assert_eq!(run_of(&book, &padded(&lines.join("/"))).answer, refused(17, 0, 1));
    // Moves 0 and 1 still touch, but 17 comes only after all moves.
    let no_label_at_last = log(&[0, 1, 0], &[(0, 2)]);
    assert_eq!(run_of(&book, &no_label_at_last).answer, refused(13, 2, 4));
}
