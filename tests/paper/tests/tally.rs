// The label tally of a run: labels issued, one for each import, and labels returned, each label once in a move, by the moves that fired.

mod support;
use inputs::{cases, specification, BookDraft};
use paper::{report, report_tallied, run, Tally};
use support::*;

/// Import x into U and skip.
const IMPORT: &str = "20 0 0 0 / 26 0 1 0";

/// Import x into U and do g := x.
const IMPORT_TO_G: &str = "4 4 0 0 / 2 0 0 0 / 21 0 1 0 / 26 0 1 2";

/// Release g, and release h.
const RELEASE_G: &str = "4 4 0 0 / 27 0 0 0";
const RELEASE_H: &str = "4 5 0 0 / 27 0 0 0";

/// g := h.
const G_TO_H: &str = "4 4 0 0 / 4 5 0 0 / 21 0 1 0";

/// A book with the functions of `rules` and an agent for each of these rules. Its labels are 20 to 39: g holds 20, h holds 21, and 36 to 39 are
/// on the roll. S holds at 0 to 15.
fn shop(rules: &[&str]) -> Vec<u8> {
    let roll = "0 36 0 2 / 0 37 0 2 / 0 38 0 2 / 0 39 0 2";
    let contents = format!("{roll} / 4 0 0 20 / 5 0 0 21 / {}", members(6, 16));
    let mut draft = BookDraft::compact(40, 20, FUNCTIONS, "", "", &contents);
    (3..).zip(rules).for_each(|(element, rule)| draft.agent_with(element, rule));
    draft.text()
}

fn tally(issued: u64, returned: u64) -> Tally {
    Tally { issued, returned }
}

/// The tally of one move of each rule in turn; all fire.
fn tally_of(rules: &[&str]) -> Tally {
    let agents: Vec<u32> = (0..rules.len() as u32).collect();
    let run = run_of(&shop(rules), &ordered(&agents));
    assert_eq!(run.answer, accepted());
    run.tally
}

/// All these rules.
fn all(rules: &[&str]) -> String {
    let (first, others) = rules.split_first().expect("a rule");
    others.iter().fold(first.to_string(), |joined, rule| both(&joined, rule))
}

/// For all x in S: this rule, whose last node has this number.
fn for_all(rule: &str, root: u32) -> String {
    format!("{rule} / 25 7 6 {root}")
}

mod a_move {
    use super::*;

    #[test]
    fn an_import() {
        assert_eq!(tally_of(&[IMPORT]), tally(1, 0));
    }

    #[test]
    fn an_import_that_sets_many_locations() {
        // Import x into U and do V(x) := true, f(x) := 3, g := x and h := x.
        let at = |function: u32, value: u32| format!("2 0 0 0 / 5 {function} 0 0 / 1 {value} 0 0 / 21 1 2 0");
        let to = |function: u32| format!("4 {function} 0 0 / 2 0 0 0 / 21 0 1 0");
        let body = all(&[&at(2, 2), &at(3, 3), &to(4), &to(5)]);
        let root = body.split('/').count() - 1;
        assert_eq!(tally_of(&[&format!("{body} / 26 0 1 {root}")]), tally(1, 0));
    }

    #[test]
    fn each_import_counts() {
        // One beside the other, one in the other, and for each x of S that is a number below 4.
        assert_eq!(tally_of(&[&all(&[IMPORT, IMPORT, IMPORT])]), tally(3, 0));
        assert_eq!(tally_of(&["20 0 0 0 / 26 0 1 0 / 26 1 2 1"]), tally(2, 0));
        let four = "2 7 0 0 / 1 7 0 0 / 13 0 1 0 / 20 0 0 0 / 26 0 1 3 / 20 0 0 0 / 23 2 4 5";
        assert_eq!(tally_of(&[&for_all(four, 6)]), tally(4, 0));
    }

    #[test]
    fn no_other_update_counts() {
        // U(0) := true, U(g) := true and f(g) := 3: U comes right after Reserve. Then a skip.
        let first = "1 0 0 0 / 5 1 0 0 / 1 2 0 0 / 21 1 2 0";
        let join = "4 4 0 0 / 5 1 0 0 / 1 2 0 0 / 21 1 2 0";
        let wear = "4 4 0 0 / 5 3 0 0 / 1 3 0 0 / 21 1 2 0";
        for rule in [first, join, wear, SET_G, G_TO_H, "20 0 0 0"] {
            assert_eq!(tally_of(&[rule]), tally(0, 0), "{rule}");
        }
    }

    #[test]
    fn a_release_that_clears_many_locations() {
        // g := h and f(h) := 3 and U(h) := true, and then release h.
        let (wear, join) =
            ("4 5 0 0 / 5 3 0 0 / 1 3 0 0 / 21 1 2 0", "4 5 0 0 / 5 1 0 0 / 1 2 0 0 / 21 1 2 0");
        let run = run_of(&shop(&[&all(&[G_TO_H, wear, join]), RELEASE_H]), &ordered(&[0, 1]));
        assert_eq!((run.answer, run.tally), (accepted(), tally(0, 1)));
        assert!(run.written(1).len() >= 6, "{:?}", run.written(1));
    }

    #[test]
    fn a_label_released_twice() {
        assert_eq!(tally_of(&[&both(RELEASE_G, RELEASE_G)]), tally(0, 1));
        // g and h hold the same label.
        assert_eq!(tally_of(&[G_TO_H, &both(RELEASE_G, RELEASE_H)]), tally(0, 1));
        // Sixteen times.
        assert_eq!(tally_of(&[&for_all(RELEASE_G, 1)]), tally(0, 1));
    }

    #[test]
    fn two_labels_released() {
        assert_eq!(tally_of(&[&both(RELEASE_G, RELEASE_H)]), tally(0, 2));
        assert_eq!(tally_of(&[&all(&[RELEASE_G, RELEASE_H, RELEASE_G, RELEASE_H])]), tally(0, 2));
    }

    #[test]
    fn imports_beside_releases() {
        assert_eq!(tally_of(&[&both(IMPORT, RELEASE_G)]), tally(1, 1));
        assert_eq!(
            tally_of(&[&all(&[RELEASE_G, IMPORT, RELEASE_H, IMPORT, RELEASE_G, IMPORT])]),
            tally(3, 2)
        );
    }

    #[test]
    fn the_last_label() {
        // All four labels of the roll, the last of which is the book's last.
        let run = run_of(&shop(&[&all(&[IMPORT; 4])]), &ordered(&[0]));
        assert_eq!((run.answer, run.tally, run.written(0).contains(&39)), (accepted(), tally(4, 0), true));
    }
}

mod a_log {
    use super::*;

    #[test]
    fn no_moves() {
        let run = run_of(&shop(&[IMPORT]), &ordered(&[]));
        assert_eq!((run.answer, run.tally), (accepted(), tally(0, 0)));
    }

    #[test]
    fn a_label_returned_in_two_moves() {
        // Label 20 is returned, issued and returned again.
        assert_eq!(tally_of(&[RELEASE_G, IMPORT_TO_G]), tally(1, 1));
        assert_eq!(tally_of(&[RELEASE_G, IMPORT_TO_G, RELEASE_G]), tally(1, 2));
        assert_eq!(tally_of(&[RELEASE_G, IMPORT_TO_G, &both(RELEASE_G, RELEASE_G)]), tally(1, 2));
    }

    #[test]
    fn a_label_issued_in_two_moves() {
        assert_eq!(tally_of(&[RELEASE_G, IMPORT_TO_G, RELEASE_G, IMPORT_TO_G]), tally(2, 2));
    }

    #[test]
    fn all_moves_add_up() {
        assert_eq!(tally_of(&[IMPORT, SET_G, IMPORT, RELEASE_H, IMPORT]), tally(3, 1));
    }

    #[test]
    fn unordered_moves_that_do_not_touch() {
        // An import, and a release of a label above the one that it takes.
        let run = unordered_run(IMPORT, RELEASE_H, "0 6 0 2 / 5 0 0 7");
        assert_eq!((run.answer, run.tally), (accepted(), tally(1, 1)));
    }

    #[test]
    fn seventeen_counts_all_moves() {
        for (rules, expected) in [
            ([IMPORT, RELEASE_G], tally(1, 1)),
            ([RELEASE_G, IMPORT], tally(1, 1)),
            ([IMPORT, IMPORT], tally(2, 0)),
            ([RELEASE_G, RELEASE_G_THEN_H], tally(0, 2)),
        ] {
            let run = run_of(&shop(&rules), &log(&[0, 1], &[]));
            assert_eq!((run.answer, run.tally), (refused(17, 0, 1), expected), "{rules:?}");
        }
    }

    /// If g is undef release h, otherwise g.
    const RELEASE_G_THEN_H: &str =
        "4 4 0 0 / 1 0 0 0 / 7 0 1 0 / 4 5 0 0 / 27 3 0 0 / 4 4 0 0 / 27 5 0 0 / 23 2 4 6";
}

/// A move that is refused does not count, whatever it imported and released before.
mod refused_inside_a_move {
    use super::*;

    /// An import and a release, then this rule.
    fn after_import_and_release(rule: &str) -> String {
        all(&[IMPORT, RELEASE_H, rule])
    }

    const CHOOSE: &str = "20 0 0 0 / 28 0 1 0";

    /// A rule for each refusal, with its number, and the picks of the move: a set of a relation, a release of undef, four imports more, 256 sets, a
    /// clash, a pick that is not in U, no pick, and a pick left over.
    fn refusals() -> [(u32, String, Option<u32>); 8] {
        let four = "20 0 0 0 / 26 0 1 0 / 26 1 1 1 / 26 2 1 2 / 26 3 1 3";
        let sets = format!("{} / 25 6 6 3", for_all(SET_G, 2));
        [
            (11, "4 8 0 0 / 1 3 0 0 / 21 0 1 0".to_string(), None),
            (12, "1 0 0 0 / 27 0 0 0".to_string(), None),
            (13, four.to_string(), None),
            (14, sets, None),
            (15, both(SET_G, "4 4 0 0 / 1 4 0 0 / 21 0 1 0"), None),
            (18, CHOOSE.to_string(), Some(0)),
            (19, CHOOSE.to_string(), None),
            (19, "20 0 0 0".to_string(), Some(0)),
        ]
    }

    #[test]
    fn the_first_move() {
        for (number, rule, pick) in refusals() {
            let picks: Vec<(u32, u32)> = pick.into_iter().map(|element| (0, element)).collect();
            let run = run_of(&shop(&[&after_import_and_release(&rule)]), &log_with(&[0], &[], &picks));
            assert_eq!((run.answer.number, run.answer.p, run.tally), (number, 0, tally(0, 0)), "{rule}");
        }
    }

    #[test]
    fn a_later_move() {
        let first = all(&[IMPORT, RELEASE_G, RELEASE_G]);
        for (number, rule, pick) in refusals() {
            let picks: Vec<(u32, u32)> = pick.into_iter().map(|element| (1, element)).collect();
            let book = shop(&[&first, &after_import_and_release(&rule), IMPORT]);
            let run = run_of(&book, &log_with(&[0, 1, 2], &[(0, 1), (1, 2)], &picks));
            assert_eq!((run.answer.number, run.answer.p, run.tally), (number, 1, tally(1, 1)), "{rule}");
        }
        assert_eq!(tally_of(&[&first, &after_import_and_release(SET_G), IMPORT]), tally(3, 2));
    }

    #[test]
    fn an_import_after_the_first_within_the_move() {
        // Five imports, with four labels on the roll.
        let run = run_of(&shop(&[&all(&[IMPORT; 5])]), &ordered(&[0]));
        assert_eq!((run.answer.number, run.tally), (13, tally(0, 0)));
        // One in a move before: then the fourth of four finds none.
        let run = run_of(&shop(&[IMPORT, &all(&[IMPORT; 4])]), &ordered(&[0, 1]));
        assert_eq!((run.answer.number, run.tally), (13, tally(1, 0)));
    }

    #[test]
    fn a_clash_with_the_release_itself() {
        // g := h beside release h, after an import.
        let clash = all(&[IMPORT, G_TO_H, RELEASE_H]);
        let run = run_of(&shop(&[RELEASE_G, &clash]), &ordered(&[0, 1]));
        assert_eq!((run.answer.number, run.tally), (15, tally(0, 1)));
    }
}

mod refused_before_the_first_move {
    use super::*;

    #[test]
    fn one_to_ten() {
        assert!(cases::refusals().len() >= 10);
        for (number, case) in (1..=10).zip(cases::refusals()) {
            let (printed, tally) = report_tallied(&case.input);
            assert!(printed.starts_with(format!("{number:6}").as_bytes()), "{}", case.name);
            assert_eq!(tally, Tally::default(), "{}", case.name);
        }
    }

    /// The number and the tally of a run of a log that issues a label, on tables of these lengths.
    fn outcome(book: &[u8], log: &[u8], [contents, readers, writers, lent]: [usize; 4]) -> (u32, Tally) {
        let (mut contents, mut readers, mut writers) =
            (vec![7; contents], vec![7; readers], vec![7; writers]);
        let outcome = run(book, log, &mut contents, &mut readers, &mut writers, lent);
        (outcome.answer.number, outcome.tally)
    }

    #[test]
    fn lent_tables_short() {
        let (book, log) = (specification::book(), specification::log());
        assert_eq!(outcome(&book, &log, [24, 24, 24, 256]), (0, tally(1, 0)));
        for lengths in [[23, 24, 24, 256], [24, 23, 24, 256], [24, 24, 23, 256], [24, 24, 24, 255]] {
            assert_eq!(outcome(&book, &log, lengths), (2, tally(0, 0)), "{lengths:?}");
        }
    }

    #[test]
    fn book_and_log() {
        let (book, enough) = (specification::book(), [24, 24, 24, 256]);
        assert_eq!(outcome(&[], &specification::log(), enough), (1, tally(0, 0)));
        assert_eq!(outcome(&book, &[], enough), (1, tally(0, 0)));
        assert_eq!(outcome(&book, &ordered(&[0, 2]), enough), (9, tally(0, 0)));
        assert_eq!(outcome(&book, &log(&[0, 0], &[]), enough), (10, tally(0, 0)));
    }
}

/// What `rental` prints has no tally; the entry that gives it has.
mod whole_inputs {
    use super::*;

    /// The tally of a lettered case.
    fn tally_of_case(letter: &str) -> Tally {
        let case = cases::lettered().into_iter().find(|case| case.name.starts_with(letter)).expect(letter);
        let (printed, tally) = report_tallied(&case.input);
        assert_eq!(printed, case.output, "{letter}");
        assert_eq!(report(&case.input), case.output, "{letter}");
        tally
    }

    #[test]
    fn lettered_cases() {
        for letter in ["(c)", "(e)", "(f)", "(g)", "(h)", "(i)", "(j)", "(k)"] {
            assert_eq!(tally_of_case(letter), tally(0, 0), "{letter}");
        }
        assert_eq!(tally_of_case("(a)"), tally(1, 0));
        assert_eq!(tally_of_case("(b)"), tally(1, 0));
        // The second import is refused, 13 1 4.
        assert_eq!(tally_of_case("(d)"), tally(1, 0));
        assert_eq!(tally_of_case("(l)"), tally(0, 1));
    }

    #[test]
    fn an_input_too_long() {
        let mut input = specification::book_and(specification::LOG);
        input.resize(60_001, b' ');
        assert_eq!(report_tallied(&input).1, tally(0, 0));
    }
}
