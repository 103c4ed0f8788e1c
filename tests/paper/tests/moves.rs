// What a move does, its reads, writes and marks (SPECIFICATION 4 and 5), with the points that its text leaves open.

mod support;
use inputs::{compact_lines, BookDraft};
use paper::{Instruction, FALSE, TRUE, UNDEF};
use support::*;

/// The answer of a log with one move of each of two agents, not ordered.
fn unordered(first: &str, second: &str, contents: &str) -> paper::Answer {
    unordered_run(first, second, contents).answer
}

mod inside_a_move {
    use super::*;

    #[test]
    fn text_order_whatever_the_numbers() {
        // Both: a is node 5 (g := 4), b is node 2 (h := 3).
        let nodes = "4 5 0 0 / 1 3 0 0 / 21 0 1 0 / 4 4 0 0 / 1 4 0 0 / 21 3 4 0 / 22 5 2 0";
        assert_eq!(step_of(&rule(nodes, "")).2, [update(G, 4), update(H, 3)]);
        // A release of undef in a is met before a set of a relation to a number in b.
        let nodes = "4 8 0 0 / 1 3 0 0 / 21 0 1 0 / 1 0 0 0 / 27 3 0 0 / 22 4 2 0";
        assert_eq!(step_of(&rule(nodes, "")).0, refused(12, 0, 4));
    }

    #[test]
    fn foralls_by_ascending_element() {
        let nodes = "2 0 0 0 / 5 3 0 0 / 2 0 0 0 / 21 1 2 0 / 25 0 1 3";
        let book = rule(nodes, "1 0 0 2 / 1 1 0 2 / 1 2 0 2 / 1 7 0 2");
        let list = [update(F, 0), update(F + 1, 1), update(F + 2, 2), update(F + 7, 7)];
        assert_eq!(step_of(&book).2, list);
    }

    /// The contents lines that let S hold at four elements.
    const FOUR: &str = "6 0 0 2 / 6 1 0 2 / 6 2 0 2 / 6 3 0 2";

    fn set_g(draft: &mut BookDraft) -> u32 {
        draft.append(&compact_lines(SET_G))
    }

    /// A rule that gives this many instructions, all g := 3: a part for all x in S, the rest beside it.
    fn repeated(draft: &mut BookDraft, count: usize) -> u32 {
        let sets = (0..count / 4).map(|_| set_g(draft)).collect();
        let joined = draft.joined(sets, BookDraft::both);
        let mut rule = draft.for_all(7, 6, joined);
        for _ in 0..count % 4 {
            let set = set_g(draft);
            rule = draft.both(rule, set);
        }
        rule
    }

    /// The answer when a list of this length is followed by a rule, whose nodes count from 0, and
    /// the number of that rule's last node in the book.
    fn after(count: usize, rule: &str, reserve: &str) -> (paper::Answer, u32) {
        let mut draft = rules_draft(&format!("{reserve} / {FOUR}"));
        let before = repeated(&mut draft, count);
        let end = draft.append(&compact_lines(rule));
        let root = draft.both(before, end);
        draft.agent(root, 5);
        (step_of(&draft.text()).0, end)
    }

    const IMPORT: &str = "20 0 0 0 / 26 0 1 0";

    #[test]
    fn import_in_a_nearly_full_list() {
        assert_eq!(after(254, IMPORT, "0 6 0 2").0, accepted());
        let (answer, import) = after(255, IMPORT, "0 6 0 2");
        assert_eq!(answer, refused(14, 0, import));
    }

    #[test]
    fn full_list_and_another_refusal_at_one_rule() {
        let (answer, import) = after(256, IMPORT, "");
        assert_eq!(answer, refused(13, 0, import));
        let (answer, import) = after(256, IMPORT, "0 6 0 2");
        assert_eq!(answer, refused(14, 0, import));
        let (answer, release) = after(256, "1 0 0 0 / 27 0 0 0", "");
        assert_eq!(answer, refused(12, 0, release));
        let (answer, set) = after(256, "4 8 0 0 / 1 3 0 0 / 21 0 1 0", "");
        assert_eq!(answer, refused(11, 0, set));
    }

    /// Choice: the walk stops at the first refusal met.
    #[test]
    fn full_list_and_a_later_refusal() {
        // The 257th instruction, then a release of undef.
        let both = both(SET_G, "1 0 0 0 / 27 0 0 0");
        let (answer, end) = after(256, &both, "");
        assert_eq!(answer, refused(14, 0, end - 3));
        let (answer, end) = after(255, &both, "");
        assert_eq!(answer, refused(12, 0, end - 1));
    }

    /// Choice: 12 looks at Reserve before the move.
    #[test]
    fn release_of_the_label_just_imported() {
        let nodes = "2 0 0 0 / 27 0 0 0 / 26 0 1 1";
        assert_eq!(step_of(&rule(nodes, "0 6 0 2")).0, refused(12, 0, 1));
    }

    #[test]
    fn released_terms() {
        // Release g: a permanent element, a label on the roll (held by no location), one in use.
        let of = |contents: &str| step_of(&rule("4 4 0 0 / 27 0 0 0", contents)).0;
        assert_eq!(of("4 0 0 5"), refused(12, 0, 1));
        assert_eq!(of("4 0 0 6"), accepted());
        assert_eq!(of("0 7 0 2 / 4 0 0 6"), accepted());
    }

    #[test]
    fn import_beside_a_release() {
        // A label released by the same move is not on the roll before it.
        let nodes = "4 4 0 0 / 27 0 0 0 / 20 0 0 0 / 26 0 1 2 / 22 1 3 0";
        assert_eq!(step_of(&rule(nodes, "4 0 0 6")).0, refused(13, 0, 3));
        let (answer, contents, _) = step_of(&rule(nodes, "0 7 0 2 / 4 0 0 6"));
        assert_eq!((answer, &contents[6..8]), (accepted(), &[TRUE, FALSE][..]));
    }

    #[test]
    fn imports_take_ascending_labels() {
        let nodes = "20 0 0 0 / 26 0 2 0 / 26 1 1 1";
        let list = [update(6, FALSE), update(U + 6, TRUE), update(7, FALSE), update(V + 7, TRUE)];
        assert_eq!(step_of(&rule(nodes, "0 6 0 2 / 0 7 0 2")).2, list);
        assert_eq!(step_of(&rule(nodes, "0 7 0 2")).0, refused(13, 0, 1));
    }

    #[test]
    fn clash_with_a_released_value() {
        // g := h beside release h, with h 6.
        let nodes = "4 4 0 0 / 4 5 0 0 / 21 0 1 0 / 4 5 0 0 / 27 3 0 0 / 22 2 4 0";
        let (answer, contents, list) = step_of(&rule(nodes, "5 0 0 6"));
        assert_eq!((answer, contents[H]), (refused(15, 0, G as u32), 6));
        assert_eq!(list, [update(G, 6), Instruction::Release { label: 6 }]);
    }

    #[test]
    fn clash_names_the_least_location_of_both_kinds() {
        // f(3) := 3 and 4 (two values, location 27), g := h with h released (location 32).
        let f3 = "1 3 0 0 / 5 3 0 0 / 1 3 0 0 / 21 1 2 0 / 1 3 0 0 / 5 3 4 0 / 1 4 0 0 / 21 5 6 0 / 22 3 7 0";
        let gh = "4 4 0 0 / 4 5 0 0 / 21 9 10 0 / 4 5 0 0 / 27 12 0 0 / 22 11 13 0";
        let both = format!("{f3} / {gh} / 22 8 14 0");
        assert_eq!(step_of(&rule(&both, "5 0 0 6")).0, refused(15, 0, 27));
        // h := 3 and 4 (location 33), g := f(3) with f(3) released (location 32).
        let h = "4 5 0 0 / 1 3 0 0 / 21 0 1 0 / 4 5 0 0 / 1 4 0 0 / 21 3 4 0 / 22 2 5 0";
        let g = "4 4 0 0 / 1 3 0 0 / 5 3 8 0 / 21 7 9 0 / 1 3 0 0 / 5 3 11 0 / 27 12 0 0 / 22 10 13 0";
        let both = format!("{h} / {g} / 22 6 14 0");
        assert_eq!(step_of(&rule(&both, "3 3 0 6")).0, refused(15, 0, 32));
    }

    #[test]
    fn clash_with_a_cleared_location() {
        // f(h) := value beside release h, with h 6: an argument.
        let argument = |value: u32| {
            format!("4 5 0 0 / 5 3 0 0 / 1 {value} 0 0 / 21 1 2 0 / 4 5 0 0 / 27 4 0 0 / 22 3 5 0")
        };
        assert_eq!(step_of(&rule(&argument(3), "5 0 0 6")).0, refused(15, 0, F as u32 + 6));
        assert_eq!(step_of(&rule(&argument(0), "5 0 0 6")).0, accepted());
        // h := value beside release h: a location that held the label.
        let holder =
            |value: u32| format!("4 5 0 0 / 1 {value} 0 0 / 21 0 1 0 / 4 5 0 0 / 27 3 0 0 / 22 2 4 0");
        assert_eq!(step_of(&rule(&holder(3), "5 0 0 6")).0, refused(15, 0, H as u32));
        assert_eq!(step_of(&rule(&holder(0), "5 0 0 6")).0, accepted());
    }

    #[test]
    fn two_releases_of_one_label() {
        let nodes = "4 4 0 0 / 27 0 0 0 / 4 5 0 0 / 27 2 0 0 / 22 1 3 0";
        let (answer, contents, list) = step_of(&rule(nodes, "4 0 0 6 / 5 0 0 6"));
        assert_eq!((answer, list), (accepted(), vec![Instruction::Release { label: 6 }; 2]));
        assert_eq!((contents[6], contents[G], contents[H]), (TRUE, UNDEF, UNDEF));
    }

    #[test]
    fn a_release_clears_arguments_and_values() {
        let contents = "1 6 0 2 / 2 6 0 2 / 3 3 0 6 / 3 6 0 4 / 3 7 0 6 / 4 0 0 6 / 5 0 0 7";
        let (answer, after, list) = step_of(&rule("4 4 0 0 / 27 0 0 0", contents));
        assert_eq!((answer, list.len()), (accepted(), 1));
        let mut expected = start(&rule("20 0 0 0", ""));
        expected[6] = TRUE;
        expected[H] = 7;
        assert_eq!(after, expected);
    }

    #[test]
    fn a_release_clears_rows_and_columns() {
        // Function 1 is binary, 2 nullary and holds 6.
        let book = book(
            8,
            6,
            "2 2 0 0 / 0 2 0 0",
            "4 2 0 0 / 27 0 0 0",
            "1 3 0 0",
            "1 0 0 6 / 1 0 6 3 / 1 0 7 3 / 1 6 0 3 / 1 6 6 4 / 2 0 0 6",
        );
        let (answer, contents, _) = step_of(&book);
        let left: Vec<usize> = (8..73).filter(|&location| contents[location] != UNDEF).collect();
        assert_eq!((answer, left), (accepted(), vec![8 + 7]));
    }

    #[test]
    fn a_guard_that_is_not_true() {
        let nodes = |guard: u32| {
            format!("1 {guard} 0 0 / 4 4 0 0 / 1 3 0 0 / 21 1 2 0 / 4 4 0 0 / 1 4 0 0 / 21 4 5 0 / 23 0 3 6")
        };
        for (guard, value) in [(0, 4), (1, 4), (2, 3), (3, 4)] {
            assert_eq!(step_of(&rule(&nodes(guard), "")).1[G], value, "{guard}");
        }
    }

    #[test]
    fn a_repeated_update_is_no_clash() {
        let nodes = "4 4 0 0 / 1 3 0 0 / 21 0 1 0 / 4 4 0 0 / 1 3 0 0 / 21 3 4 0 / 22 2 5 0";
        assert_eq!(step_of(&rule(nodes, "")).0, accepted());
    }

    #[test]
    fn a_forall_does_not_see_the_new_label() {
        // Import x into U, and for all y in U: f(y) := 3. Inside the import, then beside it.
        let inside = "2 1 0 0 / 5 3 0 0 / 1 3 0 0 / 21 1 2 0 / 25 1 1 3 / 26 0 1 4";
        let beside = "20 0 0 0 / 26 0 1 0 / 2 1 0 0 / 5 3 2 0 / 1 3 0 0 / 21 3 4 0 / 25 1 1 5 / 22 1 6 0";
        for nodes in [inside, beside] {
            let (answer, contents, _) = step_of(&rule(nodes, "0 6 0 2 / 1 4 0 2"));
            assert_eq!((answer, contents[U + 6]), (accepted(), TRUE));
            assert_eq!((contents[F + 4], contents[F + 6]), (3, UNDEF));
        }
    }

    #[test]
    fn variables_keep_their_values() {
        // Let 0 be 4 in: for all 1 in U do let 2 be 0 in f(1) := 2 plus 0, twice in a row.
        let nodes =
            "2 1 0 0 / 5 3 0 0 / 2 2 0 0 / 21 1 2 0 / 2 0 0 0 / 24 2 4 3 / 25 1 1 5 / 1 4 0 0 / 24 0 7 6";
        let contents = step_of(&rule(nodes, "1 3 0 2 / 1 5 0 2")).1;
        assert_eq!(contents[F..F + 8], [0, 0, 0, 4, 0, 4, 0, 0]);
    }

    #[test]
    fn terms() {
        // g := op(a, b), from g 7, which no term here gives.
        let value = |kind: u32, a: u32, b: u32| {
            let operands = if kind == 8 { "0 0 0".to_string() } else { "0 1 0".to_string() };
            let term = if kind == 8 { format!("1 {a} 0 0") } else { format!("1 {a} 0 0 / 1 {b} 0 0") };
            let at = term.split('/').count();
            let nodes = format!("{term} / {kind} {operands} / 4 4 0 0 / 21 {} {at} 0", at + 1);
            step_of(&rule(&nodes, "4 0 0 7")).1[G]
        };
        let (f, t, zero, one, two) = (1, 2, 3, 4, 5);
        for (kind, a, b, expected) in [
            (7, zero, zero, TRUE),
            (7, zero, one, FALSE),
            (8, f, 0, TRUE),
            (8, t, 0, FALSE),
            (8, zero, 0, UNDEF),
            (8, 0, 0, UNDEF),
            (9, t, t, TRUE),
            (9, t, f, FALSE),
            (9, f, t, FALSE),
            (9, zero, f, UNDEF),
            (10, f, f, FALSE),
            (10, f, t, TRUE),
            (10, t, f, TRUE),
            (10, t, 0, UNDEF),
            (10, 0, t, UNDEF),
            (11, zero, two, 5),
            (11, two, zero, 5),
            (11, two, two, UNDEF),
            (11, t, zero, UNDEF),
            (11, zero, t, UNDEF),
            (12, two, one, 4),
            (12, two, two, 3),
            (12, one, two, UNDEF),
            (12, 0, zero, UNDEF),
            (13, zero, one, TRUE),
            (13, one, one, FALSE),
            (13, two, one, FALSE),
            (13, zero, t, UNDEF),
        ] {
            assert_eq!(value(kind, a, b), expected, "{kind} {a} {b}");
        }
    }

    #[test]
    fn labels_are_no_numbers() {
        // r := (g less h) equal undef, with g 3 and h 6.
        let nodes = "4 4 0 0 / 4 5 0 0 / 13 0 1 0 / 1 0 0 0 / 7 2 3 0 / 4 8 0 0 / 21 5 4 0";
        assert_eq!(step_of(&rule(nodes, "4 0 0 3 / 5 0 0 6")).1[R], TRUE);
    }
}

mod reads_writes_and_marks {
    use super::*;

    #[test]
    fn a_set_location_is_not_read_but_its_arguments_are() {
        // f(g) := h.
        let book = rule("4 4 0 0 / 5 3 0 0 / 4 5 0 0 / 21 1 2 0", "4 0 0 3 / 5 0 0 4");
        assert_eq!(reads_and_writes_of(&book), (vec![G, H], vec![F + 3]));
    }

    #[test]
    fn both_operands_are_read() {
        // g := (r and U(3)), then with or; r is false, then true.
        for (kind, contents) in [(9, "5 0 0 3"), (10, "8 0 0 2")] {
            let nodes = format!("4 8 0 0 / 1 3 0 0 / 5 1 1 0 / {kind} 0 2 0 / 4 4 0 0 / 21 4 3 0");
            assert_eq!(reads_and_writes_of(&rule(&nodes, contents)), (vec![U + 3, R], vec![G]));
        }
    }

    #[test]
    fn a_let_reads_its_b_once_walked() {
        let nodes = "4 4 0 0 / 4 5 0 0 / 1 3 0 0 / 21 1 2 0 / 24 0 0 3";
        assert_eq!(reads_and_writes_of(&rule(nodes, "")), (vec![G], vec![H]));
    }

    #[test]
    fn the_guard_is_read_and_the_other_branch_is_not() {
        // If r then g := h else g := 3.
        let nodes = "4 8 0 0 / 4 4 0 0 / 4 5 0 0 / 21 1 2 0 / 4 4 0 0 / 1 3 0 0 / 21 4 5 0 / 23 0 3 6";
        assert_eq!(reads_and_writes_of(&rule(nodes, "")), (vec![R], vec![G]));
        assert_eq!(reads_and_writes_of(&rule(nodes, "5 0 0 3 / 8 0 0 2")), (vec![H, R], vec![G]));
    }

    #[test]
    fn a_forall_reads_its_dynamic_universe_at_all_elements() {
        let nodes = |universe: u32| format!("2 0 0 0 / 5 3 0 0 / 1 3 0 0 / 21 1 2 0 / 25 0 {universe} 3");
        let all: Vec<usize> = (U..U + 8).collect();
        assert_eq!(reads_and_writes_of(&rule(&nodes(1), "1 4 0 2")), (all, vec![F + 4]));
        // A static universe and static locations leave no mark.
        assert_eq!(reads_and_writes_of(&rule(&nodes(6), "6 4 0 2")), (vec![], vec![F + 4]));
        let constant = "4 4 0 0 / 4 7 0 0 / 21 0 1 0";
        assert_eq!(reads_and_writes_of(&rule(constant, "7 0 0 4")), (vec![], vec![G]));
        // Not walked, not read: the forall stands in the branch not taken.
        let nodes = "1 1 0 0 / 20 0 0 0 / 25 0 1 1 / 4 4 0 0 / 1 3 0 0 / 21 3 4 0 / 23 0 2 5";
        assert_eq!(reads_and_writes_of(&rule(nodes, "")), (vec![], vec![G]));
    }

    #[test]
    fn an_import_reads_reserve_up_to_its_label() {
        let one = "20 0 0 0 / 26 0 1 0";
        assert_eq!(reads_and_writes_of(&rule(one, "0 6 0 2 / 0 7 0 2")), (vec![6], vec![6, U + 6]));
        assert_eq!(reads_and_writes_of(&rule(one, "0 7 0 2")), (vec![6, 7], vec![7, U + 7]));
        let two = "20 0 0 0 / 26 0 1 0 / 26 1 1 1";
        assert_eq!(
            reads_and_writes_of(&rule(two, "0 6 0 2 / 0 7 0 2")),
            (vec![6, 7], vec![6, 7, U + 6, U + 7])
        );
    }

    #[test]
    fn unchanged_writes_are_writes() {
        // g := 3 beside h := 4, with g 3 already.
        let nodes = "4 4 0 0 / 1 3 0 0 / 21 0 1 0 / 4 5 0 0 / 1 4 0 0 / 21 3 4 0 / 22 2 5 0";
        assert_eq!(reads_and_writes_of(&rule(nodes, "4 0 0 3")), (vec![], vec![G, H]));
    }

    #[test]
    fn a_refused_move_leaves_no_mark() {
        // Move 0: g := h. Move 1: r := g is refused by 11, or h := g beside h := 3 by 15.
        let first = "4 4 0 0 / 4 5 0 0 / 21 0 1 0";
        let non_boolean = "4 8 0 0 / 4 4 0 0 / 21 0 1 0";
        let clash = "4 5 0 0 / 4 4 0 0 / 21 0 1 0 / 4 5 0 0 / 1 3 0 0 / 21 3 4 0 / 22 2 5 0";
        for (second, answer) in [(non_boolean, refused(11, 1, 5)), (clash, refused(15, 1, H as u32))] {
            let run = run_of(&rules(&[first, second], "5 0 0 4"), &ordered(&[0, 1]));
            assert_eq!((run.answer, run.contents[G]), (answer, 4));
            assert_eq!((run.read(0), run.written(0)), (vec![H], vec![G]));
            assert_eq!((run.read(1), run.written(1)), (vec![], vec![]));
        }
    }

    #[test]
    fn refused_at_move_0() {
        let book = rule("4 8 0 0 / 4 4 0 0 / 21 0 1 0", "4 0 0 4 / 7 0 0 5");
        let run = run_of(&book, &ordered(&[0]));
        assert_eq!(run.answer, refused(11, 0, 2));
        assert_eq!(run.contents[..44], start(&book));
        assert!(run.readers[..44].iter().chain(&run.writers[..44]).all(|&mark| mark == 0));
        // The record past L is as lent.
        assert_eq!((run.contents[44], run.readers[44], run.writers[44]), (LENT_VALUE, LENT_MARK, LENT_MARK));
    }

    #[test]
    fn an_accepted_run_fills_the_marks_from_clear() {
        let run = run_of(&rule("4 4 0 0 / 1 3 0 0 / 21 0 1 0", ""), &ordered(&[0]));
        assert_eq!(run.answer, accepted());
        let written: Vec<u64> = (0..44).map(|location| u64::from(location == G)).collect();
        assert_eq!((&run.readers[..44], &run.writers[..44]), (&[0; 44][..], &written[..]));
        assert_eq!((run.contents[44], run.readers[44], run.writers[44]), (LENT_VALUE, LENT_MARK, LENT_MARK));
    }
}

/// Moves that change no location: they fire, and leave the marks of what they read and write.
mod idle {
    use super::*;

    const SKIP: &str = "20 0 0 0";

    /// g := g.
    const KEEP_G: &str = "4 4 0 0 / 4 4 0 0 / 21 0 1 0";

    /// Release h.
    const RELEASE_H: &str = "4 5 0 0 / 27 0 0 0";

    /// Let a variable be a nullary function in skip: reads it and does nothing.
    fn look_at(function: u32) -> String {
        format!("4 {function} 0 0 / 20 0 0 0 / 24 0 0 1")
    }

    #[test]
    fn no_instructions_are_accepted() {
        // A skip, and a release for all x in U, which is empty.
        for nodes in [SKIP, "2 0 0 0 / 27 0 0 0 / 25 0 1 1"] {
            assert_eq!(step_of(&rule(nodes, "")), (accepted(), start(&rule(nodes, "")), vec![]));
        }
    }

    #[test]
    fn a_skip_reads_and_writes_nothing() {
        let run = run_of(&rule(SKIP, "4 0 0 3"), &ordered(&[0]));
        assert_eq!(run.answer, accepted());
        assert!(run.readers[..44].iter().chain(&run.writers[..44]).all(|&mark| mark == 0));
    }

    #[test]
    fn no_instructions_leave_the_marks_of_the_reads() {
        assert_eq!(reads_and_writes_of(&rule(&look_at(4), "")), (vec![G], vec![]));
        // If r then skip, otherwise skip; for all x in U skip.
        assert_eq!(
            reads_and_writes_of(&rule("4 8 0 0 / 20 0 0 0 / 20 0 0 0 / 23 0 1 2", "")),
            (vec![R], vec![])
        );
        assert_eq!(reads_and_writes_of(&rule("20 0 0 0 / 25 0 1 0", "")), ((U..U + 8).collect(), vec![]));
    }

    #[test]
    fn a_second_scan_stands() {
        let run = run_of(&rule(SET_G, ""), &ordered(&[0, 0]));
        assert_eq!((run.answer, run.contents[G]), (accepted(), 3));
        assert_eq!((run.read(1), run.written(1)), (vec![], vec![G]));
    }

    #[test]
    fn all_that_is_given_a_value_is_written() {
        // g := g beside h := 4, with h 4, and f(3) := undef.
        let nodes = "4 4 0 0 / 4 4 0 0 / 21 0 1 0 / 4 5 0 0 / 1 4 0 0 / 21 3 4 0 / 22 2 5 0 \
            / 1 3 0 0 / 5 3 7 0 / 1 0 0 0 / 21 8 9 0 / 22 6 10 0";
        let book = rule(nodes, "4 0 0 3 / 5 0 0 4");
        assert_eq!(step_of(&book).1, start(&book));
        assert_eq!(reads_and_writes_of(&book), (vec![G], vec![F + 3, G, H]));
    }

    #[test]
    fn a_clash_with_the_value_that_stands() {
        // g := 3 beside g := value, with g 3.
        let twice = |value: u32| {
            let nodes = format!("{SET_G} / 4 4 0 0 / 1 {value} 0 0 / 21 3 4 0 / 22 2 5 0");
            step_of(&rule(&nodes, "4 0 0 3")).0
        };
        assert_eq!(twice(3), accepted());
        assert_eq!(twice(4), refused(15, 0, G as u32));
    }

    #[test]
    fn marks_stay_when_a_later_move_is_refused() {
        // Then r := g, by 11.
        let book = rules(&[KEEP_G, "4 8 0 0 / 4 4 0 0 / 21 0 1 0"], "4 0 0 3");
        let run = run_of(&book, &ordered(&[0, 1]));
        assert_eq!(run.answer, refused(11, 1, 5));
        assert_eq!((run.read(0), run.written(0)), (vec![G], vec![G]));
    }

    #[test]
    fn equal_writes_of_what_stands_touch() {
        let run = run_of(&rules(&[SET_G, SET_G], "4 0 0 3"), &log(&[0, 1], &[]));
        assert_eq!((run.answer, run.contents[G]), (refused(17, 0, 1), 3));
        assert_eq!((run.written(0), run.written(1)), (vec![G], vec![G]));
        assert_eq!(run_of(&rules(&[SET_G, SET_G], "4 0 0 3"), &ordered(&[0, 1])).answer, accepted());
    }

    #[test]
    fn a_write_of_what_stands_touches_a_reader() {
        let set_h = "4 5 0 0 / 4 4 0 0 / 21 0 1 0";
        assert_eq!(unordered(SET_G, set_h, "4 0 0 3"), refused(17, 0, 1));
        assert_eq!(unordered(&look_at(4), SET_G, "4 0 0 3"), refused(17, 0, 1));
    }

    #[test]
    fn moves_that_write_nothing_do_not_touch() {
        assert_eq!(unordered(&look_at(4), &look_at(4), ""), accepted());
    }

    #[test]
    fn a_skip_unordered_with_a_release() {
        for order in [[SKIP, RELEASE_H], [RELEASE_H, SKIP]] {
            let run = run_of(&rules(&order, "5 0 0 6"), &log(&[0, 1], &[]));
            assert_eq!((run.answer, run.contents[6], run.contents[H]), (accepted(), TRUE, UNDEF));
        }
    }

    #[test]
    fn a_look_unordered_with_a_release() {
        // The release writes h, which holds its label, and not g.
        assert_eq!(unordered(&look_at(4), RELEASE_H, "4 0 0 3 / 5 0 0 6"), accepted());
        assert_eq!(unordered(&look_at(5), RELEASE_H, "5 0 0 6"), refused(17, 0, 1));
    }

    #[test]
    fn a_write_of_what_stands_unordered_with_a_release() {
        // g holds 3, which the release does not write, or its label, which it does.
        for write in [SET_G, KEEP_G] {
            assert_eq!(unordered(write, RELEASE_H, "4 0 0 3 / 5 0 0 6"), accepted());
            assert_eq!(unordered(RELEASE_H, write, "4 0 0 3 / 5 0 0 6"), accepted());
        }
        assert_eq!(unordered(KEEP_G, RELEASE_H, "4 0 0 6 / 5 0 0 6"), refused(17, 0, 1));
        assert_eq!(unordered(RELEASE_H, KEEP_G, "4 0 0 6 / 5 0 0 6"), refused(17, 0, 1));
    }

    #[test]
    fn a_write_of_what_stands_ordered_with_a_release() {
        // After the release h := undef changes nothing either.
        let clear_h = "4 5 0 0 / 1 0 0 0 / 21 0 1 0";
        for order in [[SET_G, RELEASE_H], [RELEASE_H, KEEP_G], [RELEASE_H, clear_h]] {
            let run = run_of(&rules(&order, "4 0 0 3 / 5 0 0 6"), &ordered(&[0, 1]));
            assert_eq!((run.answer, run.contents[6], run.contents[G]), (accepted(), TRUE, 3));
        }
    }
}

mod touching {
    use super::*;

    #[test]
    fn arguments_of_a_set_location() {
        let set_fg = "4 4 0 0 / 5 3 0 0 / 1 3 0 0 / 21 1 2 0";
        assert_eq!(unordered(SET_G, set_fg, ""), refused(17, 0, 1));
    }

    #[test]
    fn a_guard_that_failed() {
        // If g equals 4 then skip else h := 3.
        let guarded = "4 4 0 0 / 1 4 0 0 / 7 0 1 0 / 20 0 0 0 / 4 5 0 0 / 1 3 0 0 / 21 4 5 0 / 23 2 3 6";
        assert_eq!(unordered(guarded, SET_G, ""), refused(17, 0, 1));
    }

    #[test]
    fn a_new_member_of_a_universe() {
        // For all x in U: f(x) := 3; and U(5) := true.
        let for_all = "2 0 0 0 / 5 3 0 0 / 1 3 0 0 / 21 1 2 0 / 25 0 1 3";
        let join = "1 5 0 0 / 5 1 0 0 / 1 2 0 0 / 21 1 2 0";
        assert_eq!(unordered(for_all, join, "1 3 0 2"), refused(17, 0, 1));
    }

    #[test]
    fn an_import_and_a_release_below_its_label() {
        let import = "20 0 0 0 / 26 0 1 0";
        let release = "4 4 0 0 / 27 0 0 0";
        assert_eq!(unordered(import, release, "0 7 0 2 / 4 0 0 6"), refused(17, 0, 1));
    }

    #[test]
    fn two_writers() {
        assert_eq!(unordered(SET_G, "4 4 0 0 / 1 4 0 0 / 21 0 1 0", ""), refused(17, 0, 1));
        // The same value: h := 3 beside g := 3, after g := 3.
        let both = "4 5 0 0 / 1 3 0 0 / 21 0 1 0 / 4 4 0 0 / 1 3 0 0 / 21 3 4 0 / 22 2 5 0";
        assert_eq!(unordered(SET_G, both, ""), refused(17, 0, 1));
    }

    #[test]
    fn a_release_and_a_write() {
        // g := 3 and release h; f(h) := 3 and release g, which holds the label of h.
        assert_eq!(unordered("4 5 0 0 / 27 0 0 0", SET_G, "5 0 0 6"), accepted());
        let set_fh = "4 5 0 0 / 5 3 0 0 / 1 3 0 0 / 21 1 2 0";
        assert_eq!(unordered(set_fh, "4 4 0 0 / 27 0 0 0", "4 0 0 6 / 5 0 0 6"), refused(17, 0, 1));
    }

    #[test]
    fn moves_that_only_read_alike() {
        // f(3) := h and f(4) := h do not touch.
        let set_f = |element: u32| format!("1 {element} 0 0 / 5 3 0 0 / 4 5 0 0 / 21 1 2 0");
        assert_eq!(unordered(&set_f(3), &set_f(4), "5 0 0 4"), accepted());
    }

    #[test]
    fn least_pair() {
        // g := 3, h := g, and f(3) := g: 0 touches 1 and 2; with 0 before 1 the least pair is 0, 2.
        let set_h = "4 5 0 0 / 4 4 0 0 / 21 0 1 0";
        let set_f = "1 3 0 0 / 5 3 0 0 / 4 4 0 0 / 21 1 2 0";
        let book = rules(&[SET_G, set_h, set_f], "");
        let answer = |pairs: &[(u32, u32)]| run_of(&book, &log(&[0, 1, 2], pairs)).answer;
        assert_eq!(answer(&[]), refused(17, 0, 1));
        assert_eq!(answer(&[(0, 1)]), refused(17, 0, 2));
        assert_eq!(answer(&[(0, 2)]), refused(17, 0, 1));
        assert_eq!(answer(&[(0, 1), (0, 2)]), accepted());
        // g := 3, f(4) := 3, f(3) := f(4), h := g: the pair 0, 3 is less than 1, 2.
        let set_f4 = "1 4 0 0 / 5 3 0 0 / 1 3 0 0 / 21 1 2 0";
        let set_f3 = "1 3 0 0 / 5 3 0 0 / 1 4 0 0 / 5 3 2 0 / 21 1 3 0";
        let book = rules(&[SET_G, set_f4, set_f3, set_h], "");
        let answer = |pairs: &[(u32, u32)]| run_of(&book, &log(&[0, 1, 2, 3], pairs)).answer;
        assert_eq!(answer(&[]), refused(17, 0, 3));
        assert_eq!(answer(&[(0, 3)]), refused(17, 1, 2));
    }

    #[test]
    fn ordered_by_chaining() {
        // g := 3, then h := 4, then f(3) := g: the first and the last are ordered over the second.
        let set_h = "4 5 0 0 / 1 4 0 0 / 21 0 1 0";
        let set_f = "1 3 0 0 / 5 3 0 0 / 4 4 0 0 / 21 1 2 0";
        let book = rules(&[SET_G, set_h, set_f], "");
        assert_eq!(run_of(&book, &log(&[0, 1, 2], &[(0, 1), (1, 2)])).answer, accepted());
        assert_eq!(run_of(&book, &log(&[0, 1, 2], &[(0, 1)])).answer, refused(17, 0, 2));
    }
}
