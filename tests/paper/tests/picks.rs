// Choices (SPECIFICATION 2, 4 and 6): node kind 28, choice lines, the picks of a single move, 18 and 19.

mod support;
use inputs::padded;
use paper::{book_answer, check_book, reads_and_writes, run, step, walk_move, Marks, Pick, TRUE, UNDEF};
use support::*;

/// Choose x in U and do g := x; node 3 is the choose.
const PICK: &str = "4 4 0 0 / 2 0 0 0 / 21 0 1 0 / 28 0 1 2";

/// The same of the static universe S.
const PICK_STATIC: &str = "4 4 0 0 / 2 0 0 0 / 21 0 1 0 / 28 0 6 2";

/// For all x in U choose y in V and do f(x) := y; node 4 is the choose, 5 the forall.
const PICK_EACH: &str = "2 0 0 0 / 5 3 0 0 / 2 1 0 0 / 21 1 2 0 / 28 1 2 3 / 25 0 1 4";

/// g := 3 beside g := 4; node 6 is the root.
const TWO_VALUES: &str = "4 4 0 0 / 1 3 0 0 / 21 0 1 0 / 4 4 0 0 / 1 4 0 0 / 21 3 4 0 / 22 2 5 0";

/// The answer of a move of agent 0 with these picks.
fn picked(nodes: &str, contents: &str, picks: &[Pick]) -> paper::Answer {
    let (answer, after, list) = step_with(&rule(nodes, contents), picks);
    if answer != accepted() {
        assert_eq!(after, start(&rule(nodes, contents)), "a refused move leaves the contents");
    }
    assert!(![18, 19].contains(&answer.number) || list.is_empty());
    answer
}

mod choosing {
    use super::*;

    #[test]
    fn the_variable_is_the_pick() {
        for (nodes, contents) in [(PICK, "1 3 0 2 / 1 5 0 2"), (PICK_STATIC, "6 3 0 2 / 6 5 0 2")] {
            for pick in [3, 5] {
                let (answer, after, list) = step_with(&rule(nodes, contents), &[Pick::from(pick)]);
                assert_eq!((answer, after[G], list), (accepted(), pick, vec![update(G, pick)]));
            }
        }
    }

    #[test]
    fn undef_false_true_and_labels_can_be_picked() {
        let contents = "1 0 0 2 / 1 1 0 2 / 1 2 0 2 / 1 6 0 2 / 4 0 0 4";
        for pick in [0, 1, 2, 6] {
            let (answer, after, _) = step_with(&rule(PICK, contents), &[Pick::from(pick)]);
            assert_eq!((answer, after[G]), (accepted(), pick));
        }
    }

    #[test]
    fn picks_are_used_in_text_order() {
        // Choose x in U do g := x, beside choose x in V do h := x; then with the fields of `both` swapped.
        let second = "4 5 0 0 / 2 0 0 0 / 21 0 1 0 / 28 0 2 2";
        let contents = "1 3 0 2 / 2 4 0 2";
        let nodes = both(PICK, second);
        let swapped = nodes.replace("22 3 7 0", "22 7 3 0");
        assert_eq!(step_with(&rule(&nodes, contents), &[3, 4]).2, [update(G, 3), update(H, 4)]);
        assert_eq!(picked(&nodes, contents, &[4, 3]), refused(18, 0, 3));
        assert_eq!(step_with(&rule(&swapped, contents), &[4, 3]).2, [update(H, 4), update(G, 3)]);
        assert_eq!(picked(&swapped, contents, &[3, 4]), refused(18, 0, 7));
    }

    #[test]
    fn a_choice_inside_a_choice() {
        // Choose x in U, choose y in V: f(x) := y.
        let nodes = "2 0 0 0 / 5 3 0 0 / 2 1 0 0 / 21 1 2 0 / 28 1 2 3 / 28 0 1 4";
        let book = rule(nodes, "1 3 0 2 / 2 4 0 2");
        assert_eq!(step_with(&book, &[3, 4]).2, [update(F + 3, 4)]);
        assert_eq!(step_with(&book, &[4, 4]).0, refused(18, 0, 5));
        assert_eq!(step_with(&book, &[3, 3]).0, refused(18, 0, 4));
    }

    #[test]
    fn each_turn_of_a_forall_has_its_own_pick() {
        let book = rule(PICK_EACH, "1 3 0 2 / 1 5 0 2 / 2 4 0 2 / 2 6 0 2");
        assert_eq!(step_with(&book, &[6, 4]).2, [update(F + 3, 6), update(F + 5, 4)]);
        assert_eq!(step_with(&book, &[4, 4]).2, [update(F + 3, 4), update(F + 5, 4)]);
        // Without members there is no turn and no pick.
        assert_eq!(picked(PICK_EACH, "2 4 0 2", &[]), accepted());
    }

    #[test]
    fn a_branch_not_taken_uses_no_pick() {
        let nodes = "4 8 0 0 / 4 4 0 0 / 2 0 0 0 / 21 1 2 0 / 28 0 1 3 / 20 0 0 0 / 23 0 4 5";
        assert_eq!(picked(nodes, "1 3 0 2", &[]), accepted());
        assert_eq!(picked(nodes, "1 3 0 2", &[3]), refused(19, 0, 6));
        assert_eq!(picked(nodes, "1 3 0 2 / 8 0 0 2", &[3]), accepted());
        assert_eq!(picked(nodes, "1 3 0 2 / 8 0 0 2", &[]), refused(19, 0, 4));
    }

    #[test]
    fn the_universe_is_that_before_the_move() {
        // Import y into U and choose x in U; the new label 6 is on the roll before the move.
        let nodes = "4 4 0 0 / 2 0 0 0 / 21 0 1 0 / 28 0 1 2 / 26 1 1 3";
        assert_eq!(picked(nodes, "0 6 0 2 / 1 3 0 2", &[6]), refused(18, 0, 3));
        assert_eq!(picked(nodes, "0 6 0 2 / 1 3 0 2", &[3]), accepted());
        // U(4) := true beside the choice.
        let nodes = both("1 4 0 0 / 5 1 0 0 / 1 2 0 0 / 21 1 2 0", PICK);
        assert_eq!(picked(&nodes, "", &[4]), refused(18, 0, 7));
    }

    #[test]
    fn a_label_on_the_roll_is_in_no_universe() {
        assert_eq!(picked(PICK, "0 7 0 2 / 1 6 0 2", &[7]), refused(18, 0, 3));
        assert_eq!(picked(PICK, "0 7 0 2 / 1 6 0 2", &[6]), accepted());
    }

    #[test]
    fn a_choice_gives_no_instruction() {
        // The body is skip.
        assert_eq!(step_with(&rule("20 0 0 0 / 28 0 1 0", "1 3 0 2"), &[3]).2, []);
    }

    #[test]
    fn a_choice_counts_for_depth_and_not_for_nesting() {
        // A choice of skip, under as many levels of both.
        let tower = |skips: usize| {
            let mut nodes = vec!["20 0 0 0".to_string(), "28 0 1 0".to_string()];
            for _ in 0..skips {
                let at = nodes.len();
                nodes.extend(["20 0 0 0".to_string(), format!("22 {} {at} 0", at - 1)]);
            }
            book_answer(&rule(&nodes.join(" / "), ""))
        };
        assert_eq!(tower(30), accepted());
        assert_eq!(tower(31), refused(6, 0, 0));
        let nested = "20 0 0 0 / 28 3 1 0 / 25 0 1 1 / 28 1 6 2 / 25 2 1 3 / 28 4 1 4";
        assert_eq!(book_answer(&rule(nested, "")), accepted());
        let third = "20 0 0 0 / 25 0 1 0 / 28 1 6 1 / 25 2 1 2 / 25 3 1 3";
        assert_eq!(book_answer(&rule(third, "")), refused(6, 1, 0));
    }
}

mod refusals_18_and_19 {
    use super::*;

    #[test]
    fn not_in_the_universe() {
        assert_eq!(picked(PICK, "1 3 0 2", &[4]), refused(18, 0, 3));
        assert_eq!(picked(PICK_STATIC, "6 3 0 2", &[4]), refused(18, 0, 3));
        // In the second turn of a forall.
        assert_eq!(picked(PICK_EACH, "1 3 0 2 / 1 5 0 2 / 2 4 0 2", &[4, 5]), refused(18, 0, 4));
    }

    #[test]
    fn a_pick_is_lacking() {
        assert_eq!(picked(PICK, "1 3 0 2", &[]), refused(19, 0, 3));
        assert_eq!(picked(PICK_STATIC, "6 3 0 2", &[]), refused(19, 0, 3));
        assert_eq!(picked(PICK_EACH, "1 3 0 2 / 1 5 0 2 / 2 4 0 2", &[4]), refused(19, 0, 4));
        assert_eq!(picked(&both(PICK, PICK), "1 3 0 2", &[3]), refused(19, 0, 7));
    }

    #[test]
    fn an_empty_universe() {
        for nodes in [PICK, PICK_STATIC] {
            assert_eq!(picked(nodes, "", &[]), refused(19, 0, 3));
            assert_eq!(picked(nodes, "", &[4]), refused(18, 0, 3));
        }
    }

    #[test]
    fn a_pick_is_left_over() {
        // The place is the root, which is the choose itself or not.
        assert_eq!(picked(PICK, "1 3 0 2", &[3, 3]), refused(19, 0, 3));
        assert_eq!(picked(&both(PICK, "20 0 0 0"), "1 3 0 2", &[3, 3]), refused(19, 0, 5));
        assert_eq!(picked(PICK_EACH, "1 3 0 2 / 2 4 0 2", &[4, 4]), refused(19, 0, 5));
        // It need not be in any universe.
        assert_eq!(picked(PICK, "1 3 0 2", &[3, 7]), refused(19, 0, 3));
    }

    #[test]
    fn a_move_without_a_choice() {
        assert_eq!(picked("20 0 0 0", "", &[3]), refused(19, 0, 0));
        assert_eq!(picked("4 4 0 0 / 1 3 0 0 / 21 0 1 0", "", &[3]), refused(19, 0, 2));
        assert_eq!(picked("4 4 0 0 / 1 3 0 0 / 21 0 1 0", "", &[]), accepted());
    }

    #[test]
    fn left_over_before_a_clash() {
        assert_eq!(picked(TWO_VALUES, "", &[3]), refused(19, 0, 6));
        assert_eq!(step_of(&rule(TWO_VALUES, "")).0, refused(15, 0, G as u32));
        // A choice that took its pick leaves the clash.
        let nodes = both(PICK, TWO_VALUES);
        assert_eq!(step_with(&rule(&nodes, "1 3 0 2"), &[3]).0, refused(15, 0, G as u32));
        assert_eq!(picked(&nodes, "1 3 0 2", &[3, 3]), refused(19, 0, 11));
    }

    #[test]
    fn both_are_met_before_a_clash() {
        for nodes in [both(TWO_VALUES, PICK), both(PICK, TWO_VALUES)] {
            let choose = if nodes.starts_with(PICK) { 3 } else { 10 };
            assert_eq!(picked(&nodes, "1 3 0 2", &[4]), refused(18, 0, choose));
            assert_eq!(picked(&nodes, "1 3 0 2", &[]), refused(19, 0, choose));
        }
    }

    /// A rule for each of 11 to 13, with the node that is refused.
    const OTHERS: [(&str, u32, u32); 3] = [
        ("4 8 0 0 / 1 3 0 0 / 21 0 1 0", 11, 2),
        ("1 0 0 0 / 27 0 0 0", 12, 1),
        ("20 0 0 0 / 26 0 1 0", 13, 1),
    ];

    #[test]
    fn the_first_met_halts_the_walk() {
        for (other, number, node) in OTHERS {
            for picks in [&[][..], &[4]] {
                let (first, second) = (both(PICK, other), both(other, PICK));
                let met = if picks.is_empty() { 19 } else { 18 };
                assert_eq!(picked(&first, "1 3 0 2", picks), refused(met, 0, 3));
                assert_eq!(picked(&second, "1 3 0 2", picks), refused(number, 0, node));
            }
            // With the right pick the other one is met, wherever it stands.
            assert_eq!(picked(&both(PICK, other), "1 3 0 2", &[3]), refused(number, 0, 4 + node));
            assert_eq!(picked(&both(other, PICK), "1 3 0 2", &[3]), refused(number, 0, node));
        }
    }

    #[test]
    fn left_over_after_the_whole_walk() {
        for (other, number, node) in OTHERS {
            assert_eq!(picked(other, "", &[3]), refused(number, 0, node));
        }
        // 18 and 19 as met come before it too.
        assert_eq!(picked(PICK, "1 3 0 2", &[4, 3]), refused(18, 0, 3));
        assert_eq!(picked(&both(PICK, "20 0 0 0"), "", &[4, 3]), refused(18, 0, 3));
    }

    /// For all x in W, of this many members: f(x) := 3; then choose x in W do f(x) := 3.
    fn many(members: u32) -> Vec<u8> {
        let lines: Vec<String> = (0..members).map(|element| format!("1 {element} 0 2")).collect();
        let set = "2 0 0 0 / 5 2 0 0 / 1 3 0 0 / 21 1 2 0";
        let nodes = both(&format!("{set} / 25 0 1 3"), &format!("{set} / 28 0 1 3"));
        book(300, 300, "1 1 0 0 / 1 2 0 0", &nodes, "10 3 0 0", &lines.join(" / "))
    }

    #[test]
    fn with_a_full_list() {
        // The choose itself adds no instruction; its body adds the 257th.
        assert_eq!(step_with(&many(255), &[3]).0, accepted());
        assert_eq!(step_with(&many(256), &[3]).0, refused(14, 0, 8));
        assert_eq!(step_with(&many(256), &[299]).0, refused(18, 0, 9));
        assert_eq!(step_with(&many(256), &[]).0, refused(19, 0, 9));
        assert_eq!(step_with(&many(257), &[]).0, refused(14, 0, 3));
        assert_eq!(step_with(&many(256), &[3, 3]).0, refused(14, 0, 8));
        assert_eq!(step_with(&many(255), &[3, 3]).0, refused(19, 0, 10));
    }
}

mod single_moves {
    use super::*;

    #[test]
    fn order_of_the_refusals() {
        let faulty = rule(PICK, "1 3 0 0");
        assert_eq!(step(&faulty, &mut [], 5, &[99], 0), refused(8, 16, 0));
        let sound = rule(PICK, "1 3 0 2");
        let mut contents = start(&sound);
        contents[0] = 9;
        assert_eq!(step(&sound, &mut contents[..43], 1, &[3, 8], 0), refused(9, 0, 0));
        assert_eq!(step(&sound, &mut contents[..43], 0, &[3, 8], 0), refused(9, 2, 0));
        assert_eq!(step(&sound, &mut contents[..43], 0, &[4], 0), refused(2, 44, 0));
        assert_eq!(step(&sound, &mut contents, 0, &[4], 255), refused(2, 256, 3));
        assert_eq!(step(&sound, &mut contents, 0, &[4], 256), refused(8, 0, 0));
        contents[0] = 1;
        assert_eq!(step(&sound, &mut contents, 0, &[4], 256), refused(18, 0, 3));
        assert_eq!(step(&sound, &mut contents, 0, &[3], 256), accepted());
        assert_eq!(contents[G], 3);
    }

    #[test]
    fn the_least_pick_that_is_no_element() {
        let book = rule(PICK, "1 3 0 2");
        for (picks, place) in
            [(&[8][..], 1), (&[65_535], 1), (&[3, 8, 9], 2), (&[7, 3, 3, 8], 4), (&[8, 3], 1)]
        {
            assert_eq!(step_with(&book, picks).0, refused(9, place, 0), "{picks:?}");
        }
        // E − 1 is an element.
        assert_eq!(step_with(&book, &[7]).0, refused(18, 0, 3));
    }

    #[test]
    fn a_pick_has_64_bits() {
        // 3 is in the universe; a number whose low bits are 3 is no element.
        let book = rule(PICK, "1 3 0 2");
        assert_eq!(step_with(&book, &[3]).0, accepted());
        for high in [16, 31, 32, 48, 63].map(|bit| 1 << bit) {
            for pick in [high, high + 3, high + 8] {
                assert_eq!(step_with(&book, &[pick]).0, refused(9, 1, 0), "{pick}");
                assert_eq!(step_with(&book, &[3, pick]).0, refused(9, 2, 0), "{pick}");
            }
        }
        assert_eq!(step_with(&book, &[Pick::MAX]).0, refused(9, 1, 0));
        // The least index, not the least number.
        assert_eq!(step_with(&book, &[3, Pick::MAX, 8]).0, refused(9, 2, 0));
    }

    #[test]
    fn more_than_256_picks() {
        // Two foralls of 20 members with a choice in each turn: 400 picks.
        let lines: Vec<String> = (0..20).map(|element| format!("1 {element} 0 2")).collect();
        let nodes = "20 0 0 0 / 28 2 1 0 / 25 1 1 1 / 25 0 1 2";
        let book = book(20, 20, "1 1 0 0", nodes, "3 3 0 0", &lines.join(" / "));
        assert_eq!(step_with(&book, &[7; 400]).0, accepted());
        assert_eq!(step_with(&book, &[7; 399]).0, refused(19, 0, 1));
        assert_eq!(step_with(&book, &[7; 401]).0, refused(19, 0, 3));
        let late: Vec<Pick> = (0..400).map(|index| if index == 300 { 20 } else { 7 }).collect();
        assert_eq!(step_with(&book, &late).0, refused(9, 301, 0));
    }

    #[test]
    fn places_have_24_bits() {
        let book = rule(PICK, "1 3 0 2");
        let with_fault_at = |index: usize| {
            let mut picks = vec![3; (1 << 24) + 2];
            picks[index] = 8;
            step_with(&book, &picks).0
        };
        assert_eq!(with_fault_at((1 << 24) - 3), refused(9, 16_777_214, 0));
        assert_eq!(with_fault_at((1 << 24) - 2), refused(9, 16_777_215, 0));
        assert_eq!(with_fault_at((1 << 24) - 1), refused(9, 16_777_215, 0));
        assert_eq!(with_fault_at((1 << 24) + 1), refused(9, 16_777_215, 0));
    }
}

mod choice_lines {
    use super::*;

    /// Two agents, each of which picks: choose x in U do g := x, and choose x in V do h := x.
    fn choosing_agents() -> Vec<u8> {
        let second = "4 5 0 0 / 2 0 0 0 / 21 0 1 0 / 28 0 2 2";
        rules(&[PICK, second], "1 3 0 2 / 1 4 0 2 / 2 4 0 2 / 2 5 0 2")
    }

    fn answer(log: &str) -> paper::Answer {
        let book = choosing_agents();
        let run = run_of(&book, &padded(log));
        if run.answer.number == 9 || run.answer.number == 1 {
            assert!(run.contents.iter().all(|&value| value == LENT_VALUE));
            assert!(run.readers.iter().chain(&run.writers).all(|&mark| mark == LENT_MARK));
        }
        run.answer
    }

    #[test]
    fn each_move_uses_its_own() {
        let run = run_of(&choosing_agents(), &log_with(&[0, 1], &[], &[(0, 3), (1, 5)]));
        assert_eq!((run.answer, run.contents[G], run.contents[H]), (accepted(), 3, 5));
        let run = run_of(&choosing_agents(), &log_with(&[1, 0], &[], &[(0, 5), (1, 3)]));
        assert_eq!((run.answer, run.contents[G], run.contents[H]), (accepted(), 3, 5));
        // Both lines are move 0's: it has one left over; with the first only, move 1 lacks its own.
        assert_eq!(answer("2 0 2 0 / 0 0 0 0 / 1 0 0 0 / 0 3 0 0 / 0 4 0 0"), refused(19, 0, 3));
        assert_eq!(answer("2 0 1 0 / 0 0 0 0 / 1 0 0 0 / 0 3 0 0"), refused(19, 1, 7));
        assert_eq!(answer("2 0 1 0 / 0 0 0 0 / 1 0 0 0 / 1 5 0 0"), refused(19, 0, 3));
        assert_eq!(answer("2 0 2 0 / 0 0 0 0 / 1 0 0 0 / 0 3 0 0 / 1 3 0 0"), refused(18, 1, 7));
    }

    #[test]
    fn a_move_may_have_several() {
        let nodes = both(PICK, "4 5 0 0 / 2 0 0 0 / 21 0 1 0 / 28 0 1 2");
        let book = rule(&nodes, "1 3 0 2 / 1 4 0 2");
        let choices = [(0, 3), (0, 4), (1, 4), (1, 3)];
        let run = run_of(&book, &log_with(&[0, 0], &[(0, 1)], &choices));
        assert_eq!((run.answer, run.contents[G], run.contents[H]), (accepted(), 4, 3));
    }

    #[test]
    fn places_are_move_and_node() {
        let book = rules(&["20 0 0 0", PICK, TWO_VALUES], "1 3 0 2");
        let answer = |choices: &[(u32, u32)]| run_of(&book, &log_with(&[0, 1, 2], &[], choices)).answer;
        assert_eq!(answer(&[(0, 3), (1, 3)]), refused(19, 0, 0));
        assert_eq!(answer(&[]), refused(19, 1, 4));
        assert_eq!(answer(&[(1, 5)]), refused(18, 1, 4));
        assert_eq!(answer(&[(1, 3), (1, 3)]), refused(19, 1, 4));
        assert_eq!(answer(&[(1, 3), (2, 3)]), refused(19, 2, 11));
        assert_eq!(answer(&[(1, 3)]), refused(15, 2, G as u32));
    }

    #[test]
    fn lines_at_fault() {
        // Two moves, no pairs, so that choice lines are 3 and 4.
        for (lines, line) in [
            ("2 3 0 0 / 1 5 0 0", 3),      // move not below m
            ("64 3 0 0 / 1 5 0 0", 3),     //
            ("0 3 0 0 / 2 5 0 0", 4),      //
            ("0 8 0 0 / 1 5 0 0", 3),      // element not below E
            ("0 65539 0 0 / 1 5 0 0", 3),  //
            ("0 3 0 0 / 1 999999 0 0", 4), //
            ("1 5 0 0 / 0 3 0 0", 4),      // move below that of the line before
            ("0 3 1 0 / 1 5 0 0", 3),      // third and fourth field
            ("0 3 0 1 / 1 5 0 0", 3),      //
            ("0 3 0 0 / 1 5 1 0", 4),      //
            ("0 3 0 0 / 1 5 0 1", 4),      //
            ("2 8 0 0 / 2 8 0 0", 3),      // the least line
        ] {
            let log = format!("2 0 2 0 / 0 0 0 0 / 1 0 0 0 / {lines}");
            assert_eq!(answer(&log), refused(9, line, 0), "{lines}");
        }
        assert_eq!(answer("2 0 2 0 / 0 0 0 0 / 1 0 0 0 / 0 3 0 0 / 1 5 0 0"), accepted());
    }

    #[test]
    fn after_moves_and_pairs() {
        // Lines 3 and 4 are the pair and the choice.
        assert_eq!(answer("2 1 1 0 / 0 0 0 0 / 1 0 0 0 / 1 1 0 0 / 2 0 0 0"), refused(9, 3, 0));
        assert_eq!(answer("2 1 1 0 / 0 0 0 0 / 1 0 0 0 / 0 1 0 0 / 2 0 0 0"), refused(9, 4, 0));
        assert_eq!(answer("2 1 1 0 / 0 0 0 0 / 2 0 0 0 / 1 1 0 0 / 2 0 0 0"), refused(9, 2, 0));
        // A choice line is not held against the pair before it: move 0 after the pair 0, 1.
        assert_eq!(answer("2 1 1 0 / 0 0 0 0 / 1 0 0 0 / 0 1 0 0 / 0 3 0 0"), refused(19, 1, 7));
        assert_eq!(answer("0 0 1 0 / 0 3 0 0"), refused(9, 1, 0));
    }

    #[test]
    fn the_header() {
        assert_eq!(answer("0 0 257 0"), refused(9, 0, 0));
        assert_eq!(answer("0 0 999999 0"), refused(9, 0, 0));
        assert_eq!(answer("0 0 0 1"), refused(9, 0, 0));
        assert_eq!(answer("0 0 256 0"), refused(1, 1, 1));
    }

    #[test]
    fn missing_surplus_and_ill_formed_before_nine() {
        // The move line is at fault by 9, and a choice line is missing, surplus or ill-formed.
        assert_eq!(answer("1 0 2 0 / 9 0 0 0 / 0 3 0 0"), refused(1, 3, 1));
        assert_eq!(answer("1 0 1 0 / 9 0 0 0 / 0 3 0 0 / 0 3 0 0"), refused(1, 3, 1));
        let mut text = padded("1 0 1 0 / 9 0 0 0 / 0 3 0 0");
        text[2 * 25 + 10..][..2].copy_from_slice(b"03");
        assert_eq!(run_of(&choosing_agents(), &text).answer, refused(1, 2, 1));
        assert_eq!(answer("1 0 1 0 / 9 0 0 0 / 0 3 0 0"), refused(9, 1, 0));
    }

    #[test]
    fn nine_before_ten_and_two() {
        assert_eq!(answer("2 0 1 0 / 0 0 0 0 / 0 0 0 0 / 2 3 0 0"), refused(9, 3, 0));
        let log = padded("1 0 1 0 / 0 0 0 0 / 1 3 0 0");
        assert_eq!(run(&choosing_agents(), &log, &mut [], &mut [], &mut [], 0).answer, refused(9, 2, 0));
        let log = padded("1 0 1 0 / 0 0 0 0 / 0 5 0 0");
        assert_eq!(run(&choosing_agents(), &log, &mut [], &mut [], &mut [], 0).answer, refused(2, 44, 0));
        assert_eq!(run_of(&choosing_agents(), &log).answer, refused(18, 0, 3));
    }

    #[test]
    fn as_many_as_fit() {
        // For all x in U, of four members, choose y in S: 64 moves have 256 picks.
        let nodes = "20 0 0 0 / 28 1 6 0 / 25 0 1 1";
        let book = rule(nodes, "1 0 0 2 / 1 1 0 2 / 1 2 0 2 / 1 3 0 2 / 6 5 0 2");
        let pairs: Vec<(u32, u32)> = (1..64).map(|later| (later - 1, later)).collect();
        let choices: Vec<(u32, u32)> = (0..256).map(|line| (line / 4, 5)).collect();
        assert_eq!(run_of(&book, &log_with(&[0; 64], &pairs, &choices)).answer, accepted());
        assert_eq!(run_of(&book, &log_with(&[0; 64], &pairs, &choices[1..])).answer, refused(19, 0, 1));
        let more = [&choices[..], &[(63, 5)]].concat();
        assert_eq!(run_of(&book, &log_with(&[0; 64], &pairs, &more)).answer, refused(9, 0, 0));
    }

    #[test]
    fn printed_by_rental() {
        let log = |lines: &str| printed(&[choosing_agents(), padded(lines)].concat());
        let start = "1 3 0 2 / 1 4 0 2 / 2 4 0 2 / 2 5 0 2";
        assert_eq!(log("1 0 1 0 / 0 0 0 0 / 0 4 0 0"), format!("0 0 0 5 / {start} / 4 0 0 4"));
        assert_eq!(log("1 0 1 0 / 0 0 0 0 / 0 5 0 0"), "18 0 3 0");
        assert_eq!(log("1 0 0 0 / 0 0 0 0"), "19 0 3 0");
    }
}

mod reads_and_marks {
    use super::*;

    /// The locations that a move of agent 0 with these picks reads and writes.
    fn touched(nodes: &str, contents: &str, picks: &[Pick]) -> (Vec<usize>, Vec<usize>) {
        let book = check_book(&rule(nodes, contents)).unwrap();
        reads_and_writes(&book, &paper::start_table(&book), 0, picks).unwrap()
    }

    /// The locations that a refused walk has read, with the refusal's number.
    fn read_before(nodes: &str, contents: &str, picks: &[Pick]) -> (u32, Vec<usize>) {
        let book = check_book(&rule(nodes, contents)).unwrap();
        let mut readers = vec![0; book.locations];
        let mut marks = Marks { readers: &mut readers, writers: &mut [], bit: 1 };
        let table = paper::start_table(&book);
        let refusal = walk_move(&book, &table, 0, picks, &mut marks, &mut Vec::new()).unwrap_err();
        (refusal.number, (0..readers.len()).filter(|&location| readers[location] != 0).collect())
    }

    #[test]
    fn only_the_universe_at_the_pick() {
        assert_eq!(touched(PICK, "1 3 0 2 / 1 5 0 2", &[5]), (vec![U + 5], vec![G]));
        assert_eq!(touched(PICK_STATIC, "6 3 0 2", &[3]), (vec![], vec![G]));
        let all: Vec<usize> = (U..U + 8).chain([V + 4, V + 6]).collect();
        let contents = "1 3 0 2 / 1 5 0 2 / 2 4 0 2 / 2 6 0 2";
        assert_eq!(touched(PICK_EACH, contents, &[6, 4]), (all, vec![F + 3, F + 5]));
    }

    #[test]
    fn the_universe_is_read_before_18_and_not_before_19() {
        assert_eq!(read_before(PICK, "1 3 0 2", &[5]), (18, vec![U + 5]));
        assert_eq!(read_before(PICK, "1 3 0 2", &[]), (19, vec![]));
        assert_eq!(read_before(PICK, "1 3 0 2", &[3, 5]), (19, vec![U + 3]));
        assert_eq!(read_before(PICK_STATIC, "6 3 0 2", &[5]), (18, vec![]));
    }

    #[test]
    fn a_refused_move_leaves_no_mark() {
        let book = rules(&["4 5 0 0 / 1 3 0 0 / 21 0 1 0", PICK], "1 3 0 2");
        for (choices, answer) in [
            (&[(1, 4)][..], refused(18, 1, 6)),
            (&[], refused(19, 1, 6)),
            (&[(1, 3), (1, 3)], refused(19, 1, 6)),
        ] {
            let run = run_of(&book, &log_with(&[0, 1], &[], choices));
            assert_eq!((run.answer, run.contents[G], run.contents[H]), (answer, UNDEF, 3));
            assert_eq!((run.read(0), run.written(0)), (vec![], vec![H]));
            assert_eq!((run.read(1), run.written(1)), (vec![], vec![]));
        }
        let run = run_of(&book, &log_with(&[0, 1], &[], &[(1, 3)]));
        assert_eq!(run.answer, accepted());
        assert_eq!((run.read(1), run.written(1)), (vec![U + 3], vec![G]));
    }

    /// The element that a rule lets join or leave U.
    fn set_u(element: u32, value: u32) -> String {
        format!("1 {element} 0 0 / 5 1 0 0 / 1 {value} 0 0 / 21 1 2 0")
    }

    #[test]
    fn a_choice_touches_its_element_alone() {
        let answer = |element: u32, value: u32, order: [u32; 2]| {
            let book = rules(&[PICK, &set_u(element, value)], "1 3 0 2");
            let of_pick = if order[0] == 0 { 0 } else { 1 };
            run_of(&book, &log_with(&order, &[], &[(of_pick, 3)])).answer
        };
        // Another element joins: the choice does not look at it. Its own is written, changed or not.
        assert_eq!(answer(4, 2, [0, 1]), accepted());
        assert_eq!(answer(4, 2, [1, 0]), accepted());
        assert_eq!(answer(3, 1, [0, 1]), refused(17, 0, 1));
        assert_eq!(answer(3, 2, [1, 0]), refused(17, 0, 1));
        // In this order the pick has left the universe.
        assert_eq!(answer(3, 1, [1, 0]), refused(18, 1, 3));
    }

    #[test]
    fn two_clerks_and_one_pair() {
        // Choose x in U and do U(x) := false, for both agents.
        let take = "2 0 0 0 / 5 1 0 0 / 1 1 0 0 / 21 1 2 0 / 28 0 1 3";
        let book = rules(&[take, take], "1 3 0 2 / 1 4 0 2");
        let answer = |pairs: &[(u32, u32)], first, second| {
            run_of(&book, &log_with(&[0, 1], pairs, &[(0, first), (1, second)])).answer
        };
        assert_eq!(answer(&[], 3, 4), accepted());
        assert_eq!(answer(&[], 3, 3), refused(18, 1, 9));
        assert_eq!(answer(&[(0, 1)], 3, 3), refused(18, 1, 9));
    }

    #[test]
    fn a_choice_and_a_release() {
        // Choose x in U do g := x, and release h, with h 6; the pick is 3 or 6.
        let release = "4 5 0 0 / 27 0 0 0";
        let book = rules(&[PICK, release], "1 3 0 2 / 1 6 0 2 / 5 0 0 6");
        assert_eq!(run_of(&book, &log_with(&[0, 1], &[], &[(0, 3)])).answer, accepted());
        assert_eq!(run_of(&book, &log_with(&[0, 1], &[], &[(0, 6)])).answer, refused(17, 0, 1));
        let look = "20 0 0 0 / 28 0 1 0";
        let book = rules(&[look, release], "1 3 0 2 / 1 6 0 2 / 5 0 0 6");
        // A look at 3 is not written by the release of 6, a look at 6 is.
        assert_eq!(run_of(&book, &log_with(&[0, 1], &[], &[(0, 3)])).answer, accepted());
        let touching = run_of(&book, &log_with(&[0, 1], &[], &[(0, 6)]));
        assert_eq!((touching.answer, touching.contents[6]), (refused(17, 0, 1), TRUE));
    }
}
