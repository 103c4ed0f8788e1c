// Text, book, lent tables, log and printer (SPECIFICATION 1 to 3, 6 and 10), with the points that their text leaves open.

mod support;
use inputs::{padded, specification};
use paper::{book_answer, check_book, run, step};
use support::*;

/// A book of these nodes with one agent at this root, a static relation 1, a dynamic relation 2,
/// a static function 3, a dynamic function 4 (all unary), a dynamic binary relation 5, and a
/// dynamic nullary relation 6.
fn with_nodes(nodes: &str, root: usize) -> Vec<u8> {
    let functions = "1 1 0 0 / 1 3 0 0 / 1 0 0 0 / 1 2 0 0 / 2 3 0 0 / 0 3 0 0";
    book(8, 6, functions, nodes, &format!("{root} 3 0 0"), "")
}

fn nodes_answer(nodes: &str) -> paper::Answer {
    book_answer(&with_nodes(nodes, padded(nodes).len() / 25 - 1))
}

mod text_and_headers {
    use super::*;

    #[test]
    fn cut_short_and_surplus() {
        let whole = specification::book();
        let lines = whole.len() / 25;
        for length in 2 * 25..whole.len() {
            assert_eq!(book_answer(&whole[..length]), refused(1, length as u32 / 25, 0));
        }
        for surplus in [&b"\n"[..], b" ", b"0", &padded("0 0 0 0")] {
            let text = [&whole, surplus].concat();
            assert_eq!(book_answer(&text), refused(1, lines as u32, 0));
        }
    }

    #[test]
    fn ill_formed_fields() {
        let whole = specification::book();
        for field in [
            &b"      "[..],
            b"\t    1",
            b"    +1",
            b"    -1",
            b"    01",
            b"1     ",
            b"   1 1",
            b"    1\r",
            b"    1\n",
        ] {
            let mut text = whole.clone();
            text[4 * 25 + 6..][..6].copy_from_slice(field);
            assert_eq!(book_answer(&text), refused(1, 4, 0), "{field:?}");
        }
        for last in [b' ', b'0', b'\r'] {
            let mut text = whole.clone();
            text[4 * 25 + 24] = last;
            assert_eq!(book_answer(&text), refused(1, 4, 0));
        }
    }

    #[test]
    fn six_digits_are_sound() {
        assert_eq!(book_answer(&padded("999999 4 1 1 / 1 0 0 0")), refused(3, 0, 0));
    }

    /// Choice: 1 on both header lines comes before 3.
    #[test]
    fn one_on_both_headers_then_three() {
        assert_eq!(book_answer(&padded("3 4 1 1")), refused(1, 1, 0));
        assert_eq!(book_answer(b""), refused(1, 0, 0));
    }

    #[test]
    fn unused_header_fields() {
        assert_eq!(book_answer(&padded("4 4 1 1 / 1 0 1 1")), refused(3, 6, 0));
        assert_eq!(book_answer(&padded("4 4 1 1 / 1 0 0 1")), refused(3, 7, 0));
    }

    #[test]
    fn least_field() {
        assert_eq!(book_answer(&padded("10001 10002 1 1 / 1 0 0 0")), refused(3, 0, 0));
        assert_eq!(book_answer(&padded("9 10 33 0 / 17 0 1 0")), refused(3, 1, 0));
    }

    #[test]
    fn bad_header_before_missing_and_surplus() {
        assert_eq!(book_answer(&padded("4 4 1 1 / 0 0 0 0")), refused(3, 4, 0));
        let surplus = [padded("4 4 1 1 / 0 0 0 0"), vec![b'x'; 500]].concat();
        assert_eq!(book_answer(&surplus), refused(3, 4, 0));
    }

    #[test]
    fn surplus_before_function_lines() {
        let surplus = padded("4 4 1 1 / 1 0 0 0 / 3 3 0 0 / 20 0 0 0 / 0 3 0 0 / 0 0 0 0");
        assert_eq!(book_answer(&surplus), refused(1, 5, 0));
    }

    #[test]
    fn locations_count_reserve_and_static_functions() {
        // 255 × 255 + 255 is 65,280: one more unary and a nullary function fill the table.
        let sized = |functions: &str| book_answer(&book(255, 4, functions, "20 0 0 0", "0 3 0 0", ""));
        assert_eq!(sized("2 0 0 0 / 1 2 0 0 / 0 2 0 0"), accepted());
        assert_eq!(sized("2 0 0 0 / 1 2 0 0 / 0 0 0 0 / 0 2 0 0"), refused(3, 8, 0));
    }

    #[test]
    fn locations_after_functions_before_nodes() {
        let sized = |functions: &str, node: &str| book_answer(&book(300, 4, functions, node, "0 3 0 0", ""));
        assert_eq!(sized("2 2 0 0 / 0 4 0 0", "14 0 0 0"), refused(4, 2, 0));
        assert_eq!(sized("2 2 0 0 / 0 2 0 0", "14 0 0 0"), refused(3, 8, 0));
        assert_eq!(sized("1 2 0 0 / 0 2 0 0", "14 0 0 0"), refused(5, 0, 0));
    }

    #[test]
    fn function_lines() {
        let of = |lines: &str| {
            let text = format!("8 6 2 1 / 1 0 0 0 / {lines} / 20 0 0 0 / 0 3 0 0");
            book_answer(&padded(&text))
        };
        assert_eq!(of("1 3 0 0 / 2 3 0 0"), accepted());
        for line in ["1 2 0 0", "0 3 0 0", "2 3 0 0", "1 1 0 0"] {
            assert_eq!(of(&format!("{line} / 1 3 0 0")), refused(4, 0, 0));
        }
        for line in ["0 4 0 0", "3 0 0 0", "0 0 1 0", "0 0 0 1"] {
            assert_eq!(of(&format!("1 3 0 0 / {line}")), refused(4, 1, 0));
        }
    }
}

mod nodes_and_agents {
    use super::*;

    #[test]
    fn set_of_a_static_function_is_the_faults_node() {
        assert_eq!(nodes_answer("1 3 0 0 / 5 4 0 0 / 1 3 0 0 / 21 1 2 0"), accepted());
        assert_eq!(nodes_answer("1 3 0 0 / 5 3 0 0 / 1 3 0 0 / 21 1 2 0"), refused(5, 3, 0));
        assert_eq!(nodes_answer("1 3 0 0 / 1 3 0 0 / 21 0 1 0"), refused(5, 2, 0));
    }

    #[test]
    fn universes() {
        for (universe, for_all, import) in [
            (0, false, false),
            (1, true, false),
            (2, true, true),
            (3, false, false),
            (4, false, false),
            (5, false, false),
            (6, false, false),
            (7, false, false),
        ] {
            let expected = |sound: bool| if sound { accepted() } else { refused(5, 1, 0) };
            assert_eq!(nodes_answer(&format!("20 0 0 0 / 25 0 {universe} 0")), expected(for_all));
            assert_eq!(nodes_answer(&format!("20 0 0 0 / 28 0 {universe} 0")), expected(for_all));
            assert_eq!(nodes_answer(&format!("20 0 0 0 / 26 0 {universe} 0")), expected(import));
        }
    }

    #[test]
    fn node_lines() {
        // Each is wrong in one thing: kind, function, arity, operand, sort, unused field.
        for line in [
            "0 0 0 0", "14 0 1 0", "19 0 0 0", "29 0 1 2", "1 6 0 0", "2 8 0 0", "1 3 1 0", "1 3 0 1",
            "2 0 1 0", "2 0 0 1", "3 1 0 0", "3 0 1 0", "3 0 0 1", "4 0 0 0", "4 4 0 0", "4 7 0 0",
            "4 6 1 0", "4 6 0 1", "5 0 0 0", "5 5 0 0", "5 6 0 0", "5 4 3 0", "5 4 2 0", "5 4 0 1",
            "6 4 0 1", "6 5 0 2", "6 5 2 0", "6 5 3 0", "7 0 2 0", "7 2 0 0", "7 0 3 0", "7 0 1 1",
            "8 2 0 0", "8 3 0 0", "8 0 1 0", "8 0 0 1", "9 2 0 0", "9 0 1 1", "10 0 2 0", "10 0 1 1",
            "11 3 0 0", "11 0 1 1", "12 0 4 0", "12 0 1 1", "13 2 0 0", "13 0 1 1", "20 1 0 0", "20 0 1 0",
            "20 0 0 1", "21 0 2 0", "21 0 1 1", "22 2 0 0", "22 0 2 0", "22 2 2 1", "22 2 3 0", "23 2 2 2",
            "23 0 0 2", "23 0 2 0", "23 0 2 3", "24 8 0 2", "24 0 2 2", "24 0 0 0", "25 8 1 2", "25 0 1 0",
            "25 0 1 3", "26 8 2 2", "26 0 2 0", "27 2 0 0", "27 0 1 0", "27 0 0 1", "27 3 0 0", "28 8 1 2",
            "28 0 1 0", "28 0 1 3", "28 0 0 2",
        ] {
            let nodes = format!("1 3 0 0 / 1 4 0 0 / 20 0 0 0 / {line}");
            assert_eq!(nodes_answer(&nodes), refused(5, 3, 0), "{line}");
        }
    }

    /// Choice: use counts operand places.
    #[test]
    fn one_node_in_two_places() {
        assert_eq!(nodes_answer("20 0 0 0 / 22 0 0 0"), refused(6, 0, 0));
        assert_eq!(nodes_answer("20 0 0 0 / 20 0 0 0 / 22 0 1 0"), accepted());
    }

    /// Choice: roots are what the agent lines name, whatever else is wrong with them.
    #[test]
    fn roots_as_written() {
        let of = |nodes: &str, agents: &str| book_answer(&book(8, 6, "", nodes, agents, ""));
        let two = "20 0 0 0 / 20 0 0 0";
        assert_eq!(of(two, "0 7 1 1 / 1 7 0 0"), refused(7, 0, 0));
        assert_eq!(of("1 3 0 0", "0 3 0 0"), refused(7, 0, 0));
        assert_eq!(of("20 0 0 0", "1 3 0 0"), refused(6, 0, 0));
        assert_eq!(of("20 0 0 0", "1 3 0 0 / 0 4 0 0"), refused(7, 0, 0));
        assert_eq!(of("20 0 0 0", "0 3 0 0 / 0 4 0 0"), accepted());
    }

    #[test]
    fn the_used_node_is_at_fault() {
        // Node 1 is used by 2 and 3 and is a root of none; node 0 is a root and an operand.
        let of = |nodes: &str, agents: &str| book_answer(&book(8, 6, "", nodes, agents, ""));
        let shared = "20 0 0 0 / 20 0 0 0 / 22 0 1 0 / 20 0 0 0 / 22 1 3 0 / 22 2 4 0";
        assert_eq!(of(shared, "5 3 0 0"), refused(6, 1, 0));
        assert_eq!(of("20 0 0 0 / 20 0 0 0 / 22 0 1 0", "2 3 0 0 / 0 4 0 0"), refused(6, 0, 0));
        assert_eq!(of("20 0 0 0 / 20 0 0 0 / 20 0 0 0 / 22 0 1 0", "3 3 0 0"), refused(6, 2, 0));
    }

    #[test]
    fn use_before_binding() {
        // Node 0 is an unbound variable, but node 2 is not used.
        assert_eq!(nodes_answer("2 0 0 0 / 27 0 0 0 / 20 0 0 0 / 20 0 0 0 / 22 1 3 0"), refused(6, 2, 0));
        assert_eq!(nodes_answer("2 0 0 0 / 27 0 0 0 / 20 0 0 0 / 22 1 2 0"), refused(6, 0, 0));
    }

    #[test]
    fn binding() {
        // Each binder binds variable 3 in its c, and no other variable.
        let in_let = |variable: u32| format!("2 {variable} 0 0 / 27 0 0 0 / 1 3 0 0 / 24 3 2 1");
        let in_forall = |variable: u32| format!("2 {variable} 0 0 / 27 0 0 0 / 25 3 2 1");
        let in_import = |variable: u32| format!("2 {variable} 0 0 / 27 0 0 0 / 26 3 2 1");
        let in_choose = |variable: u32| format!("2 {variable} 0 0 / 27 0 0 0 / 28 3 2 1");
        for nodes in [in_let(3), in_forall(3), in_import(3), in_choose(3)] {
            assert_eq!(nodes_answer(&nodes), accepted(), "{nodes}");
        }
        for nodes in [in_let(4), in_forall(4), in_import(4), in_choose(4)] {
            assert_eq!(nodes_answer(&nodes), refused(6, 0, 0), "{nodes}");
        }
        let beside = "20 0 0 0 / 25 3 2 0 / 2 3 0 0 / 27 2 0 0 / 22 1 3 0";
        assert_eq!(nodes_answer(beside), refused(6, 2, 0));
    }

    #[test]
    fn binding_again() {
        // The inner binder is at fault, though no variable node stands below.
        assert_eq!(nodes_answer("20 0 0 0 / 25 3 2 0 / 26 3 2 1"), refused(6, 1, 0));
        assert_eq!(nodes_answer("20 0 0 0 / 25 3 2 0 / 26 4 2 1"), accepted());
        assert_eq!(nodes_answer("20 0 0 0 / 28 3 2 0 / 25 3 2 1"), refused(6, 1, 0));
        assert_eq!(nodes_answer("20 0 0 0 / 25 3 2 0 / 28 3 2 1"), refused(6, 1, 0));
        assert_eq!(nodes_answer("20 0 0 0 / 28 3 2 0 / 28 3 2 1"), refused(6, 1, 0));
        assert_eq!(nodes_answer("20 0 0 0 / 28 3 2 0 / 28 4 2 1"), accepted());
        assert_eq!(nodes_answer("20 0 0 0 / 25 3 2 0 / 20 0 0 0 / 25 3 2 2 / 22 1 3 0"), accepted());
    }

    #[test]
    fn lets_own_b_is_outside() {
        assert_eq!(nodes_answer("2 0 0 0 / 20 0 0 0 / 24 0 0 1"), refused(6, 0, 0));
        assert_eq!(nodes_answer("2 0 0 0 / 20 0 0 0 / 24 1 0 1 / 25 0 2 2"), accepted());
    }

    /// Choice: every forall with two or more around it counts, so the innermost is named.
    #[test]
    fn innermost_forall() {
        let four = "20 0 0 0 / 25 0 2 0 / 25 1 2 1 / 25 2 2 2 / 25 3 2 3";
        assert_eq!(nodes_answer(four), refused(6, 1, 0));
    }

    #[test]
    fn least_of_all_kinds() {
        // An unbound variable at 4 and a third forall at 1: the least node is named.
        let nodes = "20 0 0 0 / 25 0 2 0 / 25 1 2 1 / 25 2 2 2 / 2 5 0 0 / 27 4 0 0 / 22 3 5 0";
        assert_eq!(nodes_answer(nodes), refused(6, 1, 0));
        let nodes = "2 5 0 0 / 27 0 0 0 / 20 0 0 0 / 25 0 2 2 / 25 1 2 3 / 25 2 2 4 / 22 1 5 0";
        assert_eq!(nodes_answer(nodes), refused(6, 0, 0));
    }

    #[test]
    fn agent_elements() {
        let of = |agents: &str| book_answer(&book(8, 6, "", "20 0 0 0", agents, ""));
        assert_eq!(of("0 0 0 0 / 0 1 0 0 / 0 2 0 0 / 0 5 0 0"), accepted());
        assert_eq!(of("0 3 0 0 / 0 2 0 0"), refused(7, 1, 0));
        assert_eq!(of("0 3 0 0 / 0 3 0 0"), refused(7, 1, 0));
        assert_eq!(of("0 6 0 0"), refused(7, 0, 0));
        assert_eq!(of("0 3 1 0"), refused(7, 0, 0));
        assert_eq!(of("0 3 0 1"), refused(7, 0, 0));
    }
}

mod contents {
    use super::*;

    /// E 8, P 6; static function 1, static relation 2, dynamic function 3, dynamic relation 4 (all
    /// unary), dynamic binary function 5, dynamic nullary function 6. Locations: function f starts
    /// at 8 f, function 6 at 104; L is 105.
    const FUNCTIONS: &str = "1 0 0 0 / 1 1 0 0 / 1 2 0 0 / 1 3 0 0 / 2 2 0 0 / 0 2 0 0";
    const BEFORE: u32 = 2 + 7 + 1 + 1;

    fn with_contents(lines: &str) -> Vec<u8> {
        book(8, 6, FUNCTIONS, "20 0 0 0", "0 3 0 0", lines)
    }

    #[test]
    fn sound_lines() {
        let lines = "0 6 0 2 / 1 0 0 5 / 1 5 0 1 / 2 0 0 2 / 3 7 0 7 / 4 7 0 2 / 5 1 7 7 / 5 7 0 2 / 6 0 0 7";
        let checked = check_book(&with_contents(lines)).unwrap();
        let locations: Vec<usize> = checked.start.iter().map(|entry| entry.0).collect();
        assert_eq!(locations, [6, 8, 13, 16, 31, 39, 40 + 15, 40 + 56, 104]);
        assert_eq!(checked.locations, 105);
    }

    /// Choice: the place is the line in the book's text.
    #[test]
    fn place_is_the_line_in_the_book() {
        assert_eq!(book_answer(&with_contents("1 0 0 0")), refused(8, BEFORE, 0));
        assert_eq!(book_answer(&with_contents("1 0 0 3 / 1 0 0 4")), refused(8, BEFORE + 1, 0));
    }

    #[test]
    fn lines_at_fault() {
        for line in [
            "7 0 0 3", // no such function
            "3 8 0 3", // argument not below E
            "5 8 0 3", "5 0 8 3", "3 0 0 8", // value not below E
            "3 0 1 3", // unused argument
            "6 1 0 3", "6 0 1 3", "3 0 0 0", // the default
            "4 0 0 1", "4 0 0 0", // a relation's value other than true
            "4 0 0 3", "0 7 0 3", "0 5 0 2", // Reserve at a permanent element
            "1 6 0 3", // static with a label
            "1 0 0 6", "2 6 0 2",
        ] {
            assert_eq!(book_answer(&with_contents(line)), refused(8, BEFORE, 0), "{line}");
        }
    }

    #[test]
    fn lines_at_fault_for_one_before() {
        for lines in [
            "3 4 0 3 / 3 3 0 3", // out of order
            "3 4 0 3 / 3 4 0 5",
            "5 1 0 3 / 5 0 7 3",
            "3 4 0 3 / 0 7 0 2",
            "0 7 0 2 / 3 7 0 3", // a trace as argument
            "0 7 0 2 / 4 7 0 2",
            "0 7 0 2 / 5 7 0 3",
            "0 7 0 2 / 5 0 7 3",
            "0 7 0 2 / 3 0 0 7", // a trace as value
            "0 7 0 2 / 6 0 0 7",
        ] {
            assert_eq!(book_answer(&with_contents(lines)), refused(8, BEFORE + 1, 0), "{lines}");
        }
    }

    /// The answer for the book's start, changed at some locations, and whether it stayed as lent.
    fn lent(changes: &[(usize, u16)]) -> paper::Answer {
        let book = with_contents("0 7 0 2");
        let mut contents = start(&book);
        changes.iter().for_each(|&(location, value)| contents[location] = value);
        let before = contents.clone();
        let answer = step(&book, &mut contents, 0, &[], 256);
        assert_eq!(contents, before);
        answer
    }

    #[test]
    fn lent_tables() {
        // The move is a skip, which is accepted on a sound table.
        assert_eq!(lent(&[]), accepted());
        assert_eq!(lent(&[(6, 2), (8, 5), (18, 2), (26, 5), (24, 2), (39, 1), (104, 5)]), accepted());
        for (location, value) in [
            (6, 8), // not below E
            (6, 0), // a relation's value
            (16, 0),
            (32, 3),
            (24, 8),
            (24, 60_000),
            (5, 2),  // Reserve at a permanent element
            (14, 3), // static with a label
            (8, 6),
            (22, 2),
            (31, 3), // a trace of 7 as argument
            (39, 2),
            (40 + 7, 3),
            (40 + 56, 3),
            (24, 7), // a trace of 7 as value
            (104, 7),
        ] {
            assert_eq!(lent(&[(location, value)]), refused(8, location as u32, 0), "{location} {value}");
        }
        // The trace is at fault and not the Reserve entry; the least fault is named.
        assert_eq!(lent(&[(6, 2), (30, 3), (104, 6)]), refused(8, 30, 0));
        assert_eq!(lent(&[(30, 3), (31, 6)]), refused(8, 31, 0));
    }

    #[test]
    fn only_locations_below_l() {
        let book = with_contents("");
        let mut contents = start(&book);
        contents.push(60_000);
        assert_eq!(step(&book, &mut contents, 0, &[], 256), accepted());
        assert_eq!(contents[105], 60_000);
    }

    /// Choice: static terms read the lent table.
    #[test]
    fn static_values_of_the_lent_table() {
        let nodes = "4 2 0 0 / 4 1 0 0 / 21 0 1 0";
        let book = book(8, 6, "0 0 0 0 / 0 2 0 0", nodes, "2 3 0 0", "1 0 0 4");
        let mut contents = start(&book);
        contents[8] = 5;
        assert_eq!(step(&book, &mut contents, 0, &[], 256), accepted());
        assert_eq!(contents[8..], [5, 5]);
    }

    #[test]
    fn order_in_the_single_move_entry() {
        let faulty = with_contents("1 0 0 0");
        assert_eq!(step(&faulty, &mut [], 5, &[], 0), refused(8, BEFORE, 0));
        let sound = with_contents("");
        let mut contents = start(&sound);
        contents[0] = 9;
        assert_eq!(step(&sound, &mut contents[..104], 1, &[], 0), refused(9, 0, 0));
        assert_eq!(step(&sound, &mut contents[..104], 0, &[], 0), refused(2, 105, 0));
        assert_eq!(step(&sound, &mut contents, 0, &[], 255), refused(2, 256, 3));
        assert_eq!(step(&sound, &mut contents, 0, &[], 256), refused(8, 0, 0));
        contents[0] = 1;
        assert_eq!(step(&sound, &mut contents, 0, &[], 256), accepted());
    }
}

mod logs {
    use super::*;

    #[test]
    fn header_before_missing_lines() {
        let shown = specification::book();
        assert_eq!(run_of(&shown, &padded("65 0 0 0")).answer, refused(9, 0, 0));
        assert_eq!(run_of(&shown, &padded("64 2017 0 0")).answer, refused(9, 0, 0));
        assert_eq!(run_of(&shown, &padded("0 0 257 0")).answer, refused(9, 0, 0));
        assert_eq!(run_of(&shown, &padded("0 0 0 1")).answer, refused(9, 0, 0));
        assert_eq!(run_of(&shown, b"").answer, refused(1, 0, 1));
        assert_eq!(run_of(&shown, &padded("64 2016 0 0")).answer, refused(1, 1, 1));
    }

    #[test]
    fn missing_line_before_a_bad_agent() {
        let shown = specification::book();
        assert_eq!(run_of(&shown, &padded("2 0 0 0 / 7 0 0 0")).answer, refused(1, 2, 1));
        assert_eq!(run_of(&shown, &padded("2 0 0 0 / 7 0 0 0 / 0 0 0 0")).answer, refused(9, 1, 0));
    }

    #[test]
    fn lines_at_fault() {
        for (lines, line) in [
            ("1 0 0 0 / 2 0 0 0", 1),
            ("1 0 0 0 / 0 1 0 0", 1),
            ("1 0 0 0 / 0 0 1 0", 1),
            ("1 0 0 0 / 0 0 0 1", 1),
            ("2 1 0 0 / 0 0 0 0 / 0 0 0 0 / 1 0 0 0", 3),
            ("2 1 0 0 / 0 0 0 0 / 0 0 0 0 / 0 2 0 0", 3),
            ("2 1 0 0 / 0 0 0 0 / 0 0 0 0 / 0 1 1 0", 3),
            ("2 1 0 0 / 0 0 0 0 / 0 0 0 0 / 0 1 0 1", 3),
            ("2 2 0 0 / 0 0 0 0 / 0 0 0 0 / 0 1 0 0 / 0 1 0 0", 4),
            ("3 2 0 0 / 0 0 0 0 / 0 0 0 0 / 0 0 0 0 / 1 2 0 0 / 0 2 0 0", 5),
            ("3 2 0 0 / 0 0 0 0 / 0 0 0 0 / 0 0 0 0 / 0 2 0 0 / 0 1 0 0", 5),
        ] {
            assert_eq!(run_of(&specification::book(), &padded(lines)).answer, refused(9, line, 0), "{lines}");
        }
    }

    #[test]
    fn k_is_held_to_its_bound_whatever_m_is() {
        // Too many pairs for one move: the first of them is at fault, not the header.
        let pairs = ["0 1 0 0"; 2_016].join("/");
        let log = padded(&format!("1 2016 0 0 / 0 0 0 0 / {pairs}"));
        assert_eq!(run_of(&specification::book(), &log).answer, refused(9, 2, 0));
    }

    #[test]
    fn nine_before_ten() {
        let log = padded("2 1 0 0 / 0 0 0 0 / 0 0 0 0 / 1 1 0 0");
        assert_eq!(run_of(&specification::book(), &log).answer, refused(9, 3, 0));
    }

    #[test]
    fn least_pair_of_ten() {
        let answer =
            |agents: &[u32], pairs: &[(u32, u32)]| run_of(&specification::book(), &log(agents, pairs)).answer;
        assert_eq!(answer(&[0, 1, 1, 0], &[]), refused(10, 0, 3));
        assert_eq!(answer(&[0, 1, 1, 0], &[(0, 3)]), refused(10, 1, 2));
        // 0 is before 1 and before 2, which are not ordered.
        assert_eq!(answer(&[0, 0, 0], &[(0, 1), (0, 2)]), refused(10, 1, 2));
        // By chaining 0 is before 2, over a move of another agent.
        assert_ne!(answer(&[1, 0, 1], &[(0, 1), (1, 2)]).number, 10);
    }

    #[test]
    fn ten_before_two() {
        let shown = specification::book();
        let unordered = log(&[0, 0], &[]);
        assert_eq!(run(&shown, &unordered, &mut [], &mut [], &mut [], 0).answer, refused(10, 0, 1));
    }

    #[test]
    fn agent_is_its_number_and_not_its_element() {
        // Agent 0 has element 5; in a log 5 is no agent. f := the agent's element.
        let nodes = "4 1 0 0 / 3 0 0 0 / 21 0 1 0";
        let book = book(8, 6, "0 2 0 0", nodes, "2 5 0 0", "");
        assert_eq!(run_of(&book, &ordered(&[5])).answer, refused(9, 1, 0));
        let run = run_of(&book, &ordered(&[0]));
        assert_eq!((run.answer, run.contents[8]), (accepted(), 5));
    }
}

mod rental {
    use super::*;

    #[test]
    fn bytes() {
        // 319 lines of a book and 2,081 of a full log are 60,000 bytes.
        let pairs: Vec<(u32, u32)> =
            (0..64).flat_map(|first| (first + 1..64).map(move |second| (first, second))).collect();
        let toggle = "4 1 0 0 / 4 1 0 0 / 8 1 0 0 / 21 0 2 0";
        let lines: Vec<String> = (0..309).map(|element| format!("2 {element} 0 3")).collect();
        let book = book(309, 309, "0 3 0 0 / 1 2 0 0", toggle, "3 3 0 0", &lines.join(" / "));
        let mut input = [book, log(&[0; 64], &pairs)].concat();
        assert_eq!(input.len(), 60_000);
        assert!(printed(&input).starts_with("0 0 0 309 / 2 0 0 3"));
        input.push(b'x');
        assert_eq!(printed(&input), "2 60000 4 0");
        assert_eq!(printed(&[b'x'; 60_001]), "2 60000 4 0");
        assert_eq!(printed(&[b'x'; 60_000]), "1 0 0 0");
    }

    #[test]
    fn little_input() {
        assert_eq!(printed(b""), "1 0 0 0");
        assert_eq!(printed(&specification::book()), "1 0 1 0");
        let idle_contents = book(4, 4, "0 2 0 0", "20 0 0 0", "0 3 0 0", "1 0 0 0");
        assert_eq!(printed(&idle_contents), "8 6 0 0");
    }

    #[test]
    fn input_that_ends_inside_the_book() {
        // One line short, the log's lines are taken as the book's last ones.
        let mut book = specification::book();
        book.truncate(book.len() - 25);
        let lines = book.len() as u32 / 25;
        assert_eq!(printed(&book), format!("1 {lines} 0 0"));
        assert_eq!(printed(&[book, padded("0 0 0 0")].concat()), format!("8 {} 0 0", lines));
        assert_eq!(printed(&padded("8 6 3 13 / 2 3 0 0 / 1 3 0 0 / 0 0 0 0")), "1 4 0 0");
    }

    #[test]
    fn lent_records() {
        let sized = |nullary: usize, log: &[u8]| {
            let functions = ["1 2 0 0", "1 2 0 0", "1 2 0 0"].into_iter().chain(vec!["0 2 0 0"; nullary]);
            let functions: Vec<&str> = functions.collect();
            printed(&[book(512, 4, &functions.join("/"), "20 0 0 0", "0 3 0 0", ""), log.to_vec()].concat())
        };
        assert_eq!(sized(0, &ordered(&[])), "0 0 0 0");
        assert_eq!(sized(1, &ordered(&[])), "2 2049 0 0");
        assert_eq!(sized(1, &log(&[0, 0], &[])), "10 0 1 0");
    }

    #[test]
    fn static_and_reserve_lines_are_printed() {
        let contents = "0 7 0 2 / 1 0 0 4 / 2 3 5 2 / 3 0 0 1";
        let book = book(8, 6, "0 0 0 0 / 2 1 0 0 / 0 2 0 0", "20 0 0 0", "0 3 0 0", contents);
        assert_eq!(printed(&[book, ordered(&[])].concat()), format!("0 0 0 4 / {contents}"));
    }

    #[test]
    fn a_refused_run_prints_no_lines() {
        // Release undef.
        let book = book(8, 6, "0 2 0 0", "1 0 0 0 / 27 0 0 0", "1 3 0 0", "1 0 0 4");
        assert_eq!(printed(&[book, ordered(&[0])].concat()), "12 0 1 0");
    }
}
