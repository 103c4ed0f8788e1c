// Releases (SPECIFICATION 5): what a move with a release reads, what a move reads that takes a label out of a location, and
// which moves may stand unordered beside a release.

mod support;
use paper::{FALSE, TRUE, UNDEF};
use support::*;

/// Release g, and release h.
const RELEASE_G: &str = "4 4 0 0 / 27 0 0 0";
const RELEASE_H: &str = "4 5 0 0 / 27 0 0 0";

/// g := h, and g := g.
const G_TO_H: &str = "4 4 0 0 / 4 5 0 0 / 21 0 1 0";
const KEEP_G: &str = "4 4 0 0 / 4 4 0 0 / 21 0 1 0";

/// The locations that a rule reads and writes.
fn touched(nodes: &str, contents: &str) -> (Vec<usize>, Vec<usize>) {
    reads_and_writes_of(&rule(nodes, contents))
}

/// Where two moves touch: what the first reads and the second writes, the other way round, and what both write.
fn common(run: &Run) -> [Vec<usize>; 3] {
    let in_both = |of_one: Vec<usize>, of_other: Vec<usize>| -> Vec<usize> {
        of_one.into_iter().filter(|location| of_other.contains(location)).collect()
    };
    [
        in_both(run.read(0), run.written(1)),
        in_both(run.read(1), run.written(0)),
        in_both(run.written(0), run.written(1)),
    ]
}

/// The moves touch only where the first reads these locations and the second writes them.
fn assert_touch_by_reads_of_first(run: &Run, locations: &[usize]) {
    assert_eq!(run.answer, refused(17, 0, 1));
    assert_eq!(common(run), [locations.to_vec(), vec![], vec![]]);
}

mod reads_of_a_release {
    use super::*;

    /// Release the nullary function 2.
    const RELEASE_2: &str = "4 2 0 0 / 27 0 0 0";

    #[test]
    fn what_it_gives_a_value_and_its_term() {
        // f(3), f(6) and g hold 6, h holds 7. U(7), f(4) and h are not read.
        let contents = "1 6 0 2 / 1 7 0 2 / 3 3 0 6 / 3 4 0 7 / 3 6 0 6 / 4 0 0 6 / 5 0 0 7";
        let given = vec![6, U + 6, V + 6, F + 3, F + 6, G];
        assert_eq!(touched(RELEASE_G, contents), (given.clone(), given));
    }

    #[test]
    fn its_term_where_no_release_writes() {
        // Release f(h), with f(3) 6 and h 3: h is read and not written.
        let nodes = "4 5 0 0 / 5 3 0 0 / 27 1 0 0";
        let given = vec![6, U + 6, V + 6, F + 3, F + 6];
        let read = [&given[..], &[H]].concat();
        assert_eq!(touched(nodes, "3 3 0 6 / 5 0 0 3"), (read, given));
        // For all x in U release x: U is read at all elements.
        let all = "2 0 0 0 / 27 0 0 0 / 25 0 1 1";
        let read = [vec![7], (U..U + 8).collect(), vec![V + 7, F + 7]].concat();
        assert_eq!(touched(all, "1 7 0 2"), (read, vec![7, U + 7, V + 7, F + 7]));
    }

    #[test]
    fn nothing_in_a_branch_not_taken() {
        // If r then release g else h := 3.
        let nodes = "4 8 0 0 / 4 4 0 0 / 27 1 0 0 / 4 5 0 0 / 1 3 0 0 / 21 3 4 0 / 23 0 2 5";
        assert_eq!(touched(nodes, "4 0 0 6"), (vec![R], vec![H]));
        let given = vec![6, U + 6, V + 6, F + 6, G];
        let read = [&given[..], &[R]].concat();
        assert_eq!(touched(nodes, "4 0 0 6 / 8 0 0 2"), (read, given));
    }

    #[test]
    fn rows_and_columns() {
        // Function 1 is binary, 2 nullary and holds 6; 1 holds 6 at (3, 4).
        let book = book(8, 6, "2 2 0 0 / 0 2 0 0", RELEASE_2, "1 3 0 0", "1 3 4 6 / 2 0 0 6");
        let run = run_of(&book, &ordered(&[0]));
        let row = (0..8).map(|second| 8 + 6 * 8 + second);
        let column = (0..8).map(|first| 8 + first * 8 + 6);
        let mut given: Vec<usize> = row.chain(column).chain([6, 8 + 3 * 8 + 4, 72]).collect();
        given.sort_unstable();
        given.dedup();
        assert_eq!((run.answer, given.len()), (accepted(), 8 + 8 - 1 + 3));
        assert_eq!((run.read(0), run.written(0)), (given.clone(), given));
    }

    #[test]
    fn two_labels_in_one_move() {
        let given = vec![6, 7, U + 6, U + 7, V + 6, V + 7, F + 6, F + 7, G, H];
        let nodes = both(RELEASE_G, RELEASE_H);
        assert_eq!(touched(&nodes, "4 0 0 6 / 5 0 0 7"), (given.clone(), given));
    }

    #[test]
    fn reserve_at_a_label_that_is_cleared_away() {
        // g 7 is released. f(7) holds 6, so Reserve at 6 is read; without f(7) it is not.
        let given = vec![7, U + 7, V + 7, F + 7, G];
        let read = [&[6], &given[..]].concat();
        assert_eq!(touched(RELEASE_G, "3 7 0 6 / 4 0 0 7"), (read, given.clone()));
        assert_eq!(touched(RELEASE_G, "4 0 0 7"), (given.clone(), given));
    }

    #[test]
    fn reserve_at_a_label_cleared_away_in_a_row() {
        // Function 1 is binary and holds 7 at (6, 3); 2 is nullary and holds 6.
        let book = book(8, 6, "2 2 0 0 / 0 2 0 0", RELEASE_2, "1 3 0 0", "1 6 3 7 / 2 0 0 6");
        let run = run_of(&book, &ordered(&[0]));
        assert!(run.read(0).contains(&7) && !run.written(0).contains(&7));
    }
}

mod reads_of_a_label_taken_out {
    use super::*;

    #[test]
    fn for_another_value() {
        assert_eq!(touched(SET_G, "4 0 0 6"), (vec![6], vec![G]));
        assert_eq!(touched(SET_G, "4 0 0 7"), (vec![7], vec![G]));
        // g := undef, f(3) := 4.
        assert_eq!(touched("4 4 0 0 / 1 0 0 0 / 21 0 1 0", "4 0 0 7"), (vec![7], vec![G]));
        let set_f = "1 3 0 0 / 5 3 0 0 / 1 4 0 0 / 21 1 2 0";
        assert_eq!(touched(set_f, "3 3 0 6"), (vec![6], vec![F + 3]));
    }

    #[test]
    fn for_another_label() {
        assert_eq!(touched(G_TO_H, "4 0 0 6 / 5 0 0 7"), (vec![6, H], vec![G]));
        assert_eq!(touched(G_TO_H, "4 0 0 7 / 5 0 0 6"), (vec![7, H], vec![G]));
        // g := h beside h := g.
        let swap = both(G_TO_H, "4 5 0 0 / 4 4 0 0 / 21 0 1 0");
        assert_eq!(touched(&swap, "4 0 0 6 / 5 0 0 7"), (vec![6, 7, G, H], vec![G, H]));
    }

    #[test]
    fn not_where_the_label_stays() {
        assert_eq!(touched(KEEP_G, "4 0 0 6"), (vec![G], vec![G]));
        assert_eq!(touched(G_TO_H, "4 0 0 6 / 5 0 0 6"), (vec![H], vec![G]));
    }

    #[test]
    fn not_where_no_label_was() {
        // g holds nothing, a number, the last permanent element; it may get a label.
        for before in ["", "4 0 0 3 / ", "4 0 0 5 / "] {
            let contents = format!("{before}5 0 0 6");
            assert_eq!(touched(SET_G, &contents), (vec![], vec![G]), "{before}");
            assert_eq!(touched(G_TO_H, &contents), (vec![H], vec![G]), "{before}");
        }
        // Whether or not U holds at 6: U(6) holds no label.
        let leave = "4 5 0 0 / 5 1 0 0 / 1 1 0 0 / 21 1 2 0";
        assert_eq!(touched(leave, "1 6 0 2 / 5 0 0 6"), (vec![H], vec![U + 6]));
    }

    #[test]
    fn by_an_update_given_twice() {
        assert_eq!(touched(&both(SET_G, SET_G), "4 0 0 6"), (vec![6], vec![G]));
    }

    #[test]
    fn for_an_imported_label() {
        // Import x into U and do g := x. Label 6 is on the roll, g holds 7.
        let import = "4 4 0 0 / 2 0 0 0 / 21 0 1 0 / 26 0 1 2";
        assert_eq!(touched(import, "0 6 0 2 / 4 0 0 7"), (vec![6, 7], vec![6, U + 6, G]));
        assert_eq!(touched(import, "0 6 0 2"), (vec![6], vec![6, U + 6, G]));
    }

    #[test]
    fn beside_a_release() {
        // g := 3 beside release h, with h 6; g holds 7, and then 3.
        let nodes = both(SET_G, RELEASE_H);
        let written = vec![6, U + 6, V + 6, F + 6, G, H];
        let read = vec![6, 7, U + 6, V + 6, F + 6, H];
        assert_eq!(touched(&nodes, "4 0 0 7 / 5 0 0 6"), (read, written.clone()));
        let read = vec![6, U + 6, V + 6, F + 6, H];
        assert_eq!(touched(&nodes, "4 0 0 3 / 5 0 0 6"), (read, written));
    }

    #[test]
    fn where_a_release_and_an_update_clear_alike() {
        // f(h) := undef beside release h, with h 7 and f(7) 6.
        let clear_f = "4 5 0 0 / 5 3 0 0 / 1 0 0 0 / 21 1 2 0";
        let given = vec![7, U + 7, V + 7, F + 7, H];
        let read = [&[6], &given[..]].concat();
        for nodes in [both(clear_f, RELEASE_H), both(RELEASE_H, clear_f)] {
            assert_eq!(touched(&nodes, "3 7 0 6 / 5 0 0 7"), (read.clone(), given.clone()));
        }
    }
}

mod refused_moves {
    use super::*;

    /// Move 0 is h := 3, with h 6; move 1 is refused: the marks are those of move 0 alone.
    fn assert_no_marks(second: &str, contents: &str, answer: paper::Answer) {
        let first = "4 5 0 0 / 1 3 0 0 / 21 0 1 0";
        let run = run_of(&rules(&[first, second], contents), &ordered(&[0, 1]));
        assert_eq!(run.answer, answer);
        assert_eq!((run.read(0), run.written(0)), (vec![6], vec![H]));
        assert_eq!((run.read(1), run.written(1)), (vec![], vec![]));
    }

    #[test]
    fn a_release_that_clashes() {
        // g := g beside release g, with g 7 and f(7) 6.
        let nodes = both(KEEP_G, RELEASE_G);
        assert_no_marks(&nodes, "3 7 0 6 / 4 0 0 7 / 5 0 0 6", refused(15, 1, G as u32));
    }

    #[test]
    fn a_label_taken_out_and_a_clash() {
        // g := 3 beside g := 4, with g 7.
        let nodes = both(SET_G, "4 4 0 0 / 1 4 0 0 / 21 0 1 0");
        assert_no_marks(&nodes, "4 0 0 7 / 5 0 0 6", refused(15, 1, G as u32));
    }

    #[test]
    fn a_release_and_then_a_refusal_met() {
        // Release g and then r := 3.
        let nodes = both(RELEASE_G, "4 8 0 0 / 1 3 0 0 / 21 0 1 0");
        assert_no_marks(&nodes, "4 0 0 7 / 5 0 0 6", refused(11, 1, 7));
    }

    #[test]
    fn a_release_of_a_label_in_reserve() {
        // Import x into U and release x.
        assert_no_marks("2 0 0 0 / 27 0 0 0 / 26 0 1 1", "0 7 0 2 / 5 0 0 6", refused(12, 1, 4));
    }
}

/// A release unordered with a move that takes its label out of a location, or that has to do with another label only.
mod touching {
    use super::*;

    #[test]
    fn a_release_that_clears_the_label_away() {
        // g 7, f(7) 6, h 6: agent 0 releases g, agent 1 releases h.
        let contents = "3 7 0 6 / 4 0 0 7 / 5 0 0 6";
        let run = unordered_run(RELEASE_G, RELEASE_H, contents);
        assert_touch_by_reads_of_first(&run, &[6]);
        assert_eq!((run.contents[6], run.contents[7], run.contents[F + 7]), (TRUE, TRUE, UNDEF));
        // The other way round both write f(7).
        let run = unordered_run(RELEASE_H, RELEASE_G, contents);
        assert_eq!((run.answer, common(&run)[2].clone()), (refused(17, 0, 1), vec![F + 7]));
        assert_eq!(run_of(&rules(&[RELEASE_G, RELEASE_H], contents), &ordered(&[0, 1])).answer, accepted());
    }

    #[test]
    fn two_releases_of_labels_that_have_nothing_in_common() {
        for order in [[RELEASE_G, RELEASE_H], [RELEASE_H, RELEASE_G]] {
            let run = unordered_run(order[0], order[1], "4 0 0 7 / 5 0 0 6");
            assert_eq!((run.answer, common(&run)), (accepted(), [vec![], vec![], vec![]]));
            assert_eq!(run.contents[6..8], [TRUE, TRUE]);
        }
    }

    #[test]
    fn two_releases_and_a_location_with_both_labels() {
        // Function 1 is binary, 2 holds 6 and 3 holds 7: both releases write 1 at (6, 7) and (7, 6).
        let nodes = "4 2 0 0 / 27 0 0 0 / 4 3 0 0 / 27 2 0 0";
        let contents = "2 0 0 6 / 3 0 0 7";
        let book = book(8, 6, "2 2 0 0 / 0 2 0 0 / 0 2 0 0", nodes, "1 3 0 0 / 3 4 0 0", contents);
        let run = run_of(&book, &log(&[0, 1], &[]));
        assert_eq!(run.answer, refused(17, 0, 1));
        assert_eq!(common(&run)[2], [8 + 6 * 8 + 7, 8 + 7 * 8 + 6]);
    }

    #[test]
    fn an_update_that_takes_the_label_out() {
        let run = unordered_run(SET_G, RELEASE_H, "4 0 0 6 / 5 0 0 6");
        assert_touch_by_reads_of_first(&run, &[6]);
        assert_eq!(unordered_run(RELEASE_H, SET_G, "4 0 0 6 / 5 0 0 6").answer, refused(17, 0, 1));
        // Another label, or none.
        for contents in ["4 0 0 7 / 5 0 0 6", "4 0 0 4 / 5 0 0 6", "5 0 0 6"] {
            assert_eq!(unordered_run(SET_G, RELEASE_H, contents).answer, accepted(), "{contents}");
            assert_eq!(unordered_run(RELEASE_H, SET_G, contents).answer, accepted(), "{contents}");
        }
    }

    #[test]
    fn an_update_for_another_label() {
        // g := f(3), with f(3) 7; g and h hold 6.
        let set_g = "4 4 0 0 / 1 3 0 0 / 5 3 1 0 / 21 0 2 0";
        let run = unordered_run(set_g, RELEASE_H, "3 3 0 7 / 4 0 0 6 / 5 0 0 6");
        assert_touch_by_reads_of_first(&run, &[6]);
        // g holds 7 already.
        let run = unordered_run(set_g, RELEASE_H, "3 3 0 7 / 4 0 0 7 / 5 0 0 6");
        assert_eq!((run.answer, common(&run)), (accepted(), [vec![], vec![], vec![]]));
    }

    #[test]
    fn an_update_that_keeps_the_label() {
        // The release writes g, which g := g reads and writes; Reserve at 6 is not read by it.
        let run = unordered_run(KEEP_G, RELEASE_H, "4 0 0 6 / 5 0 0 6");
        assert_eq!((run.answer, run.read(0), run.written(0)), (refused(17, 0, 1), vec![G], vec![G]));
        assert_eq!(common(&run), [vec![G], vec![G], vec![G]]);
        assert_eq!(unordered_run(KEEP_G, RELEASE_H, "4 0 0 7 / 5 0 0 6").answer, accepted());
    }

    #[test]
    fn the_label_on_its_way() {
        // f(3) := g, then g := 3, both before release h in the listing; g and h hold 6.
        let copy = "1 3 0 0 / 5 3 0 0 / 4 4 0 0 / 21 1 2 0";
        let book = rules(&[copy, SET_G, RELEASE_H], "4 0 0 6 / 5 0 0 6");
        let answer = |pairs: &[(u32, u32)]| run_of(&book, &log(&[0, 1, 2], pairs)).answer;
        assert_eq!(answer(&[(0, 1)]), refused(17, 0, 2));
        assert_eq!(answer(&[(0, 1), (0, 2)]), refused(17, 1, 2));
        assert_eq!(answer(&[(0, 1), (1, 2)]), accepted());
    }

    #[test]
    fn work_on_another_label() {
        // h holds 6 and is released, g holds 7. f(g) := 4; U(g) := true; g := undef; f(g) := undef, with f(7) 3.
        let contents = "3 7 0 3 / 4 0 0 7 / 5 0 0 6";
        let at_g =
            |function: u32, value: u32| format!("4 4 0 0 / 5 {function} 0 0 / 1 {value} 0 0 / 21 1 2 0");
        let out = "4 4 0 0 / 1 0 0 0 / 21 0 1 0".to_string();
        for work in [at_g(3, 4), at_g(1, 2), at_g(3, 0), out] {
            for order in [[&work, RELEASE_H], [RELEASE_H, &work]] {
                let run = unordered_run(order[0], order[1], contents);
                assert_eq!((run.answer, run.contents[6]), (accepted(), TRUE), "{order:?}");
            }
        }
    }

    #[test]
    fn an_import_of_a_lower_label() {
        let import = "20 0 0 0 / 26 0 1 0";
        let run = unordered_run(import, RELEASE_H, "0 6 0 2 / 5 0 0 7");
        assert_eq!((run.answer, run.contents[6], run.contents[7]), (accepted(), FALSE, TRUE));
        // The import looks past the label that is released.
        assert_eq!(unordered_run(import, RELEASE_H, "0 7 0 2 / 5 0 0 6").answer, refused(17, 0, 1));
    }

    #[test]
    fn a_forall() {
        // For all x in a universe: f(x) := 3. A static one; a dynamic one is written by the release.
        let for_all = |universe: u32| format!("2 0 0 0 / 5 3 0 0 / 1 3 0 0 / 21 1 2 0 / 25 0 {universe} 3");
        assert_eq!(unordered_run(&for_all(6), RELEASE_H, "5 0 0 6 / 6 4 0 2").answer, accepted());
        assert_eq!(unordered_run(&for_all(1), RELEASE_H, "1 4 0 2 / 5 0 0 6").answer, refused(17, 0, 1));
    }

    #[test]
    fn a_look_at_the_label() {
        // f(3) := f(g), with g and h 6.
        let look = "1 3 0 0 / 5 3 0 0 / 4 4 0 0 / 5 3 2 0 / 21 1 3 0";
        let run = unordered_run(look, RELEASE_H, "4 0 0 6 / 5 0 0 6");
        assert_touch_by_reads_of_first(&run, &[F + 6, G]);
        assert_eq!(unordered_run(look, RELEASE_H, "4 0 0 7 / 5 0 0 6").answer, accepted());
    }
}
