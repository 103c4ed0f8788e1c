// The limits (SPECIFICATION 11), each at its last sound value and one past it.

mod support;
use inputs::{all_pairs, padded, BookDraft};
use paper::{book_answer, step, Instruction};
use support::*;

/// f := not f for agent 0, so that each of any number of moves changes it.
fn toggling() -> Vec<u8> {
    book(4, 4, "0 3 0 0", "4 1 0 0 / 4 1 0 0 / 8 1 0 0 / 21 0 2 0", "3 3 0 0", "")
}

/// For all x in a universe of this many elements: f(x) := number 0, beside a second rule, whose nodes count from 0.
fn many(elements: u32, second: &str) -> Vec<u8> {
    let set_each = "2 0 0 0 / 5 2 0 0 / 1 3 0 0 / 21 1 2 0 / 25 0 1 3";
    let functions = "1 1 0 0 / 1 2 0 0 / 1 3 0 0";
    let mut draft = BookDraft::compact(300, 290, functions, "", "", &members(1, elements));
    draft.agent_with(3, &both(set_each, second));
    draft.text()
}

#[test]
fn moves() {
    let fits = run_of(&toggling(), &ordered(&[0; 64]));
    assert_eq!(fits.answer, accepted());
    assert_eq!(fits.read(63), [4]);
    assert_eq!(run_of(&toggling(), &ordered(&[0; 65])).answer, refused(9, 0, 0));
}

#[test]
fn moves_that_change_nothing() {
    let skips = |count| run_of(&book(4, 4, "", "20 0 0 0", "0 3 0 0", ""), &ordered(&vec![0; count])).answer;
    assert_eq!(skips(64), accepted());
    assert_eq!(skips(65), refused(9, 0, 0));
}

#[test]
fn pairs() {
    let mut all: Vec<(u32, u32)> = all_pairs(64).collect();
    all.sort_unstable();
    assert_eq!(all.len(), 2_016);
    assert_eq!(run_of(&toggling(), &log(&[0; 64], &all)).answer, accepted());
    let more = [all.as_slice(), &[(62, 63)]].concat();
    assert_eq!(run_of(&toggling(), &log(&[0; 64], &more)).answer, refused(9, 0, 0));
}

#[test]
fn instructions() {
    let (answer, contents, list) = step_of(&many(256, "20 0 0 0"));
    assert_eq!((answer, list.len()), (accepted(), 256));
    assert_eq!(list[255], Instruction::Update { location: 600 + 255, value: 3 });
    assert!(contents[600..600 + 256].iter().all(|&value| value == 3));
    assert_eq!(step_of(&many(257, "20 0 0 0")).0, refused(14, 0, 3));
    // More records lent do not make room for more instructions.
    let mut contents = start(&many(257, "20 0 0 0"));
    assert_eq!(step(&many(257, "20 0 0 0"), &mut contents, 0, &[], 1_000), refused(14, 0, 3));
    // Repeats count: the 257th has a location and a value that were given before.
    let again = "1 3 0 0 / 5 2 0 0 / 1 3 0 0 / 21 1 2 0";
    assert_eq!(step_of(&many(255, again)).0, accepted());
    assert_eq!(step_of(&many(256, again)).0, refused(14, 0, 8));
}

#[test]
fn header_fields() {
    let header = |line0: &str, line1: &str| book_answer(&padded(&format!("{line0} / {line1}")));
    // Within bounds the first refusal is that of the missing line 2.
    for (line0, line1) in
        [("4 4 1 1", "1 0 0 0"), ("10000 10000 32 1024", "16 65536 0 0"), ("10000 4 1 1", "1 0 0 0")]
    {
        assert_eq!(header(line0, line1), refused(1, 2, 0));
    }
    for (line0, line1, field) in [
        ("3 4 1 1", "1 0 0 0", 0),
        ("10001 4 1 1", "1 0 0 0", 0),
        ("4 3 1 1", "1 0 0 0", 1),
        ("4 5 1 1", "1 0 0 0", 1),
        ("4 4 0 1", "1 0 0 0", 2),
        ("4 4 33 1", "1 0 0 0", 2),
        ("4 4 1 0", "1 0 0 0", 3),
        ("4 4 1 1025", "1 0 0 0", 3),
        ("4 4 1 1", "0 0 0 0", 4),
        ("4 4 1 1", "17 0 0 0", 4),
        ("4 4 1 1", "1 65537 0 0", 5),
    ] {
        assert_eq!(header(line0, line1), refused(3, field, 0));
    }
}

#[test]
fn locations() {
    let fifteen = ["1 0 0 0"; 15].join(" / ");
    let full = book(4096, 4, &fifteen, "20 0 0 0", "0 3 0 0", "15 3 0 1");
    assert_eq!(book_answer(&full), accepted());
    let over = book(4096, 4, &format!("{fifteen} / 0 0 0 0"), "20 0 0 0", "0 3 0 0", "");
    assert_eq!(book_answer(&over), refused(3, 8, 0));
    let most = book(10_000, 4, &["2 0 0 0"; 31].join(" / "), "20 0 0 0", "0 3 0 0", "");
    assert_eq!(book_answer(&most), refused(3, 8, 0));
}

#[test]
fn every_location_filled() {
    let mut full = BookDraft::new(8192, 8192, &[[1, 2]; 7]);
    full.agent_with(3, "20 0 0 0");
    (1..8).for_each(|function| (0..8_192).for_each(|element| full.holds(function, element, 3)));
    let checked = paper::check_book(&full.text()).unwrap();
    assert_eq!((checked.locations, checked.start.len()), (65_536, 7 * 8_192));
    assert_eq!(checked.start.last(), Some(&(65_535, 3)));
}

#[test]
fn depth() {
    // A tower of nots under a set: the root has depth 1, the innermost term depth nots + 3.
    let tower = |nots: usize| {
        let mut draft = BookDraft::new(4, 4, &[[0, 2]]);
        let innermost = draft.element(1);
        let value = (0..nots).fold(innermost, |below, _| draft.not(below));
        let location = draft.nullary(1);
        let root = draft.set(location, value);
        draft.agent(root, 3);
        draft.text()
    };
    assert_eq!(book_answer(&tower(30)), accepted());
    assert_eq!(book_answer(&tower(31)), refused(6, 0, 0));
}

#[test]
fn nesting() {
    let two = "20 0 0 0 / 25 0 1 0 / 25 1 1 1";
    assert_eq!(book_answer(&book(4, 4, "1 1 0 0", two, "2 3 0 0", "")), accepted());
    let three = "20 0 0 0 / 25 0 1 0 / 25 1 1 1 / 25 2 1 2";
    assert_eq!(book_answer(&book(4, 4, "1 1 0 0", three, "3 3 0 0", "")), refused(6, 1, 0));
}

#[test]
fn variables() {
    let with = |variable: u32| {
        let nodes = format!("1 3 0 0 / 20 0 0 0 / 24 {variable} 0 1");
        book_answer(&book(4, 4, "", &nodes, "2 3 0 0", ""))
    };
    assert_eq!(with(7), accepted());
    assert_eq!(with(8), refused(5, 2, 0));
}

#[test]
fn agents() {
    let of = |count: u32| {
        let mut draft = BookDraft::new(20, 20, &[]);
        let skip = draft.skip();
        (0..count).for_each(|element| draft.agent(skip, element));
        book_answer(&draft.text())
    };
    assert_eq!(of(16), accepted());
    assert_eq!(of(17), refused(3, 4, 0));
}
