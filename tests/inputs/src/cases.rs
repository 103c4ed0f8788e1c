// Cases with all that `rental` prints for them: those of the specification, the limits, the examples of the refusals, moves
// that change nothing, picks, and releases beside other moves.

use crate::book_draft::BookDraft;
use crate::lines::padded;
use crate::log_draft::LogDraft;
use crate::nodes::Leaf;
use crate::specification::{book_and, LOG};
use paper::{Pick, LINE_BYTES};

/// An input and what `rental` prints for it.
#[derive(Debug, Clone, PartialEq, Eq)]
pub struct Case {
    pub name: String,
    pub input: Vec<u8>,
    pub output: Vec<u8>,
}

impl Case {
    fn new(name: &str, input: Vec<u8>, output: &str) -> Case {
        Case { name: name.to_string(), input, output: padded(output) }
    }
}

/// The specification's own book with one line changed, and its log.
fn with_line(line: usize, new: &str) -> Vec<u8> {
    let mut input = book_and(LOG);
    input[line * LINE_BYTES..(line + 1) * LINE_BYTES].copy_from_slice(&padded(new));
    input
}

/// A book of one agent, whose root is the last node, and one move; function lines leave out Reserve.
fn one_rule(functions: &str, nodes: &str, contents: &str) -> Vec<u8> {
    one_rule_and_log(functions, nodes, contents, &LogDraft::unordered(vec![0]))
}

/// The same book with another log.
fn one_rule_and_log(functions: &str, nodes: &str, contents: &str, log: &LogDraft) -> Vec<u8> {
    [rules(functions, &[nodes], contents), log.text()].concat()
}

/// A book with an agent for each of these rules, whose elements count from 3.
fn rules(functions: &str, rules: &[&str], contents: &str) -> Vec<u8> {
    let mut book = BookDraft::compact(8, 6, functions, "", "", contents);
    (3..).zip(rules).for_each(|(element, rule)| book.agent_with(element, rule));
    book.text()
}

/// The same, with one move of each of two agents, unordered.
fn two_unordered(functions: &str, both: [&str; 2], contents: &str) -> Vec<u8> {
    [rules(functions, &both, contents), LogDraft::unordered(vec![0, 1]).text()].concat()
}

/// f := a ∘ b of two elements; f held number 0, so that undef is a change.
fn value(operator: u32, a: u32, b: u32) -> Vec<u8> {
    let nodes = format!("4 1 0 0 / 1 {a} 0 0 / 1 {b} 0 0 / {operator} 1 2 0 / 21 0 3 0");
    one_rule("0 2 0 0", &nodes, "1 0 0 3")
}

/// f := g beside g := f.
fn swap() -> Vec<u8> {
    let mut book = BookDraft::compact(6, 6, "0 2 0 0 / 0 2 0 0", "", "", "1 0 0 3 / 2 0 0 4");
    book.agent_with(3, "4 1 0 0 / 4 2 0 0 / 21 0 1 0 / 4 2 0 0 / 4 1 0 0 / 21 3 4 0 / 22 2 5 0");
    [book.text(), LogDraft::unordered(vec![0]).text()].concat()
}

/// The cases that the specification marks (a) to (l).
pub fn lettered() -> Vec<Case> {
    let release = "2 0 0 0 / 27 0 0 0 / 25 0 1 1";
    vec![
        Case::new("(a)", book_and(LOG), "0 0 0 4 / 1 6 0 2 / 1 7 0 2 / 2 6 0 5 / 2 7 0 4"),
        Case::new("(b) k 0", book_and("2 0 0 0 / 0 0 0 0 / 1 0 0 0"), "17 0 1 0"),
        Case::new("(c) m 0", book_and("0 0 0 0"), "0 0 0 3 / 0 7 0 2 / 1 6 0 2 / 2 6 0 4"),
        Case::new("(d) agent 0 twice", book_and("2 1 0 0 / 0 0 0 0 / 0 0 0 0 / 0 1 0 0"), "13 1 4 0"),
        Case::new(
            "(e) agent 1 three times",
            book_and("3 2 0 0 / 1 0 0 0 / 1 0 0 0 / 1 0 0 0 / 0 1 0 0 / 1 2 0 0"),
            "0 0 0 2 / 0 7 0 2 / 1 6 0 2",
        ),
        Case::new("(f) 1 plus 1", value(11, 4, 4), "0 0 0 1 / 1 0 0 5"),
        Case::new("(g) 2 plus 1", value(11, 5, 4), "0 0 0 0"),
        Case::new("(h) 0 minus 1", value(12, 3, 4), "0 0 0 0"),
        Case::new("(i) undef equal undef", value(7, 0, 0), "0 0 0 1 / 1 0 0 2"),
        Case::new("(j) false and undef", value(9, 1, 0), "0 0 0 0"),
        Case::new("(k) a swap", swap(), "0 0 0 2 / 1 0 0 4 / 2 0 0 3"),
        Case::new(
            "(l) release 6",
            one_rule("1 3 0 0 / 1 2 0 0", release, "0 7 0 2 / 1 6 0 2 / 2 6 0 4"),
            "0 0 0 2 / 0 6 0 2 / 0 7 0 2",
        ),
    ]
}

/// A counter and so many moves that add one to it, each after the one before.
fn counted(moves: usize) -> Vec<u8> {
    let mut book = BookDraft::new(80, 80, &[[0, 2]]);
    let (location, old) = (book.nullary(1), book.nullary(1));
    let new = book.next(old);
    let root = book.set(location, new);
    book.agent(root, 3);
    book.holds(1, 0, 3);
    [book.text(), LogDraft::in_sequence(vec![0; moves]).text()].concat()
}

/// For all x of so many members: f(x) := number 0.
fn members(count: u32) -> Vec<u8> {
    let mut book = BookDraft::new(300, 300, &[[1, 1], [1, 2]]);
    let location = book.at(2, 0);
    let set = book.set_to(location, Leaf::Element(3));
    let root = book.for_all(0, 1, set);
    book.agent(root, 3);
    (0..count).for_each(|member| book.holds(1, member, 2));
    [book.text(), LogDraft::unordered(vec![0]).text()].concat()
}

/// What is printed when 256 members were set.
fn all_set() -> String {
    let universe = (0..256).map(|member| format!("1 {member} 0 2"));
    let set = (0..256).map(|member| format!("2 {member} 0 3"));
    let lines: Vec<String> = universe.chain(set).collect();
    format!("0 0 0 512 / {}", lines.join(" / "))
}

/// 64 moves, each after the one before, that pick four times each, and so many choice lines.
fn picking(lines: usize) -> Vec<u8> {
    let mut log = LogDraft { picks: vec![Vec::new(); 64], ..LogDraft::in_sequence(vec![0; 64]) };
    (0..lines).for_each(|line| log.picks[(line / 4).min(63)].push(5));
    let each = "20 0 0 0 / 28 1 2 0 / 25 0 1 1";
    let members = "1 0 0 2 / 1 1 0 2 / 1 2 0 2 / 1 3 0 2 / 2 5 0 2";
    one_rule_and_log("1 1 0 0 / 1 3 0 0", each, members, &log)
}

/// The limits of moves, choice lines, instructions and bytes.
pub fn limits() -> Vec<Case> {
    let blanks = |count: usize| vec![b' '; count];
    vec![
        Case::new("64 moves", counted(64), "0 0 0 1 / 1 0 0 67"),
        Case::new("65 moves", counted(65), "9 0 0 0"),
        Case::new(
            "256 choice lines",
            picking(256),
            "0 0 0 5 / 1 0 0 2 / 1 1 0 2 / 1 2 0 2 / 1 3 0 2 / 2 5 0 2",
        ),
        Case::new("257 choice lines", picking(257), "9 0 0 0"),
        Case::new("256 instructions", members(256), &all_set()),
        Case::new("257 instructions", members(257), "14 0 3 0"),
        Case::new("no byte", Vec::new(), "1 0 0 0"),
        Case::new("60,000 bytes", blanks(60_000), "1 0 0 0"),
        Case::new("60,001 bytes", blanks(60_001), "2 60000 4 0"),
        Case::new("a million bytes", blanks(1_000_000), "2 60000 4 0"),
        Case::new("60,001 bytes that start well", [book_and(LOG), blanks(59_326)].concat(), "2 60000 4 0"),
    ]
}

/// One input for each row of the table of refusals but 16, which is never given, with the row's own example as far as `rental` can show it.
pub fn refusals() -> Vec<Case> {
    let mut leading_zero = book_and(LOG);
    leading_zero[6..12].copy_from_slice(b"    07");
    let two_values = "4 1 0 0 / 1 3 0 0 / 21 0 1 0 / 4 1 0 0 / 1 4 0 0 / 21 3 4 0 / 22 2 5 0";
    let to_a_number = "2 0 0 0 / 5 1 0 0 / 1 3 0 0 / 21 1 2 0 / 25 0 1 3";
    vec![
        Case::new("1: field 07", leading_zero, "1 0 0 0"),
        Case::new(
            "2: tables of 2,048 records, L 2,050",
            [
                BookDraft::compact(1_025, 6, "1 2 0 0", "20 0 0 0", "0 3 0 0", "").text(),
                LogDraft::default().text(),
            ]
            .concat(),
            "2 2050 0 0",
        ),
        Case::new("3: E 10001", with_line(0, "10001 6 3 13"), "3 0 0 0"),
        Case::new("4: arity 3", with_line(3, "3 3 0 0"), "4 1 0 0"),
        Case::new("5: kind 14", with_line(5, "14 0 0 0"), "5 0 0 0"),
        Case::new("6: a variable alone", one_rule("", "2 0 0 0", ""), "6 0 0 0"),
        Case::new("7: element 6, P being 6", with_line(19, "12 6 0 0"), "7 1 0 0"),
        Case::new("8: a label as static value", one_rule("1 0 0 0", "20 0 0 0", "1 3 0 6"), "8 6 0 0"),
        Case::new("9: pair 1 1", book_and("2 1 0 0 / 0 0 0 0 / 1 0 0 0 / 1 1 0 0"), "9 3 0 0"),
        Case::new("10: agents 0, 0, k 0", book_and("2 0 0 0 / 0 0 0 0 / 0 0 0 0"), "10 0 1 0"),
        Case::new("11: Pair(6) := number 0", one_rule("1 3 0 0", to_a_number, "1 6 0 2"), "11 0 3 0"),
        Case::new("12: release undef", one_rule("", "1 0 0 0 / 27 0 0 0", ""), "12 0 1 0"),
        Case::new("13: second import", book_and("2 1 0 0 / 0 0 0 0 / 0 0 0 0 / 0 1 0 0"), "13 1 4 0"),
        Case::new("14: forall over 257", members(257), "14 0 3 0"),
        Case::new("15: set 3 and 4", one_rule("0 2 0 0", two_values, ""), "15 0 8 0"),
        Case::new("17: k 0", book_and("2 0 0 0 / 0 0 0 0 / 1 0 0 0"), "17 0 1 0"),
        Case::new("18: 4 is not in the universe", picks_by(PICK, &[4]), "18 0 3 0"),
        Case::new("19: no pick", picks_by(PICK, &[]), "19 0 3 0"),
    ]
}

/// Choose x in U and do s := x; node 3 is the choose.
const PICK: &str = "4 2 0 0 / 2 0 0 0 / 21 0 1 0 / 28 0 1 2";

/// One move with these picks; function 1 is the universe U, at 3 and 5, function 2 is s.
fn picks_by(nodes: &str, picks: &[Pick]) -> Vec<u8> {
    let log = LogDraft { picks: vec![picks.to_vec()], ..LogDraft::unordered(vec![0]) };
    one_rule_and_log("1 3 0 0 / 0 2 0 0 / 1 2 0 0", nodes, "1 3 0 2 / 1 5 0 2", &log)
}

/// Picks of choices (SPECIFICATION 4).
pub fn picks() -> Vec<Case> {
    let start = "1 3 0 2 / 1 5 0 2";
    let each = "2 0 0 0 / 5 3 0 0 / 2 1 0 0 / 21 1 2 0 / 28 1 1 3 / 25 0 1 4";
    let two_values = "4 2 0 0 / 1 3 0 0 / 21 0 1 0 / 4 2 0 0 / 1 4 0 0 / 21 3 4 0 / 22 2 5 0";
    let choice = |contents: &str| rules("1 3 0 0", &["20 0 0 0 / 28 0 1 0"], contents);
    let empty = |log: &str| [choice(""), padded(log)].concat();
    let faulty = |line: &str| [choice("1 3 0 2"), padded(&format!("1 0 1 0 / 0 0 0 0 / {line}"))].concat();
    vec![
        Case::new("a pick", picks_by(PICK, &[5]), &format!("0 0 0 3 / {start} / 2 0 0 5")),
        Case::new("another pick", picks_by(PICK, &[3]), &format!("0 0 0 3 / {start} / 2 0 0 3")),
        Case::new(
            "a pick for each turn",
            picks_by(each, &[5, 3]),
            &format!("0 0 0 4 / {start} / 3 3 0 5 / 3 5 0 3"),
        ),
        Case::new("no pick for the second turn", picks_by(each, &[5]), "19 0 4 0"),
        Case::new("a pick left over", picks_by(PICK, &[5, 5]), "19 0 3 0"),
        Case::new("a pick left over after two turns", picks_by(each, &[5, 3, 3]), "19 0 5 0"),
        Case::new("a pick left over before a clash", picks_by(two_values, &[3]), "19 0 6 0"),
        Case::new("the clash", picks_by(two_values, &[]), "15 0 16 0"),
        Case::new("an empty universe and no pick", empty("1 0 0 0 / 0 0 0 0"), "19 0 1 0"),
        Case::new("an empty universe and a pick", empty("1 0 1 0 / 0 0 0 0 / 0 3 0 0"), "18 0 1 0"),
        Case::new("a choice line for move 1 of 1", faulty("1 3 0 0"), "9 2 0 0"),
        Case::new("a choice line for element 8 of 8", faulty("0 8 0 0"), "9 2 0 0"),
        Case::new("a choice line with a third field", faulty("0 3 1 0"), "9 2 0 0"),
        Case::new("a choice line with a fourth field", faulty("0 3 0 1"), "9 2 0 0"),
    ]
}

/// Agent 0 releases the label 6 that function 1 holds; agent 1 has this rule, and function 2 holds 3. Their moves are unordered.
fn beside_a_release(rule: &str) -> Vec<u8> {
    two_unordered("0 2 0 0 / 0 2 0 0", ["4 1 0 0 / 27 0 0 0", rule], "1 0 0 6 / 2 0 0 3")
}

/// Moves that change nothing stand (SPECIFICATION 4), and touch others as every move does.
pub fn idle() -> Vec<Case> {
    let set = "4 1 0 0 / 1 3 0 0 / 21 0 1 0";
    let both_set = BookDraft::compact(8, 6, "0 2 0 0", set, "2 3 0 0 / 2 4 0 0", "1 0 0 3").text();
    let unordered = LogDraft::unordered(vec![0, 1]).text();
    let own_value = one_rule("0 2 0 0", "4 1 0 0 / 4 1 0 0 / 21 0 1 0", "1 0 0 4");
    vec![
        Case::new("set to its own value", own_value, "0 0 0 1 / 1 0 0 4"),
        Case::new("a skip", one_rule("0 2 0 0", "20 0 0 0", "1 0 0 4"), "0 0 0 1 / 1 0 0 4"),
        Case::new("both s := 3, s being 3", [both_set, unordered].concat(), "17 0 1 0"),
        Case::new("a skip beside a release", beside_a_release("20 0 0 0"), "0 0 0 2 / 0 6 0 2 / 2 0 0 3"),
        Case::new(
            "s := s beside a release",
            beside_a_release("4 2 0 0 / 4 2 0 0 / 21 0 1 0"),
            "0 0 0 2 / 0 6 0 2 / 2 0 0 3",
        ),
    ]
}

/// Agent 0 has the first rule, agent 1 releases s; their moves are unordered. Functions 1 and 2 are t and s, 3 is own, and s holds 6.
fn with_a_release(first: &str, t: u32, own: &str) -> Vec<u8> {
    let contents = format!("1 0 0 {t} / 2 0 0 6 / {own}");
    two_unordered("0 2 0 0 / 0 2 0 0 / 1 2 0 0", [first, "4 2 0 0 / 27 0 0 0"], &contents)
}

/// A release unordered beside other moves (SPECIFICATION 5).
pub fn releases() -> Vec<Case> {
    let (release, set, keep) =
        ("4 1 0 0 / 27 0 0 0", "4 1 0 0 / 1 3 0 0 / 21 0 1 0", "4 1 0 0 / 4 1 0 0 / 21 0 1 0");
    // t := own(3).
    let exchange = "4 1 0 0 / 1 3 0 0 / 5 3 1 0 / 21 0 2 0";
    vec![
        Case::new("7 released, own(7) being 6, and 6", with_a_release(release, 7, "3 7 0 6"), "17 0 1 0"),
        Case::new("7 and 6 released", with_a_release(release, 7, ""), "0 0 0 2 / 0 6 0 2 / 0 7 0 2"),
        Case::new("t := 3, t being 6, and 6 released", with_a_release(set, 6, ""), "17 0 1 0"),
        Case::new(
            "t := 3, t being 7, and 6 released",
            with_a_release(set, 7, ""),
            "0 0 0 2 / 0 6 0 2 / 1 0 0 3",
        ),
        Case::new("t := t, t being 6, and 6 released", with_a_release(keep, 6, ""), "17 0 1 0"),
        Case::new(
            "t := t, t being 7, and 6 released",
            with_a_release(keep, 7, ""),
            "0 0 0 2 / 0 6 0 2 / 1 0 0 7",
        ),
        Case::new("t := 7, t being 6, and 6 released", with_a_release(exchange, 6, "3 3 0 7"), "17 0 1 0"),
    ]
}
