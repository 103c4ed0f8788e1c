// Shared by the tests: short ways to write books and logs and to call the entries.
#![allow(dead_code)]

use inputs::{compact_lines, compact_of, lines_in, log_lines, text_of, BookDraft, LogDraft};
use paper::{
    check_book, reads_and_writes, report, run, step_listed, Answer, Instruction, Outcome, Pick, Tally,
};

/// What filled a lent table before the call.
pub const LENT_VALUE: u16 = 4_321;
pub const LENT_MARK: u64 = 0xABCD;

pub fn accepted() -> Answer {
    Answer { number: 0, p: 0, q: 0 }
}

pub fn refused(number: u32, p: u32, q: u32) -> Answer {
    Answer { number, p, q }
}

/// A book from its parts in compact form; function lines leave out Reserve.
pub fn book(
    elements: u32,
    permanent: u32,
    functions: &str,
    nodes: &str,
    agents: &str,
    contents: &str,
) -> Vec<u8> {
    BookDraft::compact(elements, permanent, functions, nodes, agents, contents).text()
}

/// Contents lines in which a relation holds at each element below this, in compact form.
pub fn members(relation: u32, below: u32) -> String {
    compact_of(&(0..below).map(|element| [relation, element, 0, 2]).collect::<Vec<_>>())
}

/// Both rules, each with nodes that count from 0.
pub fn both(first: &str, second: &str) -> String {
    let mut draft = rules_draft("");
    let (a, b) = (draft.append(&compact_lines(first)), draft.append(&compact_lines(second)));
    draft.both(a, b);
    compact_of(&draft.nodes)
}

/// A log of these moves and pairs.
pub fn log(agents: &[u32], pairs: &[(u32, u32)]) -> Vec<u8> {
    log_with(agents, pairs, &[])
}

/// A log of these moves, pairs and choice lines, just as they are given.
pub fn log_with(agents: &[u32], pairs: &[(u32, u32)], choices: &[(u32, u32)]) -> Vec<u8> {
    text_of(&log_lines(agents, pairs, choices))
}

/// A log of these moves in which each pair of moves is ordered.
pub fn ordered(agents: &[u32]) -> Vec<u8> {
    LogDraft::in_sequence(agents.to_vec()).text()
}

/// The result of a run, and what it left in tables of L + 1 records each.
pub struct Run {
    pub answer: Answer,
    pub tally: Tally,
    pub contents: Vec<u16>,
    pub readers: Vec<u64>,
    pub writers: Vec<u64>,
}

impl Run {
    /// The locations that this move has marked, as read or as written.
    pub fn read(&self, number: u32) -> Vec<usize> {
        marked(&self.readers, number)
    }

    pub fn written(&self, number: u32) -> Vec<usize> {
        marked(&self.writers, number)
    }
}

fn marked(marks: &[u64], number: u32) -> Vec<usize> {
    let locations = 0..marks.len() - 1;
    locations.filter(|&location| marks[location] >> number & 1 == 1).collect()
}

pub fn run_of(book: &[u8], log: &[u8]) -> Run {
    let records = check_book(book).map_or(0, |book| book.locations) + 1;
    let mut contents = vec![LENT_VALUE; records];
    let mut readers = vec![LENT_MARK; records];
    let mut writers = vec![LENT_MARK; records];
    let Outcome { answer, tally } = run(book, log, &mut contents, &mut readers, &mut writers, 256);
    Run { answer, tally, contents, readers, writers }
}

/// The run of one move of each of two agents, in this order and not ordered by a pair.
pub fn unordered_run(first: &str, second: &str, contents: &str) -> Run {
    run_of(&rules(&[first, second], contents), &log(&[0, 1], &[]))
}

/// The locations that agent 0 reads and writes in its first move.
pub fn reads_and_writes_of(book: &[u8]) -> (Vec<usize>, Vec<usize>) {
    let book = check_book(book).expect("a sound book");
    reads_and_writes(&book, &paper::start_table(&book), 0, &[]).expect("the move fires")
}

/// The start of a sound book, as a table of L records.
pub fn start(book: &[u8]) -> Vec<u16> {
    paper::start_table(&check_book(book).expect("a sound book"))
}

/// What one move of agent 0 from the book's start answers and leaves.
pub fn step_of(book: &[u8]) -> (Answer, Vec<u16>, Vec<Instruction>) {
    step_with(book, &[])
}

/// The same with picks.
pub fn step_with(book: &[u8], picks: &[Pick]) -> (Answer, Vec<u16>, Vec<Instruction>) {
    let mut contents = start(book);
    let (answer, list) = step_listed(book, &mut contents, 0, picks, 256);
    (answer, contents, list)
}

/// What `rental` prints, in compact form.
pub fn printed(input: &[u8]) -> String {
    compact_of(&lines_in(&report(input)))
}

/// The books of `rules` have E 8 and P 6, so the labels are 6 and 7, and these functions with their first
/// locations: U (1) at 8 and V (2) at 16, dynamic unary relations; f (3) at 24, dynamic unary;
/// g (4) at 32 and h (5) at 33, dynamic nullary; S (6) at 34, a static unary relation;
/// s (7) at 42, static nullary; r (8) at 43, a dynamic nullary relation; L is 44.
pub const FUNCTIONS: &str = "1 3 0 0 / 1 3 0 0 / 1 2 0 0 / 0 2 0 0 / 0 2 0 0 / 1 1 0 0 / 0 0 0 0 / 0 3 0 0";
pub const U: usize = 8;
pub const V: usize = 16;
pub const F: usize = 24;
pub const G: usize = 32;
pub const H: usize = 33;
pub const R: usize = 43;

/// g := 3.
pub const SET_G: &str = "4 4 0 0 / 1 3 0 0 / 21 0 1 0";

/// A book whose one agent, with element 5, has the last node as root.
pub fn rule(nodes: &str, contents: &str) -> Vec<u8> {
    rules(&[nodes], contents)
}

/// A book with one agent for each rule; node numbers count anew in each.
pub fn rules(rules: &[&str], contents: &str) -> Vec<u8> {
    let mut draft = rules_draft(contents);
    let first = 6 - rules.len() as u32;
    (first..).zip(rules).for_each(|(element, rule)| draft.agent_with(element, rule));
    draft.text()
}

/// Such a book without a rule.
pub fn rules_draft(contents: &str) -> BookDraft {
    BookDraft::compact(8, 6, FUNCTIONS, "", "", contents)
}

pub fn update(location: usize, value: u16) -> Instruction {
    Instruction::Update { location, value }
}
