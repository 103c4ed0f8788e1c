// Small inputs with choices: every list of picks for some rules, every small log of some agents, every two choice lines; and single moves with
// picks that are no elements.

use crate::book_draft::BookDraft;
use crate::entry_inputs::{BookAndLog, StepInput};
use crate::lines::{padded, text_of};
use crate::log_draft::{all_pairs, LogDraft};
use crate::nodes::Leaf;
use crate::small::digit;
use paper::Pick;

// ---- lists: some rules with a choice, every small universe and every list of picks

const ELEMENTS: u64 = 6;
const MOST_PICKS: u32 = 3;
const CANDIDATES: [[u32; 3]; 2] = [[0, 1, 3], [1, 3, 4]];

/// Functions 1 and 2 are the universes U and V, 3 and 4 the functions f and s, 5 is the relation r. U is static or dynamic.
const FORMS: [fn(&mut BookDraft) -> u32; 12] = [
    |draft| choose(draft, 0, 1, |draft| set_s(draft, Leaf::Variable(0))),
    |draft| {
        let first = choose(draft, 0, 1, |draft| set_s(draft, Leaf::Variable(0)));
        let second = choose(draft, 0, 2, |draft| set_f(draft, 0, Leaf::Element(3)));
        draft.both(first, second)
    },
    |draft| choose(draft, 0, 1, |draft| choose(draft, 1, 2, |draft| set_f(draft, 0, Leaf::Variable(1)))),
    |draft| {
        let body = choose(draft, 1, 2, |draft| set_f(draft, 0, Leaf::Variable(1)));
        draft.for_all(0, 1, body)
    },
    |draft| {
        let body = choose(draft, 1, 1, BookDraft::skip);
        draft.for_all(0, 2, body)
    },
    |draft| {
        let (three, four) = (set_s(draft, Leaf::Element(3)), set_s(draft, Leaf::Element(2)));
        let both = draft.both(three, four);
        let choice = choose(draft, 0, 1, BookDraft::skip);
        draft.both(both, choice)
    },
    |draft| choose(draft, 0, 1, |draft| set(draft, 5, Leaf::Variable(0))),
    |draft| choose(draft, 0, 1, |draft| draft.release_of(Leaf::Variable(0))),
    |draft| {
        let body = choose(draft, 1, 1, |draft| set_f(draft, 0, Leaf::Variable(1)));
        draft.import(0, 2, body)
    },
    |draft| {
        let guard = draft.unary_of(1, Leaf::Element(3));
        let (then, otherwise) = (choose(draft, 0, 1, |draft| set_s(draft, Leaf::Variable(0))), draft.skip());
        draft.conditional(guard, then, otherwise)
    },
    |draft| {
        let three = draft.element(3);
        let body = choose(draft, 1, 1, |draft| set_f(draft, 0, Leaf::Variable(1)));
        draft.let_in(0, three, body)
    },
    BookDraft::skip,
];

fn choose(
    draft: &mut BookDraft,
    variable: u32,
    universe: u32,
    body: impl FnOnce(&mut BookDraft) -> u32,
) -> u32 {
    let body = body(draft);
    draft.choose(variable, universe, body)
}

/// A nullary function gets a value.
fn set(draft: &mut BookDraft, function: u32, value: Leaf) -> u32 {
    let location = draft.nullary(function);
    draft.set_to(location, value)
}

fn set_s(draft: &mut BookDraft, value: Leaf) -> u32 {
    set(draft, 4, value)
}

/// f of a variable gets a value.
fn set_f(draft: &mut BookDraft, variable: u32, value: Leaf) -> u32 {
    let location = draft.at(3, variable);
    draft.set_to(location, value)
}

/// How many lists of numbers below a bound there are, none longer than the most.
fn lists(bound: u64, most: u32) -> u64 {
    (0..=most).map(|length| bound.pow(length)).sum()
}

/// The list with this number, shorter ones first.
fn list(mut number: u64, bound: u64) -> Vec<u64> {
    let mut length = 0;
    while number >= bound.pow(length) {
        number -= bound.pow(length);
        length += 1;
    }
    (0..length).map(|_| u64::from(digit(&mut number, bound))).collect()
}

fn choosing_books() -> u64 {
    FORMS.len() as u64 * 2 * (1 << CANDIDATES[0].len())
}

/// The book that a number's first digits tell; the number keeps the rest.
fn choosing_book(number: &mut u64) -> BookDraft {
    let form = digit(number, FORMS.len() as u64) as usize;
    let dynamic = digit(number, 2) as usize;
    let members = CANDIDATES[dynamic].into_iter().filter(|_| digit(number, 2) == 1);
    let kind = [1, 3][dynamic];
    let mut book = BookDraft::new(ELEMENTS as u32, 4, &[[1, kind], [1, 3], [1, 2], [0, 2], [0, 3]]);
    book.holds(0, 5, 2);
    members.for_each(|element| book.holds(1, element, 2));
    [3, 4].into_iter().for_each(|element| book.holds(2, element, 2));
    let root = FORMS[form](&mut book);
    book.agent(root, 3);
    book
}

pub fn picks() -> u64 {
    choosing_books() * lists(ELEMENTS, MOST_PICKS)
}

pub fn pick(mut number: u64) -> BookAndLog {
    let book = choosing_book(&mut number);
    let log = LogDraft { agents: vec![0], pairs: Vec::new(), picks: vec![list(number, ELEMENTS)] };
    BookAndLog { book: book.text(), log: log.text() }
}

// ---- single moves: the same books, with every list of up to two of some numbers, of which few are elements

const MOST_NUMBERS: u32 = 2;
const NUMBERS: [Pick; 12] = [
    3,
    4,
    ELEMENTS,
    65_535,
    1 << 16,
    (1 << 16) + 3,
    (1 << 16) + ELEMENTS,
    1 << 32,
    (1 << 32) + 3,
    (1 << 48) + 3,
    (1 << 63) + 3,
    Pick::MAX,
];

/// How many small single moves there are.
pub fn small_moves() -> u64 {
    choosing_books() * lists(NUMBERS.len() as u64, MOST_NUMBERS)
}

/// The small single move with this number, which is below their count.
pub fn small_move(mut number: u64) -> StepInput {
    let book = choosing_book(&mut number).text();
    let indices = list(number, NUMBERS.len() as u64);
    let picks = indices.into_iter().map(|index| NUMBERS[index as usize]).collect();
    StepInput::from_start(book, 0, picks)
}

// ---- logs: up to three moves of three agents of each book, with every set of pairs and some picks for each move

const BOOKS: [fn() -> Vec<u8>; 2] = [reading, taking_out];
const AGENTS: u64 = 3;
const MOST_MOVES: u64 = 3;
const PICKS: [&[Pick]; 5] = [&[], &[3], &[4], &[3, 4], &[4, 4]];

/// Agent 0 notes a pick from U at its own element, agent 1 sets U at a pick to true, agent 2 reads one for each of the two members of a static
/// universe. U holds at 3 and 4.
fn reading() -> Vec<u8> {
    let mut book = BookDraft::new(5, 4, &[[1, 3], [1, 2], [1, 1]]);
    let location = book.own(2);
    let set = book.set_to(location, Leaf::Variable(0));
    let note = book.choose(0, 1, set);
    let location = book.at(1, 0);
    let set = book.set_to(location, Leaf::Element(2));
    let keep = book.choose(0, 1, set);
    let skip = book.skip();
    let choice = book.choose(0, 1, skip);
    let read = book.for_all(1, 3, choice);
    (0..).zip([note, keep, read]).for_each(|(agent, root)| book.agent(root, agent));
    [(1, 3), (1, 4), (3, 1), (3, 2)]
        .into_iter()
        .for_each(|(universe, element)| book.holds(universe, element, 2));
    book.text()
}

/// Agent 0 takes a pick out of U, agent 1 sets f at a pick for each of the two members of a static universe, agent 2 releases a pick.
fn taking_out() -> Vec<u8> {
    let mut book = BookDraft::new(5, 4, &[[1, 3], [1, 1], [1, 2]]);
    let location = book.at(1, 0);
    let set = book.set_to(location, Leaf::Element(1));
    let take_out = book.choose(0, 1, set);
    let location = book.at(3, 1);
    let set = book.set_to(location, Leaf::Element(3));
    let choice = book.choose(1, 1, set);
    let each = book.for_all(0, 2, choice);
    let release = book.release_of(Leaf::Variable(0));
    let release = book.choose(0, 1, release);
    (0..).zip([take_out, each, release]).for_each(|(agent, root)| book.agent(root, agent));
    [(1, 3), (1, 4), (2, 1), (2, 2)]
        .into_iter()
        .for_each(|(universe, element)| book.holds(universe, element, 2));
    book.text()
}

/// How many logs of m moves there are.
fn logs_of(m: u64) -> u64 {
    (AGENTS * PICKS.len() as u64).pow(m as u32) * (1 << (m * m.saturating_sub(1) / 2))
}

pub fn logs() -> u64 {
    BOOKS.len() as u64 * (0..=MOST_MOVES).map(logs_of).sum::<u64>()
}

pub fn log(mut number: u64) -> BookAndLog {
    let book = BOOKS[digit(&mut number, BOOKS.len() as u64) as usize]();
    let mut m = 0;
    while number >= logs_of(m) {
        number -= logs_of(m);
        m += 1;
    }
    let agents = (0..m).map(|_| digit(&mut number, AGENTS)).collect();
    let picks = (0..m).map(|_| PICKS[digit(&mut number, PICKS.len() as u64) as usize].to_vec()).collect();
    let pairs = all_pairs(m as u32).filter(|_| digit(&mut number, 2) == 1).collect();
    BookAndLog { book, log: LogDraft { agents, pairs, picks }.text() }
}

// ---- choice lines: every two of them with moves to 2, elements to 6 and unused fields to 1, for two moves

fn choice_lines_of_one() -> u64 {
    3 * 7 * 2 * 2
}

pub fn choice_lines() -> u64 {
    choice_lines_of_one().pow(2)
}

pub fn choice_line(mut number: u64) -> BookAndLog {
    let mut line = || [3, 7, 2, 2].map(|bound| digit(&mut number, bound));
    let lines = [[2, 0, 2, 0], [0, 0, 0, 0], [1, 0, 0, 0], line(), line()];
    BookAndLog { book: reading(), log: text_of(&lines) }
}

/// A book and a log with picks, to be damaged byte by byte.
pub fn shown_pick() -> BookAndLog {
    BookAndLog { book: reading(), log: padded("2 1 2 0 / 0 0 0 0 / 1 0 0 0 / 0 1 0 0 / 0 3 0 0 / 1 4 0 0") }
}
