// The run of a log with its marks and its label tally, and 17.

use crate::answer::Answer;
use crate::book::{check_book, Book};
use crate::log::{check_log, Log};
use crate::step::fire_move;
use crate::table::fill_start;
use crate::tally::Tally;
use crate::walk::{Marks, INSTRUCTIONS};

/// The result of a run: its answer, and the tally of the moves that fired.
#[derive(Debug, Clone, Copy, PartialEq, Eq)]
pub struct Outcome {
    pub answer: Answer,
    pub tally: Tally,
}

impl From<Answer> for Outcome {
    /// A refusal before the first move.
    fn from(answer: Answer) -> Outcome {
        Outcome { answer, tally: Tally::default() }
    }
}

/// Runs a log from its book's start; the tables are changed as a run changes them (SPECIFICATION 7).
pub fn run(
    book: &[u8],
    log: &[u8],
    contents: &mut [u16],
    readers: &mut [u64],
    writers: &mut [u64],
    lent: usize,
) -> Outcome {
    let outcome = check_book(book).and_then(|book| {
        let log = check_log(&book, log)?;
        Ok(run_checked(&book, &log, contents, readers, writers, lent))
    });
    outcome.unwrap_or_else(Outcome::from)
}

/// As `run`, after the checks of book and log.
pub fn run_checked(
    book: &Book,
    log: &Log,
    contents: &mut [u16],
    readers: &mut [u64],
    writers: &mut [u64],
    lent: usize,
) -> Outcome {
    let needed = book.locations;
    let tables =
        [(contents.len(), needed), (readers.len(), needed), (writers.len(), needed), (lent, INSTRUCTIONS)];
    if let Some(table) = tables.iter().position(|&(len, needed)| len < needed) {
        return Answer::refused(2, tables[table].1, table).into();
    }
    let contents = &mut contents[..needed];
    let readers = &mut readers[..needed];
    let writers = &mut writers[..needed];
    fill_start(book, contents);
    readers.fill(0);
    writers.fill(0);
    let mut list = Vec::with_capacity(INSTRUCTIONS);
    let mut tally = Tally::default();
    for (number, (&agent, picks)) in log.agents.iter().zip(&log.picks).enumerate() {
        let marks = Marks { readers, writers, bit: 1 << number };
        if let Err(refusal) = fire_move(book, contents, agent, picks, marks, &mut list) {
            return Outcome { answer: refusal.in_move(number), tally };
        }
        tally += Tally::of_move(book, &list);
    }
    let touching = unordered_touch(&log.before, readers, writers);
    let answer = touching.map_or(Answer::ACCEPTED, |(first, second)| Answer::refused(17, first, second));
    Outcome { answer, tally }
}

/// The least pair of moves that touch and are not ordered.
fn unordered_touch(before: &[u64], readers: &[u64], writers: &[u64]) -> Option<(usize, usize)> {
    let mut touched = [0; 64];
    for (&read, &written) in readers.iter().zip(writers) {
        for number in moves_in(written) {
            touched[number] |= read | written;
        }
    }
    (0..before.len()).find_map(|first| {
        let mut later = first + 1..before.len();
        let at_fault = |&second: &usize| {
            let touch = touched[first] >> second & 1 != 0 || touched[second] >> first & 1 != 0;
            touch && before[second] >> first & 1 == 0
        };
        later.find(at_fault).map(|second| (first, second))
    })
}

/// The moves in a mark, ascending.
fn moves_in(mut mark: u64) -> impl Iterator<Item = usize> {
    std::iter::from_fn(move || {
        let number = mark.trailing_zeros() as usize;
        mark &= mark.wrapping_sub(1);
        (number < 64).then_some(number)
    })
}
