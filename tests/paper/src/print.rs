// What `rental` prints for a book and a log on standard input.

use crate::answer::Answer;
use crate::book::{check_book, Book, Header};
use crate::log::check_log;
use crate::run::{run_checked, Outcome};
use crate::table::arguments;
use crate::tally::Tally;
use crate::text::{write_line, Line, LINE_BYTES};

const MOST_BYTES: usize = 60_000;

/// The records of each lent table.
const RECORDS: usize = 2_048;

/// The first line, and the lines of the end when the log was accepted.
pub fn report(input: &[u8]) -> Vec<u8> {
    report_tallied(input).0
}

/// As `report`, with the tally of the run, which is not printed.
pub fn report_tallied(input: &[u8]) -> (Vec<u8>, Tally) {
    let (outcome, lines) = end_of_run(input).unwrap_or_else(|answer| (answer.into(), Vec::new()));
    let Outcome { answer: Answer { number, p, q }, tally } = outcome;
    let mut text = Vec::new();
    write_line(&mut text, [number, p, q, lines.len() as u32]);
    lines.into_iter().for_each(|line| write_line(&mut text, line));
    (text, tally)
}

/// The result of the run, and the contents lines of its end when the log was accepted.
fn end_of_run(input: &[u8]) -> Result<(Outcome, Vec<Line>), Answer> {
    if input.len() > MOST_BYTES {
        return Err(Answer::refused(2, MOST_BYTES, 4));
    }
    let book_bytes = Header::read(input)?.lines() * LINE_BYTES;
    let (book, log) = input.split_at(book_bytes.min(input.len()));
    let book = check_book(book)?;
    let log = check_log(&book, log)?;
    let mut contents = vec![0; RECORDS];
    let mut readers = vec![0; RECORDS];
    let mut writers = vec![0; RECORDS];
    let outcome = run_checked(&book, &log, &mut contents, &mut readers, &mut writers, RECORDS);
    let accepted = outcome.answer == Answer::ACCEPTED;
    let lines = if accepted { contents_lines(&book, &contents) } else { Vec::new() };
    Ok((outcome, lines))
}

/// The locations that are not at their default, as lines of a book.
fn contents_lines(book: &Book, contents: &[u16]) -> Vec<Line> {
    let mut lines = Vec::new();
    for (number, function) in book.functions.iter().enumerate() {
        for (offset, &value) in contents[function.run()].iter().enumerate() {
            if value != function.default_value() {
                let [first, second] = arguments(function, offset, book.elements);
                lines.push([number as u32, first as u32, second as u32, u32::from(value)]);
            }
        }
    }
    lines
}
