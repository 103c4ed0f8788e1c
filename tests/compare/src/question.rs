// A question to both implementations, and the reply of each.
use crate::{check_book, report, run, step};
use inputs::{first_line_in, RunInput, StepInput};
use paper::{Answer, Outcome, Pick, Tally};
use std::fmt::Display;

// What an entry is given.
pub enum Question {
    Book(Vec<u8>),
    Move(StepInput),
    Log(RunInput),
    // The standard input of `rental`.
    Input(Vec<u8>),
}

// The answer, the tally of the run, what was printed, and the tables that were left; nothing where an entry has no such thing.
#[derive(Debug, PartialEq, Eq)]
pub struct Reply {
    pub answer: Answer,
    pub tally: Option<Tally>,
    pub printed: Vec<u8>,
    pub contents: Vec<u16>,
    pub readers: Vec<u64>,
    pub writers: Vec<u64>,
}

// One of the two: `proved` or `independent`.
pub type Implementation = fn(&Question) -> Reply;

// The entries for a move and a log, as both have them.
pub type Step = fn(&[u8], &mut [u16], usize, &[Pick], usize) -> Answer;
pub type Run = fn(&[u8], &[u8], &mut [u16], &mut [u64], &mut [u64], usize) -> Outcome;

impl Reply {
    pub fn of(answer: Answer) -> Reply {
        let (contents, readers, writers) = (Vec::new(), Vec::new(), Vec::new());
        Reply { answer, tally: None, printed: Vec::new(), contents, readers, writers }
    }

    fn of_step(input: &StepInput, step: Step) -> Reply {
        let mut contents = input.contents.clone();
        let answer = step(&input.book, &mut contents, input.agent, &input.picks, input.lent);
        Reply { contents, ..Reply::of(answer) }
    }

    fn of_run(input: &RunInput, run: Run) -> Reply {
        let RunInput { book, log, lent, .. } = input;
        let (mut contents, mut readers, mut writers) =
            (input.contents.clone(), input.readers.clone(), input.writers.clone());
        let Outcome { answer, tally } = run(book, log, &mut contents, &mut readers, &mut writers, *lent);
        Reply { tally: Some(tally), contents, readers, writers, ..Reply::of(answer) }
    }

    // Where the first line is not sound, the number is one that no answer has.
    fn of_report((printed, tally): (Vec<u8>, Tally)) -> Reply {
        let [number, p, q, _] = first_line_in(&printed).unwrap_or([u32::MAX, 0, 0, 0]);
        Reply { tally: Some(tally), printed, ..Reply::of(Answer { number, p, q }) }
    }

    // All of it as lines.
    pub fn text(&self) -> String {
        let Answer { number, p, q } = self.answer;
        let tally = self.tally.map(|tally| format!("{} issued, {} returned\n", tally.issued, tally.returned));
        let tables = [
            table("contents", &self.contents),
            table("readers", &self.readers),
            table("writers", &self.writers),
        ];
        let printed = String::from_utf8_lossy(&self.printed);
        format!("{number} {p} {q}\n{}{printed}{}", tally.unwrap_or_default(), tables.concat())
    }
}

// A table's name, then each record on its line; nothing if it has none.
fn table<T: Display>(name: &str, records: &[T]) -> String {
    let lines: String = records.iter().map(|record| format!("{record}\n")).collect();
    if records.is_empty() {
        lines
    } else {
        format!("{name}\n{lines}")
    }
}

// The proved code.
pub fn proved(question: &Question) -> Reply {
    match question {
        Question::Book(book) => Reply::of(check_book(book)),
        Question::Move(input) => Reply::of_step(input, step),
        Question::Log(input) => Reply::of_run(input, run),
        Question::Input(input) => Reply::of_report(report(input)),
    }
}

// The independent implementation.
pub fn independent(question: &Question) -> Reply {
    match question {
        Question::Book(book) => Reply::of(paper::book_answer(book)),
        Question::Move(input) => Reply::of_step(input, paper::step),
        Question::Log(input) => Reply::of_run(input, paper::run),
        Question::Input(input) => Reply::of_report(paper::report_tallied(input)),
    }
}

impl Question {
    // The exported function that it is put to.
    pub fn entry(&self) -> &'static str {
        match self {
            Question::Book(_) => "rental_check_book",
            Question::Move(_) => "rental_move",
            Question::Log(_) => "rental_run_log",
            Question::Input(_) => "rental_report_input",
        }
    }

    // Its parts, as files.
    pub fn files(&self) -> Vec<(&'static str, Vec<u8>)> {
        let number = |number: usize| format!("{number}\n").into_bytes();
        match self {
            Question::Book(book) => vec![("book", book.clone())],
            Question::Input(input) => vec![("input", input.clone())],
            Question::Move(input) => vec![
                ("book", input.book.clone()),
                ("contents", table("contents", &input.contents).into_bytes()),
                ("agent", number(input.agent)),
                ("picks", table("picks", &input.picks).into_bytes()),
                ("lent", number(input.lent)),
            ],
            Question::Log(input) => vec![
                ("book", input.book.clone()),
                ("log", input.log.clone()),
                ("contents", table("contents", &input.contents).into_bytes()),
                ("readers", table("readers", &input.readers).into_bytes()),
                ("writers", table("writers", &input.writers).into_bytes()),
                ("lent", number(input.lent)),
            ],
        }
    }
}
