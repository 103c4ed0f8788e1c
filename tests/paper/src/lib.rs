// The specification (docs/SPECIFICATION.md) in plain Rust, written from its text alone: the book check, a single move,
// the run of a log and the log printer.
#![forbid(unsafe_code)]

mod answer;
mod book;
mod log;
mod node;
mod print;
mod run;
mod step;
mod table;
mod tally;
mod text;
mod tree;
mod walk;

pub use answer::{Answer, Refusal};
pub use book::{book_answer, check_book, Agent, Book, Function, FALSE, TRUE, UNDEF};
pub use log::{check_log, Log, CHOICE_LINES};
pub use node::Node;
pub use print::{report, report_tallied};
pub use run::{run, run_checked, Outcome};
pub use step::{fire_move, reads_and_writes, step, step_checked, step_listed, updates, MOST_PLACE};
pub use table::{fault_in_table, start_table};
pub use tally::Tally;
pub use text::{write_line, Line, LINE_BYTES};
pub use walk::{walk_move, Instruction, Marks, Pick, INSTRUCTIONS};
