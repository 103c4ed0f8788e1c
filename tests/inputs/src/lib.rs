// The builder of books and logs, and seeded inputs for the entries: the same seed gives the same inputs on every machine.
#![forbid(unsafe_code)]

mod book_draft;
pub mod books;
pub mod cases;
mod choice_rules;
mod counts;
pub mod damage;
pub mod documents;
mod entry_inputs;
mod faults;
mod fired;
mod idle;
mod lines;
mod log_draft;
pub mod logs;
mod no_elements;
mod nodes;
mod orders;
mod picks;
mod release_rules;
mod releases;
mod rng;
mod root_rules;
mod rules;
mod small;
mod small_picks;
pub mod specification;
pub mod tables;
mod tallies;

pub use book_draft::BookDraft;
pub use counts::Counts;
pub use entry_inputs::{book_input, report_input, run_input, step_input, BookAndLog, RunInput, StepInput};
pub use fired::is_release;
pub use idle::{idle_ways, Idle};
pub use lines::{
    book_and_log_in, compact_lines, compact_of, first_line_in, lines_in, numbers_in, padded, printed_answer,
    text_of,
};
pub use log_draft::{all_pairs, log_lines, successive_pairs, LogDraft};
pub use logs::fitting_pairs;
pub use no_elements::{cuts, Cut};
pub use nodes::{operands, Leaf};
pub use orders::{all_orders, keeps, random_order, relisted, AcceptedLog, Shown};
pub use picks::{fitting_picks, has_choices, picked_ways, spoil_picks, Picked};
pub use releases::{released_ways, Released};
pub use rng::Rng;
pub use small::{small_input, small_inputs};
pub use small_picks::{small_move, small_moves};
pub use tallies::{counted_ways, tallied_ways, Counted, Tallied};
