// The specification's own book and log (docs/SPECIFICATION.md), from which many tests start. Function 1 is Pair, 2 is Wear; agent 0 imports a
// pair, agent 1 adds 1 to the wear of every pair.

use crate::lines::padded;

/// The book's lines in compact form.
pub const BOOK: &str = "8 6 3 13 / 2 3 0 0 / 1 3 0 0 / 1 3 0 0 / 1 2 0 0 / 2 0 0 0 / 5 2 0 0 / 1 3 0 0 / 21 1 2 0 / \
    26 0 1 3 / 2 0 0 0 / 5 2 5 0 / 2 0 0 0 / 5 2 7 0 / 1 4 0 0 / 11 8 9 0 / 21 6 10 0 / 25 0 1 11 / 4 4 0 0 / 12 5 0 0 / \
    0 7 0 2 / 1 6 0 2 / 2 6 0 4";

/// The log's lines: a move of each agent, agent 0's first.
pub const LOG: &str = "2 1 0 0 / 0 0 0 0 / 1 0 0 0 / 0 1 0 0";

pub fn book() -> Vec<u8> {
    padded(BOOK)
}

pub fn log() -> Vec<u8> {
    padded(LOG)
}

/// The book with another log in compact form, as `rental` reads them.
pub fn book_and(log: &str) -> Vec<u8> {
    [book(), padded(log)].concat()
}
