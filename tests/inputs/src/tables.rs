// Contents tables for a single move: reached by moves, random sound ones, damaged ones.

use crate::book_draft::BookDraft;
use crate::books;
use crate::faults;
use crate::picks::fitting_picks;
use crate::rng::Rng;
use paper::{fire_move, start_table, Book, Marks};

/// The most picks of a move that is made to reach a table.
const MOST_PICKS: usize = 30;

/// A table of L records that keeps the rules, if the book does.
pub fn sound(rng: &mut Rng, draft: &BookDraft, book: &Book) -> Vec<u16> {
    match rng.weighted(&[25, 35, 40]) {
        0 => start_table(book),
        1 => reached(rng, book),
        _ => random(rng, draft, book),
    }
}

/// The table after some moves of any agents; those that are refused do not count.
pub fn reached(rng: &mut Rng, book: &Book) -> Vec<u16> {
    let mut contents = start_table(book);
    let mut list = Vec::new();
    for _ in 0..rng.range(1, 8) {
        let agent = rng.index(book.agents.len());
        let picks = fitting_picks(rng, book, &contents, agent, MOST_PICKS);
        // A refused move leaves the contents as they were.
        let _ = fire_move(book, &mut contents, agent, &picks, Marks::none(), &mut list);
    }
    contents
}

/// A table with entries of its own, static ones too.
fn random(rng: &mut Rng, draft: &BookDraft, book: &Book) -> Vec<u16> {
    let mut contents = Vec::with_capacity(book.locations);
    for function in &book.functions {
        contents.resize(contents.len() + function.len, function.default_value());
    }
    for line in books::entries(rng, draft) {
        let location = draft.location(&line).expect("a line of the draft's functions");
        contents[location] = line[3] as u16;
    }
    contents
}

/// A sound table with one fault of 8, or two.
pub fn damaged(rng: &mut Rng, draft: &BookDraft, book: &Book) -> Vec<u16> {
    let mut contents = sound(rng, draft, book);
    for _ in 0..if rng.percent(80) { 1 } else { 2 } {
        faults::spoil_table(rng, draft, &mut contents);
    }
    contents
}
