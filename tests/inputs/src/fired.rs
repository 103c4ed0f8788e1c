// Moves fired one after the other, with what each did.

use paper::{fire_move, start_table, Book, Instruction, Log, Marks, Pick, Tally};
use std::collections::BTreeSet;

/// A move that fired.
pub struct Fired {
    pub before: Vec<u16>,
    pub after: Vec<u16>,
    pub list: Vec<Instruction>,
}

impl Fired {
    /// Fires a move from these contents; nothing if it is refused.
    pub fn from(book: &Book, contents: &[u16], agent: usize, picks: &[Pick]) -> Option<Fired> {
        let (mut after, mut list) = (contents.to_vec(), Vec::new());
        fire_move(book, &mut after, agent, picks, Marks::none(), &mut list).ok()?;
        Some(Fired { before: contents.to_vec(), after, list })
    }

    /// Whether it changes a location.
    pub fn changes(&self) -> bool {
        self.before != self.after
    }

    pub fn releases(&self) -> bool {
        self.list.iter().any(is_release)
    }

    /// The labels that it releases.
    pub fn released(&self) -> BTreeSet<u16> {
        let label = |instruction: &Instruction| match *instruction {
            Instruction::Release { label } => Some(label),
            Instruction::Update { .. } => None,
        };
        self.list.iter().filter_map(label).collect()
    }

    pub fn tally(&self, book: &Book) -> Tally {
        Tally::of_move(book, &self.list)
    }
}

/// Whether an instruction is a release.
pub fn is_release(instruction: &Instruction) -> bool {
    matches!(instruction, Instruction::Release { .. })
}

/// The moves of these agents with these picks from the start of a book, up to the first that is refused.
pub fn fired_moves<'a>(book: &Book, moves: impl Iterator<Item = (usize, &'a Vec<Pick>)>) -> Vec<Fired> {
    let mut contents = start_table(book);
    let fire = |(agent, picks): (usize, &'a Vec<Pick>)| {
        let fired = Fired::from(book, &contents, agent, picks)?;
        contents.copy_from_slice(&fired.after);
        Some(fired)
    };
    moves.map_while(fire).collect()
}

/// The agents of a log's moves with their picks, as listed.
pub fn listed_moves(log: &Log) -> impl Iterator<Item = (usize, &Vec<Pick>)> + Clone {
    log.agents.iter().copied().zip(&log.picks)
}
