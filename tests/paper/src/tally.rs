// The label tally of a run: how many labels its moves took off the roll and put back on it.

use crate::book::Book;
use crate::walk::Instruction;
use std::collections::BTreeSet;
use std::ops::AddAssign;

/// Labels issued, one for each import, and labels returned, each label once in a move.
#[derive(Debug, Clone, Copy, Default, PartialEq, Eq)]
pub struct Tally {
    pub issued: u64,
    pub returned: u64,
}

impl Tally {
    /// The tally of one move that fired with these instructions.
    pub fn of_move(book: &Book, list: &[Instruction]) -> Tally {
        // No node names Reserve, so each update of it is that of an import.
        let reserve = book.functions[0].run();
        let mut tally = Tally::default();
        let mut labels = BTreeSet::new();
        for instruction in list {
            match *instruction {
                Instruction::Update { location, .. } => {
                    tally.issued += u64::from(reserve.contains(&location))
                }
                Instruction::Release { label } => tally.returned += u64::from(labels.insert(label)),
            }
        }
        tally
    }
}

impl AddAssign for Tally {
    fn add_assign(&mut self, other: Tally) {
        self.issued += other.issued;
        self.returned += other.returned;
    }
}
