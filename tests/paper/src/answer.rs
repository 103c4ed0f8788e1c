// The answer of every entry: a number and a place.

/// 0 0 0 when accepted, otherwise a refusal with its place (p, q).
#[derive(Debug, Clone, Copy, PartialEq, Eq)]
pub struct Answer {
    pub number: u32,
    pub p: u32,
    pub q: u32,
}

impl Answer {
    pub const ACCEPTED: Answer = Answer { number: 0, p: 0, q: 0 };

    /// The numbers that are given. 16, once for a move that changes nothing, stays taken.
    pub const NUMBERS: [u32; 19] = [0, 1, 2, 3, 4, 5, 6, 7, 8, 9, 10, 11, 12, 13, 14, 15, 17, 18, 19];

    /// A refusal; places are bounded by the lines, locations and nodes of checked sizes.
    pub(crate) fn refused(number: u32, p: usize, q: usize) -> Answer {
        Answer { number, p: p as u32, q: q as u32 }
    }
}

impl From<Result<(), Answer>> for Answer {
    fn from(outcome: Result<(), Answer>) -> Answer {
        outcome.err().unwrap_or(Answer::ACCEPTED)
    }
}

/// A refusal met inside a move, 11 to 15, 18 or 19, before the move's own number is known.
#[derive(Debug, Clone, Copy, PartialEq, Eq)]
pub struct Refusal {
    pub number: u32,
    /// The node for 11 to 14, 18 and 19, the location for 15.
    pub place: usize,
}

impl Refusal {
    /// The answer when this refusal is met in move `number`.
    pub fn in_move(self, number: usize) -> Answer {
        Answer::refused(self.number, number, self.place)
    }
}
