// Moves that change nothing: whether a move is one, and how they stand in the logs that ran to their end.

use crate::fired::{fired_moves, listed_moves, Fired};
use paper::{check_book, check_log, Answer, Book, Log, Pick};

/// Whether the move of an agent from these contents with these picks changes a location; nothing if it is refused.
pub fn changes(book: &Book, contents: &[u16], agent: usize, picks: &[Pick]) -> Option<bool> {
    Fired::from(book, contents, agent, picks).map(|fired| fired.changes())
}

/// How a move that changes nothing stands in a log.
#[derive(Debug, Clone, Copy, PartialEq, Eq, PartialOrd, Ord)]
pub enum Idle {
    /// In an accepted log, without instructions.
    Bare,
    /// In an accepted log, with instructions.
    Writing,
    /// In an accepted log, unordered with a move that releases.
    BesideRelease,
    /// In an accepted log, before or after a move that releases.
    OrderedWithRelease,
    /// One of the two that a 17 names, where the other changes something but releases nothing.
    Touching,
    /// One of the two that a 17 names, where the other releases.
    TouchingRelease,
    /// Both that a 17 names.
    BothTouching,
}

impl Idle {
    pub const ALL: [Idle; 7] = [
        Idle::Bare,
        Idle::Writing,
        Idle::BesideRelease,
        Idle::OrderedWithRelease,
        Idle::Touching,
        Idle::TouchingRelease,
        Idle::BothTouching,
    ];
}

/// How the moves that change nothing stand in a log whose run gave this answer, each way once.
pub fn idle_ways(book: &[u8], log: &[u8], answer: Answer) -> Vec<Idle> {
    if ![0, 17].contains(&answer.number) {
        return Vec::new();
    }
    let book = check_book(book).expect("the log was run");
    let log = check_log(&book, log).expect("the log was run");
    let fired = fired_moves(&book, listed_moves(&log));
    let mut ways = if answer.number == 0 {
        ways_of_accepted(&log, &fired)
    } else {
        way_of_touching(&fired[answer.p as usize], &fired[answer.q as usize]).into_iter().collect()
    };
    ways.sort_unstable();
    ways.dedup();
    ways
}

fn ways_of_accepted(log: &Log, fired: &[Fired]) -> Vec<Idle> {
    let mut ways = Vec::new();
    for (number, idle) in fired.iter().enumerate().filter(|(_, fired)| !fired.changes()) {
        ways.push(if idle.list.is_empty() { Idle::Bare } else { Idle::Writing });
        for (other, _) in fired.iter().enumerate().filter(|(_, fired)| fired.releases()) {
            let (first, second) = (number.min(other), number.max(other));
            let ordered = log.before[second] >> first & 1 == 1;
            ways.push(if ordered { Idle::OrderedWithRelease } else { Idle::BesideRelease });
        }
    }
    ways
}

fn way_of_touching(first: &Fired, second: &Fired) -> Option<Idle> {
    match (first.changes(), second.changes()) {
        (false, false) => Some(Idle::BothTouching),
        (true, true) => None,
        _ if first.releases() || second.releases() => Some(Idle::TouchingRelease),
        _ => Some(Idle::Touching),
    }
}
