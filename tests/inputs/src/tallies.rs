// Label tallies: which numbers come up, and the moves that a wrong count would get wrong.

use crate::fired::{fired_moves, is_release, listed_moves, Fired};
use paper::*;
use std::collections::BTreeSet;

/// What the result of a run shows of its tally.
#[derive(Debug, Clone, Copy, PartialEq, Eq, PartialOrd, Ord)]
pub enum Tallied {
    /// Labels are issued, returned, both.
    Issued,
    Returned,
    Both,
    /// Labels are issued or returned before a move that is refused, and by moves that get 17.
    BeforeRefused,
    Touching,
}

impl Tallied {
    pub const ALL: [Tallied; 5] =
        [Tallied::Issued, Tallied::Returned, Tallied::Both, Tallied::BeforeRefused, Tallied::Touching];
}

/// What the result of a run shows of its tally.
pub fn tallied_ways(Outcome { answer, tally }: Outcome) -> Vec<Tallied> {
    let (issued, returned) = (tally.issued > 0, tally.returned > 0);
    let either = issued || returned;
    let ways = [
        (issued, Tallied::Issued),
        (returned, Tallied::Returned),
        (issued && returned, Tallied::Both),
        (either && ![0, 17].contains(&answer.number), Tallied::BeforeRefused),
        (either && answer.number == 17, Tallied::Touching),
    ];
    ways.into_iter().filter(|(holds, _)| *holds).map(|(_, way)| way).collect()
}

/// What in a log counts once, twice or not at all.
#[derive(Debug, Clone, Copy, PartialEq, Eq, PartialOrd, Ord)]
pub enum Counted {
    /// A move imports several labels.
    Several,
    /// A move imports a label and releases one.
    InOneMove,
    /// A move releases a label twice, which counts once.
    Once,
    /// Two moves release the same label, which counts twice.
    Again,
    /// A move that is refused in its walk, or by 15, has imported or released before, which does not count.
    NotOfWalk,
    NotOfClash,
}

impl Counted {
    pub const ALL: [Counted; 6] = [
        Counted::Several,
        Counted::InOneMove,
        Counted::Once,
        Counted::Again,
        Counted::NotOfWalk,
        Counted::NotOfClash,
    ];
}

/// What counts in a log whose run gave this answer, each way once.
pub fn counted_ways(book: &[u8], log: &[u8], answer: Answer) -> Vec<Counted> {
    if (1..=10).contains(&answer.number) {
        return Vec::new();
    }
    let book = check_book(book).expect("the log was run");
    let log = check_log(&book, log).expect("the log was run");
    let fired = fired_moves(&book, listed_moves(&log));
    let mut ways: Vec<Counted> = fired.iter().flat_map(|fired| ways_of_move(&book, fired)).collect();
    let mut returned = BTreeSet::new();
    if fired.iter().flat_map(Fired::released).any(|label| !returned.insert(label)) {
        ways.push(Counted::Again);
    }
    if begins_to_count(&book, &log, &fired) {
        ways.push(if answer.number == 15 { Counted::NotOfClash } else { Counted::NotOfWalk });
    }
    ways.sort_unstable();
    ways.dedup();
    ways
}

fn ways_of_move(book: &Book, fired: &Fired) -> Vec<Counted> {
    let Tally { issued, returned } = fired.tally(book);
    let releases = fired.list.iter().filter(|instruction| is_release(instruction)).count() as u64;
    let ways = [
        (issued > 1, Counted::Several),
        (issued > 0 && returned > 0, Counted::InOneMove),
        (releases > returned, Counted::Once),
    ];
    ways.into_iter().filter(|(holds, _)| *holds).map(|(_, way)| way).collect()
}

/// Whether the move after those that fired, which is refused, imports or releases before that.
fn begins_to_count(book: &Book, log: &Log, fired: &[Fired]) -> bool {
    let Some((agent, picks)) = listed_moves(log).nth(fired.len()) else { return false };
    let contents = fired.last().map_or_else(|| start_table(book), |last| last.after.clone());
    let mut list = Vec::new();
    // The list is what the walk gives up to its refusal, if it meets one.
    let _ = walk_move(book, &contents, agent, picks, &mut Marks::none(), &mut list);
    Tally::of_move(book, &list) != Tally::default()
}
