// Orders of a log's moves that keep its pairs: at random, or all of them; and what an order of an accepted log shows.

use crate::fired::{fired_moves, listed_moves, Fired};
use crate::idle::{idle_ways, Idle};
use crate::log_draft::LogDraft;
use crate::picks::{picked_ways, Picked};
use crate::releases::{released_ways, Released};
use crate::rng::Rng;
use paper::*;

/// An order at random, among all those that keep the pairs of a log of m moves.
pub fn random_order(pairs: &[(usize, usize)], m: usize, rng: &mut Rng) -> Vec<usize> {
    let mut waiting = vec![0; m];
    pairs.iter().for_each(|&(_, later)| waiting[later] += 1);
    let mut ready: Vec<usize> = (0..m).filter(|&number| waiting[number] == 0).collect();
    let mut order = Vec::with_capacity(m);
    while !ready.is_empty() {
        let place = rng.index(ready.len());
        let next = ready.swap_remove(place);
        order.push(next);
        for &(_, later) in pairs.iter().filter(|&&(earlier, _)| earlier == next) {
            waiting[later] -= 1;
            if waiting[later] == 0 {
                ready.push(later);
            }
        }
    }
    order
}

/// All orders of m moves that keep the pairs: each move at every place among those before it.
pub fn all_orders(pairs: &[(usize, usize)], m: usize) -> Vec<Vec<usize>> {
    let mut orders = vec![Vec::new()];
    for number in 0..m {
        let placed = |order: &Vec<usize>| {
            let at = |place: usize| [&order[..place], &[number], &order[place..]].concat();
            (0..=order.len()).map(at).collect::<Vec<_>>()
        };
        orders = orders.iter().flat_map(placed).collect();
    }
    orders.retain(|order| keeps(order, pairs));
    orders
}

/// Whether an order keeps the pairs.
pub fn keeps(order: &[usize], pairs: &[(usize, usize)]) -> bool {
    pairs.iter().all(|&(earlier, later)| place(order, earlier) < place(order, later))
}

fn place(order: &[usize], number: usize) -> Option<usize> {
    order.iter().position(|&other| other == number)
}

/// A log with its moves listed in another order, which has each of them.
pub fn relisted(log: &Log, order: &[usize]) -> LogDraft {
    let place = |number: usize| place(order, number).expect("each move is in the order") as u32;
    LogDraft {
        agents: order.iter().map(|&number| log.agents[number] as u32).collect(),
        pairs: log.pairs.iter().map(|&(earlier, later)| (place(earlier), place(later))).collect(),
        picks: order.iter().map(|&number| log.picks[number].clone()).collect(),
    }
}

/// What an order other than the listing shows.
#[derive(Debug, Clone, Copy, PartialEq, Eq, PartialOrd, Ord)]
pub enum Shown {
    /// It is another order than the listing.
    Other,
    /// The log has a move that changes nothing, and one unordered with a release.
    Idle,
    IdleBesideRelease,
    /// The log has picks, several of one choice in a move, and moves with picks that do not come as they are listed.
    Picks,
    PicksInTurns,
    PicksExchanged,
    /// The log has a release unordered with another move, with one that changes something, and a release and another move that do not
    /// come as they are listed.
    Release,
    ReleaseBesideChange,
    ReleaseExchanged,
    /// The log issues labels, returns labels, and has an import and another move that do not come as they are listed.
    Issued,
    Returned,
    ImportExchanged,
}

/// A log whose run is accepted, with what its orders show.
pub struct AcceptedLog {
    pub book: Book,
    pub log: Log,
    idle: Vec<Idle>,
    picked: Vec<Picked>,
    released: Vec<Released>,
    /// The moves that import, and those that release.
    importing: Vec<usize>,
    releasing: Vec<usize>,
}

impl AcceptedLog {
    /// A log and its book, of which the run is known to be accepted.
    pub fn new(book_text: &[u8], log_text: &[u8]) -> AcceptedLog {
        let book = check_book(book_text).expect("an accepted book");
        let log = check_log(&book, log_text).expect("an accepted log");
        let idle = idle_ways(book_text, log_text, Answer::ACCEPTED);
        let picked = picked_ways(book_text, log_text, Answer::ACCEPTED);
        let released = released_ways(book_text, log_text, Answer::ACCEPTED);
        let fired = fired_moves(&book, listed_moves(&log));
        let which = |holds: &dyn Fn(&Fired) -> bool| {
            (0..fired.len()).filter(|&number| holds(&fired[number])).collect::<Vec<usize>>()
        };
        let importing = which(&|fired| fired.tally(&book).issued > 0);
        let releasing = which(&Fired::releases);
        AcceptedLog { book, log, idle, picked, released, importing, releasing }
    }

    /// What an order shows; nothing if it is the listing.
    pub fn shown_by(&self, order: &[usize]) -> Vec<Shown> {
        if order.is_sorted() {
            return Vec::new();
        }
        let picking = order.iter().filter(|&&number| !self.log.picks[number].is_empty());
        let shown = [
            (true, Shown::Other),
            (!self.idle.is_empty(), Shown::Idle),
            (self.idle.contains(&Idle::BesideRelease), Shown::IdleBesideRelease),
            (self.picked.contains(&Picked::Accepted), Shown::Picks),
            (self.picked.contains(&Picked::InTurns), Shown::PicksInTurns),
            (!picking.is_sorted(), Shown::PicksExchanged),
            (self.released.contains(&Released::Unordered), Shown::Release),
            (self.released.contains(&Released::BesideChange), Shown::ReleaseBesideChange),
            (exchanges(order, &self.releasing), Shown::ReleaseExchanged),
            (!self.importing.is_empty(), Shown::Issued),
            (!self.releasing.is_empty(), Shown::Returned),
            (exchanges(order, &self.importing), Shown::ImportExchanged),
        ];
        shown.into_iter().filter(|(holds, _)| *holds).map(|(_, shown)| shown).collect()
    }
}

/// Whether one of these moves and another one do not come as they are listed.
fn exchanges(order: &[usize], moves: &[usize]) -> bool {
    let exchanged = |number: usize| {
        let before = |other: usize| place(order, other) < place(order, number);
        (0..order.len()).any(|other| before(other) != (other < number))
    };
    moves.iter().any(|&number| exchanged(number))
}
