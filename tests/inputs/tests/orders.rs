// Any order of an accepted log that keeps the pairs, each move with its picks, fires the same moves, leaves the same end and has the same tally.

use inputs::{
    all_orders, keeps, random_order, run_input, small_input, small_inputs, AcceptedLog, BookAndLog, Counts,
    Rng, Shown,
};
use paper::*;
use std::collections::BTreeSet;

const SEED: u64 = 20;

/// Locations with the values they get.
type Updates = Vec<(usize, u16)>;

/// What the moves of a log do, in this order: each move's updates, by number, the end and the tally.
fn carried_out(book: &Book, log: &Log, order: &[usize]) -> Result<(Vec<Updates>, Vec<u16>, Tally), Refusal> {
    let mut contents = start_table(book);
    let mut tally = Tally::default();
    let mut by_move = vec![Vec::new(); log.agents.len()];
    let mut list = Vec::new();
    for &number in order {
        let before = contents.clone();
        let (agent, picks) = (log.agents[number], &log.picks[number]);
        fire_move(book, &mut contents, agent, picks, Marks::none(), &mut list)?;
        by_move[number] = updates(book, &before, &list);
        tally += Tally::of_move(book, &list);
    }
    Ok((by_move, contents, tally))
}

/// The contents that the run of a log ends with and its tally, if it is accepted.
fn end_of(book: &[u8], log: &[u8]) -> Option<(Vec<u16>, Tally)> {
    let book = check_book(book).ok()?;
    let log = check_log(&book, log).ok()?;
    let mut end = vec![0; book.locations];
    let (mut readers, mut writers) = (vec![0; book.locations], vec![0; book.locations]);
    let outcome = run_checked(&book, &log, &mut end, &mut readers, &mut writers, INSTRUCTIONS);
    (outcome.answer == Answer::ACCEPTED).then_some((end, outcome.tally))
}

/// All these orders do what the listing does, and end as the run did, with its tally.
fn assert_alike(accepted: &AcceptedLog, ended: (Vec<u16>, Tally), orders: &[Vec<usize>], what: &str) {
    let AcceptedLog { book, log, .. } = accepted;
    let listing: Vec<usize> = (0..log.agents.len()).collect();
    let (by_move, end, tally) = carried_out(book, log, &listing).expect("the run was accepted");
    assert_eq!((&end, tally), (&ended.0, ended.1), "{what}");
    let expected = Ok((by_move, end, tally));
    for order in orders {
        assert!(keeps(order, &log.pairs), "{what}: {order:?}");
        assert_eq!(carried_out(book, log, order), expected, "{what}: {order:?}");
    }
}

/// How many orders show something, and how many logs have such an order.
#[derive(Debug, Default)]
struct Found {
    orders: Counts<Shown>,
    logs: Counts<Shown>,
}

impl Found {
    /// Checks some orders of a log, if it is accepted, and counts what they show.
    fn check(&mut self, log: BookAndLog, orders: impl Fn(&Log) -> Vec<Vec<usize>>, what: &str) {
        let BookAndLog { book, log } = log;
        let Some(ended) = end_of(&book, &log) else { return };
        let accepted = AcceptedLog::new(&book, &log);
        let orders = orders(&accepted.log);
        assert_alike(&accepted, ended, &orders, what);
        let shown: Vec<Shown> = orders.iter().flat_map(|order| accepted.shown_by(order)).collect();
        self.orders.extend(shown.iter().copied());
        self.logs.extend(shown.into_iter().collect::<BTreeSet<_>>());
    }

    /// So many orders show this at least. At least a fifth of the logs have a release unordered with a move that changes something, and in
    /// most of those with a release unordered with any other move the two changed places.
    fn assert(&self, floors: [(Shown, u64); 9]) {
        let releases = [Shown::Release, Shown::ReleaseBesideChange, Shown::ReleaseExchanged];
        self.orders.assert_floors(floors.into_iter().chain(releases.map(|shown| (shown, 1))));
        let [all, with, beside, exchanged] =
            [Shown::Other, Shown::Release, Shown::ReleaseBesideChange, Shown::ReleaseExchanged]
                .map(|shown| self.logs.of(shown));
        assert!(5 * beside >= all, "{self:?}");
        assert!(10 * exchanged >= 9 * with, "{self:?}");
    }
}

#[test]
fn any_order_that_keeps_the_pairs_does_the_same() {
    let mut found = Found::default();
    for number in 0..30_000 {
        let input = run_input(&mut Rng::for_input(SEED, number));
        let orders = |log: &Log| {
            let mut rng = Rng::new(number);
            (0..4).map(|_| random_order(&log.pairs, log.agents.len(), &mut rng)).collect()
        };
        found.check(BookAndLog { book: input.book, log: input.log }, orders, &format!("input {number}"));
    }
    println!("random logs: {found:?}");
    found.assert([
        (Shown::Other, 10_000),
        (Shown::Idle, 4_000),
        (Shown::IdleBesideRelease, 300),
        (Shown::Picks, 4_000),
        (Shown::PicksInTurns, 500),
        (Shown::PicksExchanged, 1_500),
        (Shown::Issued, 1_000),
        (Shown::Returned, 3_000),
        (Shown::ImportExchanged, 800),
    ]);
}

#[test]
fn all_orders_of_the_small_logs_do_the_same() {
    let mut found = Found::default();
    for number in 0..small_inputs() {
        let orders = |log: &Log| all_orders(&log.pairs, log.agents.len());
        found.check(small_input(number), orders, &format!("small input {number}"));
    }
    println!("small logs: {found:?}");
    found.assert([
        (Shown::Other, 2_000),
        (Shown::Idle, 1_000),
        (Shown::IdleBesideRelease, 500),
        (Shown::Picks, 250),
        (Shown::PicksInTurns, 150),
        (Shown::PicksExchanged, 250),
        (Shown::Issued, 3_000),
        (Shown::Returned, 5_000),
        (Shown::ImportExchanged, 2_000),
    ]);
}

#[test]
fn every_order_can_be_drawn() {
    // 0 and 2 before 3: two orders of the three, with four places for 1 in each.
    let pairs = [(0, 3), (2, 3)];
    let mut rng = Rng::new(1);
    let drawn: BTreeSet<Vec<usize>> = (0..500).map(|_| random_order(&pairs, 4, &mut rng)).collect();
    assert_eq!(drawn.len(), 8);
    assert_eq!(drawn, all_orders(&pairs, 4).into_iter().collect());
}
