// The moves of an accepted log in another order that keeps the log's pairs end alike, run by the proved code one by one with their picks; and so does
// the log with its moves listed in that order, with the same tally.
use compare::question::{proved, Question, Reply};
use compare::step;
use inputs::{random_order, relisted, run_input, AcceptedLog, Counts, Rng, RunInput, Shown};
use paper::{Answer, Book, Log, INSTRUCTIONS};

const SEED: u64 = 2;
const ORDERS: u64 = 50_000;

const FLOORS: [(Shown, u64); 12] = [
    (Shown::Other, 10_000),
    (Shown::Idle, 4_000),
    (Shown::IdleBesideRelease, 300),
    (Shown::Picks, 4_000),
    (Shown::PicksInTurns, 500),
    (Shown::PicksExchanged, 2_500),
    (Shown::Release, 1_000),
    (Shown::ReleaseBesideChange, 1_000),
    (Shown::ReleaseExchanged, 1_000),
    (Shown::Issued, 1_000),
    (Shown::Returned, 3_000),
    (Shown::ImportExchanged, 800),
];

// Runs the moves of an accepted log, each with its picks, by the single-move entry in this order.
fn assert_ends_alike(input: &RunInput, book: &Book, log: &Log, order: &[usize], end: &[u16]) {
    let mut contents = paper::start_table(book);
    for &number in order {
        let (agent, picks) = (log.agents[number], &log.picks[number]);
        let answer = step(&input.book, &mut contents, agent, picks, INSTRUCTIONS);
        assert_eq!(answer, Answer::ACCEPTED, "move {number} of {order:?}");
    }
    assert_eq!(contents, end[..contents.len()], "{order:?}");
}

// Runs an accepted log with its moves listed in this order.
fn assert_listed_alike(input: RunInput, log: &Log, order: &[usize], listed: &Reply) {
    let reply = proved(&Question::Log(RunInput { log: relisted(log, order).text(), ..input }));
    assert_eq!((reply.answer, reply.tally), (Answer::ACCEPTED, listed.tally), "{order:?}");
    assert_eq!(reply.contents, listed.contents, "{order:?}");
}

#[test]
fn every_order_that_keeps_the_pairs_ends_alike() {
    let (mut orders, mut counts, mut number) = (0, Counts::new(), 0);
    while orders < ORDERS {
        let mut rng = Rng::for_input(SEED, number);
        let question = Question::Log(run_input(&mut rng));
        let reply = proved(&question);
        let Question::Log(input) = question else { unreachable!("it is a log") };
        number += 1;
        if reply.answer != Answer::ACCEPTED {
            continue;
        }
        orders += 1;
        let book = paper::check_book(&input.book).expect("an accepted book");
        let log = paper::check_log(&book, &input.log).expect("an accepted log");
        let order = random_order(&log.pairs, log.agents.len(), &mut rng);
        assert_ends_alike(&input, &book, &log, &order, &reply.contents);
        if !order.is_sorted() {
            counts.extend(AcceptedLog::new(&input.book, &input.log).shown_by(&order));
            assert_listed_alike(input, &log, &order, &reply);
        }
    }
    println!("orders, seed {SEED}: {orders}, of them {counts:?}");
    counts.assert_floors(FLOORS);
    assert!(5 * counts.of(Shown::ReleaseBesideChange) >= counts.of(Shown::Other), "{counts:?}");
}
