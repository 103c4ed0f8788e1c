// After each move of a log the roll holds what it held at the start, less the labels issued, plus the labels returned.

use inputs::{run_input, small_input, small_inputs, Counts, Rng};
use paper::*;
use std::collections::BTreeSet;

const SEED: u64 = 24;

/// The first moves of a log.
fn first_moves(log: &Log, moves: usize) -> Log {
    Log {
        agents: log.agents[..moves].to_vec(),
        pairs: log.pairs.iter().copied().filter(|&(_, later)| later < moves).collect(),
        before: log.before[..moves].to_vec(),
        picks: log.picks[..moves].to_vec(),
    }
}

/// The labels on the roll.
fn roll(book: &Book, contents: &[u16]) -> BTreeSet<usize> {
    (book.permanent..book.elements).filter(|&label| contents[label] == TRUE).collect()
}

/// The tally of a run, and the roll that it leaves.
fn ended(book: &Book, log: &Log) -> (Tally, BTreeSet<usize>) {
    let mut contents = vec![0; book.locations];
    let (mut readers, mut writers) = (vec![0; book.locations], vec![0; book.locations]);
    let outcome = run_checked(book, log, &mut contents, &mut readers, &mut writers, INSTRUCTIONS);
    (outcome.tally, roll(book, &contents))
}

/// What a move does to the roll: it issues labels, returns labels, or both.
#[derive(Debug, Clone, Copy, PartialEq, Eq, PartialOrd, Ord)]
enum Move {
    Issues,
    Returns,
    Both,
}

/// Checks the tally and the roll after each move, up to one that is refused, which leaves both; gives what the moves do.
fn assert_adds_up(book: &Book, log: &Log, what: &str) -> Vec<Move> {
    let start = roll(book, &start_table(book));
    let mut moves = Vec::new();
    let (mut tally, mut before) = (Tally::default(), start.clone());
    for number in 0..=log.agents.len() {
        let (now, after) = ended(book, &first_moves(log, number));
        let [count_at_start, count] = [start.len(), after.len()].map(|count| count as u64);
        assert_eq!(count + now.issued, count_at_start + now.returned, "{what}: after {number} moves");
        // Label by label: no move puts back what it takes.
        let issued = before.difference(&after).count() as u64;
        let returned = after.difference(&before).count() as u64;
        tally += Tally { issued, returned };
        assert_eq!(now, tally, "{what}: after {number} moves");
        before = after;
        moves.extend(match (issued > 0, returned > 0) {
            (true, false) => Some(Move::Issues),
            (false, true) => Some(Move::Returns),
            (true, true) => Some(Move::Both),
            (false, false) => None,
        });
    }
    moves
}

/// The moves that change the roll, over the logs among these inputs that pass their checks.
fn count_moves(inputs: impl Iterator<Item = (Vec<u8>, Vec<u8>)>) -> Counts<Move> {
    let mut counts = Counts::new();
    for (number, (book, log)) in inputs.enumerate() {
        let Ok(book) = check_book(&book) else { continue };
        let Ok(log) = check_log(&book, &log) else { continue };
        counts.extend(assert_adds_up(&book, &log, &format!("input {number}")));
    }
    counts
}

#[test]
fn random_logs_add_up() {
    let inputs = (0..8_000).map(|number| run_input(&mut Rng::for_input(SEED, number)));
    let counts = count_moves(inputs.map(|input| (input.book, input.log)));
    println!("moves of random logs: {counts:?}");
    counts.assert_floors([(Move::Issues, 1_000), (Move::Returns, 2_000), (Move::Both, 25)]);
}

#[test]
fn small_logs_add_up() {
    let inputs = (0..small_inputs()).map(small_input);
    let counts = count_moves(inputs.map(|input| (input.book, input.log)));
    println!("moves of small logs: {counts:?}");
    counts.assert_floors([(Move::Issues, 3_000), (Move::Returns, 8_000), (Move::Both, 1_000)]);
}
