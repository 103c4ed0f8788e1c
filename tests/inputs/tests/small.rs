// The small inputs are those that they are said to be, and get many different answers.

use inputs::{
    counted_ways, cuts, picked_ways, printed_answer, released_ways, small_input, small_inputs, small_move,
    small_moves, tallied_ways, Counted, Counts, Cut, Picked, Released, RunInput, Tallied,
};
use paper::report;

#[test]
fn answers() {
    let counts: Counts<u32> =
        (0..small_inputs()).map(|i| printed_answer(&report(&small_input(i).input())).number).collect();
    println!("small inputs: {counts:?}");
    counts.assert_all((0..=13).chain([15, 17, 18, 19]), 1);
}

#[test]
fn numbered() {
    assert_eq!(small_input(5), small_input(5));
    assert_ne!(small_input(5), small_input(6));
    assert_ne!(small_input(small_inputs() - 2), small_input(small_inputs() - 1));
}

#[test]
fn picks() {
    let ways = |run: RunInput| picked_ways(&run.book, &run.log, run.answer());
    let counts: Counts<Picked> = (0..small_inputs()).map(|i| small_input(i).run()).flat_map(ways).collect();
    println!("picks in small inputs: {counts:?}");
    counts.assert_all(Picked::ALL, 16);
}

#[test]
fn releases() {
    let ways = |run: RunInput| released_ways(&run.book, &run.log, run.answer());
    let counts: Counts<Released> = (0..small_inputs()).map(|i| small_input(i).run()).flat_map(ways).collect();
    println!("releases in small inputs: {counts:?}");
    counts.assert_all(Released::ALL, 8);
}

#[test]
fn tallies() {
    let (mut tallied, mut counted) = (Counts::new(), Counts::new());
    for run in (0..small_inputs()).map(|i| small_input(i).run()) {
        let outcome = run.outcome();
        tallied.extend(tallied_ways(outcome));
        counted.extend(counted_ways(&run.book, &run.log, outcome.answer));
    }
    println!("tallies of small inputs: {tallied:?}; of their moves {counted:?}");
    tallied.assert_all(Tallied::ALL, 1_000);
    counted.assert_all(Counted::ALL, 100);
}

#[test]
fn moves() {
    let (mut numbers, mut shown) = (Counts::new(), Counts::new());
    for number in 0..small_moves() {
        let input = small_move(number);
        let answer = input.answer();
        numbers.add(answer.number);
        shown.extend(cuts(&input, answer));
    }
    println!("small moves: {numbers:?}; cut picks would show: {shown:?}");
    assert!([0, 9, 18, 19].into_iter().all(|number| numbers.of(number) >= 50), "{numbers:?}");
    shown.assert_all(Cut::ALL, 50);
}
