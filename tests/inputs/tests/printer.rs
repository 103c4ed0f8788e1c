// What `rental` prints agrees with the run, with the same tally, and its lines are contents lines of the book.

use inputs::{book_and_log_in, padded, report_input, Rng};
use paper::{check_book, report, report_tallied, run, Outcome, LINE_BYTES};

const SEED: u64 = 23;

/// A book whose contents lines are those that an accepted log printed.
fn with_contents(book: &[u8], printed: &[u8]) -> Vec<u8> {
    let checked = check_book(book).expect("a sound book");
    let before = book.len() - checked.start.len() * LINE_BYTES;
    let (lines, agents) = (printed.len() / LINE_BYTES - 1, checked.agents.len());
    let second = padded(&format!("{agents} {lines} 0 0"));
    [&book[..LINE_BYTES], &second, &book[2 * LINE_BYTES..before], &printed[LINE_BYTES..]].concat()
}

#[test]
fn printed_lines_are_a_start() {
    let (mut accepted, mut refused) = (0, 0);
    for input in 0..6_000 {
        let input = report_input(&mut Rng::for_input(SEED, input));
        let Some((book, log)) = book_and_log_in(&input) else { continue };
        if check_book(book).is_err() || input.len() > 60_000 {
            continue;
        }
        let (mut contents, mut readers, mut writers) = (vec![0; 2_048], vec![0; 2_048], vec![0; 2_048]);
        let Outcome { answer, tally } = run(book, log, &mut contents, &mut readers, &mut writers, 2_048);
        let (printed, same_tally) = report_tallied(&input);
        assert_eq!(same_tally, tally);
        if answer.number == 0 {
            accepted += 1;
            let again = [with_contents(book, &printed), padded("0 0 0 0")].concat();
            // The book with more lines may be too long to be read as a whole.
            assert!(report(&again) == printed || again.len() > 60_000);
        } else {
            refused += 1;
            let line = padded(&format!("{} {} {} 0", answer.number, answer.p, answer.q));
            assert_eq!(printed, line);
        }
    }
    assert!(accepted >= 1_000 && refused >= 1_000, "{accepted} accepted, {refused} refused");
}
