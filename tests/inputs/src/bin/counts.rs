// Prints, for each entry, how many of a seed's inputs get each answer number. Usage: counts SEED COUNT.

use inputs::{book_input, printed_answer, report_input, run_input, step_input, Counts, Rng};
use paper::{book_answer, report, Answer};
use std::time::Instant;

fn main() {
    let mut arguments = std::env::args().skip(1).map(|argument| argument.parse().ok());
    let (Some(Some(seed)), Some(Some(inputs)), None) = (arguments.next(), arguments.next(), arguments.next())
    else {
        eprintln!("usage: counts <seed> <number of inputs>");
        std::process::exit(2);
    };
    let numbers = Answer::NUMBERS.map(|number| format!("{number:>8}"));
    println!("{:8}{}{:>9}", "", numbers.concat(), "seconds");
    show("book", seed, inputs, |rng| book_answer(&book_input(rng)));
    show("step", seed, inputs, |rng| step_input(rng).answer());
    show("run", seed, inputs, |rng| run_input(rng).answer());
    show("report", seed, inputs, |rng| printed_answer(&report(&report_input(rng))));
}

fn show(entry: &str, seed: u64, inputs: u64, answer: impl Fn(&mut Rng) -> Answer) {
    let begin = Instant::now();
    let counts: Counts<u32> =
        (0..inputs).map(|input| answer(&mut Rng::for_input(seed, input)).number).collect();
    let columns = Answer::NUMBERS.map(|number| format!("{:>8}", counts.of(number)));
    println!("{entry:8}{}{:>9.1}", columns.concat(), begin.elapsed().as_secs_f64());
    for number in counts.keys().filter(|number| !Answer::NUMBERS.contains(number)) {
        println!("{entry:8}and {number}, which should not be given: {}", counts.of(*number));
    }
}
