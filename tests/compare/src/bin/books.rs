// A longer comparison of the book check; a difference is printed and kept in tests/differences. Usage: books SEED COUNT.
use compare::comparison::differences;
use compare::comparisons::named;
use compare::question::{independent, proved};
use std::process::ExitCode;

fn main() -> ExitCode {
    let mut words = std::env::args().skip(1).map(|word| word.parse::<u64>());
    let (Some(Ok(seed)), Some(Ok(count))) = (words.next(), words.next()) else {
        eprintln!("usage: books SEED COUNT");
        return ExitCode::from(2);
    };
    let mut compared = named("books").begin(seed, [proved, independent], differences());
    if let Err(error) = compared.compare(0..count) {
        eprintln!("books: a difference could not be kept: {error}");
        return ExitCode::FAILURE;
    }
    print!("{compared}");
    compared.kept.iter().for_each(|difference| print!("{difference}"));
    if compared.differences == 0 {
        ExitCode::SUCCESS
    } else {
        ExitCode::FAILURE
    }
}
