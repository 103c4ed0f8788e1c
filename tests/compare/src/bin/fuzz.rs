// Compares random, damaged and small inputs of every entry for some time, and keeps those that are answered differently.
// Usage: fuzz SECONDS [SEED] [FOLDER]; the seed is the time of day and the folder tests/differences where none is given.
use compare::comparison::{differences, Compared, Comparison};
use compare::comparisons::{RANDOM, SMALL};
use compare::question::{independent, proved};
use std::io;
use std::path::PathBuf;
use std::process::ExitCode;
use std::time::{Duration, Instant, SystemTime, UNIX_EPOCH};

struct Options {
    seconds: u64,
    seed: u64,
    folder: PathBuf,
}

fn options() -> Option<Options> {
    let mut words = std::env::args().skip(1);
    let seconds = words.next()?.parse().ok()?;
    let now = || SystemTime::now().duration_since(UNIX_EPOCH).map_or(1, |time| time.as_secs());
    let seed = words.next().map_or(Some(now()), |word| word.parse().ok())?;
    let folder = words.next().map_or_else(differences, PathBuf::from);
    words.next().is_none().then_some(Options { seconds, seed, folder })
}

// So many small inputs of each kind come with one random input of each kind.
const SMALL_IN_TURN: u64 = 8;

// Random inputs and small ones in turn.
fn compare_for(random: &mut [Compared], small: &mut [Compared], seed: u64, time: Duration) -> io::Result<()> {
    let began = Instant::now();
    // Another part of the small ones comes first for each seed.
    let first = seed.wrapping_mul(0x9E37_79B9_7F4A_7C15);
    let mut number = 0;
    while began.elapsed() < time {
        random.iter_mut().try_for_each(|compared| compared.compare_one(number))?;
        for compared in small.iter_mut() {
            let all = (compared.comparison.inputs)();
            for i in SMALL_IN_TURN * number..(SMALL_IN_TURN * (number + 1)).min(all) {
                compared.compare_one((first % all + i) % all)?;
            }
        }
        number += 1;
    }
    Ok(())
}

fn main() -> ExitCode {
    let Some(Options { seconds, seed, folder }) = options() else {
        eprintln!("usage: fuzz SECONDS [SEED] [FOLDER]");
        return ExitCode::from(2);
    };
    println!("seed {seed}; differences are kept in {}", folder.display());
    let begin =
        |comparison: &'static Comparison| comparison.begin(seed, [proved, independent], folder.clone());
    let (mut random, mut small) = (RANDOM.each_ref().map(begin), SMALL.each_ref().map(begin));
    if let Err(error) = compare_for(&mut random, &mut small, seed, Duration::from_secs(seconds)) {
        eprintln!("fuzz: a difference could not be kept: {error}");
        return ExitCode::FAILURE;
    }
    let all: Vec<Compared> = random.into_iter().chain(small).collect();
    all.iter().for_each(|compared| print!("{compared}"));
    let kept = all.iter().flat_map(|compared| &compared.kept);
    kept.for_each(|difference| println!("a difference: {}", difference.folder.display()));
    let sum = |count: fn(&Compared) -> u64| all.iter().map(count).sum::<u64>();
    println!(
        "{} compared, {} differences",
        sum(|compared| compared.inputs),
        sum(|compared| compared.differences)
    );
    if sum(|compared| compared.differences) == 0 {
        ExitCode::SUCCESS
    } else {
        ExitCode::FAILURE
    }
}
