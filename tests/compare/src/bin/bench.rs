// Benchmarks: the proved code against the independent one in one run, as ratios. Tables are lent once and used again, caches are warm.
use compare::before_after::compare_builds;
use compare::benchmarks::wanted;
use compare::counting::{can_count, counted};
use compare::entries::called;
use compare::machine::machine;
use compare::meter::Meter;
use compare::rows::Row;
use compare::table::{cells, count, time, Table};
use compare::timing::Rounds;
use std::io;
use std::path::{Path, PathBuf};
use std::process::ExitCode;
use std::time::Duration;

const USAGE: &str = "\
usage: bench [--instructions] [--markdown] [WORD]
       bench --against BENCH [--instructions] [WORD]

With a word, only the rows whose name has it. --instructions puts the instructions of one call beside its time, as
callgrind counts them, without those of memset and memcpy; it needs valgrind. --against measures another build of this
program and this one in turns and prints a table of before and after; tests/before_after.sh makes the two builds.
";

const ROUNDS: Rounds = Rounds { number: 51, length: Duration::from_millis(12) };
const ROUNDS_OF_A_TURN: Rounds = Rounds { number: 20, length: Duration::from_millis(3) };

const TIMES: &[&str] = &["what", "proved", "independent", "ratio"];
const TIMES_AND_COUNTS: &[&str] =
    &["what", "proved", "independent", "ratio", "instructions", "independent", "ratio"];

const NO_VALGRIND: &str = "valgrind is not on this machine";

enum Task {
    Help,
    Table,
    // In turns with another build.
    Against(PathBuf),
    // What these two have this program do in a process of its own, as one build of two or under valgrind.
    Turn,
    Count,
}

struct Options {
    task: Task,
    markdown: bool,
    instructions: bool,
    word: String,
}

fn options() -> Option<Options> {
    let mut options =
        Options { task: Task::Table, markdown: false, instructions: false, word: String::new() };
    let mut words = std::env::args().skip(1);
    while let Some(word) = words.next() {
        match word.as_str() {
            "--help" => options.task = Task::Help,
            "--turn" => options.task = Task::Turn,
            "--count" => options.task = Task::Count,
            "--against" => options.task = Task::Against(words.next()?.into()),
            "--markdown" => options.markdown = true,
            "--instructions" => options.instructions = true,
            option if option.starts_with("--") => return None,
            _ if options.word.is_empty() => options.word = word,
            _ => options.word = format!("{} {word}", options.word),
        }
    }
    Some(options)
}

// The rows with this word as lines for the process that started this one.
fn tell(word: &str, mut meter: Meter) {
    wanted(word).iter().for_each(|benchmark| println!("{}", benchmark.measure(&mut meter).line()));
}

// Measures and prints the rows one by one.
fn print_table(options: &Options) -> io::Result<()> {
    let (bench, counting) = (std::env::current_exe()?, options.instructions && can_count());
    println!("{}", machine());
    if options.instructions && !counting {
        println!("Times alone: {NO_VALGRIND}.");
    }
    let headings = if counting { TIMES_AND_COUNTS } else { TIMES };
    let table = Table { markdown: options.markdown, headings };
    println!("\n{}", table.heading());
    let mut rows = Vec::new();
    for benchmark in wanted(&options.word) {
        let row = benchmark.measure(&mut Meter::Clock(ROUNDS));
        let mut line = [std::slice::from_ref(&row.what), &cells(&row, time)].concat();
        if counting {
            line.extend(cells(&counted(&bench, &row.what)?, count));
        }
        println!("{}", table.line(&line));
        rows.push(row);
    }
    println!();
    print_summary(&rows);
    Ok(())
}

const WHOLE: &str = "rental:";

// The whole runs by their number in a second, and the rows above the bar.
fn print_summary(rows: &[Row]) {
    for row in rows.iter().filter(|row| row.what.starts_with(WHOLE)) {
        let [proved, independent] = [row.proved(), row.independent()].map(|seconds| 1.0 / seconds);
        println!("- {}: {proved:.0} runs a second proved, {independent:.0} independent", row.what);
    }
    for row in rows.iter().filter(|row| row.is_above_bar()) {
        println!("- above the bar: {}, {:.2}", row.what, row.ratio());
    }
}

fn compare_with(before: &Path, options: &Options) -> io::Result<()> {
    if options.instructions && !can_count() {
        return Err(io::Error::other(NO_VALGRIND));
    }
    compare_builds([before, &std::env::current_exe()?], &options.word, options.instructions)
}

fn perform(options: &Options) -> io::Result<()> {
    if wanted(&options.word).is_empty() {
        return Err(io::Error::other(format!("no row has '{}' in its name", options.word)));
    }
    match &options.task {
        Task::Help => {
            print!("{USAGE}\nThe rows, the comparisons and the entries that they call:\n{}", called())
        }
        Task::Turn => tell(&options.word, Meter::Clock(ROUNDS_OF_A_TURN)),
        Task::Count => tell(&options.word, Meter::Callgrind { dumps: 0 }),
        Task::Table => print_table(options)?,
        Task::Against(before) => compare_with(before, options)?,
    }
    Ok(())
}

fn main() -> ExitCode {
    let Some(options) = options() else {
        eprint!("{USAGE}");
        return ExitCode::from(2);
    };
    match perform(&options) {
        Ok(()) => ExitCode::SUCCESS,
        Err(error) => {
            eprintln!("bench: {error}");
            ExitCode::FAILURE
        }
    }
}
