// Before and after: two builds of `bench`, over an older library and a newer one, measure each row in turns.
use crate::benchmarks::{wanted, Benchmark};
use crate::counting::counted;
use crate::rows::Row;
use crate::table::{count, time, two_places, Table};
use std::io;
use std::path::Path;
use std::process::{Command, Stdio};

// Many short turns: what else runs on the machine then disturbs both builds alike.
const TURNS: usize = 15;

// A row that takes more times than this of before is named below the table.
const LIMIT: f64 = 1.05;

const TABLE: Table = Table {
    markdown: true,
    headings: &["row", "before", "after", "after / before", "before / independent", "after / independent"],
};

// A row of both builds.
struct Both {
    before: Row,
    after: Row,
}

impl Both {
    fn change(&self) -> f64 {
        self.after.proved() / self.before.proved()
    }

    // How far the code that is the same in both seems to have moved: what the machine's load alone does.
    fn drift(&self) -> f64 {
        self.after.independent() / self.before.independent()
    }

    fn line(&self, shown: fn(f64) -> String) -> String {
        let Both { before, after } = self;
        TABLE.line(&[
            before.what.clone(),
            shown(before.proved()),
            shown(after.proved()),
            two_places(self.change()),
            two_places(before.ratio()),
            two_places(after.ratio()),
        ])
    }
}

// One turn of one build at one row.
fn turn(bench: &Path, what: &str) -> io::Result<Row> {
    turn_telling(bench, what, Stdio::inherit())
}

fn turn_telling(bench: &Path, what: &str, errors: Stdio) -> io::Result<Row> {
    let output = Command::new(bench).args(["--turn", what]).stderr(errors).output()?;
    Row::from_line(&String::from_utf8_lossy(&output.stdout))
}

// Whether a build can do a row at all; an older library may refuse what the row's book has.
fn can_do(bench: &Path, what: &str) -> bool {
    turn_telling(bench, what, Stdio::null()).is_ok()
}

// The best times of both at one row.
fn times([before, after]: [&Path; 2], what: &str) -> io::Result<Both> {
    let mut both = Both { before: turn(before, what)?, after: turn(after, what)? };
    for _ in 1..TURNS {
        both.before = both.before.best_of(&turn(before, what)?);
        both.after = both.after.best_of(&turn(after, what)?);
    }
    Ok(both)
}

// One line on how steady the machine was, and one on the rows that are above the limit.
fn print_summary(rows: &[Both], instructions: bool) {
    let drifts = || rows.iter().map(Both::drift);
    let (least, most) = (drifts().fold(f64::MAX, f64::min), drifts().fold(0.0, f64::max));
    println!("\nThe independent implementation, the same in both: {least:.2} to {most:.2} times before.");
    println!("{}", above(rows, instructions));
}

fn above(rows: &[Both], instructions: bool) -> String {
    let name = |both: &Both| {
        let faint = both.before.is_faint() && !instructions;
        let note = if faint { ", a small difference of two times" } else { "" };
        format!("{} ({:.2}{note})", both.before.what, both.change())
    };
    let named: Vec<String> = rows.iter().filter(|both| both.change() > LIMIT).map(name).collect();
    if named.is_empty() {
        format!("No row is above {LIMIT} times before.")
    } else {
        format!("Above {LIMIT} times before: {}.", named.join("; "))
    }
}

// The instructions of both, which are counted once.
fn counts([before, after]: [&Path; 2], what: &str) -> io::Result<Both> {
    Ok(Both { before: counted(before, what)?, after: counted(after, what)? })
}

// The table of the rows with this word, before and after, in times or in instructions. Rows that the build before cannot do are named below it.
pub fn compare_builds(benches: [&Path; 2], word: &str, instructions: bool) -> io::Result<()> {
    println!("{}", TABLE.heading());
    let mut rows = Vec::new();
    let (done, new): (Vec<_>, Vec<_>) =
        wanted(word).into_iter().partition(|benchmark| can_do(benches[0], benchmark.what));
    if done.is_empty() {
        return Err(io::Error::other("the library before does none of these rows"));
    }
    for Benchmark { what, .. } in done {
        let both = if instructions { counts(benches, what)? } else { times(benches, what)? };
        println!("{}", both.line(if instructions { count } else { time }));
        rows.push(both);
    }
    print_summary(&rows, instructions);
    if !new.is_empty() {
        let names: Vec<&str> = new.iter().map(|benchmark| benchmark.what).collect();
        println!("Not done by the library before: {}.", names.join("; "));
    }
    Ok(())
}
