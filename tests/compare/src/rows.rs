// The rows of the benchmarks: each measured in one run for the proved code and the independent one.
use crate::loads::Single;
use crate::meter::Meter;
use crate::question::{Run, Step};
use crate::{check_book, report_into, run, step, MOST_OUTPUT};
use inputs::BookAndLog;
use paper::{Answer, Outcome, INSTRUCTIONS};
use std::hint::black_box;
use std::io;

// What was measured: a call of the proved code and of the independent one, then what is taken off, 0 for most rows; and in how many units.
#[derive(Clone, Debug, PartialEq)]
pub struct Row {
    pub what: String,
    pub units: f64,
    pub measured: [f64; 4],
}

impl Row {
    fn calls(what: &str, [proved, independent]: [f64; 2]) -> Row {
        Row::difference(what, 1, [proved, independent, 0.0, 0.0])
    }

    fn difference(what: &str, units: u32, measured: [f64; 4]) -> Row {
        Row { what: what.to_string(), units: f64::from(units), measured }
    }

    fn value(&self, side: usize) -> f64 {
        (self.measured[side] - self.measured[side + 2]) / self.units
    }

    pub fn proved(&self) -> f64 {
        self.value(0)
    }

    pub fn independent(&self) -> f64 {
        self.value(1)
    }

    pub fn ratio(&self) -> f64 {
        self.proved() / self.independent()
    }

    // The first bar: 2.0 for a node, 2.5 for the rest. The aim is 1.0.
    pub fn is_above_bar(&self) -> bool {
        let bar = if self.what.contains("each term node") || self.what.contains("each rule node") {
            2.0
        } else {
            2.5
        };
        self.ratio() > bar
    }

    // A small difference of two large measures, of which an error is a large part.
    pub fn is_faint(&self) -> bool {
        self.measured[0] - self.measured[2] < 0.1 * self.measured[0]
    }

    // The best of each measure of two rows.
    pub fn best_of(mut self, other: &Row) -> Row {
        self.measured.iter_mut().zip(other.measured).for_each(|(mine, theirs)| *mine = mine.min(theirs));
        self
    }

    // A row as one process of `bench` tells it to another: its parts between tabs.
    pub fn line(&self) -> String {
        let [a, b, c, d] = self.measured;
        format!("{}\t{}\t{a}\t{b}\t{c}\t{d}", self.what, self.units)
    }

    pub fn from_line(line: &str) -> io::Result<Row> {
        Row::parsed(line.trim_end()).ok_or_else(|| io::Error::other(format!("not a row: '{line}'")))
    }

    fn parsed(line: &str) -> Option<Row> {
        let (what, numbers) = line.split_once('\t')?;
        let numbers: Vec<f64> = numbers.split('\t').map_while(|number| number.parse().ok()).collect();
        let [units, measured @ ..] = <[f64; 5]>::try_from(numbers).ok()?;
        Some(Row { what: what.to_string(), units, measured })
    }
}

// ---- the book check

pub fn book_row(what: &str, meter: &mut Meter, book: &[u8]) -> Row {
    assert_eq!(check_book(book), Answer::ACCEPTED, "{what}");
    assert_eq!(paper::book_answer(book), Answer::ACCEPTED, "{what}");
    let proved = &mut || {
        black_box(check_book(black_box(book)));
    };
    let independent = &mut || {
        black_box(paper::book_answer(black_box(book)));
    };
    Row::calls(what, meter.measure([proved, independent]))
}

// ---- single moves

// One call after another on one table.
fn stepping(single: &Single, step: Step) -> impl FnMut() + use<'_> {
    let mut contents = single.contents.clone();
    move || {
        single.put_back.iter().for_each(|&(location, value)| contents[location] = value);
        black_box(step(black_box(&single.book), &mut contents, 0, &single.picks, INSTRUCTIONS));
    }
}

// Both accept two moves in a row and leave the same.
fn assert_steps_alike(what: &str, single: &Single) {
    let (mut ours, mut theirs) = (single.contents.clone(), single.contents.clone());
    for _ in 0..2 {
        for contents in [&mut ours, &mut theirs] {
            single.put_back.iter().for_each(|&(location, value)| contents[location] = value);
        }
        let Single { book, picks, .. } = single;
        assert_eq!(step(book, &mut ours, 0, picks, INSTRUCTIONS), Answer::ACCEPTED, "{what}");
        assert_eq!(paper::step(book, &mut theirs, 0, picks, INSTRUCTIONS), Answer::ACCEPTED, "{what}");
        assert_eq!(ours, theirs, "{what}");
    }
}

pub fn step_row(what: &str, meter: &mut Meter, single: &Single) -> Row {
    assert_steps_alike(what, single);
    let (mut ours, mut theirs) = (stepping(single, step), stepping(single, paper::step));
    Row::calls(what, meter.measure([&mut ours, &mut theirs]))
}

// What each of `units` takes by which the larger move is larger.
pub fn slope_row(what: &str, meter: &mut Meter, small: &Single, large: &Single, units: u32) -> Row {
    assert_steps_alike(what, small);
    assert_steps_alike(what, large);
    let (mut ours, mut theirs) = (stepping(large, step), stepping(large, paper::step));
    let (mut our_less, mut their_less) = (stepping(small, step), stepping(small, paper::step));
    let measured = meter.measure([&mut ours, &mut theirs, &mut our_less, &mut their_less]);
    Row::difference(what, units, measured)
}

// ---- logs

// The tables of a run.
struct Tables {
    contents: Vec<u16>,
    readers: Vec<u64>,
    writers: Vec<u64>,
}

impl Tables {
    fn of(book: &[u8]) -> Tables {
        let records = paper::check_book(book).expect("a sound book").locations;
        Tables { contents: vec![7; records], readers: vec![7; records], writers: vec![7; records] }
    }
}

// One run after another on one set of tables.
fn running(logged: &BookAndLog, run: Run) -> impl FnMut() + use<'_> {
    let mut tables = Tables::of(&logged.book);
    move || {
        black_box(run_on(logged, run, &mut tables));
    }
}

fn run_on(logged: &BookAndLog, run: Run, tables: &mut Tables) -> Outcome {
    let Tables { contents, readers, writers } = tables;
    run(black_box(&logged.book), black_box(&logged.log), contents, readers, writers, INSTRUCTIONS)
}

// Reader marks and tallies are left to tests/comparisons.rs: a library of before F-3 has more marks where a move releases, one of before F-4 has no
// tally, and both are to be measured too.
fn assert_runs_alike(what: &str, logged: &BookAndLog, number: u32) {
    let (mut ours, mut theirs) = (Tables::of(&logged.book), Tables::of(&logged.book));
    let answer = run_on(logged, run, &mut ours).answer;
    assert_eq!(answer, run_on(logged, paper::run, &mut theirs).answer, "{what}");
    assert_eq!(answer.number, number, "{what}: {answer:?}");
    assert!(ours.contents == theirs.contents, "{what}: contents");
    assert!(ours.writers == theirs.writers, "{what}: writer marks");
}

pub fn run_row(what: &str, meter: &mut Meter, logged: &BookAndLog) -> Row {
    assert_runs_alike(what, logged, 0);
    let (mut ours, mut theirs) = (running(logged, run), running(logged, paper::run));
    Row::calls(what, meter.measure([&mut ours, &mut theirs]))
}

// What each of `units` takes by which the larger run is larger.
pub fn run_slope_row(
    what: &str,
    meter: &mut Meter,
    small: &BookAndLog,
    large: &BookAndLog,
    units: u32,
) -> Row {
    Row { units: f64::from(units), ..beyond_row(what, meter, large, small, 0) }
}

// What one run takes more than another, which is answered with this number.
pub fn beyond_row(what: &str, meter: &mut Meter, whole: &BookAndLog, less: &BookAndLog, number: u32) -> Row {
    assert_runs_alike(what, whole, 0);
    assert_runs_alike(what, less, number);
    let (mut ours, mut theirs) = (running(whole, run), running(whole, paper::run));
    let (mut our_less, mut their_less) = (running(less, run), running(less, paper::run));
    let measured = meter.measure([&mut ours, &mut theirs, &mut our_less, &mut their_less]);
    Row::difference(what, 1, measured)
}

// ---- whole inputs

pub fn report_row(what: &str, meter: &mut Meter, input: &[u8]) -> Row {
    let mut output = vec![0; MOST_OUTPUT];
    let (length, _) = report_into(input, &mut output);
    assert_eq!(output[..length], paper::report(input), "{what}");
    assert!(output.starts_with(b"     0"), "{what}");
    let proved = &mut || {
        black_box(report_into(black_box(input), &mut output));
    };
    let independent = &mut || {
        black_box(paper::report_tallied(black_box(input)));
    };
    Row::calls(what, meter.measure([proved, independent]))
}
