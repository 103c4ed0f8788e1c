// Runs the built program on the specification's cases and those of the documents, on the examples, on random inputs and on broken streams.
// Usage: program PROGRAM, as `program crates/rental/out/rental`. Its last line is 'N passed, M failed'.

use inputs::cases::{idle, lettered, limits, picks, refusals, releases, Case};
use inputs::documents::shown_in;
use inputs::{numbers_in, padded, report_input, Rng};
use std::fs;
use std::io::{self, Write};
use std::os::fd::OwnedFd;
use std::os::unix::net::UnixStream;
use std::os::unix::process::ExitStatusExt;
use std::path::{Path, PathBuf};
use std::process::{Command, ExitCode, Output, Stdio};

const SEED: u64 = 41;
const RANDOM_INPUTS: u64 = 300;

/// The signal that ends a program whose reader is gone.
const SIGPIPE: i32 = 13;

struct Trial {
    program: PathBuf,
    passed: u32,
    failed: u32,
}

impl Trial {
    fn count(&mut self, name: &str, holds: bool) {
        if holds {
            self.passed += 1;
        } else {
            self.failed += 1;
            println!("rental: {name}: not as expected");
        }
    }

    /// The program prints this for the input, says nothing else, and ends with status 0.
    fn prints(&mut self, name: &str, input: &[u8], output: &[u8]) {
        let holds = fed(&self.program, input, input.len()).is_ok_and(|end| said(&end, output, ""));
        self.count(name, holds);
    }

    fn cases(&mut self, cases: Vec<Case>) {
        cases.iter().for_each(|case| self.prints(&case.name, &case.input, &case.output));
    }

    /// The inputs of a document's `case` blocks; the document says the first line, the independent implementation all of them.
    fn document(&mut self, name: &str) {
        let shown = shown_in(&fs::read_to_string(root().join("docs").join(name)).expect("the document"));
        for case in &shown {
            let output = paper::report(&case.input);
            let end = fed(&self.program, &case.input, case.input.len());
            let first = |end: &Output| {
                String::from_utf8_lossy(&end.stdout)
                    .lines()
                    .next()
                    .map(|line| numbers_in(line) == case.answer)
            };
            let holds = end.is_ok_and(|end| said(&end, &output, "") && first(&end) == Some(true));
            self.count(&format!("{name}: {}", case.text), holds);
        }
        self.count(&format!("{name}: its inputs"), !shown.is_empty());
    }

    fn examples(&mut self) {
        let mut folders: Vec<PathBuf> = fs::read_dir(root().join("examples"))
            .expect("the examples")
            .map(|entry| entry.expect("an entry").path())
            .filter(|path| path.is_dir())
            .collect();
        folders.sort();
        for folder in folders {
            let file = |name: &str| fs::read(folder.join(name)).expect("a file of the example");
            let input = [file("book.txt"), file("log.txt")].concat();
            self.prints(&folder.display().to_string(), &input, &file("output.txt"));
        }
    }

    fn random(&mut self) {
        for number in 0..RANDOM_INPUTS {
            let input = report_input(&mut Rng::for_input(SEED, number));
            self.prints(&format!("seed {SEED}, input {number}"), &input, &paper::report(&input));
        }
    }

    /// An input that comes in pieces, as from a slow writer.
    fn pieces(&mut self) {
        let case = &lettered()[0];
        for piece in [1, 7, 25, 4_096] {
            let holds = fed(&self.program, &case.input, piece).is_ok_and(|end| said(&end, &case.output, ""));
            self.count(&format!("(a) in pieces of {piece}"), holds);
        }
    }

    /// What the program does when a shell gives it such streams.
    fn streams(&mut self) {
        let nothing = padded("1 0 0 0");
        let (unread, unwritten) =
            ("rental: the input cannot be read\n", "rental: the output cannot be written\n");
        for (name, redirected, output, message) in [
            ("no input", "<&-", &b""[..], unread),
            ("a folder as input", "</", b"", unread),
            ("nothing as input", "</dev/null", &nothing, ""),
            ("no output", "</dev/null >&-", b"", unwritten),
            ("a full device", "</dev/null >/dev/full", b"", unwritten),
        ] {
            let script = format!("exec \"$0\" {redirected}");
            let end = Command::new("sh").arg("-c").arg(script).arg(&self.program).output();
            self.count(name, end.is_ok_and(|end| said(&end, output, message)));
        }
        let whole = &lettered()[0].input;
        for came in [0, 1, 600, whole.len()] {
            let end = broken_after(&self.program, &whole[..came]);
            let holds = end.is_ok_and(|end| said(&end, b"", unread));
            self.count(&format!("an input that breaks after {came} bytes"), holds);
        }
        let gone = reader_gone(&self.program, &lettered()[0].input);
        self.count("a reader that is gone", gone.is_ok_and(|end| end));
    }
}

/// The folder that has `tests/`.
fn root() -> PathBuf {
    Path::new(env!("CARGO_MANIFEST_DIR")).join("../..")
}

/// A writer that is no longer read ends its work; that is no failure here.
fn unless_gone(written: io::Result<()>) -> io::Result<()> {
    match written {
        Err(error) if error.kind() == io::ErrorKind::BrokenPipe => Ok(()),
        other => other,
    }
}

/// Runs the program on an input written in pieces.
fn fed(program: &Path, input: &[u8], piece: usize) -> io::Result<Output> {
    let piped = Stdio::piped;
    let mut child = Command::new(program).stdin(piped()).stdout(piped()).stderr(piped()).spawn()?;
    let mut stdin = child.stdin.take().expect("it is piped");
    unless_gone(input.chunks(piece.max(1)).try_for_each(|part| stdin.write_all(part)))?;
    drop(stdin);
    child.wait_with_output()
}

/// It ended with status 0 and printed this, with this message.
fn said(end: &Output, output: &[u8], message: &str) -> bool {
    end.status.code() == Some(0) && end.stdout == output && end.stderr == message.as_bytes()
}

/// Runs the program on a socket that gives these bytes and whose next read fails, since its other end was closed with a byte unread.
fn broken_after(program: &Path, bytes: &[u8]) -> io::Result<Output> {
    let (mut writer, mut reader) = UnixStream::pair()?;
    reader.write_all(b"0")?;
    writer.write_all(bytes)?;
    drop(writer);
    Command::new(program).stdin(OwnedFd::from(reader)).output()
}

/// With no reader of its output the program ends, by itself or as programs do that write to nobody.
fn reader_gone(program: &Path, input: &[u8]) -> io::Result<bool> {
    let mut child = Command::new(program).stdin(Stdio::piped()).stdout(Stdio::piped()).spawn()?;
    drop(child.stdout.take());
    let mut stdin = child.stdin.take().expect("it is piped");
    unless_gone(stdin.write_all(input))?;
    drop(stdin);
    let status = child.wait()?;
    Ok(status.code() == Some(0) || status.signal() == Some(SIGPIPE))
}

fn main() -> ExitCode {
    let mut words = std::env::args_os().skip(1);
    let (Some(program), None) = (words.next(), words.next()) else {
        eprintln!("usage: program PROGRAM");
        return ExitCode::from(2);
    };
    let mut trial = Trial { program: program.into(), passed: 0, failed: 0 };
    trial.cases([lettered(), limits(), refusals(), idle(), picks(), releases()].concat());
    trial.document("SPECIFICATION.md");
    trial.document("DECISIONS.md");
    trial.document("REFUSALS.md");
    trial.examples();
    trial.random();
    trial.pieces();
    trial.streams();
    println!("{} passed, {} failed", trial.passed, trial.failed);
    if trial.failed == 0 {
        ExitCode::SUCCESS
    } else {
        ExitCode::FAILURE
    }
}
