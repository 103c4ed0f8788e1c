// Instructions of a call: `bench` runs itself under valgrind's callgrind, which counts what happens in `counted_calls` alone.
use crate::meter::COUNTED_CALLS;
use crate::rows::Row;
use std::fs;
use std::io;
use std::path::{Path, PathBuf};
use std::process::{Command, Stdio};

// Callgrind knows it by this name, counts from where it begins to where it ends, and then writes a dump.
#[no_mangle]
#[inline(never)]
pub fn counted_calls(calls: usize, call: &mut dyn FnMut()) {
    (0..calls).for_each(|_| call());
}

// Whether valgrind is on this machine.
pub fn can_count() -> bool {
    let version =
        Command::new("valgrind").arg("--version").stdout(Stdio::null()).stderr(Stdio::null()).status();
    version.is_ok_and(|status| status.success())
}

// What clears and copies: callgrind counts some of it by the byte, so it is left out.
fn is_left_out(function: &str) -> bool {
    ["memset", "memcpy", "memmove"].iter().any(|name| function.contains(name))
}

// The instructions of a dump: its lines 'position count' after a line 'fn=NAME', without the line after each 'calls=', which is the callee's.
pub fn instructions_in(dump: &str) -> u64 {
    let (mut sum, mut left_out, mut of_callee) = (0, false, false);
    for line in dump.lines() {
        if let Some(function) = line.strip_prefix("fn=") {
            left_out = is_left_out(function);
        } else if line.starts_with("calls=") {
            of_callee = true;
        } else if line.starts_with(|first: char| first.is_ascii_digit()) {
            let count = line.split(' ').nth(1).and_then(|count| count.parse::<u64>().ok());
            if !left_out && !of_callee {
                sum += count.unwrap_or(0);
            }
            of_callee = false;
        }
    }
    sum
}

// A folder that goes when it is no longer used.
struct Folder(PathBuf);

impl Folder {
    fn new() -> io::Result<Folder> {
        let path = std::env::temp_dir().join(format!("rental-counts-{}", std::process::id()));
        fs::create_dir_all(&path)?;
        Ok(Folder(path))
    }
}

impl Drop for Folder {
    fn drop(&mut self) {
        let _ = fs::remove_dir_all(&self.0);
    }
}

// The row of this name, in instructions, of one build of `bench`. Each row has a process of its own, since what was allocated before changes
// what an allocation takes.
pub fn counted(bench: &Path, what: &str) -> io::Result<Row> {
    let folder = Folder::new()?;
    let dumps = folder.0.join("dump");
    let output = Command::new("valgrind")
        .args(["--tool=callgrind", "--toggle-collect=counted_calls", "--dump-after=counted_calls"])
        .args(["--compress-strings=no", "--compress-pos=no"])
        .arg(format!("--callgrind-out-file={}", dumps.display()))
        .arg(bench)
        .args(["--count", what])
        .output()?;
    if !output.status.success() {
        return Err(io::Error::other(String::from_utf8_lossy(&output.stderr).into_owned()));
    }
    with_counts(Row::from_line(&String::from_utf8_lossy(&output.stdout))?, &dumps)
}

// A row that has the numbers of its dumps, with what they count for each call.
fn with_counts(mut row: Row, dumps: &Path) -> io::Result<Row> {
    for value in row.measured.iter_mut().filter(|value| **value > 0.0) {
        let dump = fs::read_to_string(format!("{}.{value}", dumps.display()))?;
        *value = instructions_in(&dump) as f64 / COUNTED_CALLS as f64;
    }
    Ok(row)
}
