// Every public entry is called by a row of the benchmarks and by a comparison.
use compare::benchmarks::benchmarks;
use compare::comparison::Comparison;
use compare::comparisons::{comparisons, named};
use compare::entries::{Calls, CALLS};
use std::fs;
use std::path::{Path, PathBuf};

// A file of the repository.
fn path(name: &str) -> PathBuf {
    Path::new(env!("CARGO_MANIFEST_DIR")).join("../..").join(name)
}

fn text(name: &str) -> String {
    fs::read_to_string(path(name)).expect(name)
}

#[test]
fn all_of_the_list() {
    let list = text("docs/ENTRIES.txt");
    let mut listed: Vec<&str> = list.lines().filter(|line| !line.starts_with('#')).collect();
    let mut called: Vec<&str> = CALLS.iter().flat_map(|calls| calls.entries).copied().collect();
    listed.sort_unstable();
    called.sort_unstable();
    assert_eq!(listed, called);
}

#[test]
fn rows_and_comparisons_call_them() {
    for Calls { entries, rows, comparison } in &CALLS {
        for begin in *rows {
            assert!(benchmarks().any(|benchmark| benchmark.what.starts_with(begin)), "{begin}");
        }
        let (_, function) = entries[0].split_once("::").expect("crate::function");
        assert_eq!(named(comparison).entry, function);
    }
}

// The loop asserts of each question that it is put to its comparison's entry; here, that no comparison has another.
#[test]
fn comparisons_call_no_others() {
    for Comparison { name, entry, .. } in comparisons() {
        let listed =
            |calls: &Calls| calls.entries[0].split_once("::").is_some_and(|(_, function)| function == *entry);
        assert!(CALLS.iter().any(listed), "{name}: {entry}");
    }
}

#[test]
fn each_is_called_by_the_one_before() {
    for Calls { entries, .. } in &CALLS {
        for two in entries.windows(2) {
            let (caller, _) = two[0].split_once("::").expect("crate::function");
            let (called, function) = two[1].split_once("::").expect("crate::function");
            let source = text(&format!("crates/{caller}/src/lib.rt"));
            let call = if called == caller { format!("    {function}(") } else { format!("{}(", two[1]) };
            assert!(source.contains(&call), "{caller} does not call {}", two[1]);
        }
    }
}
