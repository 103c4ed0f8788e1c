// What docs/ says of inputs is what the independent implementation prints.
use inputs::documents::shown_in;
use inputs::numbers_in;
use std::fs;

fn check(name: &str, at_least: usize) {
    let path = format!("{}/../../docs/{name}", env!("CARGO_MANIFEST_DIR"));
    let shown = shown_in(&fs::read_to_string(path).expect("the document"));
    assert!(shown.len() >= at_least, "{name}: {} inputs", shown.len());
    for case in shown {
        let printed = String::from_utf8(paper::report(&case.input)).expect("ASCII");
        let first = printed.lines().next().expect("a line");
        assert_eq!(numbers_in(first), case.answer, "{name}: {}", case.text);
    }
}

#[test]
fn specification() {
    check("SPECIFICATION.md", 20);
}

#[test]
fn decisions() {
    check("DECISIONS.md", 20);
}

#[test]
fn refusals() {
    check("REFUSALS.md", 30);
}

#[test]
fn examples() {
    let folder = format!("{}/../../examples", env!("CARGO_MANIFEST_DIR"));
    let mut shown = 0;
    for entry in fs::read_dir(folder).expect("the examples") {
        let path = entry.expect("an entry").path();
        if path.is_dir() {
            let file = |name: &str| fs::read(path.join(name)).expect("a file of the example");
            let input = [file("book.txt"), file("log.txt")].concat();
            assert_eq!(paper::report(&input), file("output.txt"), "{path:?}");
            shown += 1;
        }
    }
    assert!(shown >= 9, "{shown} examples");
}
