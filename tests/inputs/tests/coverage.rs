// Each answer of each entry, each reason of the book's refusals, picks, releases, label tallies, and moves that change nothing occur often enough.

use inputs::{
    book_and_log_in, book_input, counted_ways, cuts, first_line_in, idle_ways, lines_in, operands,
    picked_ways, printed_answer, released_ways, report_input, run_input, step_input, tallied_ways, Counted,
    Counts, Cut, Idle, Picked, Released, Rng, Tallied,
};
use paper::{book_answer, check_book, report, report_tallied, Answer, Outcome, Pick};

const SEED: u64 = 22;
const INPUTS: u64 = 20_000;

/// How often each key comes up, over the inputs of a seed.
fn count<K: Ord, Keys: IntoIterator<Item = K>>(keys: impl Fn(&mut Rng) -> Keys) -> Counts<K> {
    (0..INPUTS).flat_map(|input| keys(&mut Rng::for_input(SEED, input))).collect()
}

#[test]
fn answers_of_the_book_check() {
    let counts = count(|rng| {
        let answer = book_answer(&book_input(rng));
        assert_eq!(answer.q, 0);
        Some(answer.number)
    });
    counts.assert_all([0, 1, 3, 4, 5, 6, 7, 8], INPUTS * 75 / 10_000);
}

#[test]
fn answers_of_a_single_move() {
    let counts = count(|rng| Some(step_input(rng).answer().number));
    println!("single moves: {counts:?}");
    counts.assert_all((0..=9).chain(11..=15).chain([18, 19]), INPUTS * 60 / 10_000);
}

#[test]
fn answers_of_a_run() {
    let counts = count(|rng| Some(run_input(rng).answer().number));
    println!("runs: {counts:?}");
    counts.assert_all(Answer::NUMBERS, INPUTS * 40 / 10_000);
}

#[test]
fn moves_that_change_nothing() {
    let counts = count(|rng| {
        let input = run_input(rng);
        let answer = input.answer();
        idle_ways(&input.book, &input.log, answer)
    });
    println!("moves that change nothing: {counts:?}");
    counts.assert_all(Idle::ALL, INPUTS * 20 / 10_000);
    let often = [Idle::Bare, Idle::Writing].map(|way| counts.of(way));
    assert!(often.iter().all(|&count| count >= INPUTS * 5 / 100), "{often:?} in accepted logs");
}

#[test]
fn picks_in_logs() {
    let counts = count(|rng| {
        let input = run_input(rng);
        let answer = input.answer();
        picked_ways(&input.book, &input.log, answer)
    });
    println!("picks in logs: {counts:?}");
    counts.assert_all(Picked::ALL, INPUTS * 20 / 10_000);
    for (way, least) in [
        (Picked::Accepted, INPUTS * 12 / 100),
        (Picked::InTurns, INPUTS * 2 / 100),
        (Picked::Nested, INPUTS / 100),
        (Picked::NotInUniverse, INPUTS / 100),
        (Picked::Lacking, INPUTS / 100),
        (Picked::LeftOver, INPUTS / 100),
    ] {
        assert!(counts.of(way) >= least, "{way:?} in {counts:?}");
    }
}

#[test]
fn releases_in_logs() {
    let counts = count(|rng| {
        let input = run_input(rng);
        let answer = input.answer();
        released_ways(&input.book, &input.log, answer)
    });
    println!("releases in logs: {counts:?}");
    counts.assert_all(Released::ALL, INPUTS * 20 / 10_000);
    let often = [Released::Unordered, Released::BesideChange].map(|way| counts.of(way));
    assert!(often.iter().all(|&count| count >= INPUTS * 3 / 100), "{often:?} in accepted logs");
}

#[test]
fn tallies_of_logs() {
    let (mut tallied, mut counted) = (Counts::new(), Counts::new());
    for input in (0..INPUTS).map(|input| run_input(&mut Rng::for_input(SEED, input))) {
        let outcome = input.outcome();
        tallied.extend(tallied_ways(outcome));
        counted.extend(counted_ways(&input.book, &input.log, outcome.answer));
    }
    println!("tallies of logs: {tallied:?}; of their moves {counted:?}");
    tallied.assert_all(Tallied::ALL, INPUTS * 2 / 100);
    counted.assert_all(Counted::ALL, INPUTS * 20 / 10_000);
    assert!(counted.of(Counted::Once) >= INPUTS / 100, "{counted:?}");
}

#[test]
fn tallies_of_the_printer() {
    let counts = count(|rng| {
        let (printed, tally) = report_tallied(&report_input(rng));
        tallied_ways(Outcome { answer: printed_answer(&printed), tally })
    });
    println!("tallies of whole inputs: {counts:?}");
    counts.assert_all(Tallied::ALL, INPUTS * 2 / 100);
}

/// Why a choice line is at fault by 9, or the log's header for their count.
fn reason_of_9(book: &[u8], log: &[u8], place: usize) -> Option<&'static str> {
    let elements = check_book(book).unwrap().elements as u32;
    if place == 0 {
        return first_line_in(log).is_some_and(|[_, _, choices, _]| choices > 256).then_some("count");
    }
    let lines = lines_in(log);
    let [m, k, ..] = lines[0];
    let first = (1 + m + k) as usize;
    let [of_move, element, third, fourth] = lines[place];
    match () {
        _ if place < first => None,
        _ if of_move >= m => Some("move"),
        _ if element >= elements => Some("element"),
        _ if third != 0 => Some("third field"),
        _ if fourth != 0 => Some("fourth field"),
        _ if place > first && of_move < lines[place - 1][0] => Some("order"),
        _ => panic!("line {place} is sound"),
    }
}

#[test]
fn reasons_of_choice_lines() {
    let counts = count(|rng| {
        let input = run_input(rng);
        let answer = input.answer();
        (answer.number == 9).then(|| reason_of_9(&input.book, &input.log, answer.p as usize)).flatten()
    });
    println!("choice lines at fault: {counts:?}");
    counts.assert_all(["count", "move", "element", "third field", "fourth field", "order"], 20);
}

/// How the picks of a single move stand.
fn way_of_picks(picks: &[Pick], answer: Answer) -> Option<&'static str> {
    match (answer.number, picks.len()) {
        (0, 257..) => Some("more than 256, accepted"),
        (0, 1..) => Some("accepted"),
        (9, _) if answer.p > 256 => Some("no element past 256"),
        (9, _) if answer.p > 0 => Some("no element"),
        (19, 257..) => Some("more than 256, 19"),
        (19, 0) => Some("19 without picks"),
        (19, _) => Some("19"),
        _ => None,
    }
}

#[test]
fn picks_of_single_moves() {
    let counts = count(|rng| {
        let input = step_input(rng);
        way_of_picks(&input.picks, input.answer())
    });
    println!("picks of single moves: {counts:?}");
    let often = ["accepted", "no element", "19 without picks", "19"];
    let rare = ["more than 256, accepted", "no element past 256", "more than 256, 19"];
    counts.assert_all(often.into_iter().chain(rare), 4);
    assert!(often.iter().all(|way| counts.of(way) >= 200), "{counts:?}");
}

#[test]
fn sizes_of_picks_that_are_no_elements() {
    let sizes = [("2^16", 1 << 16), ("2^32", 1 << 32), ("2^63", 1 << 63), ("2^64 - 1", Pick::MAX)];
    let counts = count(|rng| {
        let input = step_input(rng);
        let answer = input.answer();
        let at_fault = answer.number == 9 && answer.p > 0;
        let pick = if at_fault { input.picks[answer.p as usize - 1] } else { 0 };
        sizes.into_iter().filter(move |&(_, least)| pick >= least).map(|(size, _)| size)
    });
    println!("picks that are no elements, at or past: {counts:?}");
    counts.assert_floors([("2^16", 300), ("2^32", 200), ("2^63", 80), ("2^64 - 1", 8)]);
}

#[test]
fn cut_picks_are_seen() {
    let counts = count(|rng| {
        let input = step_input(rng);
        let answer = input.answer();
        cuts(&input, answer)
    });
    println!("picks cut to fewer bits: {counts:?}");
    let seen = [(Cut::Seen(16), 200), (Cut::Seen(32), 100), (Cut::Seen(48), 40), (Cut::Seen(63), 30)];
    let accepted = [16, 32, 48, 63].map(Cut::Accepted).into_iter().zip([30, 15, 8, 6]);
    counts.assert_floors(seen.into_iter().chain(accepted));
}

/// Whether a log's header says that it has choice lines.
fn has_choice_lines(log: &[u8]) -> bool {
    first_line_in(log).is_some_and(|[_, _, choices, _]| choices > 0)
}

#[test]
fn a_third_of_the_inputs_have_picks() {
    let moves = count(|rng| (!step_input(rng).picks.is_empty()).then_some(()));
    let logs = count(|rng| has_choice_lines(&run_input(rng).log).then_some(()));
    let reports = count(|rng| {
        let input = report_input(rng);
        book_and_log_in(&input).is_some_and(|(_, log)| has_choice_lines(log)).then_some(())
    });
    println!("with picks, of {INPUTS}: {moves:?} moves, {logs:?} logs, {reports:?} whole inputs");
    moves.assert_all([()], INPUTS / 3);
    logs.assert_all([()], INPUTS / 3);
    reports.assert_all([()], INPUTS / 3);
}

#[test]
fn answers_of_the_printer() {
    let counts = count(|rng| Some(printed_answer(&report(&report_input(rng))).number));
    println!("whole inputs: {counts:?}");
    counts.assert_all(Answer::NUMBERS, INPUTS * 40 / 10_000);
    let sizes = count(|rng| {
        let length = report_input(rng).len();
        [60_000, 60_001].contains(&length).then_some(length)
    });
    sizes.assert_all([60_000, 60_001], 10);
}

#[test]
fn fields_of_the_header() {
    let counts = count(|rng| {
        let answer = book_answer(&book_input(rng));
        (answer.number == 3).then_some(answer.p)
    });
    counts.assert_all(0..=8, 40);
}

/// Why a node is at fault by 6: "use", or the kind of fault at its place in the tree.
fn reason_of_6(book: &[u8], node: u32) -> &'static str {
    let lines = lines_in(book);
    let [_, _, f, n] = lines[0].map(|field| field as usize);
    let nodes = &lines[2 + f..2 + f + n];
    let users = |node: u32| nodes.iter().filter(move |line| operands(line).contains(&node));
    let is_root = |node: u32| lines[2 + f + n..][..lines[1][0] as usize].iter().any(|line| line[0] == node);
    let uses = |node: u32| nodes.iter().flat_map(operands).filter(|&operand| operand == node).count();
    if uses(node) != usize::from(!is_root(node)) {
        return "use";
    }
    let (mut depth, mut foralls, mut here) = (1, 0, node);
    while let Some(user) = users(here).next() {
        depth += 1;
        foralls += u32::from(user[0] == 25);
        here = nodes.iter().position(|line| line == user && operands(line).contains(&here)).unwrap() as u32;
    }
    match nodes[node as usize][0] {
        _ if depth > 32 => "depth",
        2 => "unbound",
        25 if foralls >= 2 => "nesting",
        _ => "bound again",
    }
}

#[test]
fn reasons_of_use_binding_depth_and_nesting() {
    let counts = count(|rng| {
        let book = book_input(rng);
        let answer = book_answer(&book);
        (answer.number == 6).then(|| reason_of_6(&book, answer.p))
    });
    counts.assert_all(["use", "unbound", "bound again", "depth", "nesting"], 100);
}

/// Why a contents line is at fault by 8.
fn reason_of_8(book: &[u8], place: u32) -> &'static str {
    let lines = lines_in(book);
    let [e, p, f, _] = lines[0];
    let [function, first, second, value] = lines[place as usize];
    if function >= f {
        return "function";
    }
    let [arity, kind, ..] = lines[2 + function as usize];
    let used = &[first, second][..arity as usize];
    let unused = &[first, second][arity as usize..];
    let start = lines.len() - lines[1][1] as usize;
    let on_roll =
        |element: &u32| lines[start..place as usize].iter().any(|line| line[0] == 0 && line[1] == *element);
    let relation = kind % 2 == 1;
    match () {
        _ if used.iter().any(|&argument| argument >= e) => "argument",
        _ if value >= e => "value",
        _ if unused.iter().any(|&argument| argument != 0) => "unused argument",
        _ if value == u32::from(relation) => "default",
        _ if relation && value != 2 => "no Boolean",
        _ if function == 0 && first < p => "Reserve at a permanent element",
        _ if kind < 2 && used.iter().any(|&argument| argument >= p) => "static at a label",
        _ if kind < 2 && value >= p => "static label",
        _ if used.iter().any(on_roll) && function != 0 => "trace as argument",
        _ if on_roll(&value) => "trace as value",
        _ => "order",
    }
}

#[test]
fn reasons_of_contents_lines() {
    let counts = count(|rng| {
        let book = book_input(rng);
        let answer = book_answer(&book);
        (answer.number == 8).then(|| reason_of_8(&book, answer.p))
    });
    let reasons = [
        "function",
        "argument",
        "value",
        "unused argument",
        "default",
        "no Boolean",
        "Reserve at a permanent element",
        "static at a label",
        "static label",
        "trace as argument",
        "trace as value",
        "order",
    ];
    counts.assert_all(reasons, 30);
}

/// Why a location of a lent table is at fault by 8.
fn reason_in_table(book: &[u8], contents: &[u16], location: usize) -> &'static str {
    let book = check_book(book).unwrap();
    let number = book.functions.iter().rposition(|function| function.first <= location).unwrap();
    let function = book.functions[number];
    let offset = location - function.first;
    let arguments = [offset / book.elements.pow(function.arity.saturating_sub(1)), offset % book.elements];
    let used = &arguments[..function.arity as usize];
    let value = contents[location] as usize;
    let label = |element: &usize| *element >= book.permanent;
    match () {
        _ if value >= book.elements => "value",
        _ if function.relation && value != 1 && value != 2 => "no Boolean",
        _ if number == 0 => "Reserve at a permanent element",
        _ if !function.dynamic && used.iter().any(label) => "static at a label",
        _ if !function.dynamic => "static label",
        _ if used.iter().any(|&argument| contents[argument] == 2) => "trace as argument",
        _ => "trace as value",
    }
}

#[test]
fn reasons_in_lent_tables() {
    let counts = count(|rng| {
        let input = step_input(rng);
        let answer = input.answer();
        let of_table = answer.number == 8 && check_book(&input.book).is_ok();
        of_table.then(|| reason_in_table(&input.book, &input.contents, answer.p as usize))
    });
    let reasons = [
        "value",
        "no Boolean",
        "Reserve at a permanent element",
        "static at a label",
        "static label",
        "trace as argument",
        "trace as value",
    ];
    counts.assert_all(reasons, 30);
}
