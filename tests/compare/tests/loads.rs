// The benchmarks' books and logs are what their names say, and the independent implementation accepts them. Every move of them changes something, so that a library that still refuses others can be measured too.
use compare::loads::{self, Single};
use inputs::{counted_ways, idle_ways, released_ways, BookAndLog, Counted, Released};
use paper::{check_book, Answer, Tally, INSTRUCTIONS, LINE_BYTES};

// How many instructions the move gives, in the second of two turns.
fn instructions(single: &Single) -> usize {
    let mut contents = single.contents.clone();
    let lengths = [(); 2].map(|()| {
        single.put_back.iter().for_each(|&(location, value)| contents[location] = value);
        let before = contents.clone();
        let (answer, list) = paper::step_listed(&single.book, &mut contents, 0, &single.picks, INSTRUCTIONS);
        assert_eq!(answer, Answer::ACCEPTED);
        assert_ne!(contents, before, "the move changes nothing");
        list.len()
    });
    lengths[1]
}

#[test]
fn the_shop() {
    let BookAndLog { book, log } = loads::shop_logged();
    let checked = check_book(&book).expect("a sound book");
    assert_eq!(checked.agents.len(), 16);
    assert_eq!((checked.nodes.len(), checked.start.len(), checked.locations), (606, 255, 1_081));
    let checked = paper::check_log(&checked, &log).expect("a sound log");
    assert_eq!(checked.agents.len(), 64);
}

#[test]
fn sizes() {
    assert_eq!(check_book(&loads::thousand_nodes()).expect("a sound book").nodes.len(), 1_024);
    assert_eq!(check_book(&loads::full_contents()).expect("a sound book").start.len(), 65_281);
    let locations = |book: &[u8]| check_book(book).expect("a sound book").locations;
    assert_eq!(locations(&loads::release().book), 65_536);
    assert_eq!(locations(&loads::full_table().book), 65_536);
    assert_eq!(locations(&loads::counts_logged().book), 65_536);
    assert_eq!(locations(&loads::releases_logged().book), 65_536);
    assert_eq!(locations(&loads::releases_and_counts_logged(10_000).book), 60_000);
    assert_eq!(locations(&loads::releases_and_counts_logged(200).book), 1_200);
}

#[test]
fn single_moves() {
    for parts in [1, 16] {
        assert_eq!(instructions(&loads::guards(parts)), 1);
    }
    for depth in [1, 4] {
        assert_eq!(instructions(&loads::unary_terms(depth)), 1);
        assert_eq!(instructions(&loads::binary_terms(depth)), 1);
    }
    for parts in [1, 65] {
        assert_eq!(instructions(&loads::skips(parts)), 1);
    }
    for parts in [1, 33] {
        assert_eq!(instructions(&loads::choices(parts)), 1);
    }
    assert_eq!(instructions(&loads::wide_term()), 1);
    assert_eq!(instructions(&loads::wide_rule()), 1);
    assert_eq!(instructions(&loads::two_hundred()), 200);
    assert_eq!(instructions(&loads::nested()), 100);
    assert_eq!(instructions(&loads::nested_few()), 256);
    assert_eq!(instructions(&loads::two_hundred_picks()), 201);
    assert_eq!(instructions(&loads::full_table()), 1);
    assert_eq!(instructions(&loads::release()), 1);
}

#[test]
fn logs() {
    let (refused, accepted) = loads::LOGS.split_last().expect("some");
    for (number, logged) in accepted.iter().enumerate() {
        let BookAndLog { book, log } = logged();
        assert_eq!(idle_ways(&book, &log, Answer::ACCEPTED), [], "log {number}: a move changes nothing");
        assert_eq!(BookAndLog { book, log }.run().answer(), Answer::ACCEPTED, "log {number}");
    }
    let refused = refused().run().answer();
    assert_eq!((refused.number, refused.p), (12, 63));
}

#[test]
fn printing() {
    assert_eq!(paper::report(&loads::printed()).len(), (1 + 1_980) * LINE_BYTES);
}

#[test]
fn labels() {
    let BookAndLog { book, log } = loads::labels_logged();
    assert_eq!(
        counted_ways(&book, &log, Answer::ACCEPTED),
        [Counted::Several, Counted::Once, Counted::Again]
    );
    let tally = BookAndLog { book, log }.run().outcome().tally;
    assert_eq!(tally, Tally { issued: 3_200, returned: 3_200 });
}

#[test]
fn picks_and_pairs() {
    let BookAndLog { book, log } = loads::picks_logged();
    let log = paper::check_log(&check_book(&book).expect("a sound book"), &log).expect("a sound log");
    assert_eq!((log.picks.len(), log.picks.iter().all(|picks| picks.len() == 4)), (64, true));
    let BookAndLog { book, log } = loads::releases_and_counts_logged(200);
    let beside = [
        Released::Unordered,
        Released::BesideChange,
        Released::BesideLabel,
        Released::BesideRelease,
        Released::BesidePick,
    ];
    assert_eq!(released_ways(&book, &log, Answer::ACCEPTED), beside);
    let log = paper::check_log(&check_book(&book).expect("a sound book"), &log).expect("a sound log");
    assert_eq!((log.agents.len(), log.pairs.len()), (64, 64 - 16));
}
