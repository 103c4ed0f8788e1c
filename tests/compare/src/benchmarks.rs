// The rows of the benchmarks, by name. `entries` says which of the public entries they call.
use crate::loads;
use crate::meter::Meter;
use crate::rows::*;
use crate::shop_book::shop;
use inputs::{specification, BookAndLog};

pub struct Benchmark {
    pub what: &'static str,
    row: fn(&str, &mut Meter) -> Row,
}

impl Benchmark {
    const fn new(what: &'static str, row: fn(&str, &mut Meter) -> Row) -> Benchmark {
        Benchmark { what, row }
    }

    pub fn measure(&self, meter: &mut Meter) -> Row {
        (self.row)(self.what, meter)
    }
}

// All, in the order of the table.
pub fn benchmarks() -> impl Iterator<Item = &'static Benchmark> {
    [BOOK_CHECKS, SLOPES, SINGLE_MOVES, LOGS, ORDER_CHECKS, WHOLE_RUNS].into_iter().flatten()
}

// The one of this name, or those whose name has this word.
pub fn wanted(word: &str) -> Vec<&'static Benchmark> {
    match benchmarks().find(|benchmark| benchmark.what == word) {
        Some(benchmark) => vec![benchmark],
        None => benchmarks().filter(|benchmark| benchmark.what.contains(word)).collect(),
    }
}

const BOOK_CHECKS: &[Benchmark] = &[
    Benchmark::new("book check: the specification's book", |what, meter| {
        book_row(what, meter, &specification::book())
    }),
    Benchmark::new("book check: 1,024 nodes", |what, meter| book_row(what, meter, &loads::thousand_nodes())),
    Benchmark::new("book check: 65,281 contents lines", |what, meter| {
        book_row(what, meter, &loads::full_contents())
    }),
    Benchmark::new("book check: the shop's book", |what, meter| book_row(what, meter, &shop())),
];

// How often the bodies of the slopes are walked in one move; the book check is the same in both moves but for the nodes' own lines.
const TURNS: u32 = loads::MEMBERS * loads::MEMBERS;

const SLOPES: &[Benchmark] = &[
    Benchmark::new("single move: each term node", |what, meter| {
        let nodes = loads::term_nodes(16) - loads::term_nodes(1);
        slope_row(what, meter, &loads::guards(1), &loads::guards(16), TURNS * nodes)
    }),
    Benchmark::new("single move: each term node of one argument", |what, meter| {
        let nodes = loads::CHAINS * 3;
        slope_row(what, meter, &loads::unary_terms(1), &loads::unary_terms(4), TURNS * nodes)
    }),
    Benchmark::new("single move: each term node of two arguments, with a variable", |what, meter| {
        let nodes = loads::CHAINS * 3;
        slope_row(what, meter, &loads::binary_terms(1), &loads::binary_terms(4), TURNS * nodes)
    }),
    Benchmark::new("log: each term node, its reads marked", |what, meter| {
        let nodes = loads::term_nodes(16) - loads::term_nodes(1);
        run_slope_row(what, meter, &loads::guards(1).logged(), &loads::guards(16).logged(), TURNS * nodes)
    }),
    Benchmark::new("single move: each rule node (both, skip)", |what, meter| {
        let nodes = loads::skip_nodes(65) - loads::skip_nodes(1);
        slope_row(what, meter, &loads::skips(1), &loads::skips(65), TURNS * nodes)
    }),
    Benchmark::new("single move: each rule node (if, let, both, skip, with their terms)", |what, meter| {
        let nodes = loads::choice_nodes(33) - loads::choice_nodes(1);
        slope_row(what, meter, &loads::choices(1), &loads::choices(33), TURNS * nodes)
    }),
];

const SINGLE_MOVES: &[Benchmark] = &[
    Benchmark::new("single move: a term of 991 nodes, walked once", |what, meter| {
        step_row(what, meter, &loads::wide_term())
    }),
    Benchmark::new("single move: 1,013 rule nodes, walked once", |what, meter| {
        step_row(what, meter, &loads::wide_rule())
    }),
    Benchmark::new("single move: forall of 200 members, a set each", |what, meter| {
        step_row(what, meter, &loads::two_hundred())
    }),
    Benchmark::new("single move: two foralls over 1,000 members, 1,000,000 turns", |what, meter| {
        step_row(what, meter, &loads::nested())
    }),
    Benchmark::new("single move: two foralls over 1,000 elements, 16 members, 256 sets", |what, meter| {
        step_row(what, meter, &loads::nested_few())
    }),
    Benchmark::new("single move: forall of 200 members, a choice and a set each", |what, meter| {
        step_row(what, meter, &loads::two_hundred_picks())
    }),
    Benchmark::new("single move: 8 of a table, L 65,536", |what, meter| {
        step_row(what, meter, &loads::full_table())
    }),
    Benchmark::new("single move: a release, L 65,536", |what, meter| {
        step_row(what, meter, &loads::release())
    }),
];

const LOGS: &[Benchmark] = &[
    Benchmark::new("log: the specification's book and log, 2 moves", |what, meter| {
        run_row(what, meter, &BookAndLog { book: specification::book(), log: specification::log() })
    }),
    Benchmark::new("log: the shop's book, 64 moves of 16 agents", |what, meter| {
        run_row(what, meter, &loads::shop_logged())
    }),
    Benchmark::new("log: 64 foralls of 200 members, a set each", |what, meter| {
        run_row(what, meter, &loads::two_hundred_logged())
    }),
    Benchmark::new("log: 64 moves of 4 choices, a set each", |what, meter| {
        run_row(what, meter, &loads::picks_logged())
    }),
    Benchmark::new("log: 64 small moves with marks, L 65,536", |what, meter| {
        run_row(what, meter, &loads::counts_logged())
    }),
    Benchmark::new("log: 32 imports and 32 releases, L 65,536", |what, meter| {
        run_row(what, meter, &loads::releases_logged())
    }),
    Benchmark::new("log: 3,200 imports and 6,400 releases, each label twice", |what, meter| {
        run_row(what, meter, &loads::labels_logged())
    }),
    Benchmark::new("log: 32 releases and 32 counts, unordered, L 60,000", |what, meter| {
        run_row(what, meter, &loads::releases_and_counts_logged(10_000))
    }),
];

const ORDER_CHECKS: &[Benchmark] = &[
    Benchmark::new("order: 64 moves, each desk's own in order", |what, meter| {
        run_row(what, meter, &loads::flags_logged(false))
    }),
    Benchmark::new("order: 64 moves, all 2,016 pairs", |what, meter| {
        run_row(what, meter, &loads::flags_logged(true))
    }),
    Benchmark::new("order: 32 releases and 32 counts, unordered, L 1,200", |what, meter| {
        run_row(what, meter, &loads::releases_and_counts_logged(200))
    }),
    Benchmark::new("order: 32 releases and 32 imports, L 801", |what, meter| {
        run_row(what, meter, &loads::releases_and_imports_logged())
    }),
    Benchmark::new("order: of these, 17 alone", |what, meter| {
        beyond_row(what, meter, &loads::releases_and_imports_logged(), &loads::refused_at_last(), 12)
    }),
];

const WHOLE_RUNS: &[Benchmark] = &[
    Benchmark::new("rental: the specification's book and log", |what, meter| {
        report_row(what, meter, &specification::book_and(specification::LOG))
    }),
    Benchmark::new("rental: the shop's book, 64 moves of 16 agents", |what, meter| {
        let BookAndLog { book, log } = loads::shop_logged();
        report_row(what, meter, &[book, log].concat())
    }),
    Benchmark::new("rental: 1,980 contents lines printed", |what, meter| {
        report_row(what, meter, &loads::printed())
    }),
];
