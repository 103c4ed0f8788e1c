// Books of known size that put weight on one part of the work.
use crate::shop_book::{log_of, log_with_picks, shop, shop_log};
use inputs::{all_pairs, padded, specification, BookAndLog, BookDraft, Leaf, LogDraft};
use paper::{Pick, LINE_BYTES};

// A book, with a table and picks for a single move of agent 0 that is accepted any number of times once these values are put back.
pub struct Single {
    pub book: Vec<u8>,
    pub contents: Vec<u16>,
    pub picks: Vec<Pick>,
    pub put_back: Vec<(usize, u16)>,
}

impl Single {
    // A move that toggles needs nothing put back.
    fn from_start(book: Vec<u8>) -> Single {
        let contents = paper::start_table(&paper::check_book(&book).expect("a sound book"));
        Single { book, contents, picks: Vec::new(), put_back: Vec::new() }
    }
}

impl Single {
    // The same move as a log of one.
    pub fn logged(self) -> BookAndLog {
        let log = LogDraft { agents: vec![0], pairs: Vec::new(), picks: vec![self.picks] };
        BookAndLog { book: self.book, log: log.text() }
    }
}

// The logs of the benchmarks: all are accepted but the last one.
pub const LOGS: [fn() -> BookAndLog; 15] = [
    || BookAndLog { book: specification::book(), log: specification::log() },
    shop_logged,
    || guards(1).logged(),
    || guards(16).logged(),
    two_hundred_logged,
    picks_logged,
    counts_logged,
    releases_logged,
    labels_logged,
    || flags_logged(false),
    || flags_logged(true),
    releases_and_imports_logged,
    || releases_and_counts_logged(10_000),
    || releases_and_counts_logged(200),
    refused_at_last,
];

// The shop's book and its day.
pub fn shop_logged() -> BookAndLog {
    let book = shop();
    let log = shop_log(&book);
    BookAndLog { book, log }
}

// ---- books for the book check

// 1,024 nodes under one root: a guard with two skips, and skips joined two by two.
pub fn thousand_nodes() -> Vec<u8> {
    let mut book = BookDraft::new(8, 6, &[]);
    let guard = book.element(1);
    let (then, otherwise) = (book.skip(), book.skip());
    let mut rules = vec![book.conditional(guard, then, otherwise)];
    rules.extend((0..510).map(|_| book.skip()));
    let root = book.joined(rules, BookDraft::both);
    book.agent(root, 3);
    book.text()
}

// As many contents lines as the bounds leave room for: 65,281.
pub fn full_contents() -> Vec<u8> {
    let mut book = BookDraft::new(255, 255, &[[2, 2], [1, 2], [0, 2]]);
    let skip = book.skip();
    book.agent(skip, 3);
    let rows = (0..255).flat_map(|first| (0..255).map(move |second| [1, first, second, 3]));
    book.contents.extend(rows);
    (0..255).for_each(|first| book.holds(2, first, 3));
    book.holds(3, 0, 3);
    book.text()
}

// ---- many turns of one body

const UNIVERSE: u32 = 1;
const COUNTER: u32 = 2;
const FLAG: u32 = 3;
const TOGGLED: u32 = 4;
const LIMIT: u32 = 5;

// A static universe, a dynamic function and relation of one argument, a relation and a function of none.
const TURNING: [[u32; 2]; 5] = [[1, 1], [1, 2], [1, 3], [0, 3], [0, 2]];

// How many members the universe of `turns` has; the body is walked once for each two of them.
pub const MEMBERS: u32 = 100;

// For all x and y of 100 members: the body; beside it a toggle, so that the move changes something.
fn turns(body: impl Fn(&mut BookDraft) -> u32) -> Single {
    Single::from_start(turning(&TURNING, body).text())
}

// The book of such a move with these functions, of which the first are those of `TURNING`.
fn turning(functions: &[[u32; 2]], body: impl Fn(&mut BookDraft) -> u32) -> BookDraft {
    let mut book = BookDraft::new(MEMBERS + 20, MEMBERS + 10, functions);
    let body = body(&mut book);
    let inner = book.for_all(1, UNIVERSE, body);
    let outer = book.for_all(0, UNIVERSE, inner);
    let toggle = book.toggle(TOGGLED);
    let root = book.both(outer, toggle);
    book.agent(root, 3);
    (0..MEMBERS).for_each(|member| book.holds(UNIVERSE, member, 2));
    (0..MEMBERS).for_each(|member| book.holds(COUNTER, member, 3 + member % 50));
    (0..MEMBERS).filter(|member| member % 2 == 0).for_each(|member| book.holds(FLAG, member, 2));
    book.holds(LIMIT, 0, 40);
    book
}

// How many term nodes `some_terms` writes for so many parts.
pub fn term_nodes(parts: u32) -> u32 {
    16 * parts - 1
}

// Parts of 15 term nodes: (counter(x) + 1 < limit or counter(y) = x) and not flag(y), joined by `and`.
fn some_terms(book: &mut BookDraft, parts: u32) -> u32 {
    let mut part = |_| {
        let count = book.at(COUNTER, 0);
        let (sum, limit) = (book.next(count), book.nullary(LIMIT));
        let less = book.less(sum, limit);
        let (other, x) = (book.at(COUNTER, 1), book.variable(0));
        let equal = book.equal(other, x);
        let either = book.or(less, equal);
        let flag = book.at(FLAG, 1);
        let not = book.not(flag);
        book.and(either, not)
    };
    let parts = (0..parts).map(&mut part).collect();
    book.joined(parts, BookDraft::and)
}

// 10,000 turns of a guard with so many parts; both branches skip.
pub fn guards(parts: u32) -> Single {
    turns(|book| {
        let guard = some_terms(book, parts);
        let (then, otherwise) = (book.skip(), book.skip());
        book.conditional(guard, then, otherwise)
    })
}

// How many chains `unary_terms` and `binary_terms` have.
pub const CHAINS: u32 = 16;

// If each chain from x gives the same as one from y, then skip, otherwise skip. A chain has so many nodes one in the other; `link` writes one of them.
fn chains(book: &mut BookDraft, depth: u32, link: impl Fn(&mut BookDraft, u32) -> u32) -> u32 {
    let chain = |book: &mut BookDraft, variable| {
        let inmost = book.variable(variable);
        (0..depth).fold(inmost, |inner, _| link(book, inner))
    };
    let mut part = |_| {
        let (one, other) = (chain(book, 0), chain(book, 1));
        book.equal(one, other)
    };
    let parts = (0..CHAINS / 2).map(&mut part).collect();
    let guard = book.joined(parts, BookDraft::and);
    let (then, otherwise) = (book.skip(), book.skip());
    book.conditional(guard, then, otherwise)
}

// 10,000 turns of chains counter(counter(...)).
pub fn unary_terms(depth: u32) -> Single {
    turns(|book| chains(book, depth, |book, inner| book.unary(COUNTER, inner)))
}

// 10,000 turns of chains square(square(... , y), y). The lent table has a member at every two members.
pub fn binary_terms(depth: u32) -> Single {
    const SQUARE: u32 = TURNING.len() as u32 + 1;
    let functions = [&TURNING[..], &[[2, 2]]].concat();
    let link = |book: &mut BookDraft, inner| {
        let second = book.variable(1);
        book.binary(SQUARE, inner, second)
    };
    let book = turning(&functions, |book| chains(book, depth, link));
    let mut single = Single::from_start(book.text());
    for (x, y) in (0..MEMBERS).flat_map(|x| (0..MEMBERS).map(move |y| (x, y))) {
        let location = book.location(&[SQUARE, x, y, 0]).expect("a function of the book");
        single.contents[location] = (1 + (7 * x + 3 * y) % (MEMBERS - 1)) as u16;
    }
    single
}

// How many rule nodes of `skips` are walked.
pub fn skip_nodes(parts: u32) -> u32 {
    2 * parts - 1
}

// 10,000 turns of so many skips, joined by `both`.
pub fn skips(parts: u32) -> Single {
    turns(|book| {
        let rules = (0..parts).map(|_| book.skip()).collect();
        book.joined(rules, BookDraft::both)
    })
}

// How many rule nodes of `choices` are walked.
pub fn choice_nodes(parts: u32) -> u32 {
    4 * parts - 1
}

// 10,000 turns of so many parts: if flag(x) then let v be y in skip, otherwise the same of another; each part walks three rules.
pub fn choices(parts: u32) -> Single {
    turns(|book| {
        let mut part = |_| {
            let mut branch = |variable| {
                let (value, skip) = (book.variable(1), book.skip());
                book.let_in(variable, value, skip)
            };
            let (then, otherwise) = (branch(2), branch(3));
            let guard = book.at(FLAG, 0);
            book.conditional(guard, then, otherwise)
        };
        let rules = (0..parts).map(&mut part).collect();
        book.joined(rules, BookDraft::both)
    })
}

// One walk of a guard of 1,007 nodes.
pub fn wide_term() -> Single {
    let mut book = BookDraft::new(MEMBERS + 20, MEMBERS + 10, &TURNING);
    let guard = some_terms(&mut book, 62);
    let toggles = (book.toggle(TOGGLED), book.toggle(TOGGLED));
    let choice = book.conditional(guard, toggles.0, toggles.1);
    let x = book.element(7);
    let inner = book.let_in(1, x, choice);
    let y = book.element(8);
    let root = book.let_in(0, y, inner);
    book.agent(root, 3);
    Single::from_start(book.text())
}

// One walk of 1,013 rule nodes: skips and a toggle.
pub fn wide_rule() -> Single {
    let mut book = BookDraft::new(8, 6, &[[0, 3]]);
    let mut rules = vec![book.toggle(1)];
    rules.extend((0..506).map(|_| book.skip()));
    let root = book.joined(rules, BookDraft::both);
    book.agent(root, 3);
    Single::from_start(book.text())
}

// ---- foralls

// For all x of so many members: flag(x) := not flag(x).
fn toggled(members: u32) -> BookDraft {
    let mut book = BookDraft::new(members + 10, members + 5, &[[1, 1], [1, 3]]);
    let old = book.at(2, 0);
    let new = book.not(old);
    let location = book.at(2, 0);
    let set = book.set(location, new);
    let root = book.for_all(0, UNIVERSE, set);
    book.agent(root, 3);
    (0..members).for_each(|member| book.holds(UNIVERSE, member, 2));
    book
}

// One move that sets at 200 members.
pub fn two_hundred() -> Single {
    Single::from_start(toggled(200).text())
}

// 64 such moves.
pub fn two_hundred_logged() -> BookAndLog {
    let book = toggled(200).text();
    let log = log_of(&book, vec![0; 64]);
    BookAndLog { book, log }
}

const WIDE: u32 = 1_000;

// For all x and y of 1,000 members: if x = y and wanted(x) then flag(x) := not flag(x); wanted holds at 100.
pub fn nested() -> Single {
    let mut book = BookDraft::new(WIDE, WIDE, &[[1, 1], [1, 1], [1, 3]]);
    let (x, y) = (book.variable(0), book.variable(1));
    let equal = book.equal(x, y);
    let wanted = book.at(2, 0);
    let guard = book.and(equal, wanted);
    let old = book.at(3, 0);
    let new = book.not(old);
    let location = book.at(3, 0);
    let set = book.set(location, new);
    let body = book.when(guard, set);
    let inner = book.for_all(1, UNIVERSE, body);
    let root = book.for_all(0, UNIVERSE, inner);
    book.agent(root, 3);
    (0..WIDE).for_each(|member| book.holds(UNIVERSE, member, 2));
    (0..WIDE).step_by(10).for_each(|member| book.holds(2, member, 2));
    Single::from_start(book.text())
}

// For all x and y of 16 members among 1,000 elements: flag(y) := not flag(y), 256 instructions; the universe is dynamic.
pub fn nested_few() -> Single {
    let mut book = BookDraft::new(WIDE, WIDE, &[[1, 3], [1, 3]]);
    let old = book.at(2, 1);
    let new = book.not(old);
    let location = book.at(2, 1);
    let set = book.set(location, new);
    let inner = book.for_all(1, UNIVERSE, set);
    let root = book.for_all(0, UNIVERSE, inner);
    book.agent(root, 3);
    (0..16).for_each(|member| book.holds(UNIVERSE, member * 60, 2));
    Single::from_start(book.text())
}

// ---- choices

// For all x of so many members choose y of 100 pairs: note(x) := y, beside a toggle. The pairs are a dynamic universe.
fn assigned(members: u32) -> BookDraft {
    let mut book = BookDraft::new(members + 110, members + 105, &[[1, 1], [1, 3], [1, 2], [0, 3]]);
    let (location, pair) = (book.at(3, 0), book.variable(1));
    let set = book.set(location, pair);
    let choice = book.choose(1, 2, set);
    let each = book.for_all(0, UNIVERSE, choice);
    let toggle = book.toggle(4);
    let root = book.both(each, toggle);
    book.agent(root, 3);
    (0..members).for_each(|member| book.holds(UNIVERSE, member, 2));
    (0..100).for_each(|pair| book.holds(2, pair, 2));
    book
}

// So many picks among the 100 pairs.
fn some_pairs(count: u64) -> Vec<Pick> {
    (0..count).map(|number| number * 37 % 100).collect()
}

// One move with 200 picks.
pub fn two_hundred_picks() -> Single {
    Single { picks: some_pairs(200), ..Single::from_start(assigned(200).text()) }
}

// 64 moves with four picks each.
pub fn picks_logged() -> BookAndLog {
    let book = assigned(4).text();
    let picks = some_pairs(256).chunks(4).map(<[Pick]>::to_vec).collect();
    let log = log_with_picks(&book, vec![0; 64], picks);
    BookAndLog { book, log }
}

// ---- 65,536 locations

const GRID: u32 = 1;
const STOCK: u32 = 2;
const HOLDER: u32 = 3;
const SIDE: u32 = 255;

// Reserve, a grid, a universe and a function of no argument that holds a label: 255 + 255 × 255 + 255 + 1 locations.
fn large() -> BookDraft {
    BookDraft::new(SIDE, 40, &[[2, 2], [1, 3], [0, 2]])
}

// Toggles a flag, in contents of which all that may be are not at their default: labels from 200 on are on the roll.
pub fn full_table() -> Single {
    const FREE: u32 = 200;
    const FLAG: u32 = 3;
    let mut book = BookDraft::new(SIDE, 40, &[[2, 2], [1, 2], [0, 3]]);
    let root = book.toggle(FLAG);
    book.agent(root, 3);
    let mut single = Single::from_start(book.text());
    (FREE..SIDE).for_each(|label| single.contents[label as usize] = 2);
    for (x, y) in (0..FREE).flat_map(|x| (0..FREE).map(move |y| (x, y))) {
        single.contents[(SIDE + x * SIDE + y) as usize] = (1 + (7 * x + 3 * y) % (FREE - 1)) as u16;
    }
    (0..FREE).for_each(|x| single.contents[(SIDE + SIDE * SIDE + x) as usize] = (1 + x % 50) as u16);
    single
}

// Releases the label that the holder holds; every 97th place of the grid holds a label, some that one.
pub fn release() -> Single {
    const LABEL: u16 = 100;
    let mut book = large();
    let root = book.release_of(Leaf::Nullary(HOLDER));
    book.agent(root, 3);
    let mut single = Single::from_start(book.text());
    let (grid, stock) = (SIDE as usize, (SIDE + SIDE * SIDE) as usize);
    let mut put_back = vec![(LABEL as usize, 1), (stock + LABEL as usize, 2), (stock + SIDE as usize, LABEL)];
    put_back.extend((0..10).map(|place| (grid + place * 6_000, LABEL)));
    put_back.extend((0..10).map(|column| (grid + LABEL as usize * SIDE as usize + column, 7)));
    for place in (0..(SIDE * SIDE) as usize).step_by(97) {
        single.contents[grid + place] = 40 + (place % 50) as u16;
    }
    single.put_back = put_back;
    single
}

// 64 moves: imports and releases in turn.
pub fn releases_logged() -> BookAndLog {
    let mut book = large();
    let root = book.import_or_release(STOCK, HOLDER);
    book.agent(root, 3);
    (40..SIDE).for_each(|label| book.holds(0, label, 2));
    let book = book.text();
    let log = log_of(&book, vec![0; 64]);
    BookAndLog { book, log }
}

// 64 moves of 16 agents, each of which counts at its own place of the grid.
pub fn counts_logged() -> BookAndLog {
    let mut book = large();
    let place = |book: &mut BookDraft| {
        let (row, column) = (book.agent_element(), book.agent_element());
        book.binary(GRID, row, column)
    };
    let old = place(&mut book);
    let new = book.next(old);
    let location = place(&mut book);
    let root = book.set(location, new);
    (0..16).for_each(|agent| book.agent(root, 3 + agent));
    (0..16).for_each(|agent| book.contents.push([GRID, 3 + agent, 3 + agent, 3]));
    let book = book.text();
    let log = log_of(&book, (0..64).map(|number| number % 16).collect());
    BookAndLog { book, log }
}

// ---- printing

// A book of 1,980 contents lines, of a function of two arguments, nine of one and 20 of none, which are all at all elements; and a log of no moves.
pub fn printed() -> Vec<u8> {
    const ELEMENTS: u32 = 40;
    let functions = [vec![[2, 2]], vec![[1, 2]; 9], vec![[0, 2]; 20]].concat();
    let mut book = BookDraft::new(ELEMENTS, ELEMENTS, &functions);
    let skip = book.skip();
    book.agent(skip, 3);
    let value = |x: u32, y: u32| 1 + (7 * x + 3 * y) % (ELEMENTS - 1);
    let rows = (0..ELEMENTS).flat_map(|x| (0..ELEMENTS).map(move |y| [1, x, y, value(x, y)]));
    book.contents.extend(rows);
    (2..11).for_each(|function| (0..ELEMENTS).for_each(|x| book.holds(function, x, value(x, function))));
    (11..31).for_each(|function| book.holds(function, 0, value(0, function)));
    [book.text(), LogDraft { agents: Vec::new(), pairs: Vec::new(), picks: Vec::new() }.text()].concat()
}

// ---- many labels in one move

// If the shop is open, all pairs are released, each twice, and it closes; otherwise a pair is imported for each of 100 places, and it opens. There
// are 100 labels, all on the roll.
fn labels() -> BookDraft {
    const PAIR: u32 = 2;
    const OPEN: u32 = 3;
    const PERMANENT: u32 = MEMBERS + 10;
    let mut book = BookDraft::new(PERMANENT + MEMBERS, PERMANENT, &[[1, 1], [1, 3], [0, 3]]);
    let open = book.nullary(OPEN);
    let (once, again) = (book.release_of(Leaf::Variable(0)), book.release_of(Leaf::Variable(0)));
    let twice = book.both(once, again);
    let release = book.for_all(0, PAIR, twice);
    let close = book.toggle(OPEN);
    let end = book.both(release, close);
    let skip = book.skip();
    let one = book.import(1, PAIR, skip);
    let import = book.for_all(0, UNIVERSE, one);
    let opening = book.toggle(OPEN);
    let begin = book.both(import, opening);
    let root = book.conditional(open, end, begin);
    book.agent(root, 3);
    (0..MEMBERS).for_each(|label| book.holds(0, PERMANENT + label, 2));
    (0..MEMBERS).for_each(|place| book.holds(UNIVERSE, place, 2));
    book
}

// 64 moves: 100 imports and 200 releases in turn.
pub fn labels_logged() -> BookAndLog {
    let book = labels().text();
    let log = log_of(&book, vec![0; 64]);
    BookAndLog { book, log }
}

// ---- releases beside other moves

const SLOT: u32 = 2;
const WEAR: u32 = 3;
const RETIRING: u32 = 8;
const COUNTING: u32 = 8;

// Six functions of one argument. Eight agents retire a pair that they pick, and eight add one to the wear of the pair in their slot. Each of the 32
// pairs to retire is held by three slots.
fn releases_and_counts(elements: u32) -> BookDraft {
    const PERMANENT: u32 = 120;
    let mut book = BookDraft::new(elements, PERMANENT, &[[1, 3], [1, 2], [1, 2], [1, 2], [1, 2]]);
    let pair = book.variable(0);
    let release = book.release(pair);
    let retire = book.choose(0, UNIVERSE, release);
    let wear = |book: &mut BookDraft| {
        let pair = book.own(SLOT);
        book.unary(WEAR, pair)
    };
    let old = wear(&mut book);
    let new = book.next(old);
    let location = wear(&mut book);
    let count = book.set(location, new);
    (0..RETIRING).for_each(|agent| book.agent(retire, agent));
    (RETIRING..RETIRING + COUNTING).for_each(|agent| book.agent(count, agent));
    let pairs = PERMANENT..PERMANENT + 32 + COUNTING;
    pairs.clone().for_each(|pair| book.holds(UNIVERSE, pair, 2));
    (0..COUNTING).for_each(|agent| book.holds(SLOT, RETIRING + agent, PERMANENT + 32 + agent));
    (0..96).for_each(|slot| book.holds(SLOT, RETIRING + COUNTING + slot, PERMANENT + slot % 32));
    pairs.for_each(|pair| book.holds(WEAR, pair, 3));
    book
}

// 64 moves: 32 releases and 32 counts in turn, each agent's own in order and no others.
pub fn releases_and_counts_logged(elements: u32) -> BookAndLog {
    let book = releases_and_counts(elements).text();
    let agents = (0..64).map(|number| number / 2 % 8 + number % 2 * RETIRING).collect();
    let picks =
        (0..64).map(|number| if number % 2 == 0 { vec![120 + number / 2] } else { Vec::new() }).collect();
    let log = log_with_picks(&book, agents, picks);
    BookAndLog { book, log }
}

// ---- the order check

// Agents that change their own flag after a look at every element of a dynamic universe.
fn flags() -> Vec<u8> {
    let mut book = BookDraft::new(200, 200, &[[1, 3], [1, 3]]);
    let skip = book.skip();
    let look = book.for_all(0, UNIVERSE, skip);
    let old = book.own(2);
    let new = book.not(old);
    let location = book.own(2);
    let set = book.set(location, new);
    let root = book.both(look, set);
    (0..16).for_each(|agent| book.agent(root, 3 + agent));
    book.text()
}

// 64 moves of these agents, ordered for each agent only, or wholly.
pub fn flags_logged(wholly: bool) -> BookAndLog {
    let book = flags();
    let agents: Vec<u32> = (0..64).map(|number| number % 16).collect();
    if !wholly {
        let log = log_of(&book, agents);
        return BookAndLog { book, log };
    }
    let pairs = all_pairs(64).collect();
    BookAndLog { book, log: LogDraft { agents, pairs, picks: Vec::new() }.text() }
}

// A small book in which a function holds a label, and an agent whose release of undef is refused.
fn releases_and_imports() -> Vec<u8> {
    const FULL: u32 = 100;
    let mut book = BookDraft::new(200, 40, &[[1, 2], [1, 2], [1, 3], [0, 2]]);
    let root = book.import_or_release(3, 4);
    book.agent(root, 3);
    let undef = book.element(0);
    let refused = book.release(undef);
    book.agent(refused, 4);
    book.holds(3, FULL, 2);
    book.holds(4, 0, FULL);
    book.text()
}

// 64 moves, releases and imports in turn, the last an import.
pub fn releases_and_imports_logged() -> BookAndLog {
    let book = releases_and_imports();
    let log = log_of(&book, vec![0; 64]);
    BookAndLog { book, log }
}

// The same log whose last move is refused at its first rule: the run ends with 12, before the order check.
pub fn refused_at_last() -> BookAndLog {
    let BookAndLog { book, mut log } = releases_and_imports_logged();
    log[64 * LINE_BYTES..65 * LINE_BYTES].copy_from_slice(&padded("1 0 0 0"));
    BookAndLog { book, log }
}
