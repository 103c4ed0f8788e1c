// Every input of some small kinds, by number: a book and a log each.

use crate::book_draft::BookDraft;
use crate::entry_inputs::BookAndLog;
use crate::log_draft::{all_pairs, LogDraft};
use crate::nodes::{operand_fields, Leaf};
use crate::small_picks as picks;
use crate::specification;
use paper::Line;
use std::sync::OnceLock;

/// A kind of small inputs: how many there are, and each by its number.
struct Kind {
    count: fn() -> u64,
    nth: fn(u64) -> BookAndLog,
}

const KINDS: [Kind; 10] = [
    Kind { count: terms, nth: term },
    Kind { count: logs, nth: log },
    Kind { count: headers, nth: header },
    Kind { count: bytes, nth: byte },
    Kind { count: cuts, nth: cut },
    Kind { count: roots, nth: root },
    Kind { count: pairs_of_nodes, nth: two_nodes },
    Kind { count: picks::picks, nth: picks::pick },
    Kind { count: picks::logs, nth: picks::log },
    Kind { count: picks::choice_lines, nth: picks::choice_line },
];

/// How many inputs each kind has.
fn counts() -> &'static [u64; KINDS.len()] {
    static COUNTS: OnceLock<[u64; KINDS.len()]> = OnceLock::new();
    COUNTS.get_or_init(|| KINDS.each_ref().map(|kind| (kind.count)()))
}

/// How many small inputs there are.
pub fn small_inputs() -> u64 {
    counts().iter().sum()
}

/// The small input with this number, which is below their count.
pub fn small_input(number: u64) -> BookAndLog {
    let mut left = number;
    for (kind, &count) in KINDS.iter().zip(counts()) {
        if left < count {
            return (kind.nth)(left);
        }
        left -= count;
    }
    panic!("there are only {} small inputs", small_inputs())
}

/// The next digit of a number to this base; the number keeps the rest.
pub fn digit(number: &mut u64, base: u64) -> u32 {
    let digit = *number % base;
    *number /= base;
    digit as u32
}

fn one_move() -> Vec<u8> {
    LogDraft::unordered(vec![0]).text()
}

/// The specification's own book and log.
fn own() -> BookAndLog {
    BookAndLog { book: specification::book(), log: specification::log() }
}

// ---- terms: f := a ∘ b for every operator and every two elements, f a function or a relation

const OPERATORS: u64 = 7;
const OPERANDS: u64 = 8;

fn terms() -> u64 {
    2 * OPERATORS * OPERANDS * OPERANDS
}

fn term(mut number: u64) -> BookAndLog {
    let kind = 2 + digit(&mut number, 2);
    let operator = 7 + digit(&mut number, OPERATORS);
    let operands = [digit(&mut number, OPERANDS), digit(&mut number, OPERANDS)];
    let mut book = BookDraft::new(8, 6, &[[0, kind], [0, 2], [0, 2]]);
    let location = book.nullary(1);
    // Both operands are values of functions, so that they may be labels too.
    let a = book.nullary(2);
    let value = if operator == 8 {
        book.not(a)
    } else {
        let b = book.nullary(3);
        book.add([operator, a, b, 0])
    };
    let root = book.set(location, value);
    book.agent(root, 3);
    let held = (2..).zip(operands).filter(|&(_, value)| value != 0);
    held.for_each(|(function, value)| book.holds(function, 0, value));
    BookAndLog { book: book.text(), log: one_move() }
}

// ---- logs: up to four moves of three agents of each book, with every set of pairs

const BOOKS: [fn() -> Vec<u8>; 7] = [
    copying,
    specification::book,
    releasing,
    setting_beside,
    || taking_out(4, 3),
    || taking_out(3, 5),
    counting_labels,
];
const AGENTS: u64 = 3;
const MOST_MOVES: u64 = 4;

/// How many logs of m moves there are.
fn logs_of(m: u64) -> u64 {
    AGENTS.pow(m as u32) * (1 << (m * m.saturating_sub(1) / 2))
}

fn logs() -> u64 {
    BOOKS.len() as u64 * (0..=MOST_MOVES).map(logs_of).sum::<u64>()
}

/// Agents 0 and 1 change a relation each; agent 2 copies that of agent 0 to a function.
fn copying() -> Vec<u8> {
    let mut book = BookDraft::new(4, 4, &[[0, 3], [0, 3], [0, 2]]);
    for (agent, relation) in [(0, 1), (1, 2)] {
        let (location, old) = (book.nullary(relation), book.nullary(relation));
        let new = book.not(old);
        let root = book.set(location, new);
        book.agent(root, agent);
    }
    let location = book.nullary(3);
    let copy = book.set_to(location, Leaf::Nullary(1));
    book.agent(copy, 2);
    book.text()
}

/// Agent 0 imports a label where function 2 is undef, and releases what it holds; agent 1 skips; agent 2 sets function 3 to what it is.
fn releasing() -> Vec<u8> {
    let mut book = BookDraft::new(5, 4, &[[1, 3], [0, 2], [0, 2]]);
    let release = book.import_or_release(1, 2);
    let skip = book.skip();
    let location = book.nullary(3);
    let keep = book.set_to(location, Leaf::Nullary(3));
    (0..).zip([release, skip, keep]).for_each(|(agent, root)| book.agent(root, agent));
    book.holds(2, 0, 4);
    book.holds(3, 0, 3);
    book.text()
}

/// Agent 0 imports a label where t is undef, and releases what it holds; agent 1, for the one member of a static universe, changes whether the
/// label of s is in the dynamic one; agent 2 imports a label where u is undef, and takes the label out of it. At the start t holds 8, s and u hold 7,
/// and 4 and 5 are free.
fn setting_beside() -> Vec<u8> {
    let [t, s, u] = [2, 3, 4];
    let mut book = BookDraft::new(9, 4, &[[1, 3], [0, 2], [0, 2], [0, 2], [1, 1]]);
    let release = book.import_or_release(1, t);
    let (location, old) = (book.unary_of(1, Leaf::Nullary(s)), book.unary_of(1, Leaf::Nullary(s)));
    let new = book.not(old);
    let set = book.set(location, new);
    let change = book.for_all(0, 5, set);
    let guard = book.is_undef(u);
    let location = book.nullary(u);
    let set = book.set_to(location, Leaf::Variable(0));
    let import = book.import(0, 1, set);
    let location = book.nullary(u);
    let take_out = book.set_to(location, Leaf::Element(0));
    let import_or_take_out = book.conditional(guard, import, take_out);
    (0..).zip([release, change, import_or_take_out]).for_each(|(agent, root)| book.agent(root, agent));
    let contents = [(0, 4, 2), (0, 5, 2), (t, 0, 8), (s, 0, 7), (u, 0, 7), (5, 3, 2)];
    contents.into_iter().for_each(|(function, argument, value)| book.holds(function, argument, value));
    book.text()
}

/// Agent 0 releases the label 5 that t holds, agent 1 the label 4 that s holds, each unless it is undef; agent 2 sets u, which holds 4, to w. Function 1
/// at 5 and w hold these elements.
fn taking_out(at_5: u32, w: u32) -> Vec<u8> {
    let mut book = BookDraft::new(6, 4, &[[1, 2], [0, 2], [0, 2], [0, 2], [0, 2]]);
    for (agent, holder) in [(0, 2), (1, 3)] {
        let (guard, skip) = (book.is_undef(holder), book.skip());
        let release = book.release_of(Leaf::Nullary(holder));
        let root = book.conditional(guard, skip, release);
        book.agent(root, agent);
    }
    let location = book.nullary(4);
    let exchange = book.set_to(location, Leaf::Nullary(5));
    book.agent(exchange, 2);
    let contents = [(1, 5, at_5), (2, 0, 5), (3, 0, 4), (4, 0, 4), (5, 0, w)];
    contents.into_iter().for_each(|(function, argument, value)| book.holds(function, argument, value));
    book.text()
}

/// Agent 0 imports a label to t and one more where t is undef, and otherwise releases what t holds, twice; agent 1 imports a label and clashes where s
/// is undef, and otherwise imports one and releases what s holds; agent 2 releases what u holds, unless it is undef. At the start s holds 6 and u
/// holds 8, and 4, 5 and 7 are free.
fn counting_labels() -> Vec<u8> {
    let [t, s, u] = [2, 3, 4];
    let mut book = BookDraft::new(9, 4, &[[1, 3], [0, 2], [0, 2], [0, 2]]);
    let (guard, skip) = (book.is_undef(t), book.skip());
    let one_more = book.import(1, 1, skip);
    let location = book.nullary(t);
    let set = book.set_to(location, Leaf::Variable(0));
    let body = book.both(set, one_more);
    let import = book.import(0, 1, body);
    let (once, again) = (book.release_of(Leaf::Nullary(t)), book.release_of(Leaf::Nullary(t)));
    let twice = book.both(once, again);
    let two_or_twice = book.conditional(guard, import, twice);
    let guard = book.is_undef(s);
    let sets = [Leaf::Variable(0), Leaf::Element(3)].map(|value| {
        let location = book.nullary(s);
        book.set_to(location, value)
    });
    let body = book.both(sets[0], sets[1]);
    let clash = book.import(0, 1, body);
    let skip = book.skip();
    let (import, release) = (book.import(0, 1, skip), book.release_of(Leaf::Nullary(s)));
    let exchange = book.both(import, release);
    let clash_or_exchange = book.conditional(guard, clash, exchange);
    let (guard, skip, release) = (book.is_undef(u), book.skip(), book.release_of(Leaf::Nullary(u)));
    let release_once = book.conditional(guard, skip, release);
    let roots = [two_or_twice, clash_or_exchange, release_once];
    (0..).zip(roots).for_each(|(agent, root)| book.agent(root, agent));
    let contents = [(0, 4, 2), (0, 5, 2), (0, 7, 2), (s, 0, 6), (u, 0, 8)];
    contents.into_iter().for_each(|(function, argument, value)| book.holds(function, argument, value));
    book.text()
}

fn log(mut number: u64) -> BookAndLog {
    let book = BOOKS[digit(&mut number, BOOKS.len() as u64) as usize]();
    let mut m = 0;
    while number >= logs_of(m) {
        number -= logs_of(m);
        m += 1;
    }
    let agents = (0..m).map(|_| digit(&mut number, AGENTS)).collect();
    let pairs = all_pairs(m as u32).filter(|_| digit(&mut number, 2) == 1).collect();
    BookAndLog { book, log: LogDraft { agents, pairs, picks: Vec::new() }.text() }
}

// ---- headers: every field of both header lines and of the log's at its bounds

const AT_BOUNDS: [u32; 26] = [
    0, 1, 2, 3, 4, 5, 6, 7, 8, 9, 13, 14, 16, 17, 32, 33, 64, 65, 256, 257, 1_024, 1_025, 10_000, 10_001,
    65_537, 999_999,
];

fn headers() -> u64 {
    12 * AT_BOUNDS.len() as u64
}

fn header(mut number: u64) -> BookAndLog {
    let field = digit(&mut number, 12) as usize;
    let BookAndLog { mut book, mut log } = own();
    let (text, at) =
        if field < 8 { (&mut book, field / 4 * 25 + field % 4 * 6) } else { (&mut log, field % 4 * 6) };
    let value = format!("{:6}", AT_BOUNDS[number as usize]);
    text[at..at + 6].copy_from_slice(value.as_bytes());
    BookAndLog { book, log }
}

// ---- bytes: each byte of the shown inputs changed to some others

const OTHERS: &[u8; 16] = b" \n0123456789-a\0\xff";

/// The shown input, and one with picks.
fn all_shown() -> [BookAndLog; 2] {
    [own(), picks::shown_pick()]
}

/// How many bytes the shown inputs have.
fn shown_bytes() -> u64 {
    all_shown().iter().map(|small| (small.book.len() + small.log.len()) as u64).sum()
}

/// The shown input that has this byte, counted over both, and where the byte stands in it.
fn shown_at(byte: u64) -> (BookAndLog, usize) {
    let mut at = byte as usize;
    for small in all_shown() {
        let bytes = small.book.len() + small.log.len();
        if at < bytes {
            return (small, at);
        }
        at -= bytes;
    }
    panic!("there are only {} bytes", shown_bytes())
}

fn bytes() -> u64 {
    OTHERS.len() as u64 * shown_bytes()
}

fn byte(mut number: u64) -> BookAndLog {
    let other = OTHERS[digit(&mut number, OTHERS.len() as u64) as usize];
    let (mut small, at) = shown_at(number);
    let split = small.book.len();
    *(if at < split { &mut small.book[at] } else { &mut small.log[at - split] }) = other;
    small
}

// ---- cuts: the shown inputs cut at each length, and without each of their bytes

fn cuts() -> u64 {
    2 * shown_bytes()
}

fn cut(mut number: u64) -> BookAndLog {
    let to_the_end = digit(&mut number, 2) == 1;
    let (BookAndLog { book, log }, at) = shown_at(number);
    let without = |text: &[u8], at: usize| {
        let rest = if to_the_end { &[] } else { &text[at + 1..] };
        [&text[..at], rest].concat()
    };
    if at >= book.len() {
        let log = without(&log, at - book.len());
        return BookAndLog { book, log };
    }
    let book = without(&book, at);
    BookAndLog { book, log: if to_the_end { Vec::new() } else { log } }
}

// ---- roots: every line of kind 0 to 29 with fields to 6 over a term, a location and two skips

const KINDS_OF_NODES: u64 = 30;
const FIELDS: u64 = 7;

fn roots() -> u64 {
    KINDS_OF_NODES * FIELDS.pow(3)
}

fn root(mut number: u64) -> BookAndLog {
    let kind = digit(&mut number, KINDS_OF_NODES);
    let root = [kind, digit(&mut number, FIELDS), digit(&mut number, FIELDS), digit(&mut number, FIELDS)];
    let under: [Line; 4] = [[1, 3, 0, 0], [4, 3, 0, 0], [20, 0, 0, 0], [20, 0, 0, 0]];
    let mut book = BookDraft::new(8, 6, &[[1, 1], [1, 3], [0, 2], [2, 2], [0, 0]]);
    book.nodes = used_by(root, &under);
    book.agent(book.nodes.len() as u32 - 1, 3);
    let members = [(0, 7), (1, 4), (2, 5)];
    members.into_iter().for_each(|(relation, element)| book.holds(relation, element, 2));
    BookAndLog { book: book.text(), log: one_move() }
}

/// The nodes that a root names among those given, renumbered, then the root; a number past them stays one past all.
fn used_by(root: Line, under: &[Line]) -> Vec<Line> {
    let mut nodes = Vec::new();
    let mut renumbered = root;
    for &(field, _) in operand_fields(root[0]) {
        if let Some(&node) = under.get(root[field] as usize) {
            renumbered[field] = nodes.len() as u32;
            nodes.push(node);
        } else {
            renumbered[field] = under.len() as u32 + root[field];
        }
    }
    nodes.push(renumbered);
    nodes
}

// ---- two nodes: every two lines, the first with fields to 1 and the second, the root, with fields to 2

fn pairs_of_nodes() -> u64 {
    (KINDS_OF_NODES * 2u64.pow(3)) * (KINDS_OF_NODES * 3u64.pow(3))
}

fn two_nodes(mut number: u64) -> BookAndLog {
    let mut node = |fields| {
        let kind = digit(&mut number, KINDS_OF_NODES);
        [kind, digit(&mut number, fields), digit(&mut number, fields), digit(&mut number, fields)]
    };
    let mut book = BookDraft::new(5, 4, &[[1, 3], [0, 2]]);
    book.nodes = vec![node(2), node(3)];
    book.agent(1, 3);
    book.holds(1, 3, 2);
    BookAndLog { book: book.text(), log: one_move() }
}
