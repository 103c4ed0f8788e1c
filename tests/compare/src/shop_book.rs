// A shop book of ordinary size with a day's log.
use inputs::{fitting_pairs, BookDraft, LogDraft};
use paper::{check_book, fire_move, start_table, Marks, Pick};

// The log of these agents' moves, which all fire in turn, with just the pairs that it needs.
pub fn log_of(book: &[u8], agents: Vec<u32>) -> Vec<u8> {
    let picks = vec![Vec::new(); agents.len()];
    log_with_picks(book, agents, picks)
}

// The same with picks for each move.
pub fn log_with_picks(book: &[u8], agents: Vec<u32>, picks: Vec<Vec<Pick>>) -> Vec<u8> {
    let book = check_book(book).expect("a sound book");
    let mut contents = start_table(&book);
    let (mut readers, mut writers) = (vec![0; book.locations], vec![0; book.locations]);
    for (number, (&agent, picks)) in agents.iter().zip(&picks).enumerate() {
        let marks = Marks { readers: &mut readers, writers: &mut writers, bit: 1 << number };
        fire_move(&book, &mut contents, agent as usize, picks, marks, &mut Vec::new())
            .expect("each move fires");
    }
    let pairs = fitting_pairs(&agents, &readers, &writers);
    LogDraft { agents, pairs, picks }.text()
}

// ---- the shop

const PAIR: u32 = 1;
const OUT: u32 = 2;
const TUNED: u32 = 3;
const WEAR: u32 = 4;
const DESK: u32 = 5;
const SIZE: u32 = 6;
const RENTER: u32 = 7;
const WANTED: u32 = 8;
const LIMIT: u32 = 9;

// Reserve's functions after it: three relations on pairs, then functions of a pair or a desk, then the wear limit.
const FUNCTIONS: [[u32; 2]; 9] = [[1, 3], [1, 3], [1, 3], [1, 2], [1, 2], [1, 2], [1, 2], [1, 2], [0, 0]];

const ELEMENTS: u32 = 120;
const PERMANENT: u32 = 60;
const PAIRS: std::ops::Range<u32> = PERMANENT..100;
const AGENTS: u32 = 16;
const RENTING: u32 = 6;
const TAKING_BACK: u32 = 4;
const TUNING: u32 = 3;
const SIZES: u32 = 5;
const ZERO: u32 = 3;

// The pair x is of the size that the agent's desk is at.
fn of_wanted_size(book: &mut BookDraft) -> u32 {
    let (size, wanted) = (book.at(SIZE, 0), book.own(WANTED));
    book.equal(size, wanted)
}

// The agent's desk goes on to the next size.
fn go_on(book: &mut BookDraft) -> u32 {
    let wanted = book.own(WANTED);
    let next = book.next(wanted);
    let location = book.own(WANTED);
    book.set(location, next)
}

// A relation or a function at the pair x gets an element.
fn put(book: &mut BookDraft, function: u32, element: u32) -> u32 {
    let location = book.at(function, 0);
    let value = book.element(element);
    book.set(location, value)
}

// The wear of x is below the limit.
fn below_limit(book: &mut BookDraft) -> u32 {
    let (wear, limit) = (book.at(WEAR, 0), book.nullary(LIMIT));
    book.less(wear, limit)
}

fn is_in(book: &mut BookDraft) -> u32 {
    let out = book.at(OUT, 0);
    book.not(out)
}

// For all pairs x: if the guard then the rule; and the desk goes on.
fn for_pairs(book: &mut BookDraft, guard: Vec<u32>, rules: Vec<u32>) -> u32 {
    let guard = book.joined(guard, BookDraft::and);
    let rules = book.joined(rules, BookDraft::both);
    let body = book.when(guard, rules);
    let all = book.for_all(0, PAIR, body);
    let on = go_on(book);
    book.both(all, on)
}

// The desk's own pairs that are in, tuned and below the limit go out.
fn rent(book: &mut BookDraft) -> u32 {
    let (desk, me) = (book.at(DESK, 0), book.agent_element());
    let own = book.equal(desk, me);
    let guard = vec![is_in(book), book.at(TUNED, 0), own, of_wanted_size(book), below_limit(book)];
    let renter = book.at(RENTER, 0);
    let me = book.agent_element();
    let rules = vec![put(book, OUT, 2), book.set(renter, me)];
    for_pairs(book, guard, rules)
}

// Pairs that are out come back: worn once more, to be tuned.
fn take_back(book: &mut BookDraft) -> u32 {
    let guard = vec![book.at(OUT, 0), of_wanted_size(book), below_limit(book)];
    let wear = book.at(WEAR, 0);
    let more = book.next(wear);
    let location = book.at(WEAR, 0);
    let rules = vec![put(book, OUT, 1), put(book, TUNED, 1), put(book, RENTER, 0), book.set(location, more)];
    for_pairs(book, guard, rules)
}

fn tune(book: &mut BookDraft) -> u32 {
    let tuned = book.at(TUNED, 0);
    let guard = vec![is_in(book), book.not(tuned), of_wanted_size(book)];
    let rules = vec![put(book, TUNED, 2)];
    for_pairs(book, guard, rules)
}

// Pairs that are in and at the limit leave the shop; their labels go back on the roll.
fn retire(book: &mut BookDraft) -> u32 {
    let below = below_limit(book);
    let guard = vec![is_in(book), book.not(below), of_wanted_size(book)];
    let pair = book.variable(0);
    let rules = vec![book.release(pair)];
    for_pairs(book, guard, rules)
}

// A new pair gets the lowest free label, a desk, a size and no wear.
fn deliver(book: &mut BookDraft, desk: u32) -> u32 {
    let size = book.at(SIZE, 0);
    let wanted = book.own(WANTED);
    let sized = book.set(size, wanted);
    let rules = vec![sized, put(book, DESK, desk), put(book, WEAR, ZERO), put(book, TUNED, 2)];
    let body = book.joined(rules, BookDraft::both);
    let import = book.import(0, PAIR, body);
    let on = go_on(book);
    book.both(import, on)
}

fn rule_of(book: &mut BookDraft, agent: u32) -> u32 {
    match agent {
        a if a < RENTING => rent(book),
        a if a < RENTING + TAKING_BACK => take_back(book),
        a if a < RENTING + TAKING_BACK + TUNING => tune(book),
        a if a == RENTING + TAKING_BACK + TUNING => retire(book),
        a => deliver(book, ZERO + a % RENTING),
    }
}

// 40 pairs with a desk, a size and some wear, some tuned and some out; 20 free labels.
fn stock(book: &mut BookDraft) {
    (PAIRS.end..ELEMENTS).for_each(|label| book.holds(0, label, 2));
    PAIRS.for_each(|pair| book.holds(PAIR, pair, 2));
    PAIRS.filter(|pair| pair % 3 == 0).for_each(|pair| book.holds(OUT, pair, 2));
    PAIRS.filter(|pair| pair % 4 != 0).for_each(|pair| book.holds(TUNED, pair, 2));
    PAIRS.for_each(|pair| book.holds(WEAR, pair, ZERO + pair % 6));
    PAIRS.for_each(|pair| book.holds(DESK, pair, ZERO + pair % RENTING));
    PAIRS.for_each(|pair| book.holds(SIZE, pair, ZERO + pair % SIZES));
    PAIRS.filter(|pair| pair % 3 == 0).for_each(|pair| book.holds(RENTER, pair, ZERO));
    (0..AGENTS).for_each(|agent| book.holds(WANTED, ZERO + agent, ZERO));
    book.holds(LIMIT, 0, ZERO + 5);
}

// 16 agents: six rent, four take back, three tune, one retires, two deliver. Each has a rule of its own.
pub fn shop() -> Vec<u8> {
    let mut book = BookDraft::new(ELEMENTS, PERMANENT, &FUNCTIONS);
    for agent in 0..AGENTS {
        let root = rule_of(&mut book, agent);
        book.agent(root, ZERO + agent);
    }
    stock(&mut book);
    book.text()
}

// Four moves of each agent in turn, with the pairs that they need.
pub fn shop_log(book: &[u8]) -> Vec<u8> {
    log_of(book, (0..64).map(|number| number % AGENTS).collect())
}
