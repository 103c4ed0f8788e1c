// Whole inputs of the entries: books, single moves, runs, and the standard input of `rental`.

use crate::book_draft::BookDraft;
use crate::books;
use crate::damage;
use crate::idle::changes;
use crate::log_draft::{all_pairs, LogDraft};
use crate::logs;
use crate::no_elements::{no_element, spoil_by_no_element};
use crate::nodes::Leaf;
use crate::picks::{fitting_picks, has_choices, spoil_picks};
use crate::rng::Rng;
use crate::tables;
use paper::{
    check_book, check_log, fault_in_table, run, start_table, step, Answer, Book, Outcome, Pick, INSTRUCTIONS,
    LINE_BYTES,
};

/// The most bytes that `rental` reads.
const MOST_BYTES: usize = 60_000;

/// The most picks that are looked for in a move.
const MOST_PICKS: usize = 40;

/// What the single-move entry is given.
#[derive(Debug, Clone, PartialEq, Eq)]
pub struct StepInput {
    pub book: Vec<u8>,
    pub contents: Vec<u16>,
    pub agent: usize,
    pub picks: Vec<Pick>,
    /// How many instruction records are lent.
    pub lent: usize,
}

/// What the run of a log is given; the tables hold any values.
#[derive(Debug, Clone, PartialEq, Eq)]
pub struct RunInput {
    pub book: Vec<u8>,
    pub log: Vec<u8>,
    pub contents: Vec<u16>,
    pub readers: Vec<u64>,
    pub writers: Vec<u64>,
    /// How many instruction records are lent.
    pub lent: usize,
}

impl StepInput {
    /// A move from the start of a sound book, with as many records lent as needed.
    pub fn from_start(book: Vec<u8>, agent: usize, picks: Vec<Pick>) -> StepInput {
        let contents = start_table(&check_book(&book).expect("a sound book"));
        StepInput { book, contents, agent, picks, lent: INSTRUCTIONS }
    }

    /// The answer of the independent implementation.
    pub fn answer(&self) -> Answer {
        step(&self.book, &mut self.contents.clone(), self.agent, &self.picks, self.lent)
    }
}

impl RunInput {
    /// The result of the independent implementation.
    pub fn outcome(&self) -> Outcome {
        let (mut contents, mut readers, mut writers) =
            (self.contents.clone(), self.readers.clone(), self.writers.clone());
        run(&self.book, &self.log, &mut contents, &mut readers, &mut writers, self.lent)
    }

    pub fn answer(&self) -> Answer {
        self.outcome().answer
    }
}

/// A book and a log; `rental` reads one after the other.
#[derive(Debug, Clone, PartialEq, Eq)]
pub struct BookAndLog {
    pub book: Vec<u8>,
    pub log: Vec<u8>,
}

/// Records lent for a book that is refused.
const RECORDS_IF_REFUSED: usize = 30;

impl BookAndLog {
    /// What `rental` reads.
    pub fn input(&self) -> Vec<u8> {
        [&self.book[..], &self.log].concat()
    }

    /// The run of the log on tables as long as the book needs, which hold some value.
    pub fn run(self) -> RunInput {
        let BookAndLog { book, log } = self;
        let records = check_book(&book).map_or(RECORDS_IF_REFUSED, |book| book.locations);
        let (contents, readers, writers) = (vec![7; records], vec![7; records], vec![7; records]);
        RunInput { book, log, contents, readers, writers, lent: INSTRUCTIONS }
    }

    /// The log's first move as a single move, or agent 0's where there is none.
    pub fn first_move(self) -> StepInput {
        let Ok(book) = check_book(&self.book) else {
            let (contents, picks) = (vec![1; RECORDS_IF_REFUSED], Vec::new());
            return StepInput { book: self.book, contents, agent: 0, picks, lent: INSTRUCTIONS };
        };
        let log = check_log(&book, &self.log).ok();
        let first = log.and_then(|log| Some((*log.agents.first()?, log.picks.first()?.clone())));
        let (agent, picks) = first.unwrap_or_default();
        StepInput::from_start(self.book, agent, picks)
    }
}

/// A book for the book check.
pub fn book_input(rng: &mut Rng) -> Vec<u8> {
    match rng.weighted(&[34, 60, 6]) {
        0 => books::sound(rng).text(),
        1 => damage::damaged(rng),
        _ => damage::garbage(rng),
    }
}

/// A sound book, as a draft, as text and as checked.
fn sound_book(rng: &mut Rng) -> (BookDraft, Vec<u8>, Book) {
    let draft = books::sound(rng);
    let text = draft.text();
    let book = check_book(&text).expect("drafts by `sound` are sound books");
    (draft, text, book)
}

/// A sound book as well, mostly one in which some agent's move from the start changes something.
fn changing_book(rng: &mut Rng) -> (BookDraft, Vec<u8>, Book) {
    let mut found = sound_book(rng);
    for _ in 0..3 {
        let book = &found.2;
        let start = start_table(book);
        let mut changes_something = |agent| {
            let picks = fitting_picks(rng, book, &start, agent, MOST_PICKS);
            changes(book, &start, agent, &picks) == Some(true)
        };
        if (0..book.agents.len()).any(&mut changes_something) {
            break;
        }
        found = sound_book(rng);
    }
    found
}

/// A book, a contents table, an agent and picks.
pub fn step_input(rng: &mut Rng) -> StepInput {
    if rng.below(100) == 0 {
        return many_picks(rng);
    }
    if rng.percent(22) {
        let book = damage::damaged(rng);
        let records = rng.below(200) as usize;
        let contents = any_values(rng, records);
        let picks = if rng.percent(40) { any_picks(rng) } else { Vec::new() };
        return StepInput { book, contents, agent: rng.index(3), picks, lent: some_lent(rng) };
    }
    let (draft, text, book) = sound_book(rng);
    let mut contents = match rng.weighted(&[90, 10]) {
        0 => tables::sound(rng, &draft, &book),
        _ => tables::damaged(rng, &draft, &book),
    };
    let agents = book.agents.len();
    let agent = if rng.percent(3) { rng.pick(&[agents, agents + 1, 1_000_000]) } else { rng.index(agents) };
    let picks = some_picks(rng, &book, &contents, agent);
    let records = some_length(rng, contents.len());
    let past = records.saturating_sub(contents.len());
    contents.truncate(records);
    contents.extend(any_values(rng, past));
    StepInput { book: text, contents, agent, picks, lent: some_lent(rng) }
}

/// A few numbers that may be elements or not.
fn any_picks(rng: &mut Rng) -> Vec<Pick> {
    let most = rng.pick(&[9, 30, 65_536, Pick::MAX]);
    (0..rng.range(1, 5)).map(|_| rng.draw() % most).collect()
}

/// Picks for an agent, if there is such a one: those that fit, mostly; or with one that is none of the book's elements.
fn some_picks(rng: &mut Rng, book: &Book, contents: &[u16], agent: usize) -> Vec<Pick> {
    let elements = book.elements as u32;
    if agent >= book.agents.len() || fault_in_table(book, contents).is_some() {
        // What comes before the move is asked for: the picks are elements, or not.
        return match rng.weighted(&[50, 40, 10]) {
            0 => Vec::new(),
            1 => (0..rng.range(1, 3)).map(|_| Pick::from(rng.below(elements))).collect(),
            _ => any_picks(rng),
        };
    }
    let mut picks = fitting_picks(rng, book, contents, agent, MOST_PICKS);
    if rng.percent(if has_choices(book) { 30 } else { 5 }) {
        spoil_picks(rng, elements, &mut picks);
    }
    if rng.percent(if picks.is_empty() { 1 } else { 9 }) {
        spoil_by_no_element(rng, elements, &mut picks);
    }
    picks
}

/// More picks than a log has room for: two foralls with a choice in each turn; as many picks as
/// turns, one fewer, one more, or one that is no element.
fn many_picks(rng: &mut Rng) -> StepInput {
    let members = rng.range(16, 24);
    let mut draft = BookDraft::new(members + 4, members + 2, &[[1, rng.pick(&[1, 3])]]);
    let skip = draft.skip();
    let choice = draft.choose(2, 1, skip);
    let inner = draft.for_all(1, 1, choice);
    let root = draft.for_all(0, 1, inner);
    draft.agent(root, 3);
    (0..members).for_each(|element| draft.holds(1, element, 2));
    let turns = members * members;
    let mut picks: Vec<Pick> = (0..turns).map(|_| Pick::from(rng.below(members))).collect();
    let place = rng.index(picks.len());
    match rng.below(6) {
        0 => drop(picks.pop()),
        1 => picks.push(Pick::from(rng.below(members))),
        2 => picks[place] = Pick::from(members + rng.below(2)),
        3 => picks[place] = no_element(rng, draft.elements, picks[place]),
        _ => {}
    }
    StepInput { lent: some_lent(rng), ..StepInput::from_start(draft.text(), 0, picks) }
}

/// A book, a log and lent tables.
pub fn run_input(rng: &mut Rng) -> RunInput {
    let (book, log, locations) = book_and_log(rng);
    let lengths = [0; 3].map(|_| some_length(rng, locations));
    RunInput {
        book,
        log,
        contents: any_values(rng, lengths[0]),
        readers: any_marks(rng, lengths[1]),
        writers: any_marks(rng, lengths[2]),
        lent: some_lent(rng),
    }
}

/// A book and a log, each sound or not, with the locations of the book.
fn book_and_log(rng: &mut Rng) -> (Vec<u8>, Vec<u8>, usize) {
    if rng.below(300) == 0 {
        return full_choices(rng);
    }
    let (draft, text, book) = changing_book(rng);
    let log = if rng.percent(12) { logs::damaged(rng, &book) } else { logs::sound(rng, &book).text() };
    let text = if rng.percent(12) { damage::damaged(rng) } else { text };
    (text, log, draft.locations())
}

/// A log of 64 moves with as many choice lines as there may be, one fewer or one more: for all x of four members choose y and
/// do f(me) := y, by some agents in turn.
fn full_choices(rng: &mut Rng) -> (Vec<u8>, Vec<u8>, usize) {
    let agents = rng.range(1, 8);
    let mut draft = BookDraft::new(12, 10, &[[1, 1], [1, rng.pick(&[1, 3])], [1, 2]]);
    let location = draft.own(3);
    let set = draft.set_to(location, Leaf::Variable(1));
    let choice = draft.choose(1, 2, set);
    let root = draft.for_all(0, 1, choice);
    (0..agents).for_each(|agent| draft.agent(root, 1 + agent));
    (0..4).for_each(|element| draft.holds(1, element, 2));
    [7, 8].into_iter().for_each(|element| draft.holds(2, element, 2));
    // All picks of a move are alike, as the last one would clash with another.
    let mut picks: Vec<Vec<Pick>> = (0..64).map(|_| vec![rng.pick(&[7, 8]); 4]).collect();
    let place = rng.index(64);
    match rng.below(5) {
        0 => drop(picks[place].pop()),
        1 => picks[place].push(7),
        _ => {}
    }
    let pairs = (agents..64).map(|later| (later - agents, later)).collect();
    let log = LogDraft { agents: (0..64).map(|number| number % agents).collect(), pairs, picks };
    (draft.text(), log.text(), draft.locations())
}

/// How long a lent table is: as needed, longer, or rarely short.
fn some_length(rng: &mut Rng, needed: usize) -> usize {
    match rng.weighted(&[60, 38, 2]) {
        0 => needed,
        1 => needed + rng.range(1, 20) as usize,
        _ => needed - 1 - rng.pick(&[0, 0, needed / 2, needed - 1]),
    }
}

fn some_lent(rng: &mut Rng) -> usize {
    if rng.percent(98) {
        INSTRUCTIONS + rng.pick(&[0, 0, 1, 744])
    } else {
        rng.pick(&[0, 100, INSTRUCTIONS - 1])
    }
}

fn any_values(rng: &mut Rng, length: usize) -> Vec<u16> {
    (0..length).map(|_| rng.draw() as u16).collect()
}

fn any_marks(rng: &mut Rng, length: usize) -> Vec<u64> {
    (0..length).map(|_| rng.draw()).collect()
}

/// The standard input of `rental`: a book and then a log.
pub fn report_input(rng: &mut Rng) -> Vec<u8> {
    match rng.below(200) {
        0 => return full_input(rng),
        1 => return many_locations(rng),
        _ => {}
    }
    let (book, log, _) = book_and_log(rng);
    let mut input = [book, log].concat();
    match rng.below(100) {
        0 => input.resize(MOST_BYTES + rng.range(1, 50) as usize, b' '),
        1 => input.resize(MOST_BYTES, b' '),
        2..=9 => damage::spoil_text(rng, &mut input),
        10 => {
            let length = rng.index(input.len() + 1);
            input.truncate(length);
        }
        _ => {}
    }
    input
}

/// An accepted input of 60,000 bytes to the last line, or one byte or line more: agents that change what is at their own elements, a full log
/// with all pairs, and contents lines that fill the rest.
fn full_input(rng: &mut Rng) -> Vec<u8> {
    let agents = rng.range(1, 16);
    let moves = 64;
    let log = LogDraft {
        agents: (0..moves).map(|_| rng.below(agents)).collect(),
        pairs: all_pairs(moves).collect(),
        picks: Vec::new(),
    }
    .text();
    let rest = MOST_BYTES / LINE_BYTES - log.len() / LINE_BYTES;
    let mut draft = BookDraft::new(400, 400, &[[1, 3], [1, 2]]);
    let old = draft.own(1);
    let new = draft.not(old);
    let location = draft.own(1);
    let root = draft.set(location, new);
    (0..agents).for_each(|agent| draft.agent(root, agent * 2));
    let contents = rest - draft.lines().len();
    (0..contents as u32).for_each(|element| draft.holds(2, element, rng.range(1, 399)));
    let mut input = [draft.text(), log].concat();
    match rng.below(4) {
        0 => input.push(b' '),
        1 => input.extend_from_slice(b"     0     0     0     0\n"),
        _ => {}
    }
    input
}

/// A book with about as many locations as `rental` has records, or many more.
fn many_locations(rng: &mut Rng) -> Vec<u8> {
    let elements = rng.pick(&[512, 512, 682, 683, 2_048, 2_049, 10_000]);
    let unary = rng.range(0, 3) as usize;
    let functions = [vec![[1, 2]; unary], vec![[0, 3]]].concat();
    let mut draft = BookDraft::new(elements, 10, &functions);
    draft.functions.truncate(rng.range(1, draft.functions.len() as u32) as usize);
    let skip = draft.skip();
    draft.agent(skip, 3);
    let moves = rng.below(3);
    [draft.text(), LogDraft::unordered(vec![0; moves as usize]).text()].concat()
}
