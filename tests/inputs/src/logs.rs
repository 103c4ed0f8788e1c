// Logs: guided ones whose moves fire and whose pairs fit, loose ones, damaged ones.

use crate::damage::spoil_text;
use crate::idle::changes;
use crate::lines::{one_more, text_of};
use crate::log_draft::{all_pairs, successive_pairs, LogDraft};
use crate::picks::{fitting_picks, has_choices, spoil_picks};
use crate::releases::{has_releases, pairs_by_other_reads};
use crate::rng::Rng;
use paper::{fire_move, start_table, Book, Line, Marks, Pick, CHOICE_LINES};

const MOST_MOVES: usize = 64;

/// The most picks of one move of a random log.
const MOST_PICKS: usize = 40;

/// How many moves a log has: mostly a few.
fn some_moves(rng: &mut Rng) -> usize {
    let (least, most) =
        [(0, 0), (1, 1), (2, 6), (7, 20), (21, 63), (64, 64)][rng.weighted(&[2, 8, 52, 30, 6, 2])];
    rng.range(least, most) as usize
}

/// A log that keeps its lines and counts, with moves that fire or not.
pub fn sound(rng: &mut Rng, book: &Book) -> LogDraft {
    let mut log = match rng.weighted(&[75, 25]) {
        0 => guided(rng, book),
        _ => loose(rng, book),
    };
    let fault = if has_choices(book) { 26 } else { 3 };
    if !log.agents.is_empty() && rng.percent(fault) {
        spoil_choices(rng, book, &mut log);
    }
    log
}

/// A pick too few, too many or wrong; or one that another move gets.
fn spoil_choices(rng: &mut Rng, book: &Book, log: &mut LogDraft) {
    let any_move = rng.index(log.agents.len());
    let picking: Vec<usize> = (0..log.picks.len()).filter(|&number| !log.picks[number].is_empty()).collect();
    match (rng.below(8), rng.any(&picking)) {
        (0, Some(number)) => {
            let pick = log.picks[number].remove(0);
            log.picks[any_move].push(pick);
        }
        (1, Some(number)) => log.picks[any_move] = log.picks[number].clone(),
        (2, Some(number)) => log.picks[number].clear(),
        (3..=6, Some(number)) => spoil_picks(rng, book.elements as u32, &mut log.picks[number]),
        _ => log.picks[any_move].push(Pick::from(rng.below(book.elements as u32))),
    }
}

/// Moves of any agents and pairs of any density; often each agent's own moves are ordered.
fn loose(rng: &mut Rng, book: &Book) -> LogDraft {
    let moves = some_moves(rng);
    let agents: Vec<u32> = (0..moves).map(|_| rng.below(book.agents.len() as u32)).collect();
    let share = rng.pick(&[0, 5, 20, 50, 100]);
    let mut pairs = any_pairs(rng, moves, share);
    match rng.below(5) {
        0 | 1 => pairs.extend(successive_pairs(moves as u32)),
        2 | 3 => {
            let own = any_pairs(rng, moves, 100);
            pairs.extend(own.iter().filter(|pair| agents[pair.0 as usize] == agents[pair.1 as usize]));
        }
        _ => {}
    }
    let picks = picks_as_listed(rng, book, &agents);
    LogDraft { agents, pairs, picks }
}

/// Picks that fit each move as the log lists it, as many as a log has room for; a refused move changes nothing.
fn picks_as_listed(rng: &mut Rng, book: &Book, agents: &[u32]) -> Vec<Vec<Pick>> {
    let mut contents = start_table(book);
    let mut room = CHOICE_LINES;
    let fitting = |&agent: &u32| {
        let picks = fitting_picks(rng, book, &contents, agent as usize, room.min(MOST_PICKS));
        room -= picks.len();
        let _ = fire_move(book, &mut contents, agent as usize, &picks, Marks::none(), &mut Vec::new());
        picks
    };
    if has_choices(book) {
        agents.iter().map(fitting).collect()
    } else {
        vec![Vec::new(); agents.len()]
    }
}

fn any_pairs(rng: &mut Rng, moves: usize, share: u32) -> Vec<(u32, u32)> {
    all_pairs(moves as u32).filter(|_| rng.percent(share)).collect()
}

/// Moves that were tried with fitting picks and fire, the last one perhaps not, and pairs chosen by what they touch; some logs lack just those
/// for the labels that moves take out.
pub fn guided(rng: &mut Rng, book: &Book) -> LogDraft {
    let wanted = some_moves(rng);
    let mut contents = start_table(book);
    let (mut readers, mut writers) = (vec![0; book.locations], vec![0; book.locations]);
    let mut list = Vec::new();
    let mut log = LogDraft::default();
    let refused_at_last = rng.percent(25);
    // Moves that change nothing come as they do, are fewer, or are left out.
    let left_out = rng.pick(&[0, 60, 100]);
    for attempt in 1..=3 * wanted {
        let agent = rng.below(book.agents.len() as u32);
        let room = (CHOICE_LINES - log.choices()).min(MOST_PICKS);
        let picks = fitting_picks(rng, book, &contents, agent as usize, room);
        let last_chance = attempt == 3 * wanted && log.agents.is_empty();
        let idle = || changes(book, &contents, agent as usize, &picks) == Some(false);
        if !last_chance && rng.percent(left_out) && idle() {
            continue;
        }
        let marks = Marks { readers: &mut readers, writers: &mut writers, bit: 1 << log.agents.len() };
        let fired = fire_move(book, &mut contents, agent as usize, &picks, marks, &mut list).is_ok();
        if fired || refused_at_last || last_chance {
            log.agents.push(agent);
            log.picks.push(picks);
        }
        if log.agents.len() == wanted || (!fired && refused_at_last) {
            break;
        }
    }
    let needed = needed_pairs(&log.agents, &readers, &writers);
    let fewer = has_releases(book).then(|| pairs_by_other_reads(book, &log.agents, &log.picks));
    log.pairs = match fewer {
        Some(fewer) if fewer.len() < needed.len() && rng.percent(60) => reduced(&fewer),
        _ => choose_pairs(rng, needed, &log.agents),
    };
    log
}

/// The pairs of moves that touch or have one agent.
pub fn needed_pairs(agents: &[u32], readers: &[u64], writers: &[u64]) -> Vec<(u32, u32)> {
    let mut touched = [0u64; MOST_MOVES];
    for (&read, &written) in readers.iter().zip(writers).filter(|(_, &written)| written != 0) {
        for (number, touched) in touched.iter_mut().enumerate().take(agents.len()) {
            if written >> number & 1 == 1 {
                *touched |= read | written;
            } else if read >> number & 1 == 1 {
                *touched |= written;
            }
        }
    }
    let later = |first: usize| (first + 1..agents.len()).map(move |second| (first, second));
    (0..agents.len())
        .flat_map(later)
        .filter(|&(first, second)| touched[first] >> second & 1 == 1 || agents[first] == agents[second])
        .map(|(first, second)| (first as u32, second as u32))
        .collect()
}

/// The least pairs with which a log of such moves is accepted.
pub fn fitting_pairs(agents: &[u32], readers: &[u64], writers: &[u64]) -> Vec<(u32, u32)> {
    reduced(&needed_pairs(agents, readers, writers))
}

/// The needed pairs, without those that follow, with more, or with some left out.
fn choose_pairs(rng: &mut Rng, needed: Vec<(u32, u32)>, agents: &[u32]) -> Vec<(u32, u32)> {
    match rng.weighted(&[12, 30, 10, 12, 12, 18, 3, 3]) {
        0 => needed,
        1 => reduced(&needed),
        2 => {
            let more = any_pairs(rng, agents.len(), 10);
            [needed, more].concat()
        }
        3 => successive_pairs(agents.len() as u32),
        4 => without_one(rng, reduced(&needed)),
        5 => {
            // Moves of one agent stay ordered, so that the pair left out is missed for touching.
            let one_agent = |&(a, b): &(u32, u32)| agents[a as usize] == agents[b as usize];
            let (own, others): (Vec<_>, Vec<_>) = reduced(&needed).into_iter().partition(one_agent);
            [own, without_one(rng, others), needed.into_iter().filter(one_agent).collect()].concat()
        }
        6 => any_pairs(rng, agents.len(), 100),
        _ => Vec::new(),
    }
}

fn without_one(rng: &mut Rng, mut pairs: Vec<(u32, u32)>) -> Vec<(u32, u32)> {
    if !pairs.is_empty() {
        let place = rng.index(pairs.len());
        pairs.remove(place);
    }
    pairs
}

/// The pairs that do not follow from the others by chaining.
fn reduced(pairs: &[(u32, u32)]) -> Vec<(u32, u32)> {
    let mut before = [0u64; MOST_MOVES];
    let mut kept = Vec::new();
    let mut by_later = pairs.to_vec();
    // The latest earlier moves first: what they chain to is known when the others are looked at.
    by_later.sort_unstable_by_key(|&(earlier, later)| (later, std::cmp::Reverse(earlier)));
    for (earlier, later) in by_later {
        let (first, second) = (earlier as usize, later as usize);
        if before[second] >> first & 1 == 0 {
            kept.push((earlier, later));
            before[second] |= before[first] | 1 << first;
        }
    }
    kept
}

/// A log of a book with faults in its lines, in its text or in both.
pub fn damaged(rng: &mut Rng, book: &Book) -> Vec<u8> {
    let log = sound(rng, book);
    let mut lines = log.lines();
    let (in_lines, in_text) = [(1, false), (2, false), (1, true), (0, true)][rng.weighted(&[60, 10, 5, 25])];
    for _ in 0..in_lines {
        if rng.percent(if log.choices() > 0 { 45 } else { 10 }) {
            spoil_choice_line(rng, &mut lines, &log, book.elements as u32);
        } else {
            spoil_line(rng, &mut lines, &log, book.agents.len() as u32);
        }
    }
    let mut text = text_of(&lines);
    if in_text {
        spoil_text(rng, &mut text);
    }
    text
}

/// One field past its bound, one out of order, or a count that does not fit.
fn spoil_line(rng: &mut Rng, lines: &mut Vec<Line>, log: &LogDraft, agents: u32) {
    let moves = log.agents.len().min(lines.len() - 1);
    let pairs = (lines.len() - 1 - moves).saturating_sub(log.choices());
    let any_move = 1 + rng.index(moves.max(1));
    let any_pair = 1 + moves + rng.index(pairs.max(1));
    match rng.below(10) {
        0 => lines[0][0] = rng.pick(&[65, 66, 999_999]),
        1 => lines[0][1] = rng.pick(&[2_017, 2_018, 999_999]),
        2 => lines[0][3] = rng.pick(&[1, 999_999]),
        3 => {
            let field = rng.index(2);
            lines[0][field] = rng.pick(&[one_more(lines[0][field]), lines[0][field].saturating_sub(1)]);
        }
        4 if moves > 0 => lines[any_move][0] = rng.pick(&[agents, agents + 1, 999_999]),
        5 if moves > 0 => lines[any_move][rng.range(1, 3) as usize] = rng.pick(&[1, 999_999]),
        6 if pairs > 0 => lines[any_pair][rng.range(2, 3) as usize] = rng.pick(&[1, 999_999]),
        7 if pairs > 0 => {
            let [earlier, later, ..] = lines[any_pair];
            let pair =
                rng.pick(&[[later, earlier], [later, later], [earlier, moves as u32], [moves as u32, 0]]);
            lines[any_pair][..2].copy_from_slice(&pair);
        }
        8 if pairs > 1 => lines.swap(any_pair, moves + pairs),
        _ if pairs > 0 => {
            lines.insert(any_pair, lines[any_pair]);
            lines[0][1] = one_more(lines[0][1]);
        }
        _ => lines.push([0, 1, 0, 0]),
    }
}

/// A fault of a choice line, or of their count.
fn spoil_choice_line(rng: &mut Rng, lines: &mut Vec<Line>, log: &LogDraft, elements: u32) {
    let moves = log.agents.len() as u32;
    let choices = log.choices().min(lines.len() - 1);
    let line = lines.len() - 1 - rng.index(choices.max(1));
    match rng.below(8) {
        0 if choices > 0 => lines[line][0] = rng.pick(&[moves, moves + 1, 64, 999_999]),
        1 if choices > 0 => {
            let wrapped = 65_536 + lines[line][1];
            lines[line][1] = rng.pick(&[elements, elements + 1, wrapped, 999_999]);
        }
        2 if choices > 1 => {
            let last = lines.len() - 1;
            lines.swap(last + 1 - choices, last);
        }
        3 | 4 if choices > 0 => lines[line][rng.range(2, 3) as usize] = rng.pick(&[1, 999_999]),
        5 => lines[0][2] = rng.pick(&[257, 258, 999_999]),
        6 => lines[0][2] = rng.pick(&[one_more(lines[0][2]), lines[0][2].saturating_sub(1)]),
        _ => {
            // One more, for a move or an element that there may be.
            lines.push([rng.below(moves + 1), rng.below(elements + 2), 0, 0]);
            lines[0][2] = one_more(lines[0][2]);
        }
    }
}
