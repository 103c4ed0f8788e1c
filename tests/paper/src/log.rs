// The log's checks: 1 and 9 on its lines, the order by chaining, 10; the picks of each move.

use crate::answer::Answer;
use crate::book::Book;
use crate::text::{self, Line};
use crate::walk::Pick;

const MOST_MOVES: u32 = 64;
const MOST_PAIRS: u32 = 2_016;

/// The most choice lines of a log.
pub const CHOICE_LINES: usize = 256;

/// A log that passed its checks.
#[derive(Debug, Clone, PartialEq, Eq)]
pub struct Log {
    /// The agent of each move.
    pub agents: Vec<usize>,
    /// The pairs as written: earlier, later.
    pub pairs: Vec<(usize, usize)>,
    /// For each move the set of moves before it by chaining.
    pub before: Vec<u64>,
    /// The picks of each move, as its choice lines have them.
    pub picks: Vec<Vec<Pick>>,
}

/// All checks of a log before its tables are looked at.
pub fn check_log(book: &Book, log: &[u8]) -> Result<Log, Answer> {
    let ill_formed = |line| Answer::refused(1, line, 1);
    let [m, k, c, unused3] = text::line(log, 0).ok_or(ill_formed(0))?;
    if m > MOST_MOVES || k > MOST_PAIRS || c > CHOICE_LINES as u32 || unused3 != 0 {
        return Err(Answer::refused(9, 0, 0));
    }
    let [m, k, c] = [m, k, c].map(|count| count as usize);
    let lines = text::lines(log, 1 + m + k + c).map_err(ill_formed)?;
    let (move_lines, rest) = lines[1..].split_at(m);
    let (pair_lines, choice_lines) = rest.split_at(k);
    let agents = read_moves(move_lines, book.agents.len())?;
    let pairs = read_pairs(pair_lines, m)?;
    let picks = read_choices(choice_lines, m, book.elements)
        .map_err(|line| Answer::refused(9, 1 + m + k + line, 0))?;
    let before = chain(&pairs, m);
    match unordered_agent(&agents, &before) {
        Some((first, second)) => Err(Answer::refused(10, first, second)),
        None => Ok(Log { agents, pairs, before, picks }),
    }
}

/// 9 on the move lines.
fn read_moves(lines: &[Line], agents: usize) -> Result<Vec<usize>, Answer> {
    let mut moves = Vec::with_capacity(lines.len());
    for (number, &[agent, unused1, unused2, unused3]) in lines.iter().enumerate() {
        if agent as usize >= agents || (unused1, unused2, unused3) != (0, 0, 0) {
            return Err(Answer::refused(9, 1 + number, 0));
        }
        moves.push(agent as usize);
    }
    Ok(moves)
}

/// 9 on the pair lines.
fn read_pairs(lines: &[Line], m: usize) -> Result<Vec<(usize, usize)>, Answer> {
    let mut pairs = Vec::with_capacity(lines.len());
    for (number, &[earlier, later, unused2, unused3]) in lines.iter().enumerate() {
        let pair = (earlier as usize, later as usize);
        let inside = pair.0 < pair.1 && pair.1 < m;
        let ascending = pairs.last().is_none_or(|last| *last < pair);
        if !inside || !ascending || (unused2, unused3) != (0, 0) {
            return Err(Answer::refused(9, 1 + m + number, 0));
        }
        pairs.push(pair);
    }
    Ok(pairs)
}

/// The picks of each move; otherwise the least choice line at fault, counted from 0.
fn read_choices(lines: &[Line], m: usize, elements: usize) -> Result<Vec<Vec<Pick>>, usize> {
    let mut picks = vec![Vec::new(); m];
    let mut least = 0;
    for (number, &[of_move, element, unused2, unused3]) in lines.iter().enumerate() {
        let of_move = of_move as usize;
        let inside = of_move < m && (element as usize) < elements;
        if !inside || of_move < least || (unused2, unused3) != (0, 0) {
            return Err(number);
        }
        picks[of_move].push(Pick::from(element));
        least = of_move;
    }
    Ok(picks)
}

/// For each move the moves before it. Pairs ascend by their earlier move, so what is before that
/// move is complete when it is passed on.
fn chain(pairs: &[(usize, usize)], m: usize) -> Vec<u64> {
    let mut before = vec![0; m];
    for &(earlier, later) in pairs {
        before[later] |= before[earlier] | 1 << earlier;
    }
    before
}

/// The least pair of moves of one agent that are not ordered.
fn unordered_agent(agents: &[usize], before: &[u64]) -> Option<(usize, usize)> {
    (0..agents.len()).find_map(|first| {
        let mut later = first + 1..agents.len();
        let unordered = |&second: &usize| agents[second] == agents[first] && before[second] >> first & 1 == 0;
        later.find(unordered).map(|second| (first, second))
    })
}
