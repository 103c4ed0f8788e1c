// The builder of logs: the agents of the moves, the pairs and the picks, before they are text.

use crate::lines::text_of;
use paper::{Line, Pick};

/// The agents of the moves, the pairs in any order, and the picks of each move, which are elements; moves past these have none.
#[derive(Debug, Clone, Default, PartialEq, Eq)]
pub struct LogDraft {
    pub agents: Vec<u32>,
    pub pairs: Vec<(u32, u32)>,
    pub picks: Vec<Vec<Pick>>,
}

impl LogDraft {
    /// A log of these agents' moves, all unordered and without picks.
    pub fn unordered(agents: Vec<u32>) -> LogDraft {
        LogDraft { agents, ..LogDraft::default() }
    }

    /// A log in which each move comes after the one before.
    pub fn in_sequence(agents: Vec<u32>) -> LogDraft {
        let pairs = successive_pairs(agents.len() as u32);
        LogDraft { pairs, ..LogDraft::unordered(agents) }
    }

    /// The lines of a log, each pair once and ascending.
    pub fn lines(&self) -> Vec<Line> {
        let mut pairs = self.pairs.clone();
        pairs.sort_unstable();
        pairs.dedup();
        let of_move = |(number, picks): (usize, &Vec<Pick>)| {
            picks.iter().map(|&pick| (number as u32, pick as u32)).collect::<Vec<_>>()
        };
        let choices: Vec<(u32, u32)> = self.picks.iter().enumerate().flat_map(of_move).collect();
        log_lines(&self.agents, &pairs, &choices)
    }

    /// How many choice lines it has.
    pub fn choices(&self) -> usize {
        self.picks.iter().map(Vec::len).sum()
    }

    pub fn text(&self) -> Vec<u8> {
        text_of(&self.lines())
    }
}

/// The lines of a log with these moves, pairs and choice lines, just as they are given.
pub fn log_lines(agents: &[u32], pairs: &[(u32, u32)], choices: &[(u32, u32)]) -> Vec<Line> {
    let [m, k, c] = [agents.len(), pairs.len(), choices.len()].map(|count| count as u32);
    let moves = agents.iter().map(|&agent| [agent, 0, 0, 0]);
    let twos = pairs.iter().chain(choices).map(|&(first, second)| [first, second, 0, 0]);
    [[m, k, c, 0]].into_iter().chain(moves).chain(twos).collect()
}

/// All pairs of so many moves, those of the lower later moves first.
pub fn all_pairs(moves: u32) -> impl Iterator<Item = (u32, u32)> {
    (1..moves).flat_map(|later| (0..later).map(move |earlier| (earlier, later)))
}

/// The pairs that put each move after the one before.
pub fn successive_pairs(moves: u32) -> Vec<(u32, u32)> {
    (1..moves).map(|later| (later - 1, later)).collect()
}
