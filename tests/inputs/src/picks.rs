// Picks for the choices of a move, sound or not; and how picks stand in the logs that were run.

use crate::rng::Rng;
use paper::*;
use std::collections::BTreeSet;

/// Whether a book has a choice.
pub fn has_choices(book: &Book) -> bool {
    book.nodes.iter().any(|node| matches!(node, Node::Choose { .. }))
}

/// The elements of a universe.
fn members(book: &Book, contents: &[u16], universe: usize) -> Vec<Pick> {
    let values = &contents[book.functions[universe].run()];
    (0..values.len()).filter(|&element| values[element] == TRUE).map(|element| element as Pick).collect()
}

/// The outcome of a walk with these picks.
fn walked(book: &Book, contents: &[u16], agent: usize, picks: &[Pick]) -> Result<(), Refusal> {
    walk_move(book, contents, agent, picks, &mut Marks::none(), &mut Vec::new())
}

/// Picks with which no choice of a move lacks one, each an element of its universe at random; fewer where a
/// universe is empty, and at most so many. The move is walked again with each pick more.
pub fn fitting_picks(rng: &mut Rng, book: &Book, contents: &[u16], agent: usize, most: usize) -> Vec<Pick> {
    let mut picks = Vec::new();
    while has_choices(book) && picks.len() < most {
        // All picks so far were taken, so a 19 is that of a choice.
        let Err(Refusal { number: 19, place }) = walked(book, contents, agent, &picks) else { break };
        let Node::Choose { universe, .. } = book.nodes[place] else { break };
        match rng.any(&members(book, contents, universe)) {
            Some(pick) => picks.push(pick),
            None => break,
        }
    }
    picks
}

/// One pick too few, one too many, or another one.
pub fn spoil_picks(rng: &mut Rng, elements: u32, picks: &mut Vec<Pick>) {
    let place = rng.index(picks.len() + 1);
    let element = Pick::from(rng.below(elements));
    match rng.weighted(&[22, 60, 18]) {
        0 if place < picks.len() => drop(picks.remove(place)),
        1 if place < picks.len() => picks[place] = element,
        _ => picks.insert(place, element),
    }
}

/// How picks stand in a log.
#[derive(Debug, Clone, Copy, PartialEq, Eq, PartialOrd, Ord)]
pub enum Picked {
    /// An accepted log with picks.
    Accepted,
    /// An accepted log with a pick from a static universe.
    Static,
    /// An accepted log with a choice that took several picks in one move, in turns of a forall.
    InTurns,
    /// An accepted log with picks of several choices in one move.
    Several,
    /// An accepted log with a pick of a choice inside another one.
    Nested,
    /// An accepted log with a pick under a guard, in a let, in an import.
    UnderGuard,
    InLet,
    InImport,
    /// 18.
    NotInUniverse,
    /// 19 of a choice without a pick.
    Lacking,
    /// 19 of a pick without a choice.
    LeftOver,
    /// 17 of two moves that touch only where a choice of one has looked at its universe.
    Touching,
}

impl Picked {
    pub const ALL: [Picked; 12] = [
        Picked::Accepted,
        Picked::Static,
        Picked::InTurns,
        Picked::Several,
        Picked::Nested,
        Picked::UnderGuard,
        Picked::InLet,
        Picked::InImport,
        Picked::NotInUniverse,
        Picked::Lacking,
        Picked::LeftOver,
        Picked::Touching,
    ];
}

/// What a log's run gave, with all that the classes are told from.
struct Ran {
    book: Book,
    log: Log,
    answer: Answer,
}

/// A move of a log: the contents before it, and the choice that takes each of its picks.
struct Taken {
    before: Vec<u16>,
    nodes: Vec<usize>,
}

impl Ran {
    /// The moves up to the one that was refused, or all.
    fn moves(&self) -> Vec<Taken> {
        let mut contents = start_table(&self.book);
        let mut moves = Vec::new();
        for (&agent, picks) in self.log.agents.iter().zip(&self.log.picks) {
            let nodes = takers(&self.book, &contents, agent, picks);
            moves.push(Taken { before: contents.clone(), nodes });
            if fire_move(&self.book, &mut contents, agent, picks, Marks::none(), &mut Vec::new()).is_err() {
                break;
            }
        }
        moves
    }

    fn ways_of_accepted(&self) -> Vec<Picked> {
        let mut ways = Vec::new();
        for (taken, &agent) in self.moves().iter().zip(&self.log.agents) {
            let nodes = &taken.nodes;
            let choices: BTreeSet<usize> = nodes.iter().copied().collect();
            let is_static = |&choose: &usize| !self.universe(choose).dynamic;
            let found = [
                (!nodes.is_empty(), Picked::Accepted),
                (nodes.iter().any(is_static), Picked::Static),
                (nodes.len() > choices.len(), Picked::InTurns),
                (choices.len() > 1, Picked::Several),
            ];
            ways.extend(found.into_iter().filter(|(holds, _)| *holds).map(|(_, way)| way));
            ways.extend(self.around(&choices, self.book.agents[agent].root));
        }
        ways
    }

    /// What stands around the choices of a rule.
    fn around<'a>(&'a self, choices: &'a BTreeSet<usize>, root: usize) -> impl Iterator<Item = Picked> + 'a {
        let way = |outer: usize| match self.book.nodes[outer] {
            Node::Choose { .. } => Some((outer, Picked::Nested)),
            Node::If { .. } => Some((outer, Picked::UnderGuard)),
            Node::Let { .. } => Some((outer, Picked::InLet)),
            Node::Import { .. } => Some((outer, Picked::InImport)),
            _ => None,
        };
        let has_choice = |&(outer, _): &(usize, Picked)| {
            under(&self.book, outer).iter().any(|inner| *inner != outer && choices.contains(inner))
        };
        under(&self.book, root).into_iter().filter_map(way).filter(has_choice).map(|(_, way)| way)
    }

    /// Of a 19, whether a choice lacked a pick: with one more it gets further, and a move with one left over does not.
    fn way_of_19(&self) -> Picked {
        let number = self.answer.p as usize;
        let moves = self.moves();
        let before = &moves[number].before;
        let root = self.book.agents[self.log.agents[number]].root;
        let more = [&self.log.picks[number][..], &[0]].concat();
        let left_over = Err(Refusal { number: 19, place: root });
        let same = walked(&self.book, before, self.log.agents[number], &more) == left_over;
        if same && self.answer.q as usize == root {
            Picked::LeftOver
        } else {
            Picked::Lacking
        }
    }

    fn universe(&self, choose: usize) -> Function {
        let Node::Choose { universe, .. } = self.book.nodes[choose] else { panic!("no choice takes a pick") };
        self.book.functions[universe]
    }

    /// Of a 17, whether each location where the two touch is written by one and only looked at by choices of the other.
    fn touches_by_choice(&self) -> bool {
        let moves = self.moves();
        let [first, second] = [self.answer.p as usize, self.answer.q as usize];
        let marks = [first, second].map(|number| {
            let (agent, picks) = (self.log.agents[number], &self.log.picks[number]);
            reads_and_writes(&self.book, &moves[number].before, agent, picks).expect("each move fires")
        });
        let [(reads, writes), (other_reads, other_writes)] = &marks;
        let both_write = writes.iter().any(|location| other_writes.contains(location));
        let looked = |number: usize, location: &usize| self.only_chosen(number, &moves[number], *location);
        let mut seen_first = reads.iter().filter(|location| other_writes.contains(location));
        let mut seen_second = other_reads.iter().filter(|location| writes.contains(location));
        !both_write
            && seen_first.all(|location| looked(first, location))
            && seen_second.all(|location| looked(second, location))
    }

    /// Whether a move reads a location by a choice, and has no term or forall over that universe and no release.
    fn only_chosen(&self, number: usize, taken: &Taken, location: usize) -> bool {
        let picks = &self.log.picks[number];
        let chosen = taken.nodes.iter().zip(picks);
        let mut locations = chosen.map(|(&node, &pick)| self.universe(node).first + pick as usize);
        let root = self.book.agents[self.log.agents[number]].root;
        let other_reader = |node: usize| match self.book.nodes[node] {
            Node::Unary { function, .. } | Node::ForAll { universe: function, .. } => {
                self.book.functions[function].run().contains(&location)
            }
            Node::Release(_) => true,
            _ => false,
        };
        locations.any(|chosen| chosen == location) && !under(&self.book, root).into_iter().any(other_reader)
    }
}

/// The choices that take the picks of a move, in their order: with fewer picks each of them lacks one.
fn takers(book: &Book, contents: &[u16], agent: usize, picks: &[Pick]) -> Vec<usize> {
    let mut nodes = Vec::new();
    for taken in 0..picks.len() {
        match walked(book, contents, agent, &picks[..taken]) {
            Err(Refusal { number: 19, place }) if matches!(book.nodes[place], Node::Choose { .. }) => {
                nodes.push(place);
            }
            _ => break,
        }
    }
    nodes
}

/// The nodes of the tree under a node, itself included.
pub fn under(book: &Book, node: usize) -> Vec<usize> {
    let mut nodes = vec![node];
    let mut next = 0;
    while next < nodes.len() {
        nodes.extend(book.nodes[nodes[next]].operands());
        next += 1;
    }
    nodes
}

/// How picks stand in a log whose run gave this answer, each way once.
pub fn picked_ways(book: &[u8], log: &[u8], answer: Answer) -> Vec<Picked> {
    if ![0, 17, 18, 19].contains(&answer.number) {
        return Vec::new();
    }
    let book = check_book(book).expect("the log was run");
    let log = check_log(&book, log).expect("the log was run");
    if [0, 17].contains(&answer.number) && log.picks.iter().all(Vec::is_empty) {
        return Vec::new();
    }
    let ran = Ran { book, log, answer };
    let mut ways = match answer.number {
        0 => ran.ways_of_accepted(),
        18 => vec![Picked::NotInUniverse],
        19 => vec![ran.way_of_19()],
        _ if ran.touches_by_choice() => vec![Picked::Touching],
        _ => Vec::new(),
    };
    ways.sort_unstable();
    ways.dedup();
    ways
}
