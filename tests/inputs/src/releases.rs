// Releases: how they stand beside other moves in the logs that ran to their end, and the 17s that come from a label taken out alone.

use crate::fired::{fired_moves, is_release, listed_moves, Fired};
use crate::logs::needed_pairs;
use crate::picks::under;
use paper::*;

/// How a release stands in a log.
#[derive(Debug, Clone, Copy, PartialEq, Eq, PartialOrd, Ord)]
pub enum Released {
    /// In an accepted log, unordered with another move.
    Unordered,
    /// In an accepted log, unordered with a move that changes something.
    BesideChange,
    /// The same, where the other move changes a location with another label as argument.
    BesideLabel,
    /// The same, where it takes another label out of a location by an update.
    BesideTakenOut,
    /// The same, where it imports.
    BesideImport,
    /// The same, where it has instructions of a forall; its universe is static, since a release writes each dynamic one.
    BesideForAll,
    /// The same, where it releases another label.
    BesideRelease,
    /// The same, where it picks.
    BesidePick,
    /// 17 that would be accepted if a move did not read Reserve at a label that it takes out, where an update takes the label
    /// out for a permanent element.
    OutByUpdate,
    /// The same, where the update puts another label in its place.
    OutForLabel,
    /// The same, where a release clears the label away.
    OutByClearing,
}

impl Released {
    pub const ALL: [Released; 11] = [
        Released::Unordered,
        Released::BesideChange,
        Released::BesideLabel,
        Released::BesideTakenOut,
        Released::BesideImport,
        Released::BesideForAll,
        Released::BesideRelease,
        Released::BesidePick,
        Released::OutByUpdate,
        Released::OutForLabel,
        Released::OutByClearing,
    ];
}

/// Whether a book has a release.
pub fn has_releases(book: &Book) -> bool {
    book.nodes.iter().any(|node| matches!(node, Node::Release(_)))
}

/// A move that fired, with what it looked at and wrote.
struct Done {
    fired: Fired,
    /// What its walk looked at.
    looked: Vec<bool>,
    /// The locations that it gives a value, and those of them that a release clears; both ascending.
    written: Vec<usize>,
    cleared: Vec<usize>,
}

impl Done {
    fn new(book: &Book, agent: usize, picks: &[Pick], fired: Fired) -> Done {
        let mut readers = vec![0; book.locations];
        let mut marks = Marks { readers: &mut readers, writers: &mut [], bit: 1 };
        walk_move(book, &fired.before, agent, picks, &mut marks, &mut Vec::new()).expect("the move fired");
        let releases: Vec<Instruction> = fired.list.iter().copied().filter(is_release).collect();
        let locations = |list: &[Instruction]| {
            updates(book, &fired.before, list).into_iter().map(|(location, _)| location).collect::<Vec<_>>()
        };
        let (written, cleared) = (locations(&fired.list), locations(&releases));
        let looked = readers.into_iter().map(|mark| mark != 0).collect();
        Done { fired, looked, written, cleared }
    }

    /// The locations that it changes.
    fn changed(&self) -> impl Iterator<Item = usize> + '_ {
        self.written
            .iter()
            .copied()
            .filter(|&location| self.fired.before[location] != self.fired.after[location])
    }

    /// The locations that it takes a label out of.
    fn taken_out<'a>(&'a self, book: &'a Book) -> impl Iterator<Item = usize> + 'a {
        self.changed().filter(|&location| book.is_label(self.fired.before[location]))
    }
}

/// What these moves do one after the other, up to the first that is refused.
fn done_by<'a>(book: &Book, moves: impl Iterator<Item = (usize, &'a Vec<Pick>)> + Clone) -> Vec<Done> {
    let fired = fired_moves(book, moves.clone());
    moves.zip(fired).map(|((agent, picks), fired)| Done::new(book, agent, picks, fired)).collect()
}

/// The pairs of moves that have one agent, or touch if no move reads Reserve at a label that it takes out.
fn needed_by_other_reads(book: &Book, agents: &[usize], done: &[Done]) -> Vec<(u32, u32)> {
    let (mut readers, mut writers) = (vec![0; book.locations], vec![0; book.locations]);
    for (number, done) in done.iter().enumerate() {
        let looked = (0..book.locations).filter(|&location| done.looked[location]);
        looked.chain(done.cleared.iter().copied()).for_each(|location| readers[location] |= 1 << number);
        done.written.iter().for_each(|&location| writers[location] |= 1 << number);
    }
    let agents: Vec<u32> = agents.iter().map(|&agent| agent as u32).collect();
    needed_pairs(&agents, &readers, &writers)
}

/// The pairs that a log of these moves would need if no move read Reserve at a label that it takes out.
pub fn pairs_by_other_reads(book: &Book, agents: &[u32], picks: &[Vec<Pick>]) -> Vec<(u32, u32)> {
    let agents: Vec<usize> = agents.iter().map(|&agent| agent as usize).collect();
    let done = done_by(book, agents.iter().copied().zip(picks));
    needed_by_other_reads(book, &agents, &done)
}

/// A log that ran to its end, with what its moves did in the listed order.
struct Ran {
    book: Book,
    log: Log,
    done: Vec<Done>,
}

impl Ran {
    fn new(book: Book, log: &[u8]) -> Ran {
        let log = check_log(&book, log).expect("the log was run");
        let done = done_by(&book, listed_moves(&log));
        Ran { book, log, done }
    }

    fn unordered(&self, one: usize, other: usize) -> bool {
        one != other && self.log.before[one.max(other)] >> one.min(other) & 1 == 0
    }

    fn ways_of_accepted(&self) -> Vec<Released> {
        let moves = 0..self.done.len();
        let releases = moves.clone().filter(|&number| self.done[number].fired.releases());
        let beside = |release: usize| moves.clone().filter(move |&other| self.unordered(release, other));
        releases.flat_map(beside).flat_map(|other| self.ways_beside(other)).collect()
    }

    /// What a move does that is unordered with a release.
    fn ways_beside(&self, number: usize) -> Vec<Released> {
        let done = &self.done[number];
        let updated = |location: &usize| done.cleared.binary_search(location).is_err();
        let ways = [
            (true, Released::Unordered),
            (done.changed().next().is_some(), Released::BesideChange),
            (
                done.changed().filter(updated).any(|location| self.is_of_label(location)),
                Released::BesideLabel,
            ),
            (done.taken_out(&self.book).any(|location| updated(&location)), Released::BesideTakenOut),
            (done.fired.tally(&self.book).issued > 0, Released::BesideImport),
            (self.has_turns(number), Released::BesideForAll),
            (done.fired.releases(), Released::BesideRelease),
            (!self.log.picks[number].is_empty(), Released::BesidePick),
        ];
        ways.into_iter().filter(|(holds, _)| *holds).map(|(_, way)| way).collect()
    }

    /// Whether a location other than one of Reserve has a label as argument.
    fn is_of_label(&self, location: usize) -> bool {
        let functions = &self.book.functions;
        let function =
            functions.iter().rfind(|function| function.first <= location).expect("Reserve is first");
        let offset = location - function.first;
        let arguments = [offset / self.book.elements, offset % self.book.elements];
        let used = &arguments[2 - function.arity as usize..];
        function.first > 0 && used.iter().any(|&argument| self.book.is_label(argument as u16))
    }

    /// Whether a move has other instructions where the static universes of its foralls are empty.
    fn has_turns(&self, number: usize) -> bool {
        let (book, done) = (&self.book, &self.done[number]);
        let agent = self.log.agents[number];
        let mut contents = done.fired.before.clone();
        for node in under(book, book.agents[agent].root) {
            if let Node::ForAll { universe, .. } = book.nodes[node] {
                let function = book.functions[universe];
                if !function.dynamic {
                    contents[function.run()].fill(FALSE);
                }
            }
        }
        let mut list = Vec::new();
        let walk = walk_move(book, &contents, agent, &self.log.picks[number], &mut Marks::none(), &mut list);
        walk.is_err() || list != done.fired.list
    }

    /// Whether the log would be accepted if no move read Reserve at a label that it takes out.
    fn accepted_by_other_reads(&self) -> bool {
        let needed = needed_by_other_reads(&self.book, &self.log.agents, &self.done);
        needed.into_iter().all(|(first, second)| !self.unordered(first as usize, second as usize))
    }

    /// How a move takes a label out whose place in Reserve the other one writes.
    fn ways_out(&self, number: usize, other: usize) -> Vec<Released> {
        let (done, other) = (&self.done[number], &self.done[other]);
        let touching =
            |location: &usize| other.written.binary_search(&(done.fired.before[*location] as usize)).is_ok();
        let way = |location: usize| match () {
            _ if done.cleared.binary_search(&location).is_ok() => Released::OutByClearing,
            _ if self.book.is_label(done.fired.after[location]) => Released::OutForLabel,
            _ => Released::OutByUpdate,
        };
        done.taken_out(&self.book).filter(touching).map(way).collect()
    }
}

/// How releases stand in a log whose run gave this answer, each way once.
pub fn released_ways(book: &[u8], log: &[u8], answer: Answer) -> Vec<Released> {
    if ![0, 17].contains(&answer.number) {
        return Vec::new();
    }
    let book = check_book(book).expect("the log was run");
    if !has_releases(&book) {
        return Vec::new();
    }
    let ran = Ran::new(book, log);
    let [first, second] = [answer.p as usize, answer.q as usize];
    let mut ways = match answer.number {
        0 => ran.ways_of_accepted(),
        _ if ran.accepted_by_other_reads() => {
            [ran.ways_out(first, second), ran.ways_out(second, first)].concat()
        }
        _ => Vec::new(),
    };
    ways.sort_unstable();
    ways.dedup();
    ways
}
