// The builder of books: functions, nodes, agents and contents lines, whether sound or not, before they are text.

use crate::lines::{compact_lines, text_of};
use paper::Line;

/// The function line of Reserve.
pub const RESERVE: Line = [1, 3, 0, 0];

/// The lines of a book; the header follows from them.
#[derive(Debug, Clone, PartialEq, Eq)]
pub struct BookDraft {
    pub elements: u32,
    pub permanent: u32,
    pub functions: Vec<Line>,
    pub nodes: Vec<Line>,
    pub agents: Vec<Line>,
    pub contents: Vec<Line>,
}

impl BookDraft {
    /// A book with Reserve and these functions, as arity and kind, and nothing else yet.
    pub fn new(elements: u32, permanent: u32, functions: &[[u32; 2]]) -> BookDraft {
        let mut lines = vec![RESERVE];
        lines.extend(functions.iter().map(|&[arity, kind]| [arity, kind, 0, 0]));
        BookDraft {
            elements,
            permanent,
            functions: lines,
            nodes: Vec::new(),
            agents: Vec::new(),
            contents: Vec::new(),
        }
    }

    /// A book whose functions, nodes, agents and contents lines are given in compact form; function lines leave out Reserve.
    pub fn compact(
        elements: u32,
        permanent: u32,
        functions: &str,
        nodes: &str,
        agents: &str,
        contents: &str,
    ) -> BookDraft {
        let mut draft = BookDraft::new(elements, permanent, &[]);
        draft.functions.extend(compact_lines(functions));
        [draft.nodes, draft.agents, draft.contents] = [nodes, agents, contents].map(compact_lines);
        draft
    }

    pub fn lines(&self) -> Vec<Line> {
        let [f, n, a, c] =
            [&self.functions, &self.nodes, &self.agents, &self.contents].map(|part| part.len() as u32);
        let header = [[self.elements, self.permanent, f, n], [a, c, 0, 0]];
        [&header[..], &self.functions, &self.nodes, &self.agents, &self.contents].concat()
    }

    pub fn text(&self) -> Vec<u8> {
        text_of(&self.lines())
    }
}

/// Agents and contents lines.
impl BookDraft {
    pub fn agent(&mut self, root: u32, element: u32) {
        self.agents.push([root, element, 0, 0]);
    }

    /// Adds a contents line of a function of one argument or none behind the others.
    pub fn holds(&mut self, function: u32, argument: u32, value: u32) {
        self.contents.push([function, argument, 0, value]);
    }

    /// Puts a contents line behind those with lower locations.
    pub fn insert_contents(&mut self, line: Line) {
        let location = self.location(&line);
        let place = match location {
            Some(_) => self.contents.iter().position(|other| self.location(other) > location),
            None => None,
        };
        self.contents.insert(place.unwrap_or(self.contents.len()), line);
    }

    /// Whether a contents line gives a function at an element.
    pub fn is_given(&self, function: u32, element: u32) -> bool {
        self.contents.iter().any(|line| line[0] == function && line[1] == element)
    }

    /// How many contents lines give a function.
    pub fn lines_of(&self, function: u32) -> usize {
        self.contents.iter().filter(|line| line[0] == function).count()
    }

    /// The labels in Reserve.
    pub fn free_labels(&self) -> Vec<u32> {
        self.contents.iter().filter(|line| line[0] == 0).map(|line| line[1]).collect()
    }

    /// The other labels.
    pub fn used_labels(&self) -> Vec<u32> {
        let free = self.free_labels();
        (self.permanent..self.elements).filter(|label| !free.contains(label)).collect()
    }
}

/// Functions and their locations.
impl BookDraft {
    pub fn arity(&self, function: u32) -> u32 {
        self.functions[function as usize][0]
    }

    pub fn is_relation(&self, function: u32) -> bool {
        self.functions[function as usize][1] % 2 == 1
    }

    pub fn is_dynamic(&self, function: u32) -> bool {
        self.functions[function as usize][1] >= 2
    }

    /// The functions other than Reserve for which the test holds.
    pub fn functions_where(&self, test: impl Fn(&BookDraft, u32) -> bool) -> Vec<u32> {
        (1..self.functions.len() as u32).filter(|&function| test(self, function)).collect()
    }

    /// The unary relations that a forall or a choice may name, or that an import may add to.
    pub fn universes(&self, dynamic_only: bool) -> Vec<u32> {
        self.functions_where(|draft, function| {
            draft.arity(function) == 1
                && draft.is_relation(function)
                && (!dynamic_only || draft.is_dynamic(function))
        })
    }

    /// How many locations a function has.
    pub fn size(&self, function: u32) -> usize {
        (self.elements as usize).pow(self.arity(function))
    }

    /// The first location of a function.
    pub fn first(&self, function: u32) -> usize {
        (0..function).map(|before| self.size(before)).sum()
    }

    /// L.
    pub fn locations(&self) -> usize {
        self.first(self.functions.len() as u32)
    }

    /// The location that a contents line names, if its function is one of the book.
    pub fn location(&self, line: &Line) -> Option<usize> {
        let [function, first, second, _] = *line;
        self.functions.get(function as usize)?;
        let offset = match self.arity(function) {
            2 => first as usize * self.elements as usize + second as usize,
            _ => first as usize,
        };
        Some(self.first(function) + offset)
    }
}
