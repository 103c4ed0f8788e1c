// The checked book, and its checks 1, 3, 4 and 7 (5 is in node.rs, 6 in tree.rs, 8 in table.rs).

use crate::answer::Answer;
use crate::node::{read_nodes, Node};
use crate::table;
use crate::text::{self, Line};
use crate::tree;

pub const UNDEF: u16 = 0;
pub const FALSE: u16 = 1;
pub const TRUE: u16 = 2;

const MOST_ELEMENTS: u32 = 10_000;
const MOST_FUNCTIONS: u32 = 32;
const MOST_NODES: u32 = 1_024;
const MOST_AGENTS: u32 = 16;
const MOST_LOCATIONS: usize = 65_536;
const HEADER_LINES: usize = 2;

/// One function with its unbroken run of locations.
#[derive(Debug, Clone, Copy, PartialEq, Eq)]
pub struct Function {
    pub arity: u32,
    pub relation: bool,
    pub dynamic: bool,
    /// Its first location.
    pub first: usize,
    /// How many locations it has.
    pub len: usize,
}

impl Function {
    pub fn default_value(&self) -> u16 {
        if self.relation {
            FALSE
        } else {
            UNDEF
        }
    }

    /// Its locations.
    pub fn run(&self) -> std::ops::Range<usize> {
        self.first..self.first + self.len
    }
}

#[derive(Debug, Clone, Copy, PartialEq, Eq)]
pub struct Agent {
    pub root: usize,
    pub element: u16,
}

/// A book that passed all checks.
#[derive(Debug, Clone, PartialEq, Eq)]
pub struct Book {
    /// E; elements from `permanent` on are labels.
    pub elements: usize,
    /// P.
    pub permanent: usize,
    pub functions: Vec<Function>,
    pub nodes: Vec<Node>,
    pub agents: Vec<Agent>,
    /// The contents lines, as locations with values, ascending.
    pub start: Vec<(usize, u16)>,
    /// L.
    pub locations: usize,
}

impl Book {
    /// Whether an element of the book is a label.
    pub fn is_label(&self, element: u16) -> bool {
        element as usize >= self.permanent
    }
}

/// The fields of the two header lines, within bounds.
pub struct Header {
    elements: usize,
    permanent: usize,
    functions: usize,
    nodes: usize,
    agents: usize,
    contents: usize,
}

impl Header {
    /// 1 on both header lines, then 3 on their fields.
    pub fn read(book: &[u8]) -> Result<Header, Answer> {
        let ill_formed = |line| Answer::refused(1, line, 0);
        let [e, p, f, n] = text::line(book, 0).ok_or(ill_formed(0))?;
        let [a, c, unused6, unused7] = text::line(book, 1).ok_or(ill_formed(1))?;
        let bounds = [
            (e, 4, MOST_ELEMENTS),
            (p, 4, e),
            (f, 1, MOST_FUNCTIONS),
            (n, 1, MOST_NODES),
            (a, 1, MOST_AGENTS),
            (c, 0, MOST_LOCATIONS as u32),
            (unused6, 0, 0),
            (unused7, 0, 0),
        ];
        if let Some(field) = bounds.iter().position(|&(value, least, most)| value < least || value > most) {
            return Err(Answer::refused(3, field, 0));
        }
        let [elements, permanent, functions, nodes] = [e, p, f, n].map(|field| field as usize);
        Ok(Header { elements, permanent, functions, nodes, agents: a as usize, contents: c as usize })
    }

    /// How many lines the header calls for, its own two included.
    pub fn lines(&self) -> usize {
        HEADER_LINES + self.functions + self.nodes + self.agents + self.contents
    }
}

/// All checks of a book, in their order (SPECIFICATION 3 and 8).
pub fn check_book(book: &[u8]) -> Result<Book, Answer> {
    let header = Header::read(book)?;
    let lines = text::lines(book, header.lines()).map_err(|line| Answer::refused(1, line, 0))?;
    let (function_lines, rest) = lines[HEADER_LINES..].split_at(header.functions);
    let (node_lines, rest) = rest.split_at(header.nodes);
    let (agent_lines, contents_lines) = rest.split_at(header.agents);

    let functions = read_functions(function_lines, header.elements)?;
    let locations = functions.last().map_or(0, |last| last.first + last.len);
    if locations > MOST_LOCATIONS {
        return Err(Answer::refused(3, 8, 0));
    }
    let nodes = read_nodes(node_lines, &functions, header.permanent)?;
    tree::check(&nodes, agent_lines.iter().map(|line| line[0] as usize))?;
    let agents = read_agents(agent_lines, &nodes, header.permanent)?;
    let mut checked = Book {
        elements: header.elements,
        permanent: header.permanent,
        functions,
        nodes,
        agents,
        start: Vec::new(),
        locations,
    };
    checked.start = table::read_contents(&checked, contents_lines)
        .map_err(|line| Answer::refused(8, lines.len() - contents_lines.len() + line, 0))?;
    Ok(checked)
}

/// The answer of these checks alone.
pub fn book_answer(book: &[u8]) -> Answer {
    check_book(book).err().unwrap_or(Answer::ACCEPTED)
}

/// 4: arity, kind, unused fields, and what function 0 has to be.
fn read_functions(lines: &[Line], elements: usize) -> Result<Vec<Function>, Answer> {
    let mut functions = Vec::with_capacity(lines.len());
    let mut first = 0;
    for (number, &[arity, kind, unused2, unused3]) in lines.iter().enumerate() {
        let reserve = (arity, kind) == (1, 3);
        if arity > 2 || kind > 3 || (unused2, unused3) != (0, 0) || (number == 0 && !reserve) {
            return Err(Answer::refused(4, number, 0));
        }
        let len = elements.pow(arity);
        functions.push(Function { arity, relation: kind % 2 == 1, dynamic: kind >= 2, first, len });
        first += len;
    }
    Ok(functions)
}

/// 7: root, element and unused fields of each agent line.
fn read_agents(lines: &[Line], nodes: &[Node], permanent: usize) -> Result<Vec<Agent>, Answer> {
    let mut agents: Vec<Agent> = Vec::with_capacity(lines.len());
    for (number, &[root, element, unused2, unused3]) in lines.iter().enumerate() {
        let root = root as usize;
        let root_is_rule = nodes.get(root).is_some_and(Node::is_rule);
        let ascending = agents.last().is_none_or(|last| u32::from(last.element) < element);
        if !root_is_rule || element as usize >= permanent || !ascending || (unused2, unused3) != (0, 0) {
            return Err(Answer::refused(7, number, 0));
        }
        agents.push(Agent { root, element: element as u16 });
    }
    Ok(agents)
}
