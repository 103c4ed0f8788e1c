// The builder of books, its nodes: terms, rules, and trees of them.

use crate::book_draft::BookDraft;
use crate::lines::compact_lines;
use paper::Line;
use std::collections::VecDeque;

/// A term without operands, which can be written in several places.
#[derive(Debug, Clone, Copy, PartialEq, Eq)]
pub enum Leaf {
    Element(u32),
    Variable(u32),
    AgentElement,
    Nullary(u32),
}

/// Nodes: each adds one, or a few, and gives the number of the last.
impl BookDraft {
    /// A node of any line.
    pub fn add(&mut self, node: Line) -> u32 {
        self.nodes.push(node);
        self.nodes.len() as u32 - 1
    }

    pub fn leaf(&mut self, leaf: Leaf) -> u32 {
        self.add(match leaf {
            Leaf::Element(element) => [1, element, 0, 0],
            Leaf::Variable(variable) => [2, variable, 0, 0],
            Leaf::AgentElement => [3, 0, 0, 0],
            Leaf::Nullary(function) => [4, function, 0, 0],
        })
    }

    pub fn element(&mut self, element: u32) -> u32 {
        self.leaf(Leaf::Element(element))
    }

    pub fn variable(&mut self, variable: u32) -> u32 {
        self.leaf(Leaf::Variable(variable))
    }

    pub fn agent_element(&mut self) -> u32 {
        self.leaf(Leaf::AgentElement)
    }

    pub fn nullary(&mut self, function: u32) -> u32 {
        self.leaf(Leaf::Nullary(function))
    }

    pub fn unary(&mut self, function: u32, argument: u32) -> u32 {
        self.add([5, function, argument, 0])
    }

    pub fn binary(&mut self, function: u32, first: u32, second: u32) -> u32 {
        self.add([6, function, first, second])
    }

    /// A unary function of a leaf.
    pub fn unary_of(&mut self, function: u32, argument: Leaf) -> u32 {
        let argument = self.leaf(argument);
        self.unary(function, argument)
    }

    /// A unary function of a variable.
    pub fn at(&mut self, function: u32, variable: u32) -> u32 {
        self.unary_of(function, Leaf::Variable(variable))
    }

    /// A unary function of the agent's element.
    pub fn own(&mut self, function: u32) -> u32 {
        self.unary_of(function, Leaf::AgentElement)
    }

    pub fn equal(&mut self, a: u32, b: u32) -> u32 {
        self.add([7, a, b, 0])
    }

    pub fn not(&mut self, a: u32) -> u32 {
        self.add([8, a, 0, 0])
    }

    pub fn and(&mut self, a: u32, b: u32) -> u32 {
        self.add([9, a, b, 0])
    }

    pub fn or(&mut self, a: u32, b: u32) -> u32 {
        self.add([10, a, b, 0])
    }

    pub fn plus(&mut self, a: u32, b: u32) -> u32 {
        self.add([11, a, b, 0])
    }

    pub fn less(&mut self, a: u32, b: u32) -> u32 {
        self.add([13, a, b, 0])
    }

    /// One more than a term.
    pub fn next(&mut self, a: u32) -> u32 {
        let one = self.element(4);
        self.plus(a, one)
    }

    pub fn skip(&mut self) -> u32 {
        self.add([20, 0, 0, 0])
    }

    pub fn set(&mut self, location: u32, value: u32) -> u32 {
        self.add([21, location, value, 0])
    }

    /// Sets a location to a leaf.
    pub fn set_to(&mut self, location: u32, value: Leaf) -> u32 {
        let value = self.leaf(value);
        self.set(location, value)
    }

    pub fn both(&mut self, a: u32, b: u32) -> u32 {
        self.add([22, a, b, 0])
    }

    pub fn conditional(&mut self, guard: u32, then: u32, otherwise: u32) -> u32 {
        self.add([23, guard, then, otherwise])
    }

    /// If the guard is true then the rule, otherwise nothing.
    pub fn when(&mut self, guard: u32, then: u32) -> u32 {
        let skip = self.skip();
        self.conditional(guard, then, skip)
    }

    pub fn let_in(&mut self, variable: u32, value: u32, body: u32) -> u32 {
        self.add([24, variable, value, body])
    }

    pub fn for_all(&mut self, variable: u32, universe: u32, body: u32) -> u32 {
        self.add([25, variable, universe, body])
    }

    pub fn import(&mut self, variable: u32, universe: u32, body: u32) -> u32 {
        self.add([26, variable, universe, body])
    }

    pub fn release(&mut self, label: u32) -> u32 {
        self.add([27, label, 0, 0])
    }

    /// Releases a leaf.
    pub fn release_of(&mut self, label: Leaf) -> u32 {
        let label = self.leaf(label);
        self.release(label)
    }

    pub fn choose(&mut self, variable: u32, universe: u32, body: u32) -> u32 {
        self.add([28, variable, universe, body])
    }

    /// A nullary relation gets its other value: a move that changes something any number of times.
    pub fn toggle(&mut self, relation: u32) -> u32 {
        let old = self.nullary(relation);
        let new = self.not(old);
        let location = self.nullary(relation);
        self.set(location, new)
    }

    /// If a nullary function is undef, imports a label into a universe and to the function; otherwise releases the function's label.
    pub fn import_or_release(&mut self, universe: u32, function: u32) -> u32 {
        let guard = self.is_undef(function);
        let location = self.nullary(function);
        let set = self.set_to(location, Leaf::Variable(0));
        let import = self.import(0, universe, set);
        let release = self.release_of(Leaf::Nullary(function));
        self.conditional(guard, import, release)
    }

    /// Whether a nullary function is undef.
    pub fn is_undef(&mut self, function: u32) -> u32 {
        let (value, undef) = (self.nullary(function), self.element(0));
        self.equal(value, undef)
    }

    /// Many nodes joined two by two, so that the tree stays shallow.
    pub fn joined(&mut self, nodes: Vec<u32>, join: fn(&mut BookDraft, u32, u32) -> u32) -> u32 {
        let mut open = VecDeque::from(nodes);
        while open.len() > 1 {
            let (a, b) = (open.pop_front().expect("two"), open.pop_front().expect("two"));
            open.push_back(join(self, a, b));
        }
        open[0]
    }
}

/// Trees of nodes.
impl BookDraft {
    /// The depth of the tree under a node; a leaf has 1.
    pub fn depth(&self, node: u32) -> u32 {
        let line = self.nodes[node as usize];
        let operands = operand_fields(line[0]).iter().map(|&(field, _)| self.depth(line[field]));
        1 + operands.max().unwrap_or(0)
    }

    /// An agent whose rule is given in compact form, its nodes counted from 0 and the root last.
    pub fn agent_with(&mut self, element: u32, nodes: &str) {
        let root = self.append(&compact_lines(nodes));
        self.agent(root, element);
    }

    /// Adds nodes that count from 0 behind those that are there, and gives the number of the last.
    pub fn append(&mut self, nodes: &[Line]) -> u32 {
        let before = self.nodes.len() as u32;
        self.nodes.extend(nodes.iter().map(|&node| renumbered(node, before)));
        self.nodes.len() as u32 - 1
    }
}

/// The operand places of a node kind that hold nodes: (field, whether a rule stands there).
pub fn operand_fields(kind: u32) -> &'static [(usize, bool)] {
    match kind {
        5 => &[(2, false)],
        6 => &[(2, false), (3, false)],
        8 | 27 => &[(1, false)],
        7 | 9..=13 | 21 => &[(1, false), (2, false)],
        22 => &[(1, true), (2, true)],
        23 => &[(1, false), (2, true), (3, true)],
        24 => &[(2, false), (3, true)],
        25 | 26 | 28 => &[(3, true)],
        _ => &[],
    }
}

/// The nodes that a node has as operands.
pub fn operands(node: &Line) -> Vec<u32> {
    operand_fields(node[0]).iter().map(|&(field, _)| node[field]).collect()
}

/// A node whose operands have numbers that are so much greater.
fn renumbered(mut node: Line, more: u32) -> Line {
    operand_fields(node[0]).iter().for_each(|&(field, _)| node[field] += more);
    node
}

/// Whether a node binds a variable.
pub fn is_binder(node: &Line) -> bool {
    matches!(node[0], 24..=26 | 28)
}

pub fn is_rule(node: &Line) -> bool {
    node[0] >= 20
}
