// Nodes of a book, and check 5 of their lines.

use crate::answer::Answer;
use crate::book::Function;
use crate::text::Line;

/// One node; operands are node numbers.
#[derive(Debug, Clone, Copy, PartialEq, Eq)]
pub enum Node {
    Element(u16),
    Variable(usize),
    AgentElement,
    Nullary { function: usize },
    Unary { function: usize, argument: usize },
    Binary { function: usize, first: usize, second: usize },
    Equal(usize, usize),
    Not(usize),
    And(usize, usize),
    Or(usize, usize),
    Plus(usize, usize),
    Minus(usize, usize),
    Less(usize, usize),
    Skip,
    Set { location: usize, value: usize },
    Both(usize, usize),
    If { guard: usize, then: usize, otherwise: usize },
    Let { variable: usize, value: usize, body: usize },
    ForAll { variable: usize, universe: usize, body: usize },
    Import { variable: usize, universe: usize, body: usize },
    Release(usize),
    Choose { variable: usize, universe: usize, body: usize },
}

impl Node {
    pub fn is_rule(&self) -> bool {
        use Node::*;
        matches!(
            self,
            Skip | Set { .. }
                | Both(..)
                | If { .. }
                | Let { .. }
                | ForAll { .. }
                | Import { .. }
                | Release(_)
                | Choose { .. }
        )
    }

    /// The variable it binds in its body, with that body.
    pub fn binding(&self) -> Option<(usize, usize)> {
        match *self {
            Node::Let { variable, body, .. }
            | Node::ForAll { variable, body, .. }
            | Node::Import { variable, body, .. }
            | Node::Choose { variable, body, .. } => Some((variable, body)),
            _ => None,
        }
    }

    /// The nodes in its operand places.
    pub fn operands(&self) -> impl Iterator<Item = usize> {
        use Node::*;
        let places = match *self {
            Element(_) | Variable(_) | AgentElement | Nullary { .. } | Skip => [None; 3],
            Unary { argument: a, .. } | Not(a) | Release(a) => [Some(a), None, None],
            ForAll { body, .. } | Import { body, .. } | Choose { body, .. } => [Some(body), None, None],
            Binary { first: a, second: b, .. } | Let { value: a, body: b, .. } => [Some(a), Some(b), None],
            Equal(a, b) | And(a, b) | Or(a, b) => [Some(a), Some(b), None],
            Plus(a, b) | Minus(a, b) | Less(a, b) => [Some(a), Some(b), None],
            Set { location: a, value: b } | Both(a, b) => [Some(a), Some(b), None],
            If { guard, then, otherwise } => [Some(guard), Some(then), Some(otherwise)],
        };
        places.into_iter().flatten()
    }
}

/// 5: kind, operands, functions and unused fields of each node line.
pub fn read_nodes(lines: &[Line], functions: &[Function], permanent: usize) -> Result<Vec<Node>, Answer> {
    let mut reader = NodeReader { functions, permanent, nodes: Vec::with_capacity(lines.len()) };
    for (number, &line) in lines.iter().enumerate() {
        let node = reader.node(line).ok_or(Answer::refused(5, number, 0))?;
        reader.nodes.push(node);
    }
    Ok(reader.nodes)
}

struct NodeReader<'a> {
    functions: &'a [Function],
    permanent: usize,
    /// The nodes before the one being read.
    nodes: Vec<Node>,
}

impl NodeReader<'_> {
    /// The node of one line, if the line is sound.
    fn node(&self, [kind, a, b, c]: Line) -> Option<Node> {
        let used = match kind {
            3 | 20 => 0,
            1 | 2 | 4 | 8 | 27 => 1,
            5 | 7 | 9..=13 | 21 | 22 => 2,
            _ => 3,
        };
        if [a, b, c][used..].iter().any(|&field| field != 0) {
            return None;
        }
        Some(match kind {
            1 => Node::Element(self.permanent(a)?),
            2 => Node::Variable(self.variable(a)?),
            3 => Node::AgentElement,
            4 => Node::Nullary { function: self.function(a, 0)? },
            5 => Node::Unary { function: self.function(a, 1)?, argument: self.term(b)? },
            6 => Node::Binary { function: self.function(a, 2)?, first: self.term(b)?, second: self.term(c)? },
            7 => Node::Equal(self.term(a)?, self.term(b)?),
            8 => Node::Not(self.term(a)?),
            9 => Node::And(self.term(a)?, self.term(b)?),
            10 => Node::Or(self.term(a)?, self.term(b)?),
            11 => Node::Plus(self.term(a)?, self.term(b)?),
            12 => Node::Minus(self.term(a)?, self.term(b)?),
            13 => Node::Less(self.term(a)?, self.term(b)?),
            20 => Node::Skip,
            21 => Node::Set { location: self.dynamic_location(a)?, value: self.term(b)? },
            22 => Node::Both(self.rule(a)?, self.rule(b)?),
            23 => Node::If { guard: self.term(a)?, then: self.rule(b)?, otherwise: self.rule(c)? },
            24 => Node::Let { variable: self.variable(a)?, value: self.term(b)?, body: self.rule(c)? },
            25 | 26 | 28 => self.over_universe(kind, a, b, c)?,
            27 => Node::Release(self.term(a)?),
            _ => return None,
        })
    }

    /// A binder of an element of a universe; imports add to theirs.
    fn over_universe(&self, kind: u32, a: u32, b: u32, c: u32) -> Option<Node> {
        let (variable, universe, body) = (self.variable(a)?, self.universe(b)?, self.rule(c)?);
        match kind {
            25 => Some(Node::ForAll { variable, universe, body }),
            26 if !self.functions[universe].dynamic => None,
            26 => Some(Node::Import { variable, universe, body }),
            _ => Some(Node::Choose { variable, universe, body }),
        }
    }

    fn permanent(&self, field: u32) -> Option<u16> {
        ((field as usize) < self.permanent).then_some(field as u16)
    }

    fn variable(&self, field: u32) -> Option<usize> {
        (field < 8).then_some(field as usize)
    }

    /// A function of this arity other than Reserve.
    fn function(&self, field: u32, arity: u32) -> Option<usize> {
        let number = field as usize;
        let function = self.functions.get(number)?;
        (number != 0 && function.arity == arity).then_some(number)
    }

    fn universe(&self, field: u32) -> Option<usize> {
        self.function(field, 1).filter(|&number| self.functions[number].relation)
    }

    fn term(&self, field: u32) -> Option<usize> {
        let number = field as usize;
        (!self.nodes.get(number)?.is_rule()).then_some(number)
    }

    fn rule(&self, field: u32) -> Option<usize> {
        let number = field as usize;
        self.nodes.get(number)?.is_rule().then_some(number)
    }

    fn dynamic_location(&self, field: u32) -> Option<usize> {
        let number = field as usize;
        match *self.nodes.get(number)? {
            Node::Nullary { function } | Node::Unary { function, .. } | Node::Binary { function, .. } => {
                self.functions[function].dynamic.then_some(number)
            }
            _ => None,
        }
    }
}
