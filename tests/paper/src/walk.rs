// The walk of a move: terms, rules, picks, the instruction list and the reads; refusals 11 to 14, 18 and 19.

use crate::answer::Refusal;
use crate::book::{Book, FALSE, TRUE, UNDEF};
use crate::node::Node;

/// How many instructions a move may give.
pub const INSTRUCTIONS: usize = 256;

/// What a choice is given: an element's number in 64 bits. Any other number of 64 bits is no element.
pub type Pick = u64;

/// The element of number 0.
const ZERO: u16 = 3;

#[derive(Debug, Clone, Copy, PartialEq, Eq)]
pub enum Instruction {
    Update { location: usize, value: u16 },
    Release { label: u16 },
}

/// The marks of all locations, for one move of a log. Both slices are empty where none are kept.
pub struct Marks<'a> {
    pub readers: &'a mut [u64],
    pub writers: &'a mut [u64],
    /// The bit of the move.
    pub bit: u64,
}

impl Marks<'_> {
    pub fn none() -> Marks<'static> {
        Marks { readers: &mut [], writers: &mut [], bit: 0 }
    }

    pub fn read(&mut self, location: usize) {
        if let Some(mark) = self.readers.get_mut(location) {
            *mark |= self.bit;
        }
    }

    pub fn written(&mut self, location: usize) {
        if let Some(mark) = self.writers.get_mut(location) {
            *mark |= self.bit;
        }
    }

    pub fn read_all(&mut self, locations: std::ops::Range<usize>) {
        if let Some(marks) = self.readers.get_mut(locations) {
            marks.iter_mut().for_each(|mark| *mark |= self.bit);
        }
    }

    /// Takes the move's reads back.
    pub fn forget_reads(&mut self) {
        self.readers.iter_mut().for_each(|mark| *mark &= !self.bit);
    }
}

/// Walks an agent's rule in these contents with these picks, which are elements: fills the instruction
/// list and marks what the walk reads; firing marks more reads. When refused, the list holds the
/// instructions before the refusal and some reads are marked.
pub fn walk_move(
    book: &Book,
    contents: &[u16],
    agent: usize,
    picks: &[Pick],
    marks: &mut Marks,
    list: &mut Vec<Instruction>,
) -> Result<(), Refusal> {
    let agent = book.agents[agent];
    list.clear();
    let mut walk = Walk {
        book,
        contents,
        element: agent.element,
        variables: [UNDEF; 8],
        unseen: book.permanent,
        picks,
        marks,
        list,
    };
    walk.rule(agent.root)?;
    if !walk.picks.is_empty() {
        return Err(Refusal { number: 19, place: agent.root });
    }
    Ok(())
}

struct Walk<'a, 'm> {
    book: &'a Book,
    /// The contents before the move.
    contents: &'a [u16],
    /// The agent's element.
    element: u16,
    /// No binder rebinds, so one value for each variable is enough.
    variables: [u16; 8],
    /// The least label that no import of this move has looked at.
    unseen: usize,
    /// The move's picks that no choice has taken yet.
    picks: &'a [Pick],
    marks: &'a mut Marks<'m>,
    list: &'a mut Vec<Instruction>,
}

impl Walk<'_, '_> {
    fn rule(&mut self, node: usize) -> Result<(), Refusal> {
        match self.book.nodes[node] {
            Node::Skip => Ok(()),
            Node::Set { location, value } => self.set(node, location, value),
            Node::Both(first, second) => {
                self.rule(first)?;
                self.rule(second)
            }
            Node::If { guard, then, otherwise } => {
                let holds = self.term(guard) == TRUE;
                self.rule(if holds { then } else { otherwise })
            }
            Node::Let { variable, value, body } => {
                self.variables[variable] = self.term(value);
                self.rule(body)
            }
            Node::ForAll { variable, universe, body } => self.for_all(variable, universe, body),
            Node::Import { variable, universe, body } => {
                self.variables[variable] = self.import(node, universe)?;
                self.rule(body)
            }
            Node::Release(term) => self.release(node, term),
            Node::Choose { variable, universe, body } => {
                self.variables[variable] = self.choose(node, universe)?;
                self.rule(body)
            }
            _ => unreachable!("the book check leaves only rules here"),
        }
    }

    fn set(&mut self, node: usize, location: usize, value: usize) -> Result<(), Refusal> {
        let (function, location) = self.location(location);
        let value = self.term(value);
        if self.book.functions[function].relation && boolean(value).is_none() {
            return Err(Refusal { number: 11, place: node });
        }
        self.add(node, Instruction::Update { location, value })
    }

    fn for_all(&mut self, variable: usize, universe: usize, body: usize) -> Result<(), Refusal> {
        let function = self.book.functions[universe];
        if function.dynamic {
            self.marks.read_all(function.run());
        }
        let members = &self.contents[function.run()];
        for (element, _) in members.iter().enumerate().filter(|(_, &member)| member == TRUE) {
            self.variables[variable] = element as u16;
            self.rule(body)?;
        }
        Ok(())
    }

    /// Takes the lowest label left. The labels below `unseen` are read and taken or not on the roll.
    fn import(&mut self, node: usize, universe: usize) -> Result<u16, Refusal> {
        let unseen = self.unseen..self.book.elements;
        let label = unseen
            .clone()
            .find(|&label| self.contents[label] == TRUE)
            .ok_or(Refusal { number: 13, place: node })?;
        self.marks.read_all(unseen.start..label + 1);
        self.unseen = label + 1;
        let member = self.book.functions[universe].first + label;
        self.add(node, Instruction::Update { location: label, value: FALSE })?;
        self.add(node, Instruction::Update { location: member, value: TRUE })?;
        Ok(label as u16)
    }

    /// Releases the term's value, which has to be a label that is not in Reserve; 12 reads Reserve at the label.
    fn release(&mut self, node: usize, term: usize) -> Result<(), Refusal> {
        let label = self.term(term);
        let element = label as usize;
        if self.book.is_label(label) {
            self.marks.read(element);
        }
        if !self.book.is_label(label) || self.contents[element] == TRUE {
            return Err(Refusal { number: 12, place: node });
        }
        self.add(node, Instruction::Release { label })
    }

    /// Takes the next pick, which has to be there and in the universe.
    fn choose(&mut self, node: usize, universe: usize) -> Result<u16, Refusal> {
        let (&pick, left) = self.picks.split_first().ok_or(Refusal { number: 19, place: node })?;
        self.picks = left;
        let function = self.book.functions[universe];
        let location = function.first + pick as usize;
        if function.dynamic {
            self.marks.read(location);
        }
        if self.contents[location] != TRUE {
            return Err(Refusal { number: 18, place: node });
        }
        Ok(pick as u16)
    }

    fn add(&mut self, node: usize, instruction: Instruction) -> Result<(), Refusal> {
        if self.list.len() == INSTRUCTIONS {
            return Err(Refusal { number: 14, place: node });
        }
        self.list.push(instruction);
        Ok(())
    }

    /// The function and the location that a node of kind 4 to 6 names; its arguments are read.
    fn location(&mut self, node: usize) -> (usize, usize) {
        let (function, offset) = match self.book.nodes[node] {
            Node::Nullary { function } => (function, 0),
            Node::Unary { function, argument } => (function, self.term(argument) as usize),
            Node::Binary { function, first, second } => {
                let row = self.term(first) as usize;
                (function, row * self.book.elements + self.term(second) as usize)
            }
            _ => unreachable!("the book check leaves only locations here"),
        };
        (function, self.book.functions[function].first + offset)
    }

    fn term(&mut self, node: usize) -> u16 {
        match self.book.nodes[node] {
            Node::Element(element) => element,
            Node::Variable(variable) => self.variables[variable],
            Node::AgentElement => self.element,
            Node::Nullary { .. } | Node::Unary { .. } | Node::Binary { .. } => {
                let (function, location) = self.location(node);
                if self.book.functions[function].dynamic {
                    self.marks.read(location);
                }
                self.contents[location]
            }
            Node::Equal(a, b) => truth(self.term(a) == self.term(b)),
            Node::Not(a) => boolean(self.term(a)).map_or(UNDEF, |a| truth(!a)),
            Node::And(a, b) => self.booleans(a, b).map_or(UNDEF, |(a, b)| truth(a && b)),
            Node::Or(a, b) => self.booleans(a, b).map_or(UNDEF, |(a, b)| truth(a || b)),
            Node::Plus(a, b) => self.numbers(a, b).map_or(UNDEF, |(a, b)| self.element_of(a + b)),
            Node::Minus(a, b) => {
                let difference = self.numbers(a, b).and_then(|(a, b)| a.checked_sub(b));
                difference.map_or(UNDEF, |difference| self.element_of(difference))
            }
            Node::Less(a, b) => self.numbers(a, b).map_or(UNDEF, |(a, b)| truth(a < b)),
            _ => unreachable!("the book check leaves only terms here"),
        }
    }

    /// Both operands, evaluated in any case, if both are Boolean.
    fn booleans(&mut self, a: usize, b: usize) -> Option<(bool, bool)> {
        let (a, b) = (self.term(a), self.term(b));
        Some((boolean(a)?, boolean(b)?))
    }

    /// Both operands, evaluated in any case, if both are numbers.
    fn numbers(&mut self, a: usize, b: usize) -> Option<(u16, u16)> {
        let (a, b) = (self.term(a), self.term(b));
        Some((self.number(a)?, self.number(b)?))
    }

    fn number(&self, element: u16) -> Option<u16> {
        let number = element.checked_sub(ZERO)?;
        ((element as usize) < self.book.permanent).then_some(number)
    }

    /// The element of a number, undef when the book has no such number.
    fn element_of(&self, number: u16) -> u16 {
        let element = ZERO + number;
        if (element as usize) < self.book.permanent {
            element
        } else {
            UNDEF
        }
    }
}

fn boolean(element: u16) -> Option<bool> {
    match element {
        TRUE => Some(true),
        FALSE => Some(false),
        _ => None,
    }
}

fn truth(holds: bool) -> u16 {
    if holds {
        TRUE
    } else {
        FALSE
    }
}
