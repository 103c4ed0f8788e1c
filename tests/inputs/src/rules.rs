// Terms and rules at random, of such sorts that many of the moves fire.

use crate::book_draft::BookDraft;
use crate::nodes::Leaf;
use crate::rng::Rng;
use paper::Line;

/// Steps that a nested forall may take, so that no walk is long.
const MOST_STEPS: usize = 60_000;

/// Turns that a choice may have in one move.
const MOST_PICKS: usize = 24;

/// What a term is meant to give.
#[derive(Debug, Clone, Copy, PartialEq, Eq)]
pub enum Sort {
    Any,
    Boolean,
    Number,
    Label,
}

/// Adds nodes to a draft whose functions and contents are there already.
pub struct Writer<'a> {
    pub rng: &'a mut Rng,
    pub draft: &'a mut BookDraft,
    /// Whether terms keep to the sort meant; otherwise some do not.
    pub careful: bool,
    /// The variables bound here, with what they are bound to.
    bound: Vec<(u32, Sort)>,
    foralls: u32,
    /// About how often what is written here is walked in one move.
    turns: usize,
}

impl<'a> Writer<'a> {
    pub fn new(rng: &'a mut Rng, draft: &'a mut BookDraft, careful: bool) -> Writer<'a> {
        Writer { rng, draft, careful, bound: Vec::new(), foralls: 0, turns: 1 }
    }

    /// Both parts, in either order of their numbers.
    fn two(
        &mut self,
        first: impl FnOnce(&mut Self) -> u32,
        second: impl FnOnce(&mut Self) -> u32,
    ) -> (u32, u32) {
        if self.rng.percent(60) {
            let a = first(self);
            (a, second(self))
        } else {
            let b = second(self);
            (first(self), b)
        }
    }

    /// Both rules, either of them first.
    pub fn both_in_any_order(&mut self, a: u32, b: u32) -> u32 {
        if self.rng.percent(50) {
            self.draft.both(a, b)
        } else {
            self.draft.both(b, a)
        }
    }

    /// A rule of about this many rules, within this many levels.
    pub fn rule(&mut self, size: u32, depth: u32) -> u32 {
        if size < 2 || depth < 6 {
            return self.small_rule(depth);
        }
        match self.rng.weighted(&[40, 20, 10, 14, 10, 10, 6]) {
            0 => self.both(size, depth),
            1 => self.conditional(size, depth),
            2 => self.let_in(size - 1, depth),
            3 => self.for_all(size - 1, depth),
            4 => self.import(size - 1, depth),
            5 => self.choose(size - 1, depth),
            _ => self.small_rule(depth),
        }
    }

    fn small_rule(&mut self, depth: u32) -> u32 {
        if depth < 4 {
            return self.draft.skip();
        }
        match self.rng.weighted(&[34, 28, 16, 8, 4, 4]) {
            0 => self.set(depth),
            1 => self.count(),
            2 => self.toggle(),
            3 => self.release(depth),
            4 => self.keep(),
            _ => self.draft.skip(),
        }
    }

    fn both(&mut self, size: u32, depth: u32) -> u32 {
        let left = self.rng.range(1, size - 1);
        let (a, b) = self.two(|w| w.rule(left, depth - 1), |w| w.rule(size - left, depth - 1));
        self.draft.both(a, b)
    }

    fn conditional(&mut self, size: u32, depth: u32) -> u32 {
        let left = self.rng.range(1, size - 1);
        let levels = depth.min(5) - 1;
        let (a, (b, c)) = if self.rng.percent(50) {
            let a = self.term(Sort::Boolean, levels);
            (a, self.two(|w| w.rule(left, depth - 1), |w| w.rule(size - left, depth - 1)))
        } else {
            let branches = self.two(|w| w.rule(left, depth - 1), |w| w.rule(size - left, depth - 1));
            (self.term(Sort::Boolean, levels), branches)
        };
        self.draft.conditional(a, b, c)
    }

    fn let_in(&mut self, size: u32, depth: u32) -> u32 {
        let sort = self.rng.pick(&[Sort::Any, Sort::Boolean, Sort::Number, Sort::Label]);
        let Some(variable) = self.free_variable() else { return self.rule(size, depth) };
        let levels = depth.min(4) - 1;
        let (b, c) =
            self.two(|w| w.term(sort, levels), |w| w.inside(variable, sort, |w| w.rule(size, depth - 1)));
        self.draft.let_in(variable, b, c)
    }

    fn for_all(&mut self, size: u32, depth: u32) -> u32 {
        let universe = self.universe();
        match (universe, self.free_variable()) {
            (Some(universe), Some(variable)) if self.may_nest(universe) => {
                self.for_all_in(variable, universe, |w| w.rule(size, depth - 1))
            }
            _ => self.rule(size, depth),
        }
    }

    /// A forall over a universe with this body.
    pub fn for_all_in(&mut self, variable: u32, universe: u32, body: impl FnOnce(&mut Self) -> u32) -> u32 {
        let (sort, turns) = (self.sort_of_members(universe), self.turns);
        self.foralls += 1;
        self.turns *= self.draft.lines_of(universe).max(1);
        let c = self.inside(variable, sort, body);
        self.foralls -= 1;
        self.turns = turns;
        self.draft.for_all(variable, universe, c)
    }

    fn sort_of_members(&self, universe: u32) -> Sort {
        let permanent = self.draft.permanent;
        let labels_only = self.draft.contents.iter().all(|line| line[0] != universe || line[1] >= permanent);
        if labels_only {
            Sort::Label
        } else {
            Sort::Any
        }
    }

    /// A choice, where a move has not too many of its turns.
    fn choose(&mut self, size: u32, depth: u32) -> u32 {
        let universe = self.universe();
        match (universe, self.free_variable()) {
            (Some(universe), Some(variable)) if self.turns <= MOST_PICKS => {
                self.choose_in(variable, universe, |w| w.rule(size, depth - 1))
            }
            _ => self.rule(size, depth),
        }
    }

    /// A choice in a universe with this body.
    pub fn choose_in(&mut self, variable: u32, universe: u32, body: impl FnOnce(&mut Self) -> u32) -> u32 {
        let sort = self.sort_of_members(universe);
        let c = self.inside(variable, sort, body);
        self.draft.choose(variable, universe, c)
    }

    pub fn may_nest(&self, universe: u32) -> bool {
        let steps = (self.draft.lines_of(universe) + 4) * self.draft.elements as usize;
        self.foralls == 0 || (self.foralls == 1 && steps <= MOST_STEPS)
    }

    /// A universe, mostly one with members.
    pub fn universe(&mut self) -> Option<u32> {
        let universes = self.draft.universes(false);
        let with_members: Vec<u32> =
            universes.iter().copied().filter(|&universe| self.draft.lines_of(universe) > 0).collect();
        match self.rng.any(&with_members) {
            Some(universe) if self.rng.percent(85) => Some(universe),
            _ => self.rng.any(&universes),
        }
    }

    fn import(&mut self, size: u32, depth: u32) -> u32 {
        let universes = self.draft.universes(true);
        match (self.rng.any(&universes), self.free_variable()) {
            (Some(universe), Some(variable)) => {
                let c = self.inside(variable, Sort::Label, |w| w.rule(size, depth - 1));
                self.draft.import(variable, universe, c)
            }
            _ => self.rule(size, depth),
        }
    }

    /// A variable that is not bound here, if one is left.
    pub fn free_variable(&mut self) -> Option<u32> {
        let free: Vec<u32> =
            (0..8).filter(|variable| self.bound.iter().all(|(other, _)| other != variable)).collect();
        self.rng.any(&free)
    }

    /// The body of a binder.
    pub fn inside(&mut self, variable: u32, sort: Sort, body: impl FnOnce(&mut Self) -> u32) -> u32 {
        self.bound.push((variable, sort));
        let node = body(self);
        self.bound.pop();
        node
    }

    /// Sets a location of any dynamic function to a term of its sort.
    fn set(&mut self, depth: u32) -> u32 {
        let dynamic = self.draft.functions_where(|draft, function| draft.is_dynamic(function));
        let Some(function) = self.rng.any(&dynamic) else { return self.draft.skip() };
        let sort = match self.draft.is_relation(function) {
            true if !self.careful && self.rng.percent(60) => self.rng.pick(&[Sort::Any, Sort::Number]),
            true => Sort::Boolean,
            false => self.rng.pick(&[Sort::Number, Sort::Number, Sort::Any, Sort::Label]),
        };
        let levels = depth.min(5) - 1;
        let (a, b) = self.two(|w| w.apply(function, levels), |w| w.term(sort, levels));
        self.draft.set(a, b)
    }

    /// f(x) := f(x) plus or minus a number, where f(x) may be one at the start; or f(x) := a number.
    pub fn count(&mut self) -> u32 {
        let permanent = self.draft.permanent;
        let numbers = self.draft.contents.iter().copied().filter(|&[function, first, second, value]| {
            let counts = self.draft.is_dynamic(function) && !self.draft.is_relation(function);
            counts && first < permanent && second < permanent && (3..permanent).contains(&value)
        });
        let numbers: Vec<Line> = numbers.collect();
        match self.rng.any(&numbers) {
            Some([function, first, second, _]) if self.rng.percent(60) => {
                let arguments = [first, second].map(Leaf::Element);
                let used = self.draft.arity(function) as usize;
                self.count_on(function, &arguments[..used])
            }
            _ => self.set_to_number(),
        }
    }

    fn count_on(&mut self, function: u32, arguments: &[Leaf]) -> u32 {
        let (a, b) = self.two(|w| w.of_leaves(function, arguments), |w| w.constant(Sort::Number));
        let kind = self.rng.pick(&[11, 11, 11, 12]);
        let value = self.draft.add([kind, a, b, 0]);
        let location = self.of_leaves(function, arguments);
        self.draft.set(location, value)
    }

    fn set_to_number(&mut self) -> u32 {
        let counters = self.draft.functions_where(|draft, f| draft.is_dynamic(f) && !draft.is_relation(f));
        let Some(function) = self.rng.any(&counters) else { return self.toggle() };
        let arguments = self.leaf_arguments(function);
        let (a, b) = self.two(|w| w.of_leaves(function, &arguments), |w| w.constant(Sort::Number));
        self.draft.set(a, b)
    }

    /// f(x) := f(x).
    pub fn keep(&mut self) -> u32 {
        let dynamic = self.draft.functions_where(|draft, function| draft.is_dynamic(function));
        let Some(function) = self.rng.any(&dynamic) else { return self.draft.skip() };
        let arguments = self.leaf_arguments(function);
        let (a, b) = self.two(|w| w.of_leaves(function, &arguments), |w| w.of_leaves(function, &arguments));
        self.draft.set(a, b)
    }

    /// r(x) := not r(x).
    pub fn toggle(&mut self) -> u32 {
        let relations = self.draft.functions_where(|draft, f| draft.is_dynamic(f) && draft.is_relation(f));
        let Some(function) = self.rng.any(&relations) else { return self.draft.skip() };
        let arguments = self.leaf_arguments(function);
        let old = self.of_leaves(function, &arguments);
        let new = self.draft.not(old);
        let location = self.of_leaves(function, &arguments);
        self.draft.set(location, new)
    }

    /// Releases a label that is in use, or any term when careless.
    fn release(&mut self, depth: u32) -> u32 {
        let holders: Vec<Line> =
            self.draft.contents.iter().copied().filter(|line| self.holds_label(line)).collect();
        let bound = self.bound.iter().any(|(_, sort)| *sort == Sort::Label);
        let term = match self.rng.any(&holders) {
            Some(_) if bound && self.rng.percent(50) => self.leaf(Sort::Label),
            Some([function, first, second, _]) => {
                let arguments = [first, second].map(Leaf::Element);
                let used = self.draft.arity(function) as usize;
                self.of_leaves(function, &arguments[..used])
            }
            None if bound => self.leaf(Sort::Label),
            None if self.careful => return self.draft.skip(),
            None => self.term(Sort::Label, depth.min(4) - 1),
        };
        self.draft.release(term)
    }

    /// Whether a contents line gives a label at arguments that a term can name.
    fn holds_label(&self, line: &Line) -> bool {
        let permanent = self.draft.permanent;
        line[0] != 0 && line[3] >= permanent && line[1] < permanent && line[2] < permanent
    }

    /// A term of a sort, within this many levels.
    pub fn term(&mut self, sort: Sort, depth: u32) -> u32 {
        let sort = if !self.careful && self.rng.percent(6) { Sort::Any } else { sort };
        if depth < 3 || self.rng.percent(40) {
            return self.leaf(sort);
        }
        match sort {
            Sort::Boolean => self.boolean(depth),
            Sort::Number if self.rng.percent(60) => {
                let kind = self.rng.pick(&[11, 12]);
                self.of_two(kind, Sort::Number, depth)
            }
            Sort::Any if self.rng.percent(30) => {
                let sort = self.rng.pick(&[Sort::Boolean, Sort::Number]);
                self.term(sort, depth)
            }
            _ => self.value(sort, depth),
        }
    }

    fn boolean(&mut self, depth: u32) -> u32 {
        match self.rng.below(7) {
            0 => {
                let sort = self.rng.pick(&[Sort::Any, Sort::Number, Sort::Label, Sort::Boolean]);
                self.of_two(7, sort, depth)
            }
            1 => {
                let a = self.term(Sort::Boolean, depth - 1);
                self.draft.not(a)
            }
            2 => self.of_two(9, Sort::Boolean, depth),
            3 => self.of_two(10, Sort::Boolean, depth),
            4 => self.of_two(13, Sort::Number, depth),
            _ => self.value(Sort::Boolean, depth),
        }
    }

    fn of_two(&mut self, kind: u32, sort: Sort, depth: u32) -> u32 {
        let (a, b) = self.two(|w| w.term(sort, depth - 1), |w| w.term(sort, depth - 1));
        self.draft.add([kind, a, b, 0])
    }

    /// The value of a function that may give the sort.
    fn value(&mut self, sort: Sort, depth: u32) -> u32 {
        let functions = self.draft.functions_where(|draft, function| match sort {
            Sort::Any => true,
            Sort::Boolean => draft.is_relation(function),
            Sort::Number => !draft.is_relation(function),
            Sort::Label => !draft.is_relation(function) && draft.is_dynamic(function),
        });
        match self.rng.any(&functions) {
            Some(function) => self.apply(function, depth),
            None => self.leaf(sort),
        }
    }

    /// A function of argument terms.
    fn apply(&mut self, function: u32, depth: u32) -> u32 {
        match self.draft.arity(function) {
            0 => self.draft.nullary(function),
            1 => {
                let b = self.argument(depth - 1);
                self.draft.unary(function, b)
            }
            _ => {
                let (b, c) = self.two(|w| w.argument(depth - 1), |w| w.argument(depth - 1));
                self.draft.binary(function, b, c)
            }
        }
    }

    fn argument(&mut self, depth: u32) -> u32 {
        if self.rng.percent(20) {
            self.term(Sort::Any, depth)
        } else {
            let leaf = self.any_leaf();
            self.draft.leaf(leaf)
        }
    }

    /// A function of arguments that are leaves.
    pub fn of_leaves(&mut self, function: u32, arguments: &[Leaf]) -> u32 {
        match *arguments {
            [] => self.draft.nullary(function),
            [argument] => self.draft.unary_of(function, argument),
            [first, second, ..] => {
                let (b, c) = self.two(|w| w.draft.leaf(first), |w| w.draft.leaf(second));
                self.draft.binary(function, b, c)
            }
        }
    }

    fn leaf_arguments(&mut self, function: u32) -> Vec<Leaf> {
        (0..self.draft.arity(function)).map(|_| self.any_leaf()).collect()
    }

    /// A leaf that can stand in two places: a variable, the agent's element or a constant.
    fn any_leaf(&mut self) -> Leaf {
        match self.rng.below(5) {
            0 | 1 if !self.bound.is_empty() => {
                let bound = self.rng.index(self.bound.len());
                Leaf::Variable(self.bound[bound].0)
            }
            2 => Leaf::Element(self.rng.below(self.draft.permanent)),
            3 => Leaf::Element(self.rng.below(self.draft.permanent.min(6))),
            _ => Leaf::AgentElement,
        }
    }

    /// A leaf of a sort: a variable bound to it, a nullary function or a constant.
    fn leaf(&mut self, sort: Sort) -> u32 {
        let variables: Vec<u32> =
            self.bound.iter().filter(|bound| bound.1 == sort).map(|bound| bound.0).collect();
        if let Some(variable) = self.rng.any(&variables) {
            if self.rng.percent(60) {
                return self.draft.variable(variable);
            }
        }
        let nullary = self.draft.functions_where(|draft, function| {
            draft.arity(function) == 0
                && (sort == Sort::Any || draft.is_relation(function) == (sort == Sort::Boolean))
        });
        match self.rng.any(&nullary) {
            Some(function) if self.rng.percent(40) => self.draft.nullary(function),
            _ if sort == Sort::Any => {
                let leaf = self.any_leaf();
                self.draft.leaf(leaf)
            }
            _ => self.constant(sort),
        }
    }

    /// A permanent element, of the sort where it can be.
    pub fn constant(&mut self, sort: Sort) -> u32 {
        let permanent = self.draft.permanent;
        let element = match sort {
            Sort::Boolean => self.rng.range(1, 2),
            Sort::Number => 3 + self.rng.below((permanent - 3).min(5)),
            Sort::Any | Sort::Label => self.rng.below(permanent),
        };
        self.draft.element(element)
    }
}
