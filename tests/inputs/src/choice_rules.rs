// Rules with choices: one, several, in turns of a forall, in one another, under guards, lets and imports.

use crate::book_draft::BookDraft;
use crate::nodes::Leaf;
use crate::rng::Rng;
use crate::root_rules::at_own_element;
use crate::rules::{Sort, Writer};

/// One rule with a choice as a root; a rule at the agent's own element where the draft has no universe.
pub fn choosing(rng: &mut Rng, draft: &mut BookDraft, careful: bool) -> u32 {
    let mut writer = Writer::new(rng, draft, careful);
    let first = writer.draft.universes(false).first().copied();
    let any = if writer.rng.percent(50) { first } else { writer.universe() };
    let Some(universe) = any else { return at_own_element(rng, draft) };
    match writer.rng.weighted(&[26, 12, 18, 12, 10, 8, 8, 6]) {
        0 => one(&mut writer, universe),
        1 => two(&mut writer, universe),
        2 => in_turns(&mut writer, universe),
        3 => nested(&mut writer, universe),
        4 => guarded(&mut writer, universe),
        5 => with_let(&mut writer, universe),
        6 => with_import(&mut writer, universe),
        _ => after_turns(&mut writer, universe),
    }
}

/// Choose x in a dynamic universe: x is noted at the agent's own element, only read, kept in the universe or taken out of it.
pub fn choosing_in_shared(rng: &mut Rng, draft: &mut BookDraft, universe: u32, notes: u32) -> u32 {
    let relation = draft.is_relation(notes);
    let mut writer = Writer::new(rng, draft, true);
    let variable = free(&mut writer);
    let choice = writer.rng.weighted(&[40, 15, 30, 15]);
    writer.choose_in(variable, universe, |writer| match choice {
        0 => {
            let location = writer.draft.own(notes);
            let value = if relation { Leaf::Element(2) } else { Leaf::Variable(variable) };
            writer.draft.set_to(location, value)
        }
        1 => writer.draft.skip(),
        2 => set_at(writer, universe, variable, Leaf::Element(2)),
        _ => set_at(writer, universe, variable, Leaf::Element(1)),
    })
}

/// Choose x in the universe and do something about x.
fn one(writer: &mut Writer, universe: u32) -> u32 {
    let variable = free(writer);
    writer.choose_in(variable, universe, |writer| about(writer, variable, universe))
}

/// A variable that is free here; the rules of this file bind a few only.
fn free(writer: &mut Writer) -> u32 {
    writer.free_variable().expect("a few of eight are bound")
}

/// Another universe, or the same one.
fn another(writer: &mut Writer, universe: u32) -> u32 {
    writer.universe().unwrap_or(universe)
}

/// A rule about a variable: it leaves its universe or stays there, is noted, gets a number, is released, or any rule.
fn about(writer: &mut Writer, variable: u32, universe: u32) -> u32 {
    let dynamic = writer.draft.is_dynamic(universe);
    let at = writer.draft.functions_where(|draft, f| draft.is_dynamic(f) && draft.arity(f) == 1);
    match (writer.rng.weighted(&[24, 30, 18, 6, 14, 8]), writer.rng.any(&at)) {
        (0, _) if dynamic => {
            let stays = writer.rng.range(1, 2);
            set_at(writer, universe, variable, Leaf::Element(stays))
        }
        (1, Some(function)) if writer.draft.is_relation(function) => {
            let careless = !writer.careful && writer.rng.percent(40);
            let value =
                if careless { Leaf::Variable(variable) } else { Leaf::Element(writer.rng.range(1, 2)) };
            set_at(writer, function, variable, value)
        }
        (1 | 2, Some(function)) if !writer.draft.is_relation(function) => {
            let number = 3 + writer.rng.below((writer.draft.permanent - 3).min(5));
            let value = writer.rng.pick(&[Leaf::AgentElement, Leaf::Element(number)]);
            set_at(writer, function, variable, value)
        }
        (3, _) => writer.draft.release_of(Leaf::Variable(variable)),
        (5, _) => writer.draft.skip(),
        (4, _) => {
            let size = writer.rng.range(1, 3);
            writer.rule(size, 9)
        }
        _ => note(writer, variable),
    }
}

/// f(x) := a leaf.
fn set_at(writer: &mut Writer, function: u32, variable: u32, value: Leaf) -> u32 {
    let location = writer.draft.at(function, variable);
    writer.draft.set_to(location, value)
}

/// g := x, or g(me) := x.
fn note(writer: &mut Writer, variable: u32) -> u32 {
    let plain = writer
        .draft
        .functions_where(|draft, f| draft.is_dynamic(f) && !draft.is_relation(f) && draft.arity(f) < 2);
    let Some(function) = writer.rng.any(&plain) else { return writer.draft.skip() };
    let arguments = &[Leaf::AgentElement][..writer.draft.arity(function) as usize];
    let location = writer.of_leaves(function, arguments);
    writer.draft.set_to(location, Leaf::Variable(variable))
}

/// Two choices, or three, beside each other.
fn two(writer: &mut Writer, universe: u32) -> u32 {
    let mut rule = one(writer, universe);
    for _ in 0..writer.rng.range(1, 2) {
        let other = another(writer, universe);
        let next = one(writer, other);
        rule = writer.both_in_any_order(rule, next);
    }
    rule
}

/// For all x in a universe choose y in another.
fn in_turns(writer: &mut Writer, universe: u32) -> u32 {
    let (turning, variable) = (another(writer, universe), free(writer));
    if writer.draft.lines_of(turning) > 24 {
        return one(writer, universe);
    }
    writer.for_all_in(variable, turning, |writer| {
        let chosen = free(writer);
        let functions = writer
            .draft
            .functions_where(|draft, f| draft.is_dynamic(f) && draft.arity(f) == 1 && !draft.is_relation(f));
        writer.choose_in(chosen, universe, |writer| match writer.rng.any(&functions) {
            Some(function) if writer.rng.percent(60) => {
                set_at(writer, function, variable, Leaf::Variable(chosen))
            }
            _ => about(writer, chosen, universe),
        })
    })
}

/// Choose x, and for each choice another inside it.
fn nested(writer: &mut Writer, universe: u32) -> u32 {
    let variable = free(writer);
    writer.choose_in(variable, universe, |writer| {
        let other = another(writer, universe);
        let inner = one(writer, other);
        if writer.rng.percent(50) {
            return inner;
        }
        let beside = about(writer, variable, universe);
        writer.draft.both(beside, inner)
    })
}

/// A choice under a guard, in one branch or in both.
fn guarded(writer: &mut Writer, universe: u32) -> u32 {
    let guard = writer.term(Sort::Boolean, 4);
    let then = one(writer, universe);
    let otherwise = if writer.rng.percent(50) { writer.draft.skip() } else { two(writer, universe) };
    let (then, otherwise) = if writer.rng.percent(50) { (then, otherwise) } else { (otherwise, then) };
    writer.draft.conditional(guard, then, otherwise)
}

fn with_let(writer: &mut Writer, universe: u32) -> u32 {
    let variable = free(writer);
    let value = writer.term(Sort::Any, 3);
    let body = writer.inside(variable, Sort::Any, |writer| one(writer, universe));
    writer.draft.let_in(variable, value, body)
}

/// A choice inside an import or around it; the universe may be the one that grows.
fn with_import(writer: &mut Writer, universe: u32) -> u32 {
    let growing = writer.draft.universes(true);
    let Some(growing) = writer.rng.any(&growing) else { return one(writer, universe) };
    let variable = free(writer);
    if writer.rng.percent(50) {
        let body = writer.inside(variable, Sort::Label, |writer| one(writer, universe));
        return writer.draft.import(variable, growing, body);
    }
    writer.choose_in(variable, universe, |writer| {
        let label = free(writer);
        let body = writer.inside(label, Sort::Label, |writer| about(writer, label, growing));
        writer.draft.import(label, growing, body)
    })
}

/// A forall without a choice, then a choice.
fn after_turns(writer: &mut Writer, universe: u32) -> u32 {
    let variable = free(writer);
    let turning = another(writer, universe);
    let turns = writer.for_all_in(variable, turning, |writer| about(writer, variable, turning));
    let choice = one(writer, universe);
    writer.draft.both(turns, choice)
}
