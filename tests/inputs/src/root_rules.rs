// Rules with a purpose, as roots: at the agent's own element, imports and releases, many instructions, deep trees, and rules that change nothing.

use crate::book_draft::BookDraft;
use crate::nodes::Leaf;
use crate::rng::Rng;
use crate::rules::{Sort, Writer};
use paper::INSTRUCTIONS;

/// The deepest a sound tree may be.
pub const MOST_DEPTH: u32 = 32;

/// One rule as a root, of a purpose drawn at random. `size` bounds those without one.
pub fn root(rng: &mut Rng, draft: &mut BookDraft, careful: bool, size: u32) -> u32 {
    match rng.weighted(&[42, 14, 14, 23, 7]) {
        0 => Writer::new(rng, draft, careful).rule(size, 12),
        1 => at_own_element(rng, draft),
        2 => importing_or_releasing(rng, draft, careful),
        3 => many_instructions(rng, draft),
        _ => {
            let base = Writer::new(rng, draft, careful).rule(size.min(6), 9);
            let target = rng.range(20, MOST_DEPTH);
            deepen(rng, draft, base, target)
        }
    }
}

/// A rule that changes nothing: it skips, looks and skips, or writes what stands already.
pub fn idle(rng: &mut Rng, draft: &mut BookDraft) -> u32 {
    let mut writer = Writer::new(rng, draft, true);
    match writer.rng.weighted(&[30, 30, 40]) {
        0 => writer.draft.skip(),
        1 => read_and_skip(&mut writer),
        _ => writer.keep(),
    }
}

/// Skips under a guard, a let or a forall, which read.
fn read_and_skip(writer: &mut Writer) -> u32 {
    let universe = writer.universe();
    match (writer.rng.below(3), universe) {
        (0, Some(universe)) => writer.for_all_in(0, universe, |writer| writer.draft.skip()),
        (1, _) => {
            let value = writer.term(Sort::Any, 4);
            let skip = writer.draft.skip();
            writer.draft.let_in(0, value, skip)
        }
        _ => {
            let guard = writer.term(Sort::Boolean, 4);
            let (then, otherwise) = (writer.draft.skip(), writer.draft.skip());
            writer.draft.conditional(guard, then, otherwise)
        }
    }
}

/// Counts or toggles at the agent's own element, so that agents keep apart; up to three functions.
pub fn at_own_element(rng: &mut Rng, draft: &mut BookDraft) -> u32 {
    let own = draft.functions_where(|draft, f| draft.is_dynamic(f) && draft.arity(f) > 0);
    if own.is_empty() {
        return Writer::new(rng, draft, true).toggle();
    }
    let count = rng.range(1, 3).min(own.len() as u32) as usize;
    let first = rng.index(own.len());
    let functions = (0..count).map(|place| own[(first + place) % own.len()]);
    let rules: Vec<u32> = functions.map(|function| one_own_location(rng, draft, function)).collect();
    let joined = rules.into_iter().reduce(|a, b| draft.both(a, b));
    joined.expect("there is a first function")
}

/// One function at the agent's own element: the next number, or the other truth.
fn one_own_location(rng: &mut Rng, draft: &mut BookDraft, function: u32) -> u32 {
    let second = if rng.percent(50) { Leaf::AgentElement } else { Leaf::Element(rng.below(draft.permanent)) };
    let arguments = &[Leaf::AgentElement, second][..draft.arity(function) as usize];
    let relation = draft.is_relation(function);
    let mut writer = Writer::new(rng, draft, true);
    let old = writer.of_leaves(function, arguments);
    if relation {
        let new = writer.draft.not(old);
        let location = writer.of_leaves(function, arguments);
        return writer.draft.set(location, new);
    }
    let one = writer.draft.element(4.min(writer.draft.permanent - 1));
    let next = writer.draft.plus(old, one);
    let location = writer.of_leaves(function, arguments);
    let count = writer.draft.set(location, next);
    // At undef or the last number the count starts again.
    let old = writer.of_leaves(function, arguments);
    let last = writer.draft.element(writer.draft.permanent - 1);
    let below = writer.draft.less(old, last);
    let location = writer.of_leaves(function, arguments);
    let zero = writer.draft.element(3);
    let again = writer.draft.set(location, zero);
    writer.draft.conditional(below, count, again)
}

/// Imports into a universe and releases from it.
pub fn importing_or_releasing(rng: &mut Rng, draft: &mut BookDraft, careful: bool) -> u32 {
    let universes = draft.universes(true);
    let Some(universe) = rng.any(&universes) else { return at_own_element(rng, draft) };
    let holders =
        draft.functions_where(|draft, f| draft.is_dynamic(f) && !draft.is_relation(f) && draft.arity(f) == 0);
    let holder = rng.any(&holders);
    let choice = rng.weighted(&[30, 10, 20, 15, 25, 15]);
    let mut writer = Writer::new(rng, draft, careful);
    match (choice, holder) {
        (0, Some(holder)) => import_or_release_held(&mut writer, universe, holder),
        (1, Some(holder)) => release_held(&mut writer, holder),
        (2, _) => release_members(&mut writer, universe),
        (3, Some(holder)) => import_to(&mut writer, universe, Some(holder)),
        (4, Some(holder)) => release_beside_set(&mut writer, holder),
        _ => import_some(&mut writer, universe),
    }
}

/// Release the holder's label, sometimes twice.
fn release_held(writer: &mut Writer, holder: u32) -> u32 {
    let release = writer.draft.release_of(Leaf::Nullary(holder));
    if writer.rng.percent(80) {
        return release;
    }
    let again = writer.draft.release_of(Leaf::Nullary(holder));
    writer.draft.both(release, again)
}

/// Release the holder's label beside a set that has it as argument, or as value, or neither.
fn release_beside_set(writer: &mut Writer, holder: u32) -> u32 {
    let release = release_held(writer, holder);
    let unary = writer.draft.functions_where(|draft, f| draft.is_dynamic(f) && draft.arity(f) == 1);
    let plain = writer.draft.functions_where(|draft, f| draft.is_dynamic(f) && !draft.is_relation(f));
    let choice = writer.rng.below(3);
    let set = match (choice, writer.rng.any(&unary), writer.rng.any(&plain)) {
        (0, Some(function), _) => {
            let argument = writer.draft.nullary(holder);
            let location = writer.draft.unary(function, argument);
            let value = writer.rng.pick(&[0, 1, 2, 3]);
            let value = if writer.draft.is_relation(function) { value.clamp(1, 2) } else { value };
            let value = writer.draft.element(value);
            writer.draft.set(location, value)
        }
        (1, _, Some(function)) => {
            let arguments =
                &[Leaf::AgentElement, Leaf::AgentElement][..writer.draft.arity(function) as usize];
            let location = writer.of_leaves(function, arguments);
            let value = writer.draft.nullary(holder);
            writer.draft.set(location, value)
        }
        _ => writer.rule(2, 10),
    };
    writer.both_in_any_order(set, release)
}

/// One import into the universe, or two.
fn import_some(writer: &mut Writer, universe: u32) -> u32 {
    let import = import_to(writer, universe, None);
    if writer.rng.percent(60) {
        return import;
    }
    let another = import_to(writer, universe, None);
    writer.draft.both(import, another)
}

/// Import x into the universe; holder := x, or a rule on x.
fn import_to(writer: &mut Writer, universe: u32, holder: Option<u32>) -> u32 {
    let variable = writer.rng.below(8);
    let body = writer.inside(variable, Sort::Label, |writer| match holder {
        Some(holder) => {
            let location = writer.draft.nullary(holder);
            let label = writer.draft.variable(variable);
            writer.draft.set(location, label)
        }
        None => {
            let size = writer.rng.range(1, 3);
            writer.rule(size, 10)
        }
    });
    writer.draft.import(variable, universe, body)
}

/// If holder is undef then import to it, otherwise release it.
fn import_or_release_held(writer: &mut Writer, universe: u32, holder: u32) -> u32 {
    let old = writer.draft.nullary(holder);
    let undef = writer.draft.element(0);
    let guard = writer.draft.equal(old, undef);
    let import = import_to(writer, universe, Some(holder));
    let release = release_held(writer, holder);
    writer.draft.conditional(guard, import, release)
}

/// For all x in the universe, if a guard holds, release x, otherwise a rule on x.
fn release_members(writer: &mut Writer, universe: u32) -> u32 {
    let variable = writer.rng.below(8);
    writer.for_all_in(variable, universe, |writer| {
        let guard = writer.term(Sort::Boolean, 4);
        let label = writer.draft.variable(variable);
        let release = writer.draft.release(label);
        let other = writer.rule(1, 8);
        writer.draft.conditional(guard, release, other)
    })
}

/// Close to 256 instructions, or just more, by one forall or two over the largest universe.
fn many_instructions(rng: &mut Rng, draft: &mut BookDraft) -> u32 {
    let universe = draft.universes(false).into_iter().max_by_key(|&universe| draft.lines_of(universe));
    let Some(universe) = universe else { return at_own_element(rng, draft) };
    fill_universe(draft, universe);
    let members = draft.lines_of(universe).max(1) as u32;
    let nested = (10..=24).contains(&members) && rng.percent(60);
    let turns = if nested { members * members } else { members };
    let wanted = INSTRUCTIONS as u32 - 2 + rng.below(6);
    let inner = (wanted / turns).clamp(1, 40);
    let beside = wanted.saturating_sub(inner * turns).min(60);
    let mut writer = Writer::new(rng, draft, true);
    let repeated = writer.for_all_in(0, universe, |writer| {
        if nested {
            writer.for_all_in(1, universe, |writer| many_sets(writer, inner, true))
        } else {
            many_sets(writer, inner, true)
        }
    });
    if beside == 0 {
        return repeated;
    }
    let mut others = many_sets(&mut writer, beside, false);
    let imports = writer.draft.universes(true);
    if let (true, Some(import)) = (writer.rng.percent(30), writer.rng.any(&imports)) {
        let skip = writer.draft.skip();
        let import = writer.draft.import(2, import, skip);
        others = writer.draft.both(others, import);
    }
    writer.both_in_any_order(repeated, others)
}

/// Lets a small universe hold at every element that it may.
fn fill_universe(draft: &mut BookDraft, universe: u32) {
    let bound = if draft.is_dynamic(universe) { draft.elements } else { draft.permanent };
    for element in 0..bound.min(24) {
        if !draft.is_given(0, element) && !draft.is_given(universe, element) {
            draft.insert_contents([universe, element, 0, 2]);
        }
    }
}

/// This many sets of one function to one value, joined by halves.
fn many_sets(writer: &mut Writer, count: u32, bound: bool) -> u32 {
    if count > 1 {
        let a = many_sets(writer, count / 2, bound);
        let b = many_sets(writer, count - count / 2, bound);
        return writer.draft.both(a, b);
    }
    let dynamic = writer.draft.functions_where(|draft, f| draft.is_dynamic(f));
    let Some(&function) = dynamic.first() else { return writer.draft.skip() };
    let argument = if bound { Leaf::Variable(0) } else { Leaf::AgentElement };
    let arguments = &[argument, argument][..writer.draft.arity(function) as usize];
    let location = writer.of_leaves(function, arguments);
    let value = if writer.draft.is_relation(function) { 2 } else { 3 };
    let value = writer.draft.element(value);
    writer.draft.set(location, value)
}

/// Wraps a rule until its tree has this depth.
pub fn deepen(rng: &mut Rng, draft: &mut BookDraft, root: u32, target: u32) -> u32 {
    let mut root = root;
    for _ in draft.depth(root)..target {
        let skip = draft.skip();
        root = match rng.below(4) {
            0 => draft.both(root, skip),
            1 => draft.both(skip, root),
            2 => {
                let holds = draft.element(2);
                draft.conditional(holds, root, skip)
            }
            _ => {
                let fails = draft.element(rng.range(0, 1));
                draft.conditional(fails, skip, root)
            }
        };
    }
    root
}
