// Books in which some agents release labels while others set locations: each agent holds a label in its own slot, or picks one.

use crate::book_draft::BookDraft;
use crate::nodes::Leaf;
use crate::rng::Rng;
use crate::root_rules::{at_own_element, idle};
use crate::rules::{Sort, Writer};
use paper::Line;

/// The functions of such a book: a dynamic universe of labels, what an agent's element or a label holds, a number of labels and agents, a
/// static universe, and a static number.
const PAIR: u32 = 1;
const SLOT: u32 = 2;
const WEAR: u32 = 3;
const DAY: u32 = 4;
const LIMIT: u32 = 5;
pub const FUNCTIONS: [[u32; 2]; 5] = [[1, 3], [1, 2], [1, 2], [1, 1], [0, 0]];

/// How many elements such a book has at least, so that some are labels.
pub const ELEMENTS: u32 = 8;

/// Rules name slots of elements below this.
const NAMED: u32 = 6;

/// The rule of an agent as a root. The first one releases a label, the second does not; the others do so, or both, or neither.
pub fn releasing_or_not(rng: &mut Rng, draft: &mut BookDraft, careful: bool, number: u32) -> u32 {
    let mut writer = Writer::new(rng, draft, careful);
    match (number, writer.rng.weighted(&[34, 46, 12, 4, 4])) {
        (0, _) | (2.., 0) => releasing(&mut writer),
        (1, _) | (_, 1) => not_releasing(&mut writer),
        (_, 2) => {
            let (a, b) = (releasing(&mut writer), not_releasing(&mut writer));
            writer.draft.both(a, b)
        }
        (_, 3) => at_own_element(rng, draft),
        _ => idle(rng, draft),
    }
}

/// Releases the label in the agent's slot, perhaps only if it is a pair, twice or beside an import; or a label that it picks.
fn releasing(writer: &mut Writer) -> u32 {
    match writer.rng.weighted(&[40, 34, 8, 12, 6]) {
        0 => release_own(writer),
        1 => writer.choose_in(0, PAIR, |writer| writer.draft.release_of(Leaf::Variable(0))),
        2 => {
            let label = own_slot(writer);
            let guard = writer.draft.unary(PAIR, label);
            let release = release_own(writer);
            let otherwise = not_releasing(writer);
            writer.draft.conditional(guard, release, otherwise)
        }
        3 => release_twice(writer),
        _ => {
            let (release, import) = (release_own(writer), importing(writer));
            writer.both_in_any_order(release, import)
        }
    }
}

/// Releases the label in the agent's slot.
fn release_own(writer: &mut Writer) -> u32 {
    let label = own_slot(writer);
    writer.draft.release(label)
}

/// Releases the label in the agent's slot for each day, or beside it the label in some slot, mostly its own.
fn release_twice(writer: &mut Writer) -> u32 {
    if writer.rng.percent(30) {
        return writer.for_all_in(0, DAY, release_own);
    }
    let release = release_own(writer);
    let label = if writer.rng.percent(60) { own_slot(writer) } else { some_slot(writer) };
    let again = writer.draft.release(label);
    writer.draft.both(release, again)
}

/// A rule that releases nothing.
fn not_releasing(writer: &mut Writer) -> u32 {
    match writer.rng.weighted(&[13, 17, 12, 27, 10, 11, 10]) {
        0 => {
            let label = own_slot(writer);
            set_at_label(writer, label)
        }
        1 => writer.choose_in(0, PAIR, |writer| {
            let label = writer.draft.variable(0);
            set_at_label(writer, label)
        }),
        2 => {
            // The slot is emptied, or gets a number.
            let value = writer.rng.pick(&[0, 3]);
            let value = writer.draft.element(value);
            set_slot(writer, value)
        }
        3 => {
            let value = some_slot(writer);
            set_slot(writer, value)
        }
        4 => {
            // The slot of the label in the slot gets another label.
            let label = own_slot(writer);
            let location = writer.draft.unary(SLOT, label);
            let value = some_slot(writer);
            writer.draft.set(location, value)
        }
        5 => importing(writer),
        _ => each_day(writer),
    }
}

/// The agent's slot, or what it holds.
fn own_slot(writer: &mut Writer) -> u32 {
    writer.draft.own(SLOT)
}

/// What some slot holds, perhaps that of another agent.
fn some_slot(writer: &mut Writer) -> u32 {
    let element = writer.rng.below(writer.draft.permanent.min(NAMED));
    writer.draft.unary_of(SLOT, Leaf::Element(element))
}

/// The agent's slot gets a value.
fn set_slot(writer: &mut Writer, value: u32) -> u32 {
    let location = own_slot(writer);
    writer.draft.set(location, value)
}

/// A number, or the limit.
fn number(writer: &mut Writer) -> u32 {
    if writer.rng.percent(20) {
        writer.draft.nullary(LIMIT)
    } else {
        writer.constant(Sort::Number)
    }
}

/// Sets one of the functions at a label: its wear, what it holds, or whether it is a pair.
fn set_at_label(writer: &mut Writer, label: u32) -> u32 {
    let function = writer.rng.pick(&[WEAR, WEAR, SLOT, PAIR]);
    let location = writer.draft.unary(function, label);
    let careless = !writer.careful && writer.rng.percent(20);
    let value = if function == PAIR && !careless { writer.constant(Sort::Boolean) } else { number(writer) };
    writer.draft.set(location, value)
}

/// Imports a label, or one for each day.
fn importing(writer: &mut Writer) -> u32 {
    if writer.rng.percent(30) {
        writer.for_all_in(1, DAY, import_one)
    } else {
        import_one(writer)
    }
}

/// Imports a label and sets the slot to it, or sets a function at it.
fn import_one(writer: &mut Writer) -> u32 {
    let slot = writer.rng.percent(50);
    let body = writer.inside(0, Sort::Label, |writer| {
        let label = writer.draft.variable(0);
        if slot {
            set_slot(writer, label)
        } else {
            set_at_label(writer, label)
        }
    });
    writer.draft.import(0, PAIR, body)
}

/// For all days: the wear at the agent's element, that of the day or that of a picked label gets a number; or nothing.
fn each_day(writer: &mut Writer) -> u32 {
    let choice = writer.rng.weighted(&[30, 30, 30, 10]);
    writer.for_all_in(0, DAY, |writer| match choice {
        0 => set_wear(writer, Leaf::AgentElement),
        1 => set_wear(writer, Leaf::Variable(0)),
        2 => writer.choose_in(1, PAIR, |writer| set_wear(writer, Leaf::Variable(1))),
        _ => writer.draft.skip(),
    })
}

fn set_wear(writer: &mut Writer, argument: Leaf) -> u32 {
    let location = writer.draft.unary_of(WEAR, argument);
    let value = number(writer);
    writer.draft.set(location, value)
}

/// Puts labels in use into the slots of agents, of elements that rules name and of some labels; most labels become pairs, and some elements days.
pub fn fill_slots(rng: &mut Rng, draft: &mut BookDraft) {
    let used = draft.used_labels();
    if used.is_empty() {
        return;
    }
    for element in 0..draft.permanent.min(NAMED) {
        if rng.percent(70) {
            replace_contents(draft, [SLOT, element, 0, rng.pick(&used)]);
        }
    }
    let agents: Vec<u32> = draft.agents.iter().map(|agent| agent[1]).collect();
    let first = rng.index(used.len());
    for (place, element) in agents.into_iter().enumerate() {
        let next = used[(first + place) % used.len()];
        let label = if rng.percent(60) { next } else { rng.pick(&used) };
        replace_contents(draft, [SLOT, element, 0, label]);
    }
    for &label in &used {
        if rng.percent(80) {
            replace_contents(draft, [PAIR, label, 0, 2]);
        }
        if rng.percent(50) {
            replace_contents(draft, [SLOT, label, 0, rng.pick(&used)]);
        }
    }
    if rng.percent(70) {
        replace_contents(draft, [LIMIT, 0, 0, 3]);
    }
    for _ in 0..rng.range(1, 3) {
        replace_contents(draft, [DAY, rng.below(draft.permanent), 0, 2]);
    }
}

/// A contents line in place of any other of its location.
fn replace_contents(draft: &mut BookDraft, line: Line) {
    draft.contents.retain(|other| other[..2] != line[..2]);
    draft.insert_contents(line);
}
