// Contents at fault, each reason of 8: in the lines of a draft and in lent tables.

use crate::book_draft::BookDraft;
use crate::rng::Rng;

/// Spoils the contents lines by one reason, or by the next one that the draft has room for.
pub fn spoil_contents(rng: &mut Rng, draft: &mut BookDraft) {
    let first = rng.below(12);
    for reason in (first..12).chain(0..first) {
        if spoil_by(rng, draft, reason) {
            return;
        }
    }
}

/// Spoils by one reason; false if the draft has no function or label for it.
fn spoil_by(rng: &mut Rng, draft: &mut BookDraft, reason: u32) -> bool {
    let line = match reason {
        0 => Some([draft.functions.len() as u32, 0, 0, 3]),
        1 => argument_too_large(rng, draft),
        2 => value_too_large(rng, draft),
        3 => unused_argument(rng, draft),
        4 => default_value(rng, draft),
        5 => no_boolean(rng, draft),
        6 => Some([0, rng.below(draft.permanent), 0, 2]),
        7 => static_at_label(rng, draft),
        8 => static_label(rng, draft),
        9 => return out_of_order(rng, draft),
        10 => trace(rng, draft, true),
        _ => trace(rng, draft, false),
    };
    line.map(|line| draft.insert_contents(line)).is_some()
}

type Made = Option<[u32; 4]>;

/// A sound value of a function that needs no label.
fn plain_value(draft: &BookDraft, function: u32) -> u32 {
    if draft.is_relation(function) {
        2
    } else {
        3
    }
}

fn argument_too_large(rng: &mut Rng, draft: &BookDraft) -> Made {
    let functions = draft.functions_where(|draft, f| draft.arity(f) > 0);
    let function = rng.any(&functions)?;
    let large = rng.pick(&[draft.elements, draft.elements + 1, 65_536, 999_999]);
    let value = plain_value(draft, function);
    if draft.arity(function) == 2 && rng.percent(50) {
        return Some([function, 0, large, value]);
    }
    Some([function, large, 0, value])
}

fn value_too_large(rng: &mut Rng, draft: &BookDraft) -> Made {
    let functions = draft.functions_where(|_, _| true);
    let function = rng.any(&functions)?;
    Some([function, 0, 0, rng.pick(&[draft.elements, draft.elements + 1, 65_538, 999_999])])
}

fn unused_argument(rng: &mut Rng, draft: &BookDraft) -> Made {
    let functions = draft.functions_where(|draft, f| draft.arity(f) < 2);
    let function = rng.any(&functions)?;
    let value = plain_value(draft, function);
    if draft.arity(function) == 0 && rng.percent(50) {
        return Some([function, 1, 0, value]);
    }
    Some([function, 0, 1, value])
}

fn default_value(rng: &mut Rng, draft: &BookDraft) -> Made {
    let functions = draft.functions_where(|_, _| true);
    let function = rng.any(&functions)?;
    Some([function, 0, 0, u32::from(draft.is_relation(function))])
}

fn no_boolean(rng: &mut Rng, draft: &BookDraft) -> Made {
    let relations = draft.functions_where(|draft, f| draft.is_relation(f));
    let relation = rng.any(&relations).unwrap_or(0);
    let argument = if relation == 0 { draft.elements - 1 } else { 0 };
    Some([relation, argument, 0, rng.pick(&[0, 1, 3, draft.elements - 1])])
}

fn static_at_label(rng: &mut Rng, draft: &BookDraft) -> Made {
    let functions = draft.functions_where(|draft, f| !draft.is_dynamic(f) && draft.arity(f) > 0);
    let function = rng.any(&functions)?;
    let label = label(rng, draft)?;
    let value = plain_value(draft, function);
    if draft.arity(function) == 2 && rng.percent(50) {
        return Some([function, 0, label, value]);
    }
    Some([function, label, 0, value])
}

fn static_label(rng: &mut Rng, draft: &BookDraft) -> Made {
    let functions = draft.functions_where(|draft, f| !draft.is_dynamic(f) && !draft.is_relation(f));
    let function = rng.any(&functions)?;
    Some([function, 0, 0, label(rng, draft)?])
}

fn label(rng: &mut Rng, draft: &BookDraft) -> Option<u32> {
    (draft.permanent < draft.elements).then(|| rng.range(draft.permanent, draft.elements - 1))
}

/// Two lines swapped, or one twice.
fn out_of_order(rng: &mut Rng, draft: &mut BookDraft) -> bool {
    if draft.contents.len() < 2 {
        return false;
    }
    let line = rng.index(draft.contents.len() - 1);
    if rng.percent(50) {
        draft.contents.swap(line, line + 1);
    } else {
        draft.contents.insert(line, draft.contents[line]);
    }
    true
}

/// A trace of a label on the roll: as an argument, or as a value.
fn trace(rng: &mut Rng, draft: &BookDraft, as_argument: bool) -> Made {
    let label = rng.any(&draft.free_labels())?;
    let functions = draft.functions_where(|draft, f| {
        draft.is_dynamic(f) && if as_argument { draft.arity(f) > 0 } else { !draft.is_relation(f) }
    });
    let function = rng.any(&functions)?;
    if !as_argument {
        return Some([function, 0, 0, label]);
    }
    let value = plain_value(draft, function);
    if draft.arity(function) == 2 && rng.percent(50) {
        return Some([function, 0, label, value]);
    }
    Some([function, label, 0, value])
}

/// Spoils a lent table of a draft's locations by one reason of 8.
pub fn spoil_table(rng: &mut Rng, draft: &BookDraft, table: &mut [u16]) {
    let first = rng.below(8);
    for reason in (first..8).chain(0..first) {
        if let Some((location, value)) = table_fault(rng, draft, table, reason) {
            table[location] = value as u16;
            return;
        }
    }
}

/// A location with a value that one reason forbids there.
fn table_fault(rng: &mut Rng, draft: &BookDraft, table: &[u16], reason: u32) -> Option<(usize, u32)> {
    let relations = draft.functions_where(|draft, f| draft.is_relation(f));
    let any_in = |rng: &mut Rng, function: u32| draft.first(function) + rng.index(draft.size(function));
    let line = match reason {
        0 => {
            let location = rng.index(draft.locations());
            return Some((location, rng.pick(&[draft.elements, draft.elements + 1, 65_535])));
        }
        1 => {
            let relation = rng.any(&relations).unwrap_or(0);
            return Some((any_in(rng, relation), rng.pick(&[0, 3, draft.elements - 1])));
        }
        2 => [0, rng.below(draft.permanent), 0, 2],
        3 => static_at_label(rng, draft)?,
        4 => static_label(rng, draft)?,
        5 => {
            // A label in use, put on the roll: its traces are at fault.
            let label = label(rng, draft)?;
            [0, label, 0, 2]
        }
        _ => {
            let mut rolled = draft.clone();
            rolled.contents = (draft.permanent..draft.elements)
                .filter(|&label| table[label as usize] == 2)
                .map(|label| [0, label, 0, 2])
                .collect();
            trace(rng, &rolled, reason == 6)?
        }
    };
    Some((draft.location(&line)?, line[3]))
}
