// A move after its walk: clash, firing and marks; and the entry for a single move.
//
// A move that fires reads what its walk looked at, each location that a release of it gives a value, and, for each
// location that it changes from a label to another value, Reserve at that label (SPECIFICATION 5).

use crate::answer::{Answer, Refusal};
use crate::book::{check_book, Book, Function, TRUE};
use crate::table::{arguments, fault_in_table};
use crate::walk::{walk_move, Instruction, Marks, Pick, INSTRUCTIONS};

/// The greatest place that an answer has room for: places have 24 bits.
pub const MOST_PLACE: usize = (1 << 24) - 1;

/// Fires one move of an agent with these picks, which are elements, or refuses it and leaves contents and
/// marks as they were.
/// The list holds the instructions of a move that was walked to the end, refused by 15 or not.
pub fn fire_move(
    book: &Book,
    contents: &mut [u16],
    agent: usize,
    picks: &[Pick],
    mut marks: Marks,
    list: &mut Vec<Instruction>,
) -> Result<(), Refusal> {
    let judged = match walk_move(book, contents, agent, picks, &mut marks, list) {
        Ok(()) => judge(book, contents, list),
        Err(refusal) => {
            list.clear();
            Err(refusal)
        }
    };
    match judged {
        Ok(released) => {
            fire(book, contents, list, &released, &mut marks);
            Ok(())
        }
        Err(refusal) => {
            marks.forget_reads();
            Err(refusal)
        }
    }
}

/// The labels that a move releases, each once.
struct Released {
    labels: Vec<u16>,
    /// One flag for each element, none if no label is released.
    flags: Vec<bool>,
}

impl Released {
    fn by(book: &Book, list: &[Instruction]) -> Released {
        let mut released = Released { labels: Vec::new(), flags: Vec::new() };
        for instruction in list {
            if let Instruction::Release { label } = *instruction {
                released.flags.resize(book.elements, false);
                if !std::mem::replace(&mut released.flags[label as usize], true) {
                    released.labels.push(label);
                }
            }
        }
        released
    }

    fn has(&self, element: usize) -> bool {
        self.flags.get(element).is_some_and(|&flag| flag)
    }
}

/// 15, or else the labels that the move releases.
fn judge(book: &Book, contents: &[u16], list: &[Instruction]) -> Result<Released, Refusal> {
    let released = Released::by(book, list);
    match clash(book, contents, list, &released) {
        Some(location) => Err(Refusal { number: 15, place: location }),
        None => Ok(released),
    }
}

/// The least location that gets two values, or a value that the move releases.
fn clash(book: &Book, contents: &[u16], list: &[Instruction], released: &Released) -> Option<usize> {
    let update = |instruction: &Instruction| match *instruction {
        Instruction::Update { location, value } => Some((location, value)),
        Instruction::Release { .. } => None,
    };
    let mut updates: Vec<(usize, u16)> = list.iter().filter_map(update).collect();
    updates.sort_unstable();
    let two_values = updates.windows(2).find(|pair| pair[0].0 == pair[1].0 && pair[0].1 != pair[1].1);
    let two_values = two_values.map(|pair| pair[0].0);
    if released.labels.is_empty() {
        return two_values;
    }
    let against_release = updates.iter().find(|&&(location, value)| {
        released.has(value as usize)
            || default_by_release(book, contents, location, released).is_some_and(|default| default != value)
    });
    let against_release = against_release.map(|&(location, _)| location);
    two_values.into_iter().chain(against_release).min()
}

/// The default of an updated location that a release clears too. No move both updates Reserve at a
/// label and releases it: imports take labels on the roll, releases take others.
fn default_by_release(book: &Book, contents: &[u16], location: usize, released: &Released) -> Option<u16> {
    let after = book.functions.partition_point(|function| function.first <= location);
    let function = &book.functions[after - 1];
    let arguments = arguments(function, location - function.first, book.elements);
    let mut used = arguments[..function.arity as usize].iter();
    let cleared = released.has(contents[location] as usize) || used.any(|&argument| released.has(argument));
    cleared.then(|| function.default_value())
}

/// Carries out the instructions of a move without clash and marks what it writes, and what it reads beyond
/// its walk.
fn fire(book: &Book, contents: &mut [u16], list: &[Instruction], released: &Released, marks: &mut Marks) {
    if !released.labels.is_empty() {
        for function in book.functions.iter().filter(|function| function.dynamic) {
            clear_holders(book, function, contents, released, marks);
            for &label in &released.labels {
                clear_arguments(book, function, contents, label as usize, marks);
            }
        }
        for &label in &released.labels {
            contents[label as usize] = TRUE;
        }
    }
    for instruction in list {
        if let Instruction::Update { location, value } = *instruction {
            marks.written(location);
            read_of_label_taken_out(book, contents[location], value, marks);
            contents[location] = value;
        }
    }
}

/// A location that changes from a label to another value: the move reads Reserve at that label.
fn read_of_label_taken_out(book: &Book, before: u16, after: u16, marks: &mut Marks) {
    if book.is_label(before) && after != before {
        // Reserve is function 0, so its location is the label.
        marks.read(before as usize);
    }
}

/// Gives a location that a release clears its default, here as `value`. A release reads each location that it
/// gives a value.
fn clear(book: &Book, function: &Function, offset: usize, value: &mut u16, marks: &mut Marks) {
    let default = function.default_value();
    let location = function.first + offset;
    marks.written(location);
    marks.read(location);
    read_of_label_taken_out(book, *value, default, marks);
    *value = default;
}

/// Clears each location of a function that holds a released label.
fn clear_holders(
    book: &Book,
    function: &Function,
    contents: &mut [u16],
    released: &Released,
    marks: &mut Marks,
) {
    if function.relation {
        return;
    }
    let values = &mut contents[function.run()];
    for (offset, value) in values.iter_mut().enumerate() {
        if released.has(*value as usize) {
            clear(book, function, offset, value, marks);
        }
    }
}

/// Clears each location of a function with the label as argument.
fn clear_arguments(book: &Book, function: &Function, contents: &mut [u16], label: usize, marks: &mut Marks) {
    let elements = book.elements;
    let values = &mut contents[function.run()];
    let mut clear_at = |offset: usize| clear(book, function, offset, &mut values[offset], marks);
    match function.arity {
        0 => {}
        1 => clear_at(label),
        _ => {
            (0..elements).for_each(|other| clear_at(label * elements + other));
            (0..elements).for_each(|other| clear_at(other * elements + label));
        }
    }
}

/// The updates of a list without clash, given by a move from these contents: each location with its
/// value, ascending, releases spelled out.
pub fn updates(book: &Book, contents: &[u16], list: &[Instruction]) -> Vec<(usize, u16)> {
    let mut after = contents.to_vec();
    let mut writers = vec![0; book.locations];
    let mut marks = Marks { readers: &mut [], writers: &mut writers, bit: 1 };
    fire(book, &mut after, list, &Released::by(book, list), &mut marks);
    let written = writers.iter().enumerate().filter(|(_, &mark)| mark != 0);
    written.map(|(location, _)| (location, after[location])).collect()
}

/// The locations, ascending, that a move from these contents reads, and those that it writes.
pub fn reads_and_writes(
    book: &Book,
    contents: &[u16],
    agent: usize,
    picks: &[Pick],
) -> Result<(Vec<usize>, Vec<usize>), Refusal> {
    let mut after = contents.to_vec();
    let mut readers = vec![0; book.locations];
    let mut writers = vec![0; book.locations];
    let marks = Marks { readers: &mut readers, writers: &mut writers, bit: 1 };
    fire_move(book, &mut after, agent, picks, marks, &mut Vec::new())?;
    let marked = |marks: &[u64]| (0..marks.len()).filter(|&location| marks[location] != 0).collect();
    Ok((marked(&readers), marked(&writers)))
}

/// One move of an agent with these picks on a lent table, as move 0.
pub fn step(book: &[u8], contents: &mut [u16], agent: usize, picks: &[Pick], lent: usize) -> Answer {
    step_listed(book, contents, agent, picks, lent).0
}

/// As `step`, with the instruction list of a move that was walked to the end.
pub fn step_listed(
    book: &[u8],
    contents: &mut [u16],
    agent: usize,
    picks: &[Pick],
    lent: usize,
) -> (Answer, Vec<Instruction>) {
    let mut list = Vec::new();
    let outcome =
        check_book(book).and_then(|book| step_checked(&book, contents, agent, picks, lent, &mut list));
    (outcome.into(), list)
}

/// The single-move entry after the book's checks: 9 for the agent, 9 for the picks, 2, 8, then the move.
pub fn step_checked(
    book: &Book,
    contents: &mut [u16],
    agent: usize,
    picks: &[Pick],
    lent: usize,
    list: &mut Vec<Instruction>,
) -> Result<(), Answer> {
    list.clear();
    if agent >= book.agents.len() {
        return Err(Answer::refused(9, 0, 0));
    }
    if let Some(index) = picks.iter().position(|&pick| pick >= book.elements as Pick) {
        return Err(Answer::refused(9, (index + 1).min(MOST_PLACE), 0));
    }
    if contents.len() < book.locations {
        return Err(Answer::refused(2, book.locations, 0));
    }
    if lent < INSTRUCTIONS {
        return Err(Answer::refused(2, INSTRUCTIONS, 3));
    }
    if let Some(location) = fault_in_table(book, contents) {
        return Err(Answer::refused(8, location, 0));
    }
    fire_move(book, contents, agent, picks, Marks::none(), list).map_err(|refusal| refusal.in_move(0))
}
