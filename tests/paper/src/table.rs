// Contents tables: check 8 on contents lines and on lent tables, and the table a run starts from.

use crate::book::{Book, Function, FALSE, TRUE};
use crate::text::Line;

/// The contents lines as locations with values; otherwise the least line at fault, counted from 0.
pub fn read_contents(book: &Book, lines: &[Line]) -> Result<Vec<(usize, u16)>, usize> {
    let mut roll = vec![false; book.elements];
    let mut entries: Vec<(usize, u16)> = Vec::with_capacity(lines.len());
    for (number, line) in lines.iter().enumerate() {
        let after = entries.last().map(|&(location, _)| location);
        let entry = entry(book, line, after, &roll).ok_or(number)?;
        // Reserve is function 0, so its location is the label.
        if line[0] == 0 {
            roll[entry.0] = true;
        }
        entries.push(entry);
    }
    Ok(entries)
}

/// One contents line, if it is sound and its location comes after the one given.
fn entry(book: &Book, line: &Line, after: Option<usize>, roll: &[bool]) -> Option<(usize, u16)> {
    let [number, first, second, value] = line.map(|field| field as usize);
    let function = book.functions.get(number)?;
    let in_bounds = [first, second, value].iter().all(|&element| element < book.elements);
    let used = function.arity as usize;
    let unused_are_zero = [first, second][used..].iter().all(|&field| field == 0);
    if !in_bounds || !unused_are_zero {
        return None;
    }
    let offset = match function.arity {
        2 => first * book.elements + second,
        _ => first,
    };
    let value = value as u16;
    let location = function.first + offset;
    let ascending = after.is_none_or(|after| after < location);
    let sound = value != function.default_value() && sound_value(book, number, offset, value, roll);
    (ascending && sound).then_some((location, value))
}

/// The least location below L that is at fault in a lent table of at least L records.
pub fn fault_in_table(book: &Book, contents: &[u16]) -> Option<usize> {
    let roll: Vec<bool> = contents[..book.elements].iter().map(|&value| value == TRUE).collect();
    for (number, function) in book.functions.iter().enumerate() {
        let values = contents[function.run()].iter().enumerate();
        for (offset, &value) in values {
            let default = value == function.default_value();
            if !default && !sound_value(book, number, offset, value, &roll) {
                return Some(function.first + offset);
            }
        }
    }
    None
}

/// Whether a value other than the default may stand at this offset of a function, given the roll.
fn sound_value(book: &Book, number: usize, offset: usize, value: u16, roll: &[bool]) -> bool {
    let function = &book.functions[number];
    let value = value as usize;
    let within = value < book.elements && (!function.relation || value == TRUE as usize);
    if !within {
        return false;
    }
    let arguments = arguments(function, offset, book.elements);
    let mut elements = arguments.into_iter().take(function.arity as usize).chain([value]);
    if number == 0 {
        offset >= book.permanent
    } else if function.dynamic {
        elements.all(|element| !roll[element])
    } else {
        elements.all(|element| element < book.permanent)
    }
}

/// The arguments at an offset of a function, 0 where it has none.
pub fn arguments(function: &Function, offset: usize, elements: usize) -> [usize; 2] {
    match function.arity {
        0 => [0, 0],
        1 => [offset, 0],
        _ => [offset / elements, offset % elements],
    }
}

/// Fills the locations of a table with the start: the contents lines, defaults elsewhere.
pub fn fill_start(book: &Book, contents: &mut [u16]) {
    for function in &book.functions {
        contents[function.run()].fill(function.default_value());
    }
    for &(location, value) in &book.start {
        contents[location] = value;
    }
}

/// A new table of L records with the start.
pub fn start_table(book: &Book) -> Vec<u16> {
    let mut contents = vec![FALSE; book.locations];
    fill_start(book, &mut contents);
    contents
}
