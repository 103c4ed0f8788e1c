// Lines of numbers: written from the specification's compact form, and read back from books, logs and what `rental` prints.

use paper::{write_line, Answer, Line, LINE_BYTES};

/// The lines of the specification's compact form, as in `8 6 3 13 / 2 3 0 0`.
pub fn compact_lines(compact: &str) -> Vec<Line> {
    let parts = compact.split('/').map(str::trim).filter(|part| !part.is_empty());
    parts.map(|part| numbers_in(part).try_into().expect("a line has four fields")).collect()
}

/// The compact form of some lines.
pub fn compact_of(lines: &[Line]) -> String {
    let lines = lines.iter().map(|line| line.map(|field| field.to_string()).join(" "));
    lines.collect::<Vec<_>>().join(" / ")
}

/// The text of the compact form: each field is right-justified in six columns.
pub fn padded(compact: &str) -> Vec<u8> {
    text_of(&compact_lines(compact))
}

/// The text of some lines.
pub fn text_of(lines: &[Line]) -> Vec<u8> {
    let mut text = Vec::with_capacity(lines.len() * LINE_BYTES);
    lines.iter().for_each(|&line| write_line(&mut text, line));
    text
}

/// The numbers of a line.
pub fn numbers_in(line: &str) -> Vec<u32> {
    line.split_whitespace().map(|word| word.parse().expect("a number")).collect()
}

/// The first line of a text, four fields of six columns each; nothing if one is no number.
pub fn first_line_in(text: &[u8]) -> Option<Line> {
    let field = |columns: &[u8]| std::str::from_utf8(columns).ok()?.trim().parse().ok();
    let fields: Option<Vec<u32>> = text.get(..LINE_BYTES - 1)?.chunks(6).map(field).collect();
    fields?.try_into().ok()
}

/// The lines of a text in which each is sound.
pub fn lines_in(text: &[u8]) -> Vec<Line> {
    text.chunks(LINE_BYTES).map(|line| first_line_in(line).expect("a sound line")).collect()
}

/// The answer that `rental` prints in its first line, `number p q count`.
pub fn printed_answer(printed: &[u8]) -> Answer {
    let [number, p, q, _] = first_line_in(printed).expect("a sound line");
    Answer { number, p, q }
}

/// The book and the log of an input whose book has a header of numbers and all the lines that it calls for.
pub fn book_and_log_in(input: &[u8]) -> Option<(&[u8], &[u8])> {
    let [_, _, f, n] = first_line_in(input)?;
    let [a, c, ..] = first_line_in(input.get(LINE_BYTES..)?)?;
    let lines = 2 + [f, n, a, c].map(|count| count as usize).iter().sum::<usize>();
    input.split_at_checked(lines * LINE_BYTES)
}

/// The next number, if a field has room for it.
pub fn one_more(field: u32) -> u32 {
    (field + 1).min(999_999)
}
