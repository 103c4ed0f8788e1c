// Lines of four right-justified six-column fields: reading and writing them.

/// The bytes of one line: four fields of six columns and byte 10.
pub const LINE_BYTES: usize = 25;

const COLUMNS: usize = 6;

/// The four numbers of a line.
pub type Line = [u32; 4];

/// The line with this number, if it is there and well formed.
pub fn line(text: &[u8], number: usize) -> Option<Line> {
    let bytes = text.get(number * LINE_BYTES..(number + 1) * LINE_BYTES)?;
    let (last, columns) = bytes.split_last()?;
    if *last != b'\n' {
        return None;
    }
    let mut fields = [0; 4];
    for (field, columns) in fields.iter_mut().zip(columns.chunks_exact(COLUMNS)) {
        *field = number_in(columns)?;
    }
    Some(fields)
}

/// The number in one field: blanks, then digits without a leading zero.
fn number_in(columns: &[u8]) -> Option<u32> {
    let blanks = columns.iter().position(|&byte| byte != b' ')?;
    let digits = &columns[blanks..];
    if digits[0] == b'0' && digits.len() > 1 {
        return None;
    }
    digits
        .iter()
        .try_fold(0, |number, &byte| byte.is_ascii_digit().then(|| number * 10 + u32::from(byte - b'0')))
}

/// All lines of a text that has to have exactly `count` of them;
/// otherwise the least line that is ill-formed, missing or surplus.
pub fn lines(text: &[u8], count: usize) -> Result<Vec<Line>, usize> {
    let mut found = Vec::with_capacity(count.min(text.len() / LINE_BYTES));
    for number in 0..count {
        found.push(line(text, number).ok_or(number)?);
    }
    if text.len() > count * LINE_BYTES {
        return Err(count);
    }
    Ok(found)
}

/// Adds one line to a text. Fields of more than six digits do not fit and are the caller's mistake.
pub fn write_line(text: &mut Vec<u8>, line: Line) {
    for mut number in line {
        debug_assert!(number < 1_000_000);
        let mut columns = [b' '; COLUMNS];
        for column in columns.iter_mut().rev() {
            *column = b'0' + (number % 10) as u8;
            number /= 10;
            if number == 0 {
                break;
            }
        }
        text.extend_from_slice(&columns);
    }
    text.push(b'\n');
}
