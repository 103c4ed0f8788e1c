// The tables of the benchmarks, in columns or as Markdown, and how their numbers are written.
use crate::rows::Row;

pub struct Table<'a> {
    pub markdown: bool,
    pub headings: &'a [&'a str],
}

impl Table<'_> {
    pub fn heading(&self) -> String {
        let headings: Vec<String> = self.headings.iter().map(|heading| heading.to_string()).collect();
        let heading = self.line(&headings);
        if self.markdown {
            format!("{heading}\n|---{}|", "|---:".repeat(self.headings.len() - 1))
        } else {
            heading
        }
    }

    // The first cell names the row.
    pub fn line(&self, cells: &[String]) -> String {
        if self.markdown {
            return format!("| {} |", cells.join(" | "));
        }
        let others: String = cells[1..].iter().map(|cell| format!(" {cell:>12}")).collect();
        format!("{:<67}{others}", cells[0])
    }
}

// The cells of a row beside its name.
pub fn cells(row: &Row, shown: fn(f64) -> String) -> [String; 3] {
    [shown(row.proved()), shown(row.independent()), two_places(row.ratio())]
}

pub fn two_places(ratio: f64) -> String {
    format!("{ratio:.2}")
}

// A time with three digits and its unit.
pub fn time(seconds: f64) -> String {
    let (value, unit) = match seconds {
        s if s >= 1e-3 => (s * 1e3, "ms"),
        s if s >= 1e-6 => (s * 1e6, "µs"),
        s => (s * 1e9, "ns"),
    };
    let places = match value {
        v if v >= 100.0 => 0,
        v if v >= 10.0 => 1,
        _ => 2,
    };
    format!("{value:.places$} {unit}")
}

// A count with commas; one of a few instructions with a place behind the point.
pub fn count(instructions: f64) -> String {
    if instructions.abs() < 100.0 {
        return format!("{instructions:.1}");
    }
    let digits = format!("{instructions:.0}");
    let comma = |(i, digit): (usize, char)| {
        let left = digits.len() - i;
        let group = left % 3 == 0 && i > 0 && digits.as_bytes()[i - 1] != b'-';
        [group.then_some(','), Some(digit)]
    };
    digits.chars().enumerate().flat_map(comma).flatten().collect()
}
