//! Records that are taken though most are not like them: with blank lines, or without bases. The proved code has taken the file by
//! then; they are only counted here, so that whoever did not expect them is told.

use crate::place;
use wakeluri::{Record, Table};

/// How many there are of each; a record is counted once.
#[derive(Clone, Copy, Debug, Default, Eq, PartialEq)]
pub struct Unusual {
    /// Records that have bases and blank lines.
    pub blank_lines: u64,
    /// Records that have no bases.
    pub no_bases: u64,
}

impl Unusual {
    /// Those of a file, whose rows are given.
    pub fn of(file: &[u8], rows: &Table<'_>) -> Self {
        let mut found = Self::default();
        for (row, record) in rows.records().enumerate() {
            if record.length == 0 {
                found.no_bases += 1;
            } else if has_blank_line(file, rows, row, &record).unwrap_or(false) {
                found.blank_lines += 1;
            }
        }
        found
    }

    /// In words behind the count of all records; nothing where there are none.
    pub fn told(self) -> String {
        let part = |number, what| (number > 0).then(|| format!("{} {what}", place::commas(number)));
        let parts = [part(self.blank_lines, "with blank lines"), part(self.no_bases, "without bases")];
        let parts: Vec<String> = parts.into_iter().flatten().collect();
        if parts.is_empty() { String::new() } else { format!(" ({})", parts.join(", ")) }
    }
}

/// Whether a line of a record that has bases is blank: before, behind or between those that have them. The lines lie as the row's
/// numbers say, so that it reads few bytes.
fn has_blank_line(file: &[u8], rows: &Table<'_>, row: usize, record: &Record<'_>) -> Option<bool> {
    let definition = place::lines(file, place::definition_start(rows, row)?, 0).next()?;
    let end = place::definition_start(rows, row + 1).unwrap_or(file.len());
    let offset = |base| {
        place::said([record.position, record.line_bases, record.line_width], base)
            .and_then(|offset| usize::try_from(offset).ok())
    };
    let (first, last) = (offset(1)?, offset(record.length)?);

    let before = first != definition.start + definition.width;
    let behind = !matches!(file.get(last + 1..end)?, b"" | b"\n" | b"\r\n" | b"\r");
    // what lies between the last base of a line and the first of the next: its end, and blank lines
    let lines = (record.length - 1) / record.line_bases;
    let is_blank = |line: u64| offset(line * record.line_bases).and_then(|last| file.get(last + 1)) == Some(&b'\n');
    let between = match record.line_width.saturating_sub(record.line_bases) {
        0 | 1 => false,
        2 => (1..=lines).any(is_blank),
        _ => lines > 0,
    };
    Some(before || behind || between)
}

#[cfg(test)]
mod tests {
    use super::*;

    /// The same counted line by line.
    fn by_lines(file: &[u8]) -> Unusual {
        let mut found = Unusual::default();
        for record in (1..).map_while(|record| place::definition(file, record)) {
            let lines: Vec<usize> = place::sequence(file, record).map(|line| line.bases).collect();
            if lines.iter().all(|bases| *bases == 0) {
                found.no_bases += 1;
            } else if lines.contains(&0) {
                found.blank_lines += 1;
            }
        }
        found
    }

    /// Every file of nine small bytes behind a name.
    #[test]
    fn as_many_as_line_by_line() {
        let (mut taken, mut all) = (0, Unusual::default());
        for number in 0..4_usize.pow(9) {
            let bytes = (0..9).map(|place| b"A\n\r>"[number / 4_usize.pow(place) % 4]);
            let file: Vec<u8> = b">s\n".iter().copied().chain(bytes).collect();
            let Ok(rows) = wakeluri::index(&file) else { continue };
            let found = Unusual::of(&file, &rows);
            assert_eq!(found, by_lines(&file), "{}", file.escape_ascii());
            taken += 1;
            all.blank_lines += found.blank_lines;
            all.no_bases += found.no_bases;
        }
        assert!(taken > 100_000 && all.blank_lines > 10_000 && all.no_bases > 10_000, "{taken} {all:?}");
    }

    #[test]
    fn in_words() {
        let told = |blank_lines, no_bases| Unusual { blank_lines, no_bases }.told();
        assert_eq!((told(0, 0), told(1, 0)), (String::new(), " (1 with blank lines)".to_string()));
        assert_eq!(told(1234, 2), " (1,234 with blank lines, 2 without bases)");
    }
}
