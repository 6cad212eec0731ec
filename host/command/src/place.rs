//! Where in a file a fault lies, for messages. It judges nothing: the proved code has refused by then.

use wakeluri::Table;
use wakeluri::entry::ROW_BYTES;
use wakeluri::shown::is_unseen;
pub use wakeluri::shown::{commas, count, quoted, short};

/// A line of a file.
#[derive(Clone, Copy, Debug, Eq, PartialEq)]
pub struct Line {
    /// Its number, from 1.
    pub number: u64,
    /// The offset of its first byte.
    pub start: usize,
    /// How many bytes it has, with its end.
    pub width: usize,
    /// How many bases it has, by the line rule.
    pub bases: usize,
}

/// The lines from an offset on, which is the start of a line that has a number.
pub fn lines(file: &[u8], start: usize, number: u64) -> impl Iterator<Item = Line> + '_ {
    let mut at = start;
    file.get(start..).unwrap_or_default().split_inclusive(|byte| *byte == b'\n').zip(number..).map(
        move |(line, number)| {
            let start = at;
            at += line.len();
            let content = line.strip_suffix(b"\n").unwrap_or(line);
            let content = content.strip_suffix(b"\r").unwrap_or(content);
            Line { number, start, width: line.len(), bases: content.len() }
        },
    )
}

/// The number of the line that an offset lies in.
pub fn line_number(file: &[u8], offset: usize) -> u64 {
    let before = file.get(..offset).unwrap_or(file);
    before.iter().filter(|byte| **byte == b'\n').count() as u64 + 1
}

/// The bytes of a line.
pub fn text(file: &[u8], line: Line) -> &[u8] {
    file.get(line.start..).and_then(|rest| rest.get(..line.width)).unwrap_or_default()
}

/// The definition line of a record, counted from 1.
pub fn definition(file: &[u8], record: u64) -> Option<Line> {
    let record = usize::try_from(record).ok()?.checked_sub(1)?;
    let is_definition = |line: &Line| line.start == 0 || file.get(line.start) == Some(&b'>');
    lines(file, 0, 1).filter(is_definition).nth(record)
}

/// The lines of a record's sequence, after its definition line.
pub fn sequence(file: &[u8], definition: Line) -> impl Iterator<Item = Line> + '_ {
    lines(file, definition.start + definition.width, definition.number + 1)
        .take_while(|line| file.get(line.start) != Some(&b'>'))
}

/// Where the definition line of a row's record begins, in a table of the file's own names.
pub fn definition_start(rows: &Table<'_>, row: usize) -> Option<usize> {
    let bytes = rows.as_bytes().get(row.checked_mul(ROW_BYTES)?..)?.first_chunk()?;
    usize::try_from(u64::from_le_bytes(*bytes)).ok()?.checked_sub(1)
}

/// The definition line of the record that an indexer refused, after the rows that it had made.
pub fn refused_definition(file: &[u8], rows: &Table<'_>) -> Option<Line> {
    let start = match rows.len().checked_sub(1) {
        None => 0,
        Some(last) => {
            let definition = lines(file, definition_start(rows, last)?, 0).next()?;
            let last = sequence(file, definition).last().unwrap_or(definition);
            last.start + last.width
        }
    };
    lines(file, start, line_number(file, start)).next()
}

/// The line and the offset of a base of a record, counted from 1.
pub fn base(file: &[u8], definition: Line, base: u64) -> Option<(Line, usize)> {
    let mut left = usize::try_from(base).ok()?.checked_sub(1)?;
    for line in sequence(file, definition) {
        if left < line.bases {
            return Some((line, line.start + left));
        }
        left -= line.bases;
    }
    None
}

/// What a message shows of a line, by its bytes: all bases of a short one, of a long one those about a byte of it. Nothing where only the front
/// of a long line is at hand, and they are not there.
pub fn about(text: &[u8], line: Line, byte: usize) -> Option<String> {
    const SHOWN: usize = 60;
    let from = if line.bases <= SHOWN { 0 } else { byte.saturating_sub(line.start).saturating_sub(SHOWN / 2) };
    let to = line.bases.min(from + SHOWN);
    let part = text.get(from..to)?;
    let dots = |left: bool| if left { ".." } else { "" };
    Some(format!("{}{}{}", dots(from > 0), quoted(part), dots(to < line.bases)))
}

/// The bytes of a line, and below them a caret under one; what does not fit on a screen of so many columns is left out.
pub fn pointed(line: &[u8], place: u64, columns: usize) -> String {
    let text = line.trim_ascii_end();
    let at = usize::try_from(place).unwrap_or(usize::MAX).min(text.len());
    let room = columns.saturating_sub(8).max(20);
    // letters of a message, not bytes: a byte that is no letter takes four of them
    let shown = |from: usize, to: usize| quoted(text.get(from..to).unwrap_or_default());
    let from = (0..=at).find(|from| shown(*from, at).len() < room / 2).unwrap_or(at);
    let most = text.len().min(from + room);
    let to = (at..=most).rev().find(|to| shown(from, *to).len() <= room).unwrap_or(at);
    let (front, back) = (if from > 0 { ".." } else { "" }, if to < text.len() { ".." } else { "" });
    let before = " ".repeat(front.len() + shown(from, at).chars().count());
    format!("{front}{}{back}\n{before}^", shown(from, to))
}

/// The offset at which an index line says that a base lies, if 64 bits hold it.
pub fn said([position, line_bases, line_width]: [u64; 3], base: u64) -> Option<u64> {
    let before = base.checked_sub(1)?;
    let lines = before.checked_div(line_bases)?.checked_mul(line_width)?;
    position.checked_add(lines)?.checked_add(before.checked_rem(line_bases)?)
}

/// A message, whose lines end in LF, without other letters that are not seen.
pub fn seen(text: &str) -> String {
    let escaped = |letter: char| letter.escape_default().collect::<String>();
    text.chars()
        .map(|letter| if letter != '\n' && is_unseen(letter) { escaped(letter) } else { letter.into() })
        .collect()
}

#[cfg(test)]
mod tests {
    use super::*;

    #[test]
    fn places() {
        let file = b">s\nACGT\nAC\n>t x\r\nGG\r\nG";
        assert_eq!(definition(file, 2), Some(Line { number: 4, start: 11, width: 6, bases: 4 }));
        let record = definition(file, 2).unwrap();
        assert_eq!(base(file, record, 3).map(|(line, at)| (line.number, at)), Some((6, 21)));
        assert_eq!(base(file, record, 4), None);
        let file = b">s\n\nAC\n\n>t\nAC\nA\nC\n";
        let (rows, refusal) = wakeluri::index_until_refused(file);
        assert_eq!((rows.len(), refusal.map(|refusal| refusal.number)), (1, Some(42)));
        assert_eq!(refused_definition(file, &rows).map(|line| line.number), Some(5));
        assert_eq!((commas(0), commas(999), commas(1234567)), ("0".into(), "999".into(), "1,234,567".into()));
    }
}
