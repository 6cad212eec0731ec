//! The rows of a file and of an index text, and those of a table that was lent.

use crate::lines::{bases, content, definition_at, first_line, from};
use crate::reads::put;
use crate::{n, no};
use questions::form::{Answer, No, Value};
use questions::row::{OF_A_LINE, Row, Rows, WORDS, row};

/// The answers of this file's families.
pub(crate) fn answer(family: &str, arguments: &mut [Value]) -> Option<Answer> {
    use questions::form::Value::{Bytes, Number, Numbers, Output, Rows, Table};
    Some(match (family, arguments) {
        ("rec", [Bytes(file), Number(at)]) => {
            let found = record(file, *at);
            found.map(|found| found.map(|(row, next)| vec![Numbers(row.to_vec()), Number(next)])).into()
        }
        ("idx", [Bytes(file), Table(table)]) => file_rows(file, table, record).into(),
        ("ixl", [Bytes(line)]) => {
            let read = index_content(content(line), 0, 1);
            read.map(|row| vec![Numbers(row.to_vec()), Number(u64::from(is_plain(line)))]).into()
        }
        ("ixc", [Bytes(content)]) => index_content(content, 0, 1).map(|row| vec![Numbers(row.to_vec())]).into(),
        ("ixt", [Bytes(index), Table(table)]) => {
            index_rows(index, table, |content, start, line| index_content(content, start, line).map(row)).into()
        }
        ("wrl", [Bytes(names), Rows(rows), Number(row), Output(out)]) => write_line(names, rows, *row, out).into(),
        ("fnd", [Bytes(names), Rows(rows), Bytes(name)]) => find(names, rows, name).into(),
        _ => return None,
    })
}

// ---- the indexer ----

/// The lines of a record's sequence: all up to one that begins with '>', or to the end.
pub(crate) fn sequence_lines(text: &[u8]) -> Vec<&[u8]> {
    text.split_inclusive(|b| *b == b'\n').take_while(|line| line[0] != b'>').collect()
}

/// The row of a record whose definition line begins at an offset, by what that says and the four columns. A description that has no bytes
/// has no place.
pub(crate) fn record_row(at: u64, said: [u64; 4], [length, position, line_bases, line_width]: [u64; 4]) -> Row {
    let [name_start, name_length, start, bytes] = said;
    let mut row = row([at + name_start, name_length, length, position, line_bases, line_width]);
    row[6] = if bytes == 0 { 0 } else { at + start };
    row[7] = bytes;
    row
}

/// The row of the record at an offset, and the offset behind it.
pub(crate) fn record(file: &[u8], at: u64) -> Result<Option<(Row, u64)>, No> {
    let rest = from(file, at);
    let Some(line) = first_line(rest) else { return Ok(None) };
    let said = definition_at(line, at)?;
    let lines = sequence_lines(&rest[line.len()..]);
    let position = at + n(line.len());

    let (width, count) = lines.first().map_or((0, 0), |first| (first.len(), bases(first).len()));
    if count == 0 {
        return no(5, position + n(width), 0);
    }
    for k in 1.. {
        let (this_width, this_count) = lines.get(k).map_or((0, 0), |line| (line.len(), bases(line).len()));
        let nothing_follows = k + 1 >= lines.len();
        if nothing_follows && this_width <= width && this_count <= count {
            break;
        } else if this_count != count {
            return no(6, n(this_count), n(count));
        } else if this_width != width {
            return no(7, n(this_width), n(width));
        }
    }
    let length = lines.iter().map(|line| bases(line).len()).sum();
    let next = position + lines.iter().map(|line| n(line.len())).sum::<u64>();
    Ok(Some((record_row(at, said, [n(length), position, n(count), n(width)]), next)))
}

// ---- whole files and indexes ----

/// How many rows were put in a table, and what ended it, if it was a refusal.
pub(crate) struct Filled {
    pub(crate) no: Option<No>,
    pub(crate) count: u64,
}

impl From<Filled> for Answer {
    fn from(filled: Filled) -> Self {
        Self { no: filled.no, told: vec![Value::Number(filled.count)] }
    }
}

/// Rows of a file from its start on, each by a rule for one record.
pub(crate) fn file_rows<const W: usize>(
    file: &[u8],
    table: &mut [u64],
    record: impl Fn(&[u8], u64) -> Result<Option<([u64; W], u64)>, No>,
) -> Filled {
    let (mut at, mut stopped) = (0, false);
    let rows = std::iter::from_fn(|| {
        if stopped {
            return None;
        }
        match record(file, at) {
            Ok(None) => None,
            Ok(Some((row, next))) => {
                at = next;
                Some(Ok(row))
            }
            Err(no) => {
                stopped = true;
                Some(Err(no))
            }
        }
    });
    fill(table, rows)
}

/// Writes a row at a count of rows, or refuses where none is free.
pub(crate) fn put_row<const W: usize>(table: &mut [u64], count: usize, row: [u64; W]) -> Result<(), No> {
    let whole = table.len() / W;
    if count >= whole {
        return no(8, n(whole), 0);
    }
    table[W * count..][..W].copy_from_slice(&row);
    Ok(())
}

/// Rows from a source of them, until it ends or refuses.
pub(crate) fn fill<const W: usize>(table: &mut [u64], rows: impl Iterator<Item = Result<[u64; W], No>>) -> Filled {
    let mut count = 0;
    for row in rows {
        if let Err(no) = row.and_then(|row| put_row(table, count, row)) {
            return Filled { no: Some(no), count: n(count) };
        }
        count += 1;
    }
    Filled { no: None, count: n(count) }
}

/// Rows of an index text, each by a rule for one line; their names are spans of it.
pub(crate) fn index_rows<const W: usize>(
    index: &[u8],
    table: &mut [u64],
    says: impl Fn(&[u8], u64, u64) -> Result<[u64; W], No>,
) -> Filled {
    let mut at = 0;
    let lines = index.split_inclusive(|b| *b == b'\n');
    fill(
        table,
        lines.zip(1..).map(|(line, number)| {
            let start = at;
            at += n(line.len());
            says(content(line), start, number)
        }),
    )
}

// ---- index lines ----

/// One or more digits, of a value that 64 bits hold; one plus may stand before them.
pub(crate) fn number(field: &[u8]) -> Option<u64> {
    let digits = field.strip_prefix(b"+").unwrap_or(field);
    let mut value: u64 = 0;
    for b in digits {
        let digit = b.is_ascii_digit().then(|| u64::from(b - b'0'))?;
        value = value.checked_mul(10)?.checked_add(digit)?;
    }
    (!digits.is_empty()).then_some(value)
}

/// What an index line's content says, its name starting at `start`; refusals name this line or record.
pub(crate) fn index_content(content: &[u8], start: u64, line: u64) -> Result<[u64; OF_A_LINE], No> {
    columns(content, start, line)
}

/// What a content of as many columns says as there are numbers without the name's start: a name and so many numbers.
pub(crate) fn columns<const W: usize>(content: &[u8], start: u64, line: u64) -> Result<[u64; W], No> {
    if content.is_empty() {
        return no(9, line, 0);
    }
    let mut fields = content.splitn(W - 1, |b| *b == b'\t');
    let name = fields.next().expect("a first field");
    let mut numbers = [0; W];
    (numbers[0], numbers[1]) = (start, n(name.len()));
    for (field, place) in numbers.iter_mut().enumerate().skip(2) {
        let Some(text) = fields.next() else {
            return no(10, line, n(field));
        };
        let Some(value) = number(text) else {
            return no(11, line, n(field));
        };
        if matches!(field, 4 | 5) && value == 0 {
            return no(12, line, n(field));
        }
        *place = value;
    }
    Ok(numbers)
}

/// One line: it ends in LF with no CR before it and has no other LF; and no number has a needless leading zero or a plus.
pub(crate) fn is_plain(line: &[u8]) -> bool {
    let needless = |field: &[u8]| field.starts_with(b"+") || field.len() > 1 && field[0] == b'0';
    match line.strip_suffix(b"\n") {
        None => false,
        Some(rest) if rest.contains(&b'\n') => false,
        Some(rest) => rest.last() != Some(&b'\r') && !rest.splitn(5, |b| *b == b'\t').skip(1).any(needless),
    }
}

// ---- rows of a table that was lent ----

/// The numbers of row r; 25 where it isn't in the table, or the table has fewer rows than are said to be in use.
pub(crate) fn held_row(rows: &Rows, r: u64) -> Result<Row, No> {
    let whole = n(rows.numbers.len() / WORDS);
    if whole < rows.in_use {
        no(25, whole, 0)
    } else if r >= rows.in_use {
        no(25, r, 0)
    } else {
        let r = r as usize;
        let row: Row = rows.numbers[WORDS * r..][..WORDS].try_into().expect("the numbers of a row");
        if row[4] == 0 || row[5] == 0 { no(25, n(r), 0) } else { Ok(row) }
    }
}

/// A row with its name; 25 also where the name or the description lies outside the bytes.
pub(crate) fn named_row<'n>(names: &'n [u8], rows: &Rows, r: u64) -> Result<(&'n [u8], Row), No> {
    let row = held_row(rows, r)?;
    let outside = |start: u64, length: u64| u128::from(start) + u128::from(length) > names.len() as u128;
    if outside(row[0], row[1]) || outside(row[6], row[7]) {
        no(25, r, 0)
    } else {
        Ok((&names[row[0] as usize..][..row[1] as usize], row))
    }
}

pub(crate) fn find(names: &[u8], rows: &Rows, wanted: &[u8]) -> Result<u64, No> {
    let whole = n(rows.numbers.len() / WORDS);
    if whole < rows.in_use {
        return no(25, whole, 0);
    }
    for r in 0..rows.in_use {
        if named_row(names, rows, r)?.0 == wanted {
            return Ok(r);
        }
    }
    no(15, 0, 0)
}

pub(crate) fn write_line(names: &[u8], rows: &Rows, r: u64, out: &mut [u8]) -> Result<u64, No> {
    let (name, [_, _, length, position, line_bases, line_width, ..]) = named_row(names, rows, r)?;
    if let Some(place) = name.iter().position(|b| matches!(b, b'\t' | b'\n')) {
        return no(13, n(place), 0);
    }
    let numbers = format!("\t{length}\t{position}\t{line_bases}\t{line_width}\n");
    put(&[name, numbers.as_bytes()].concat(), out)
}
