//! FASTQ: its indexer, its index lines of six columns, its reads and its checker.

use crate::checker::base_offsets;
use crate::lines::{bases, content, first_line, from, marked_definition};
use crate::reads::{self, offset, put};
use crate::rows::{columns, file_rows, index_rows, named_row, put_row};
use crate::{n, no};
use questions::form::{Answer, Bounds, No, Value};
use questions::row::{FASTQ_WORDS, FastqRow, Row, Rows, row};
use std::ops::Range;

/// The answers of this file's families.
pub(crate) fn answer(family: &str, arguments: &mut [Value]) -> Option<Answer> {
    use questions::form::Value::{Bounds, Bytes, Number, Numbers, Output, Rows, Table};
    Some(match (family, arguments) {
        ("fqi", [Bytes(file), Table(table)]) => file_rows(file, table, record).into(),
        ("fqp", [Bytes(file), Number(from), Number(to), Table(table)]) => part(file, *from..*to, table),
        ("fqt", [Bytes(index), Table(table)]) => index_rows(index, table, line).into(),
        ("fql", [Bytes(text)]) => line(content(text), 0, 1).map(|row| vec![Numbers(row.to_vec())]).into(),
        ("fqw", [Bytes(names), Rows(rows), Number(row), Output(out)]) => write_line(names, rows, *row, out).into(),
        ("fqr", [Bytes(file), Rows(rows), Number(row), Bounds(bounds), Number(which), Output(out)]) => {
            exact(file, rows, *row, *bounds, *which, out).into()
        }
        ("fqc", [Bytes(file), Bytes(index)]) => check(file, index).into(),
        ("fqk", [Bytes(file), Number(from), Number(to), Bytes(index), Number(first)]) => {
            let (at, place) = passed(file, *from..*to, index, *first);
            Answer { no: None, told: vec![Number(at), Number(place)] }
        }
        _ => return None,
    })
}

// ---- the indexer ----

/// A record's parts, by their lines.
struct Parts<'f> {
    sequence: Vec<&'f [u8]>,
    /// The '+' line, if there is one.
    plus: Option<&'f [u8]>,
    /// As many lines behind it as the sequence has, or fewer where the file ends.
    qualities: Vec<&'f [u8]>,
}

fn parts(text: &[u8]) -> Parts<'_> {
    let mut lines = text.split_inclusive(|b| *b == b'\n').peekable();
    let mut sequence = vec![];
    while let Some(line) = lines.next_if(|line| line[0] != b'+') {
        sequence.push(line);
    }
    let plus = lines.next();
    let qualities = lines.take(sequence.len()).collect();
    Parts { sequence, plus, qualities }
}

/// Every sequence line but the last has the first one's bases and width, the last no more; none is blank.
fn judge_sequence(lines: &[&[u8]], position: u64) -> Result<(), No> {
    let first = lines.first().copied().unwrap_or_default();
    let (width, count) = (first.len(), bases(first).len());
    if count == 0 {
        return no(5, position + n(width), 0);
    }
    for (k, line) in lines.iter().enumerate().skip(1) {
        let (this_width, this_count) = (line.len(), bases(line).len());
        let last = k + 1 == lines.len();
        if last && this_width <= width && this_count <= count && this_count > 0 {
            continue;
        } else if this_count != count {
            return no(6, n(this_count), n(count));
        } else if this_width != width {
            return no(7, n(this_width), n(width));
        }
    }
    Ok(())
}

/// Every quality line has the bases of its partner, and its width; of a last line without its end the bases are enough.
fn judge_qualities(sequence: &[&[u8]], qualities: &[&[u8]]) -> Result<(), No> {
    for (k, partner) in sequence.iter().enumerate() {
        let line = qualities.get(k).copied().unwrap_or_default();
        let (found, expected) = (bases(line).len(), bases(partner).len());
        let unended = !line.ends_with(b"\n");
        if found != expected || line.len() != partner.len() && !unended {
            return no(39, n(found), n(expected));
        }
    }
    Ok(())
}

/// The row of the record at an offset, and the offset behind it.
pub(crate) fn record(file: &[u8], at: u64) -> Result<Option<(FastqRow, u64)>, No> {
    let rest = from(file, at);
    let Some(line) = first_line(rest) else { return Ok(None) };
    let [name_start, name_length, ..] =
        marked_definition(b'@', content(line)).map_err(|[number, place, _]| [number, at + place, 0])?;
    let position = at + n(line.len());
    let parts = parts(&rest[line.len()..]);

    judge_sequence(&parts.sequence, position)?;
    let Some(plus) = parts.plus else { return no(38, 0, 0) };
    judge_qualities(&parts.sequence, &parts.qualities)?;

    let bytes = |lines: &[&[u8]]| lines.iter().map(|line| n(line.len())).sum::<u64>();
    let first = parts.sequence[0];
    let length = parts.sequence.iter().map(|line| n(bases(line).len())).sum();
    let qualities = position + bytes(&parts.sequence) + n(plus.len());
    let row = [at + name_start, name_length, length, position, n(bases(first).len()), n(first.len()), qualities];
    Ok(Some((row, qualities + bytes(&parts.qualities))))
}

/// A row for each record from one offset on that begins before another, and the offset behind the last row.
fn part(file: &[u8], part: Range<u64>, table: &mut [u64]) -> Answer {
    let (mut at, mut count) = (part.start, 0);
    let mut stopped = None;
    while at < part.end && stopped.is_none() {
        match record(file, at) {
            Ok(None) => break,
            Ok(Some((row, next))) => match put_row(table, count, row) {
                Ok(()) => (at, count) = (next, count + 1),
                Err(no) => stopped = Some(no),
            },
            Err(no) => stopped = Some(no),
        }
    }
    Answer { no: stopped, told: vec![Value::Number(n(count)), Value::Number(at)] }
}

// ---- index lines ----

/// What the content of a line says: a name and five numbers.
pub(crate) fn line(content: &[u8], start: u64, line: u64) -> Result<FastqRow, No> {
    columns(content, start, line)
}

/// The same rows as those of a FASTA file, whose position is that of the bases or of the qualities.
fn rows_of(rows: &Rows, qualities: bool) -> Rows {
    let whole = rows.numbers.chunks_exact(FASTQ_WORDS);
    Rows { numbers: whole.flat_map(|numbers| row_of(numbers, qualities)).collect(), in_use: rows.in_use }
}

fn row_of(numbers: &[u64], qualities: bool) -> Row {
    let position = if qualities { numbers[6] } else { numbers[3] };
    row([numbers[0], numbers[1], numbers[2], position, numbers[4], numbers[5]])
}

pub(crate) fn write_line(names: &[u8], rows: &Rows, r: u64, out: &mut [u8]) -> Result<u64, No> {
    let (name, [_, _, length, position, line_bases, line_width, ..]) = named_row(names, &rows_of(rows, false), r)?;
    if let Some(place) = name.iter().position(|b| matches!(b, b'\t' | b'\n')) {
        return no(13, n(place), 0);
    }
    let qualities = rows.numbers[FASTQ_WORDS * r as usize + 6];
    let numbers = format!("\t{length}\t{position}\t{line_bases}\t{line_width}\t{qualities}\n");
    put(&[name, numbers.as_bytes()].concat(), out)
}

// ---- reads ----

/// Bases, or with 1 qualities.
pub(crate) fn exact(file: &[u8], rows: &Rows, r: u64, bounds: Bounds, which: u64, out: &mut [u8]) -> Result<u64, No> {
    reads::exact(file, &rows_of(rows, which != 0), r, bounds, out)
}

// ---- the checker ----

pub(crate) fn check(file: &[u8], index: &[u8]) -> Result<(), No> {
    // the whole file first, as the indexer has it
    let (mut records, mut at) = (vec![], 0);
    while let Some((row, next)) = record(file, at)? {
        records.push(row);
        at = next;
    }
    let mut index_lines = index.split_inclusive(|b| *b == b'\n');
    for (row, number) in records.iter().zip(1..) {
        let Some(index_line) = index_lines.next() else {
            return no(19, number, 0);
        };
        judge(file, row, index_line, number)?;
    }
    if index_lines.next().is_some() { no(20, n(records.len()), 0) } else { Ok(()) }
}

/// A record against its index line.
fn judge(file: &[u8], row: &FastqRow, index_line: &[u8], number: u64) -> Result<(), No> {
    let name = &from(file, row[0])[..row[1] as usize];
    let said = line(content(index_line), 0, number)?;
    if name != &index_line[..said[1] as usize] {
        return no(21, number, 0);
    }
    if row[2] != said[2] {
        return no(22, number, 0);
    }
    let lines = parts(from(file, row[3]));
    let places = [(lines.sequence, row[3], false), (lines.qualities, row[6], true)];
    for (lines, position, qualities) in places {
        for (i, there) in base_offsets(&lines, position as usize).iter().enumerate() {
            if offset(&row_of(&said, qualities), n(i) + 1) != *there as u128 {
                return no(23, number, n(i) + 1);
            }
        }
    }
    Ok(())
}

/// How far the records from one offset on that begin before another are accepted with the lines from a place on: the offset and the place
/// behind them.
fn passed(file: &[u8], part: Range<u64>, index: &[u8], first: u64) -> (u64, u64) {
    let (mut at, mut place) = (part.start, first);
    while at < part.end {
        let Ok(Some((row, next))) = record(file, at) else { break };
        let Some(index_line) = first_line(from(index, place)) else { break };
        if judge(file, &row, index_line, 1).is_err() {
            break;
        }
        (at, place) = (next, place + n(index_line.len()));
    }
    (at, place)
}
