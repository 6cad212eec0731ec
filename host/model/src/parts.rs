//! Parts of a file: the records that begin between two numbers.

use crate::checker::judge;
use crate::complete::fitted_record;
use crate::lines::first_line;
use crate::rows::{Filled, fill, record};
use crate::{n, no};
use questions::form::{Answer, No, Value};
use questions::row::Row;
use std::ops::Range;

/// The answers of this file's families.
pub(crate) fn answer(family: &str, arguments: &mut [Value]) -> Option<Answer> {
    use questions::form::Value::{Bytes, Number, Table};
    Some(match (family, arguments) {
        ("ipt", [Bytes(file), Number(from), Number(to), Number(complete), Table(table)]) => {
            index(file, *from..*to, if *complete == 0 { record } else { fitted_record }, table).into()
        }
        ("cpt", [Bytes(fasta), Number(from), Number(to), Bytes(index), Number(first), Number(last)]) => {
            check(fasta, *from..*to, index, *first..*last).into()
        }
        _ => return None,
    })
}

/// Where lines begin: at the start, and behind each LF.
fn lines_in(text: &[u8], part: Range<u64>) -> impl Iterator<Item = usize> {
    (0..text.len()).filter(move |at| part.contains(&n(*at)) && (*at == 0 || text[at - 1] == b'\n'))
}

/// Where records begin: at the start, and where a line begins with '>'.
fn records_in(file: &[u8], part: Range<u64>) -> impl Iterator<Item = usize> {
    lines_in(file, part).filter(|at| *at == 0 || file[*at] == b'>')
}

/// A rule: the row of the record at an offset, and the offset behind it.
type OneRecord = fn(&[u8], u64) -> Result<Option<(Row, u64)>, No>;

/// A row for each record of the part, by a rule for one record of the whole file.
pub(crate) fn index(file: &[u8], part: Range<u64>, record: OneRecord, table: &mut [u64]) -> Filled {
    fill(
        table,
        records_in(file, part).filter_map(|at| record(file, n(at)).transpose()).map(|row| row.map(|(row, _)| row)),
    )
}

/// The records of the part of a file against the lines of the part of its index.
pub(crate) fn check(fasta: &[u8], part: Range<u64>, index: &[u8], lines: Range<u64>) -> Result<(), No> {
    let mut index_lines = lines_in(index, lines).filter_map(|at| first_line(&index[at..]));
    let mut records = 0;
    for at in records_in(fasta, part) {
        records += 1;
        let line = first_line(&fasta[at..]).unwrap_or_default();
        judge(fasta, at, line, records, index_lines.next())?;
    }
    if index_lines.next().is_some() { no(20, records, 0) } else { Ok(()) }
}
