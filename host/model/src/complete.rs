//! The complete indexer: a row for each record for which any index line's numbers lead to every base.

use crate::checker::base_offsets;
use crate::lines::{bases, definition_at, first_line, from};
use crate::reads::offset;
use crate::rows::{file_rows, record_row, sequence_lines};
use crate::{n, no};
use questions::form::{Answer, No, Value};
use questions::row::Row;

/// The answers of this file's families.
pub(crate) fn answer(family: &str, arguments: &mut [Value]) -> Option<Answer> {
    use questions::form::Value::{Bytes, Table};
    Some(match (family, arguments) {
        ("fit", [Bytes(file), Table(table)]) => file_rows(file, table, fitted_record).into(),
        _ => return None,
    })
}

/// The row of the record at an offset by the complete rule, and the offset behind it: the three numbers are those of the bases'
/// offsets alone, and every base is compared with them.
pub(crate) fn fitted_record(file: &[u8], at: u64) -> Result<Option<(Row, u64)>, No> {
    let rest = from(file, at);
    let Some(line) = first_line(rest) else { return Ok(None) };
    let said = definition_at(line, at)?;
    let lines = sequence_lines(&rest[line.len()..]);
    let behind = at + n(line.len());
    let next = behind + lines.iter().map(|line| n(line.len())).sum::<u64>();

    let offsets: Vec<u64> = base_offsets(&lines, behind as usize).into_iter().map(n).collect();
    let [position, line_bases, line_width] = match offsets.first() {
        None => [behind, 1, 2],
        Some(first) => {
            let run = (0..).zip(&offsets).take_while(|(i, offset)| **offset == first + i).count();
            let width = match offsets.get(run) {
                Some(behind_run) => behind_run - first,
                // the line that has bases
                None => lines.iter().find(|line| !bases(line).is_empty()).map_or(0, |line| n(line.len())),
            };
            [*first, n(run), width]
        }
    };
    let row = record_row(at, said, [n(offsets.len()), position, line_bases, line_width]);
    for (base, there) in (1..).zip(&offsets) {
        if offset(&row, base) != u128::from(*there) {
            return no(42, *there, base);
        }
    }
    Ok(Some((row, next)))
}
