//! The checker, and the program.

use crate::lines::{bases, content, definition_at, first_line};
use crate::reads::offset;
use crate::rows::{file_rows, index_content, record, sequence_lines, write_line};
use crate::{PROGRAM_BYTES, PROGRAM_ROWS, n, no};
use questions::form::{Answer, No, Value};
use questions::row::{Rows, WORDS, row};

/// The answers of this file's families.
pub(crate) fn answer(family: &str, arguments: &mut [Value]) -> Option<Answer> {
    use questions::form::Value::Bytes;
    Some(match (family, arguments) {
        ("chk", [Bytes(fasta), Bytes(index)]) => check(fasta, index).into(),
        ("prg", [Bytes(input)]) => Ok(vec![Bytes(program(input))]).into(),
        _ => return None,
    })
}

// ---- the checker ----

/// The offset of every base of a sequence that begins at a position, by the line rule.
pub(crate) fn base_offsets(lines: &[&[u8]], position: usize) -> Vec<usize> {
    let (mut offsets, mut at) = (vec![], position);
    for line in lines {
        offsets.extend(at..at + bases(line).len());
        at += line.len();
    }
    offsets
}

pub(crate) fn check(fasta: &[u8], index: &[u8]) -> Result<(), No> {
    let mut index_lines = index.split_inclusive(|b| *b == b'\n');
    let (mut at, mut record) = (0, 0);
    while let Some(line) = first_line(&fasta[at..]) {
        record += 1;
        at += judge(fasta, at, line, record, index_lines.next())?;
    }
    if index_lines.next().is_some() { no(20, record, 0) } else { Ok(()) }
}

/// A record, which begins at an offset with its definition line, against its index line; how many bytes the record has.
pub(crate) fn judge(fasta: &[u8], at: usize, line: &[u8], record: u64, index_line: Option<&[u8]>) -> Result<usize, No> {
    let [name_start, name_length, ..] =
        definition_at(line, n(at)).map_err(|[number, offset, _]| [number, record, offset])?;
    let name = &line[name_start as usize..][..name_length as usize];
    let lines = sequence_lines(&fasta[at + line.len()..]);
    let offsets = base_offsets(&lines, at + line.len());

    let Some(index_line) = index_line else {
        return no(19, record, 0);
    };
    let row = row(index_content(content(index_line), 0, record)?);
    if name != &index_line[..row[1] as usize] {
        return no(21, record, 0);
    }
    if n(offsets.len()) != row[2] {
        return no(22, record, 0);
    }
    for (i, there) in offsets.iter().enumerate() {
        if offset(&row, n(i) + 1) != *there as u128 {
            return no(23, record, n(i) + 1);
        }
    }
    Ok(line.len() + lines.iter().map(|line| line.len()).sum::<usize>())
}

// ---- the program ----

pub(crate) fn program(input: &[u8]) -> Vec<u8> {
    if input.len() > PROGRAM_BYTES {
        return b"refused 1 0 0\n".to_vec();
    }
    let mut table = vec![0; WORDS * PROGRAM_ROWS];
    let filled = file_rows(input, &mut table, record);
    let rows = Rows { numbers: table, in_use: filled.count };
    let mut out = vec![];
    for r in 0..filled.count {
        let mut line = vec![0; input.len() + 100];
        let length = write_line(input, &rows, r, &mut line).expect("a name has no tab and no LF");
        out.extend(&line[..length as usize]);
    }
    if let Some([number, first, second]) = filled.no {
        out.extend(format!("refused {number} {first} {second}\n").bytes());
    }
    out
}
