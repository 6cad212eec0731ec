//! A record written as FASTA, and its bases alone.

use crate::lines::is_space;
use crate::no;
use crate::reads::put;
use questions::form::{Answer, No, Value};

/// The answers of this file's families.
pub(crate) fn answer(family: &str, arguments: &mut [Value]) -> Option<Answer> {
    use questions::form::Value::{Bytes, MaybeBytes, Number, Output};
    Some(match (family, arguments) {
        ("wfa", [Bytes(name), MaybeBytes(description), Bytes(bases), Number(width), Output(out)]) => {
            write_record(name, description.as_deref(), bases, *width, out).into()
        }
        ("wsq", [Bytes(bases), Number(width), Output(out)]) => write_sequence(bases, *width, out).into(),
        _ => return None,
    })
}

/// The definition line, and the bases in lines of a width; how many bytes that is.
pub(crate) fn write_record(
    name: &[u8],
    description: Option<&[u8]>,
    bases: &[u8],
    width: u64,
    out: &mut [u8],
) -> Result<u64, No> {
    let at_an_end = |text: &[u8]| text.first().is_some_and(is_space) || text.last().is_some_and(is_space);
    if width == 0 {
        return no(27, 0, 0);
    }
    if name.is_empty() || name.iter().any(is_space) {
        return no(28, 0, 0);
    }
    if description.is_some_and(|text| text.is_empty() || text.contains(&b'\n') || at_an_end(text)) {
        return no(29, 0, 0);
    }
    let mut text = [b">", name].concat();
    if let Some(description) = description {
        text.push(b' ');
        text.extend(description);
    }
    text.push(b'\n');
    text.extend(lines(bases, width)?);
    put(&text, out)
}

/// Bases alone; how many bytes that is.
pub(crate) fn write_sequence(bases: &[u8], width: u64, out: &mut [u8]) -> Result<u64, No> {
    if width == 0 { no(27, 0, 0) } else { put(&lines(bases, width)?, out) }
}

/// Bases in lines of a width, which isn't 0.
fn lines(bases: &[u8], width: u64) -> Result<Vec<u8>, No> {
    if bases.iter().any(|b| matches!(b, b'\n' | b'\r' | b'>')) {
        return no(30, 0, 0);
    }
    let mut text = vec![];
    for line in bases.chunks(usize::try_from(width).unwrap_or(usize::MAX)) {
        text.extend(line);
        text.push(b'\n');
    }
    Ok(text)
}
