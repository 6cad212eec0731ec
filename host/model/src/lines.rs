//! Lines, definition lines, and the scanning rule.

use crate::{n, no};
use questions::form::{Answer, No, Value};

/// The answers of this file's families.
pub(crate) fn answer(family: &str, arguments: &mut [Value]) -> Option<Answer> {
    use questions::form::Value::{Bytes, Number};
    Some(match (family, arguments) {
        ("def", [Bytes(line)]) => definition(content(line)).into(),
        ("dfc", [Bytes(content)]) => definition(content).into(),
        ("lin", [Bytes(file), Number(at)]) => {
            let line = first_line(from(file, *at));
            Ok(line.map(|line| [*at, n(content(line).len()), *at + n(line.len())])).into()
        }
        ("run", [Bytes(file), Number(at)]) => {
            let (start, line) = run(file, *at);
            Ok([start, n(line.len())]).into()
        }
        _ => return None,
    })
}

// ---- lines ----

/// The bytes from an offset on; none at or past the end.
pub(crate) fn from(file: &[u8], at: u64) -> &[u8] {
    usize::try_from(at).ok().and_then(|at| file.get(at..)).unwrap_or_default()
}

/// The line at the front: to and with the next LF, or to the end.
pub(crate) fn first_line(text: &[u8]) -> Option<&[u8]> {
    text.split_inclusive(|b| *b == b'\n').next()
}

/// A line without a final LF and, only if there was one, without one CR before it.
pub(crate) fn content(line: &[u8]) -> &[u8] {
    match line.strip_suffix(b"\n") {
        Some(rest) => rest.strip_suffix(b"\r").unwrap_or(rest),
        None => line,
    }
}

/// The bases of a line: as its content, but the CR of an unterminated line is dropped too.
pub(crate) fn bases(line: &[u8]) -> &[u8] {
    let line = line.strip_suffix(b"\n").unwrap_or(line);
    line.strip_suffix(b"\r").unwrap_or(line)
}

// ---- definition lines ----

pub(crate) fn is_space(b: &u8) -> bool {
    matches!(b, b' ' | b'\t' | b'\n' | 12 | b'\r')
}

/// Name start, name length, description start, description length. A refusal tells the place in the line where it failed.
pub(crate) fn definition(content: &[u8]) -> Result<[u64; 4], No> {
    marked_definition(b'>', content)
}

/// The same of a definition line that another byte begins.
pub(crate) fn marked_definition(mark: u8, content: &[u8]) -> Result<[u64; 4], No> {
    match content.first() {
        None => return no(2, 0, 0),
        Some(first) if *first == mark => {}
        Some(_) => return no(3, 0, 0),
    }
    let name_end = (1..content.len()).find(|i| is_space(&content[*i])).unwrap_or(content.len());
    if name_end == 1 {
        return no(4, 1, 0);
    }
    let inside = |i: &usize| !is_space(&content[*i]);
    Ok(match (name_end..content.len()).find(inside) {
        None => [1, n(name_end - 1), 0, 0],
        Some(first) => {
            let last = (first..content.len()).rfind(inside).expect("the first one at least");
            [1, n(name_end - 1), n(first), n(last - first + 1)]
        }
    })
}

/// What the definition line at an offset of a file says. A refusal tells the offset where it failed.
pub(crate) fn definition_at(line: &[u8], at: u64) -> Result<[u64; 4], No> {
    definition(content(line)).map_err(|[number, place, _]| [number, at + place, 0])
}

// ---- the scanning rule ----

/// Start and length of the next run of bases from a place on.
pub(crate) fn run(file: &[u8], at: u64) -> (u64, &[u8]) {
    let rest = from(file, at);
    let blank = rest.iter().take_while(|b| matches!(b, b'\r' | b'\n')).count();
    let rest = &rest[blank..];
    let line = match rest.first() {
        None | Some(b'>') => &[],
        Some(_) => bases(first_line(rest).expect("it has a byte")),
    };
    (at + n(blank), line)
}

/// The bases that a scan gives, and the place that it leaves.
pub(crate) fn scan(file: &[u8], at: u64, limit: Option<u64>) -> (Vec<u8>, u64) {
    let (mut found, mut place) = (vec![], at);
    loop {
        let left = limit.map(|limit| limit - n(found.len()));
        if left == Some(0) {
            return (found, place);
        }
        let (start, line) = run(file, place);
        let take = left.map_or(line.len(), |left| line.len().min(usize::try_from(left).unwrap_or(usize::MAX)));
        found.extend(&line[..take]);
        place = start + n(take);
        if line.is_empty() {
            return (found, place);
        }
    }
}
