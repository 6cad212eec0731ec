//! A file that is indexed while it arrives (K1, and C6 for the complete rule), from what a whole file would give.
//!
//! After each piece it judges the bytes so far from their start. The last line waits; the lines before it are judged. A record is judged
//! as a whole if another definition line has come behind it. Else it goes on, and only a fault that no further bytes can mend is refused.

use crate::complete::fitted_record;
use crate::lines::{definition_at, first_line};
use crate::rows::{put_row, record, sequence_lines};
use crate::{LIMIT, n};
use questions::form::{Answer, No, Value};
use questions::row::Row;

/// The answers of this file's families.
pub(crate) fn answer(family: &str, arguments: &mut [Value]) -> Option<Answer> {
    use questions::form::Value::{Stepped, Steps, Table};
    Some(match (family, arguments) {
        ("fed", [Table(table), Steps(steps)]) => Ok(vec![Stepped(fed(table, steps, false))]).into(),
        ("ffd", [Table(table), Steps(steps)]) => Ok(vec![Stepped(fed(table, steps, true))]).into(),
        _ => return None,
    })
}

/// The row of the record at an offset, and the offset behind it.
type Indexed = Result<Option<(Row, u64)>, No>;

/// A rule for a whole record, and what it says of one that goes on.
struct Rule {
    record: fn(&[u8], u64) -> Indexed,
    goes_on: fn(&[u8], u64) -> Result<(), No>,
}

const STRICT: Rule = Rule { record, goes_on: strict_so_far };
const COMPLETE: Rule = Rule { record: fitted_record, goes_on: |text, at| fitted_record(text, at).map(|_| ()) };

/// By the original's rule, a last record of whole lines that more will follow: it is as if a line like its first came.
fn strict_so_far(text: &[u8], at: u64) -> Result<(), No> {
    let rest = &text[at as usize..];
    let Some(line) = first_line(rest) else { return Ok(()) };
    definition_at(line, at)?;
    match sequence_lines(&rest[line.len()..]).first() {
        None => Ok(()),
        Some(first) => record(&[text, first].concat(), at).map(|_| ()),
    }
}

/// The offset of the last line; 0 if there is no byte.
fn last_line(text: &[u8]) -> usize {
    let last = text.len().saturating_sub(1);
    text[..last].iter().rposition(|b| *b == b'\n').map_or(0, |lf| lf + 1)
}

/// Rows up to a refusal. `ended` says that no byte follows.
fn rows(bytes: &[u8], ended: bool, rule: &Rule) -> (Vec<Row>, Option<No>) {
    let judged = if ended { bytes.len() } else { last_line(bytes) };
    let text = &bytes[..judged];
    let closed = ended || bytes.get(judged) == Some(&b'>');
    let (mut found, mut at) = (vec![], 0);
    while (at as usize) < text.len() {
        let rest = &text[at as usize..];
        let lines: Vec<&[u8]> = rest.split_inclusive(|b| *b == b'\n').collect();
        let another = lines[1..].iter().any(|line| line[0] == b'>');
        if !another && !closed {
            return (found, (rule.goes_on)(text, at).err());
        }
        match (rule.record)(text, at) {
            Ok(Some((row, next))) => {
                found.push(row);
                at = next;
            }
            Ok(None) => break,
            Err(no) => return (found, Some(no)),
        }
    }
    (found, None)
}

/// What each step answers: the refusal's three numbers, 0 for none, and the rows that stand.
pub(crate) fn fed(table: &mut [u64], steps: &[Option<Vec<u8>>], complete: bool) -> Vec<[u64; 4]> {
    let rule = if complete { COMPLETE } else { STRICT };
    let (mut bytes, mut ended, mut stopped, mut written) = (vec![], false, None, 0);
    let step = |step: &Option<Vec<u8>>| {
        let nothing = step.as_ref().is_some_and(Vec::is_empty);
        if stopped.is_none() && !nothing {
            if ended {
                stopped = Some([26, 0, 0]);
            } else if step.as_ref().is_some_and(|piece| piece.len() > LIMIT - bytes.len()) {
                stopped = Some([1, 0, 0]);
            } else {
                bytes.extend(step.iter().flatten());
                ended = step.is_none();
                let (found, refused) = rows(&bytes, ended, &rule);
                stopped = refused;
                for row in found.into_iter().skip(written) {
                    if let Err(full) = put_row(table, written, row) {
                        stopped = Some(full);
                        break;
                    }
                    written += 1;
                }
            }
        }
        let [number, first, second] = stopped.unwrap_or_default();
        [number, first, second, n(written)]
    };
    steps.iter().map(step).collect()
}
