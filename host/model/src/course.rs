//! Exercises as tagged fields, and what was typed counted against a key.

use crate::primers::bases;
use crate::reads::{exact, put};
use crate::rows::find;
use crate::{n, no};
use questions::form::{Answer, No, Value};
use questions::row::Rows;

/// The answers of this file's families.
pub(crate) fn answer(family: &str, arguments: &mut [Value]) -> Option<Answer> {
    use questions::form::Value::{Bytes, Number, Output, Rows};
    Some(match (family, arguments) {
        ("exw", [Bytes(name), Number(start), Number(end), Number(edition), Output(out)]) => {
            write_exercise(name, *start, *end, *edition, out).into()
        }
        ("exd", [Bytes(bytes)]) => {
            let read = read_exercise(bytes);
            read.map(|(name, numbers)| [Bytes(name)].into_iter().chain(numbers.map(Number)).collect::<Vec<_>>()).into()
        }
        ("sco", [Bytes(key), Bytes(typed), Number(edition)]) => score(key, typed, *edition).into(),
        ("scr", [Bytes(exercise), Bytes(typed), Bytes(file), Bytes(names), Rows(rows), Output(key)]) => {
            score_exercise(exercise, typed, file, names, rows, key).into()
        }
        _ => return None,
    })
}

/// The fields of an exercise: a tag, two bytes of length, high byte first, and so many bytes.
pub(crate) fn write_exercise(name: &[u8], start: u64, end: u64, edition: u64, out: &mut [u8]) -> Result<u64, No> {
    let Ok(length) = u16::try_from(name.len()) else { return no(31, 0, 0) };
    if !matches!(edition, 1 | 2) {
        return no(33, n(name.len()) + 25, 0);
    }
    let field = |tag: u8, bytes: &[u8]| [&[tag], &(bytes.len() as u16).to_be_bytes()[..], bytes].concat();
    let text = [
        [&[1], &length.to_be_bytes()[..], name].concat(),
        field(2, &start.to_be_bytes()),
        field(3, &end.to_be_bytes()),
        field(4, &[edition as u8]),
    ];
    put(&text.concat(), out)
}

/// The name, the bounds and the edition that some bytes tell; the first fault from the front decides.
pub(crate) fn read_exercise(bytes: &[u8]) -> Result<(Vec<u8>, [u64; 3]), No> {
    let (mut at, mut name, mut numbers) = (0, vec![], vec![]);
    // the next of the four that is wanted
    let mut wanted = 1;
    while at < bytes.len() {
        let tag = bytes[at];
        if tag >= 128 {
            return no(32, n(at), 0);
        }
        let length = bytes.get(at + 1..at + 3).map(|two| usize::from(two[0]) << 8 | usize::from(two[1]));
        let Some(value) = length.and_then(|length| bytes.get(at + 3..at + 3 + length)) else { return no(31, n(at), 0) };
        if (1..=4).contains(&tag) {
            let fits = [true, value.len() == 8, value.len() == 8, value.len() == 1][usize::from(tag) - 1];
            if tag != wanted || !fits {
                return no(31, n(at), 0);
            }
            if tag == 1 {
                name = value.to_vec();
            } else {
                numbers.push(value.iter().fold(0, |number, byte| number << 8 | u64::from(*byte)));
            }
            if tag == 4 && !matches!(value, [1 | 2]) {
                return no(33, n(at), 0);
            }
            wanted += 1;
        }
        at += 3 + value.len();
    }
    match numbers[..] {
        [start, end, edition] => Ok((name, [start, end, edition])),
        _ => no(31, n(at), 0),
    }
}

/// Whether a typed byte is right, by the rule of an edition.
fn is_right(key: u8, typed: u8, edition: u64) -> bool {
    let (allowed, meant) = (bases(key), bases(typed));
    if edition == 2 && !allowed.is_empty() && !meant.is_empty() {
        return meant.chars().all(|base| allowed.contains(base));
    }
    key.eq_ignore_ascii_case(&typed)
}

/// Right, wrong, missing, surplus and the score.
pub(crate) fn score(key: &[u8], typed: &[u8], edition: u64) -> Result<[u64; 5], No> {
    if !matches!(edition, 1 | 2) {
        return no(33, 0, 0);
    }
    let right = key.iter().zip(typed).filter(|(key, typed)| is_right(**key, **typed, edition)).count();
    let wrong = key.iter().zip(typed).filter(|(key, typed)| !is_right(**key, **typed, edition)).count();
    let missing = (0..key.len()).filter(|place| typed.get(*place).is_none()).count();
    let surplus = (0..typed.len()).filter(|place| key.get(*place).is_none()).count();
    let tenths = (1000 * right).checked_div(key.len() + surplus).unwrap_or(0);
    Ok([right, wrong, missing, surplus, tenths].map(n))
}

/// What was typed for an exercise: the key is looked up by its name and read, and stands at the front of the room.
pub(crate) fn score_exercise(
    exercise: &[u8],
    typed: &[u8],
    file: &[u8],
    names: &[u8],
    rows: &Rows,
    room: &mut [u8],
) -> Result<[u64; 5], No> {
    let (name, [start, end, edition]) = read_exercise(exercise)?;
    let row = find(names, rows, &name)?;
    let asked = exact(file, rows, row, (Some(start), Some(end)), room)?;
    score(&room[..asked as usize], typed, edition)
}
