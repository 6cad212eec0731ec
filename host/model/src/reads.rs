//! What is put in an output: sequences, regions, complements.

use crate::lines::scan;
use crate::rows::held_row;
use crate::{n, no};
use questions::form::{Answer, Bounds, No, Value};
use questions::row::{Row, Rows};

/// The answers of this file's families.
pub(crate) fn answer(family: &str, arguments: &mut [Value]) -> Option<Answer> {
    use questions::form::Value::{Bounds, Bytes, MaybeNumber, Number, Output, Regions, Rows, Table};
    Some(match (family, arguments) {
        ("seq", [Bytes(file), Number(at), Output(out)]) => sequence(file, *at, None, out).into(),
        ("lim", [Bytes(file), Number(at), Number(limit), Output(out)]) => sequence(file, *at, Some(*limit), out).into(),
        ("exr", [Bytes(file), Rows(rows), Number(row), Bounds(bounds), Output(out)]) => {
            exact(file, rows, *row, *bounds, out).into()
        }
        ("rar", [Bytes(file), Rows(rows), Number(row), Bounds(bounds), Output(out)]) => {
            raw(file, rows, *row, *bounds, out).into()
        }
        ("sht", [Bytes(file), Rows(rows), Regions(regions), Output(out), Table(starts)]) => {
            match sheet(file, rows, regions, out, starts) {
                Ok(total) => Answer { no: None, told: vec![MaybeNumber(None), Number(total)] },
                Err((place, no)) => Answer { no: Some(no), told: vec![MaybeNumber(Some(place)), Number(0)] },
            }
        }
        ("cmp", [Bytes(bases), Output(out)]) => complemented(bases, false, out).into(),
        ("rev", [Bytes(bases), Output(out)]) => complemented(bases, true, out).into(),
        _ => return None,
    })
}

// ---- outputs ----

/// Puts an answer at the front of an output; 14 where it is too short.
pub(crate) fn put(answer: &[u8], out: &mut [u8]) -> Result<u64, No> {
    match out.get_mut(..answer.len()) {
        None => no(14, n(answer.len()), 0),
        Some(front) => {
            front.copy_from_slice(answer);
            Ok(n(answer.len()))
        }
    }
}

/// How many bases were found, and the place that is left.
pub(crate) fn sequence(file: &[u8], at: u64, limit: Option<u64>, out: &mut [u8]) -> Result<[u64; 2], No> {
    let (found, place) = scan(file, at, limit);
    Ok([put(&found, out)?, place])
}

// ---- reads ----

/// Where base p lies, over whole numbers: at most 128 bits are needed.
pub(crate) fn offset(row: &Row, p: u64) -> u128 {
    let [_, _, _, position, line_bases, line_width, ..] = row.map(u128::from);
    let i = u128::from(p) - 1;
    position + i / line_bases * line_width + i % line_bases
}

/// Refusal 16 judges the bounds that are given.
pub(crate) fn judge_bounds((start, end): Bounds) -> Result<(), No> {
    let crossed = matches!((start, end), (Some(start), Some(end)) if start > end);
    if start == Some(0) || end == Some(0) || crossed { no(16, 0, 0) } else { Ok(()) }
}

pub(crate) fn exact(file: &[u8], rows: &Rows, r: u64, bounds: Bounds, out: &mut [u8]) -> Result<u64, No> {
    judge_bounds(bounds)?;
    let row = held_row(rows, r)?;
    let length = row[2];
    let (start, end) = (bounds.0.unwrap_or(1), bounds.1.unwrap_or(length));
    if start > length || end > length {
        return no(17, length, 0);
    }
    let needed = end - start + 1;
    if n(out.len()) < needed {
        return no(14, needed, 0);
    }
    let mut found = vec![];
    for p in start..=end {
        let at = offset(&row, p);
        if at >= file.len() as u128 {
            return no(18, p, 0);
        }
        found.push(file[at as usize]);
    }
    put(&found, out)
}

/// The regions of a sheet: their answers one after another, and where each begins. Or the place and the refusal of the first that is
/// refused; for a refusal of the whole sheet the place is the number of regions.
pub(crate) fn sheet(
    file: &[u8],
    rows: &Rows,
    regions: &[(u64, Bounds)],
    out: &mut [u8],
    starts: &mut [u64],
) -> Result<u64, (u64, No)> {
    let all = n(regions.len());
    if regions.len() > 200 {
        return Err((all, [40, 0, 0]));
    }
    if starts.len() < regions.len() {
        return Err((all, [41, 0, 0]));
    }
    let mut pieces = vec![];
    for (place, (row, bounds)) in (0..).zip(regions) {
        // each has all the room for itself
        let mut room = out.to_vec();
        let bytes = exact(file, rows, *row, *bounds, &mut room).map_err(|no| (place, no))?;
        room.truncate(bytes as usize);
        pieces.push(room);
    }
    let total = put(&pieces.concat(), out).map_err(|no| (all, no))?;
    let mut begins = 0;
    for (piece, start) in pieces.iter().zip(starts) {
        *start = begins;
        begins += n(piece.len());
    }
    Ok(total)
}

pub(crate) fn raw(file: &[u8], rows: &Rows, r: u64, bounds: Bounds, out: &mut [u8]) -> Result<u64, No> {
    judge_bounds(bounds)?;
    let row = held_row(rows, r)?;
    let start = bounds.0.unwrap_or(1);
    let Ok(at) = u64::try_from(offset(&row, start)) else {
        return no(18, start, 0);
    };
    let limit = bounds.1.map(|end| end - start + 1);
    put(&scan(file, at, limit).0, out)
}

// ---- complement ----

pub(crate) fn complement_of(base: u8) -> Option<u8> {
    const PAIRS: [&[u8; 2]; 6] = [b"AT", b"CG", b"MK", b"RY", b"BV", b"DH"];
    let upper = base.to_ascii_uppercase();
    let mut partner = match upper {
        b'W' | b'S' | b'N' => Some(upper),
        b'U' => Some(b'A'),
        _ => None,
    };
    for [a, b] in PAIRS {
        if upper == *a {
            partner = Some(*b);
        } else if upper == *b {
            partner = Some(*a);
        }
    }
    partner.map(|p| if base.is_ascii_lowercase() { p.to_ascii_lowercase() } else { p })
}

pub(crate) fn complemented(text: &[u8], back: bool, out: &mut [u8]) -> Result<u64, No> {
    if out.len() < text.len() {
        return no(14, n(text.len()), 0);
    }
    let mut order: Vec<usize> = (0..text.len()).collect();
    if back {
        order.reverse();
    }
    let mut found = vec![];
    for place in order {
        match complement_of(text[place]) {
            None => return no(24, n(place), u64::from(text[place])),
            Some(base) => found.push(base),
        }
    }
    put(&found, out)
}
