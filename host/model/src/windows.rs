//! Reads where only a part of a file is at hand (K7, C4).

use crate::reads::{judge_bounds, offset, put};
use crate::rows::held_row;
use crate::{LIMIT, n, no};
use questions::form::{Answer, Bounds, No, Value};
use questions::row::{Row, Rows};

/// The answers of this file's families.
pub(crate) fn answer(family: &str, arguments: &mut [Value]) -> Option<Answer> {
    use questions::form::Value::{Bounds, Bytes, Number, Output, Rows};
    Some(match (family, arguments) {
        ("win", [Number(length), Bytes(w), Number(from), Rows(rows), Number(row), Bounds(bounds), Output(out)]) => {
            window(*length, w, *from, rows, *row, *bounds, out).into()
        }
        ("ned", [Number(length), Number(room), Rows(rows), Number(row), Bounds(bounds)]) => {
            needed(*length, *room, rows, *row, *bounds).into()
        }
        _ => return None,
    })
}

/// The first and the last base of a region, and its row: 16, 25, 17, 14, as the exact read has them.
fn region(room: u64, rows: &Rows, r: u64, bounds: Bounds) -> Result<(u64, u64, Row), No> {
    judge_bounds(bounds)?;
    let row = held_row(rows, r)?;
    let bases = row[2];
    let (start, end) = (bounds.0.unwrap_or(1), bounds.1.unwrap_or(bases));
    if start > bases || end > bases {
        return no(17, bases, 0);
    }
    let needed = end - start + 1;
    if room < needed { no(14, needed, 0) } else { Ok((start, end, row)) }
}

/// 1 for the stated length.
fn judge_length(length: u64) -> Result<(), No> {
    if length > n(LIMIT) { no(1, 0, 0) } else { Ok(()) }
}

pub(crate) fn window(
    length: u64,
    window: &[u8],
    from: u64,
    rows: &Rows,
    r: u64,
    bounds: Bounds,
    out: &mut [u8],
) -> Result<u64, No> {
    judge_length(length)?;
    if u128::from(from) + window.len() as u128 > u128::from(length) {
        return no(35, 0, 0);
    }
    let (start, end, row) = region(n(out.len()), rows, r, bounds)?;
    // 18 for the whole region, and then 34
    if let Some(p) = (start..=end).find(|p| offset(&row, *p) >= u128::from(length)) {
        return no(18, p, 0);
    }
    let mut found = vec![];
    for p in start..=end {
        let at = offset(&row, p) as u64;
        let Some(byte) = at.checked_sub(from).and_then(|place| window.get(place as usize)) else {
            return no(34, p, 0);
        };
        found.push(*byte);
    }
    put(&found, out)
}

/// The smallest offset of a region's bases, and the one behind the largest.
pub(crate) fn needed(length: u64, room: u64, rows: &Rows, r: u64, bounds: Bounds) -> Result<[u64; 2], No> {
    judge_length(length)?;
    let (start, end, row) = region(room, rows, r, bounds)?;
    if let Some(p) = outside(length, &row, start, end) {
        return no(18, p, 0);
    }
    let offsets = || ends_of_lines(&row, start, end).into_iter().map(|p| offset(&row, p) as u64);
    Ok([offsets().min().unwrap_or(0), offsets().max().map_or(0, |last| last + 1)])
}

/// It takes so many bases one by one; of more, the first and the last of some of their lines.
const ONE_BY_ONE: u64 = 1 << 16;

/// Line l of a record, from 0: its first and last base that are in a region.
fn line(row: &Row, l: u64, start: u64, end: u64) -> (u64, u64) {
    let bases = u128::from(row[4]);
    let (first, last) = (u128::from(l) * bases + 1, (u128::from(l) + 1) * bases);
    (first.max(u128::from(start)) as u64, last.min(u128::from(end)) as u64)
}

/// Bases of a region among which are the one that lies lowest and the one that lies highest.
fn ends_of_lines(row: &Row, start: u64, end: u64) -> Vec<u64> {
    if end - start < ONE_BY_ONE {
        return (start..=end).collect();
    }
    let (first, last) = ((start - 1) / row[4], (end - 1) / row[4]);
    let lines = [first, last.min(first + 1), first.max(last.saturating_sub(1)), last];
    lines.into_iter().flat_map(|l| <[u64; 2]>::from(line(row, l, start, end))).collect()
}

/// The first base of a region that is not in a file of so many bytes.
fn outside(length: u64, row: &Row, start: u64, end: u64) -> Option<u64> {
    if end - start < ONE_BY_ONE {
        return (start..=end).find(|p| offset(row, *p) >= u128::from(length));
    }
    let (first, last) = ((start - 1) / row[4], (end - 1) / row[4]);
    // a whole line l ends at position + l * width + bases: the first that ends past the file
    let [position, bases, width] = [row[3], row[4], row[5]].map(u128::from);
    let whole = u128::from(length).checked_sub(position + bases).map_or(0, |rest| rest / width + 1);
    let whole = u64::try_from(whole).unwrap_or(last).clamp(last.min(first + 1), last);
    [first, whole, last].into_iter().find_map(|l| {
        let (from, to) = line(row, l, start, end);
        let inside = u128::from(length).saturating_sub(offset(row, from));
        let p = u128::from(from) + inside;
        (p <= u128::from(to)).then_some(p as u64)
    })
}
