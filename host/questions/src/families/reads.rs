//! Regions of a row: exact and raw, from a window of the file, the part that a region needs, and a sheet of regions.

use crate::family::{Family, Group};
use crate::form::Value::{self, Bounds, Bytes, Number, Output, Rows, Table};
use crate::generate::by_chance::{a_row, about, file, room, some_bounds, some_room, some_rows, table, wanted};
use crate::generate::short::rows;
use crate::generate::{Chance, Source};
use crate::row::WORDS;
use crate::{form, row};

#[rustfmt::skip]
const FAMILIES: &[Family] = {
    use crate::family::words::*;
    &[
        // the bytes of a region
        asks("exr", Entry("read_exact"), &[Bytes, Rows, Number, Bounds, Output], Always(COUNT), &[14, 16, 17, 18, 25], Lacks,
            made(48, read, &[every_read, every_far_read])),
        asks("rar", Entry("read_raw"), &[Bytes, Rows, Number, Bounds, Output], Always(COUNT), &[14, 16, 18, 25], Refusals,
            made(32, read, &[every_read, every_far_read])),
        // a part of a file at hand: the bytes of a region; the part that a region needs
        asks("win", Entry("read_window"), &[Number, Bytes, Number, Rows, Number, Bounds, Output], Always(COUNT), &[1, 14, 16, 17, 18, 25, 34, 35], Lacks,
            made(48, window, &[every_window, every_far_window])),
        asks("ned", Entry("needed_bytes"), &[Number, Number, Rows, Number, Bounds], Always(&[Field("from"), Field("to")]), &[1, 14, 16, 17, 18, 25], Lacks,
            made(32, needed, &[every_needed, every_far_needed])),
        // a sheet: the refused region's place, and the bytes of all regions
        asks("sht", Entry("read_sheet"), &[Bytes, Rows, Regions, Output, Table], Always(&[Refused("next"), Field("count")]), &[14, 16, 17, 18, 25, 40, 41], Lacks,
            made(32, sheet, &[every_sheet])),
    ]
};

const EXAMPLES: &str = "\
exr x3e730a414347540a41430a t1,1,6,3,4,5,0,0 1 0 4 5 x2e2e2e => ok 2 x54412e
exr x3e730a414347540a41430a t1,1,6,3,4,5,0,0 1 0 5 7 x2e2e2e => no 17 6 0 0 x2e2e2e
rar x3e730a41433e4754 t1,1,5,3,5,6,9,9 1 0 3 4 x2e2e => ok 0 x2e2e
win 11 x540a41 6 t1,1,6,3,4,5,0,0 1 0 4 5 x2e2e2e => ok 2 x54412e
win 11 x540a41 6 t1,1,6,3,4,5,0,0 1 0 3 5 x2e2e2e => no 34 3 0 0 x2e2e2e
win 11 x540a41 9 t1,1,6,3,4,5,0,0 1 0 0 5 x2e2e2e => no 35 0 0 0 x2e2e2e
win 7 x 7 t1,1,6,3,4,5,0,0 1 0 4 5 x2e2e => no 18 5 0 0 x2e2e
win 1099511627777 x 0 t 0 0 - - x => no 1 0 0 0 x
win 99 x4142434445 1 t0,0,8,0,4,2,0,0 1 0 2 8 x2e2e2e2e2e2e2e => ok 7 x41424342434445
win 99 x42434445 2 t0,0,8,0,4,2,0,0 1 0 3 8 x2e2e2e2e2e2e2e => ok 6 x4243424344452e
win 99 x434445 3 t0,0,8,0,4,2,0,0 1 0 4 8 x2e2e2e2e2e => no 34 5 0 0 x2e2e2e2e2e
ned 11 2 t1,1,6,3,4,5,0,0 1 0 4 5 => ok 6 9
ned 11 1 t1,1,6,3,4,5,0,0 1 0 4 5 => no 14 2 0 0 0
ned 99 9 t0,0,8,0,4,2,0,0 1 0 2 8 => ok 1 6
ned 99 9 t0,0,8,0,4,2,0,0 1 0 4 5 => ok 2 4
ned 1099511627776 18446744073709551615 t0,0,18446744073709551615,0,1,1,0,0 1 0 - - => no 18 1099511627777 0 0 0
sht x3e730a414347540a41430a t1,1,6,3,4,5,0,0 1 r0:4:5,0:-:2,0:6:- x2e2e2e2e2e2e t7,7,7,7 => ok - 5 x54414143432e t0,2,4,7
sht x3e730a414347540a41430a t1,1,6,3,4,5,0,0 1 r0:4:5,0:5:7 x2e2e t7,7 => no 17 6 0 1 0 x2e2e t7,7
sht x3e730a414347540a41430a t1,1,6,3,4,5,0,0 1 r0:4:5,0:-:- x2e2e2e2e2e t7,7 => no 14 6 0 1 0 x2e2e2e2e2e t7,7
sht x3e730a414347540a41430a t1,1,6,3,4,5,0,0 1 r0:4:5,0:-:4 x2e2e2e2e2e t7,7 => no 14 6 0 2 0 x2e2e2e2e2e t7,7
sht x3e730a414347540a41430a t1,1,6,3,4,5,0,0 1 r0:0:5,0:-:4 x t7 => no 41 0 0 2 0 x t7
sht x t 9 r x2e t7 => ok - 0 x2e t7";

pub(super) const GROUP: Group = Group { families: FAMILIES, examples: EXAMPLES };

// ---- by chance ----

fn read(chance: &mut Chance) -> Vec<Value> {
    let sample = file(chance);
    let (row, numbers) = a_row(chance, &sample);
    let rows = some_rows(chance, &sample.rows);
    let bounds = some_bounds(chance, numbers[2]);
    let room = some_room(chance, wanted(bounds, numbers[2]));
    vec![Bytes(sample.text), Rows(rows), Number(row), Bounds(bounds), Output(room)]
}

/// A read of which some bytes of the file are at hand: just those that are needed, more, fewer, or any.
fn window(chance: &mut Chance) -> Vec<Value> {
    let arguments = read(chance);
    let [Bytes(text), Rows(rows), Number(row), Bounds(bounds), Output(room)] = &arguments[..] else { return arguments };
    let (first, behind) = spanned(rows, *row, *bounds, text.len());
    let from = if chance.once_in(3) { chance.below(text.len() + 1) } else { nearby(chance, first, text.len()) };
    let to = if chance.once_in(3) { chance.below(text.len() + 1) } else { nearby(chance, behind, text.len()) };
    let window = text.get(from..to).unwrap_or_default().to_vec();
    let from = if chance.once_in(16) { about(chance, from as u64) } else { from as u64 };
    let length = if chance.once_in(6) { about(chance, text.len() as u64) } else { text.len() as u64 };
    let rest = [Rows(rows.clone()), Number(*row), Bounds(*bounds), Output(room.clone())];
    [Number(length), Bytes(window), Number(from)].into_iter().chain(rest).collect()
}

/// A place at one, or just before or behind it, in a file of so many bytes.
fn nearby(chance: &mut Chance, place: usize, bytes: usize) -> usize {
    let near = [place, place, place, place.saturating_sub(1), place + 1, place.saturating_sub(7), place + 7];
    chance.one_of(&near).min(bytes)
}

/// About where the bases of a region lie: the offset of the first, and the one behind the last, in a file of so many bytes.
fn spanned(rows: &row::Rows, row: u64, (start, end): form::Bounds, bytes: usize) -> (usize, usize) {
    let all = (0, bytes);
    let Some(numbers) = usize::try_from(row).ok().and_then(|row| rows.numbers.chunks(WORDS).nth(row)) else {
        return all;
    };
    let Some(&[length, position, line_bases, line_width]) = numbers.get(2..6).and_then(|n| n.first_chunk()) else {
        return all;
    };
    let at = |p: u64| {
        let i = u128::from(p.saturating_sub(1));
        let bases = u128::from(line_bases.max(1));
        u128::from(position) + i / bases * u128::from(line_width) + i % bases
    };
    let (first, last) = (at(start.unwrap_or(1)), at(end.unwrap_or(length)));
    let within = |place: u128| usize::try_from(place).unwrap_or(bytes).min(bytes);
    (within(first), within(last + 1))
}

/// What a region needs; at times there is room for any.
fn needed(chance: &mut Chance) -> Vec<Value> {
    let arguments = read(chance);
    let [Bytes(text), Rows(rows), Number(row), Bounds(bounds), Output(room)] = &arguments[..] else { return arguments };
    let length = if chance.once_in(4) { chance.one_of(&[1 << 40, 1 << 30]) } else { about(chance, text.len() as u64) };
    let room = if chance.once_in(3) { u64::MAX } else { room.len() as u64 };
    vec![Number(length), Number(room), Rows(rows.clone()), Number(*row), Bounds(*bounds)]
}

/// Regions of a file, most of them good, with about as much room and as many starts as they need; at times as many regions as a sheet may
/// have, or a few more.
fn sheet(chance: &mut Chance) -> Vec<Value> {
    let sample = file(chance);
    let rows = some_rows(chance, &sample.rows);
    let regions = match chance.below(20) {
        0 => 198 + chance.below(5),
        1 => 0,
        _ => 1 + chance.below(6),
    };
    let faulty = chance.once_in(3);
    let (mut list, mut total) = (vec![], 0);
    for _ in 0..regions {
        let (row, numbers) = a_row(chance, &sample);
        let length = numbers[2];
        let bounds = if faulty && chance.once_in(3) || length == 0 {
            some_bounds(chance, length)
        } else {
            let start = 1 + chance.below(length.min(100) as usize) as u64;
            let end = start + chance.below((length - start).min(12) as usize + 1) as u64;
            (
                Some(start).filter(|start| *start != 1 || chance.once_in(2)),
                Some(end).filter(|end| *end != length || chance.once_in(2)),
            )
        };
        total += wanted(bounds, length).min(1 << 10);
        list.push((row, bounds));
    }
    let room = some_room(chance, total);
    let starts = if chance.once_in(8) { chance.below(regions + 2) } else { regions + chance.below(3) };
    let starts = (700..).take(starts).collect();
    vec![Bytes(sample.text), Rows(rows), Value::Regions(list), Output(room), Table(starts)]
}

// ---- every short input, and numbers at the limits ----

fn every_read() -> Source {
    const FILES: [&[u8]; 2] = [b">s\nACG", b">s\nAC\nGT\n>t\nA\n"];
    const BOUNDS: [Option<u64>; 7] = [None, Some(0), Some(1), Some(2), Some(3), Some(4), Some(5)];
    let held = (0..5 * 4 * 4 * 5).map(|k| [9, 9, k % 5, 2 + 2 * (k / 80), k / 5 % 4, k / 20 % 4]);
    Box::new(held.flat_map(move |row| {
        (0..7 * 7 * 4).map(move |k| {
            let (file, space) = (FILES[k / 49 % 2], [6, 1][k / 98]);
            let bounds = (BOUNDS[k % 7], BOUNDS[k / 7 % 7]);
            vec![Bytes(file.to_vec()), Rows(rows(&[row], 1)), Number(0), Bounds(bounds), Output(room(space))]
        })
    }))
}

/// Reads of rows whose numbers are at the limits: sums of addresses that 64 bits don't hold, and products that they do.
fn every_far_read() -> Source {
    const HALF: u64 = u64::MAX / 2;
    const FAR: [u64; 6] = [1, 2, HALF - 1, HALF, HALF + 1, u64::MAX];
    const POSITIONS: [u64; 4] = [0, 3, HALF, u64::MAX];
    const LENGTHS: [u64; 2] = [6, u64::MAX];
    const BOUNDS: [Option<u64>; 7] =
        [None, Some(1), Some(3), Some(HALF), Some(HALF + 1), Some(u64::MAX - 1), Some(u64::MAX)];
    let held = (0..6 * 6 * 4 * 2).map(|k| [0, 0, LENGTHS[k % 2], POSITIONS[k / 2 % 4], FAR[k / 8 % 6], FAR[k / 48]]);
    Box::new(held.flat_map(move |row| {
        (0..7 * 7).map(move |k| {
            let file = b">s\nACGT\nAC\n".to_vec();
            let bounds = (BOUNDS[k % 7], BOUNDS[k / 7]);
            vec![Bytes(file), Rows(rows(&[row], 1)), Number(0), Bounds(bounds), Output(room(9))]
        })
    }))
}

/// Windows of every length and offset over each file of a list, with rows whose lines lie apart, side by side and one over the other.
fn every_window() -> Source {
    const FILES: [&[u8]; 4] = [b"", b">s\nACG", b">s\nAC\nGT\n", b">s\r\nACG\r\nT"];
    const ROWS: [[u64; 4]; 9] = [
        [4, 3, 2, 3],
        [3, 3, 3, 4],
        [4, 4, 3, 5],
        [4, 0, 1, 1],
        [6, 1, 3, 1],
        [7, 0, 4, 2],
        [5, 2, 2, 1],
        [4, 2, 2, 4],
        [9, 0, 5, 2],
    ];
    const BOUNDS: [(Option<u64>, Option<u64>); 8] = [
        (None, None),
        (Some(1), Some(1)),
        (Some(2), None),
        (None, Some(3)),
        (Some(2), Some(4)),
        (Some(4), Some(4)),
        (Some(3), Some(9)),
        (Some(3), Some(2)),
    ];
    let windows = FILES.into_iter().flat_map(|file| {
        let parts = (0..=file.len()).flat_map(move |from| (from..=file.len()).map(move |to| (from, to)));
        parts.flat_map(move |(from, to)| (0..2).map(move |past| (file, from, to, from + past)))
    });
    Box::new(windows.flat_map(|(file, from, to, told)| {
        ROWS.into_iter().flat_map(move |[length, position, bases, width]| {
            BOUNDS.into_iter().map(move |bounds| {
                let rows = Rows(rows(&[[0, 0, length, position, bases, width]], 1));
                let (bytes, window) = (Number(file.len() as u64), Bytes(file[from..to].to_vec()));
                vec![bytes, window, Number(told as u64), rows, Number(0), Bounds(bounds), Output(room(9))]
            })
        })
    }))
}

/// Windows of a file whose stated length, offset and rows are at the limits.
fn every_far_window() -> Source {
    const HALF: u64 = u64::MAX / 2;
    const LIMIT: u64 = 1 << 40;
    const LENGTHS: [u64; 6] = [0, 11, LIMIT - 1, LIMIT, LIMIT + 1, u64::MAX];
    const OFFSETS: [u64; 8] = [0, 3, LIMIT - 4, LIMIT - 3, LIMIT - 2, HALF, u64::MAX - 2, u64::MAX];
    const ROWS: [[u64; 4]; 8] = [
        [6, 3, 4, 5],
        [6, LIMIT - 4, 2, 1],
        [6, LIMIT - 4, 6, 6],
        [6, LIMIT - 3, 3, 3],
        [u64::MAX, 0, 1, 1],
        [u64::MAX, LIMIT - 5, HALF, HALF],
        [u64::MAX, u64::MAX, 1, u64::MAX],
        [u64::MAX, 3, u64::MAX, 1],
    ];
    const BOUNDS: [(Option<u64>, Option<u64>); 7] = [
        (None, None),
        (None, Some(3)),
        (Some(2), Some(3)),
        (Some(LIMIT - 3), Some(LIMIT)),
        (Some(u64::MAX - 2), None),
        (Some(HALF), Some(HALF + 2)),
        (Some(LIMIT - 3), Some(LIMIT + 1)),
    ];
    Box::new(LENGTHS.into_iter().flat_map(|length| {
        OFFSETS.into_iter().flat_map(move |from| {
            ROWS.into_iter().flat_map(move |[bases, position, line_bases, width]| {
                BOUNDS.into_iter().map(move |bounds| {
                    let rows = Rows(rows(&[[0, 0, bases, position, line_bases, width]], 1));
                    let (length, window) = (Number(length), Bytes(b"ACG".to_vec()));
                    vec![length, window, Number(from), rows, Number(0), Bounds(bounds), Output(room(6))]
                })
            })
        })
    }))
}

/// What every read of [`every_read`] needs, and of [`every_far_window`].
fn every_needed() -> Source {
    Box::new(every_read().map(|arguments| match <[Value; 5]>::try_from(arguments) {
        Ok([Bytes(file), rows, row, bounds, Output(out)]) => {
            vec![Number(file.len() as u64), Number(out.len() as u64), rows, row, bounds]
        }
        _ => vec![],
    }))
}

fn every_far_needed() -> Source {
    Box::new(every_far_window().map(|arguments| match <[Value; 7]>::try_from(arguments) {
        // the window's offset stands for the room
        Ok([length, _, room, rows, row, bounds, _]) => vec![length, room, rows, row, bounds],
        _ => vec![],
    }))
}

/// Every sheet of up to two of these regions, with room and starts for none of them to all; and sheets of about as many regions as one
/// may have.
fn every_sheet() -> Source {
    const FILE: &[u8] = b">s\nACGT\nAC\n>t\nGG";
    const REGIONS: [(u64, form::Bounds); 10] = [
        (0, (None, None)),
        (0, (Some(1), Some(1))),
        (0, (Some(2), Some(5))),
        (0, (Some(5), Some(7))),
        (0, (Some(0), None)),
        (0, (Some(3), Some(2))),
        (1, (None, None)),
        (1, (Some(2), Some(3))),
        (2, (None, None)),
        (u64::MAX, (Some(u64::MAX), Some(u64::MAX))),
    ];
    // the second row's last base is not in the file
    let held = || rows(&[[1, 1, 6, 3, 4, 5], [12, 1, 3, 14, 2, 3]], 2);
    let asked = move |regions: Vec<_>, space, starts| {
        vec![Bytes(FILE.to_vec()), Rows(held()), Value::Regions(regions), Output(room(space)), Table(table(starts))]
    };
    let pairs = REGIONS.into_iter().flat_map(|one| REGIONS.into_iter().map(move |two| vec![one, two]));
    let lists = [vec![]].into_iter().chain(REGIONS.into_iter().map(|one| vec![one])).chain(pairs);
    let short = lists
        .flat_map(move |regions| (0..=12 * 3).map(move |k| asked(regions.clone(), k / 3, k % 3)).collect::<Vec<_>>());
    let long = (198..=202).flat_map(move |regions| {
        (0..4).map(move |k| asked(vec![REGIONS[1]; regions], regions - k / 2, regions - k % 2)).collect::<Vec<_>>()
    });
    Box::new(short.chain(long))
}
