//! The indexers: one record, a file by either rule, a part of it, and a file that arrives in pieces.

use crate::family::{Family, Group};
use crate::form::Value::{self, Bytes, Number, Table};
use crate::generate::by_chance::{file, place, some_part, some_steps, some_table, spaced_file, table};
use crate::generate::short::{after, strings};
use crate::generate::{Chance, Source};
use crate::row::{FIELDS, WORDS};

#[rustfmt::skip]
const FAMILIES: &[Family] = {
    use crate::family::words::*;
    &[
        // a row and the next offset; rows
        asks("rec", Entry("index_record"), &[Bytes, Number], Found("found", &[Row(FIELDS), Field("next")]), &[2, 3, 4, 5, 6, 7], Refusals,
            made(16, record, &[every_record])),
        asks("idx", Entry("index_file"), &[Bytes, Table], Always(COUNT), &[2, 3, 4, 5, 6, 7, 8], Memory,
            made(64, file_and_table, &[every_file, every_two_records])),
        asks("fit", Entry("index_complete"), &[Bytes, Table], Always(COUNT), &[2, 3, 4, 8, 42], Lacks,
            made(48, spaced_file_and_table, &[every_file, every_two_records])),
        // the same of a part: from, to, and the rule
        asks("ipt", Entry("index_part"), &[Bytes, Number, Number, Number, Table], Always(COUNT), &[2, 3, 4, 5, 6, 7, 8, 42], Lacks,
            made(64, part_and_table, &[every_parted_file])),
        // the same while the file arrives: what each step tells
        asks("fed", Fed(0), &[Table, Steps], Bare(&[Other(Stepped)]), &[2, 3, 4, 5, 6, 7, 8, 26], Lacks,
            made(64, fed, &[every_split_file])),
        asks("ffd", Fed(1), &[Table, Steps], Bare(&[Other(Stepped)]), &[2, 3, 4, 8, 26, 42], Lacks,
            made(64, fed_spaced, &[every_split_file])),
    ]
};

const EXAMPLES: &str = "\
rec x3e730a41430a3e740a41 6 => ok t7,1,1,9,1,1,0,0 10
rec x3e73206f6e650a41430a 0 => ok t1,1,2,7,2,3,3,3 10
rec x3e730a41430a 6 => ok none
rec x3e730a0a 0 => no 5 4 0
idx x3e730a414347540a0a t7,7,7,7,7,7,7,7 => ok 1 t1,1,4,3,4,5,0,0
idx x3e730a414347540a0a0a t7,7,7,7,7,7,7,7 => no 6 0 4 0 t7,7,7,7,7,7,7,7
idx x3e730a410a3e740a t700,701,702,703,704,705,706,707,708 => no 5 8 0 1 t1,1,1,3,1,2,0,0,708
idx x3e730a41 t => no 8 0 0 0 t
fit x3e730a414347540a0a0a t7,7,7,7,7,7,7,7 => ok 1 t1,1,4,3,4,5,0,0
fit x3e730a0a410a0a430a3e740a t700,701,702,703,704,705,706,707,708,709,710,711,712,713,714,715,716 => ok 2 t1,1,2,4,1,3,0,0,10,1,0,12,1,2,0,0,716
fit x3e730a0a3e740a410a41410a t7,7,7,7,7,7,7,7 => no 42 10 3 1 t1,1,0,3,1,2,0,0
fit x3e730a t => no 8 0 0 0 t
ipt x3e730a410a3e740a430a 0 5 1 t7,7,7,7,7,7,7,7 => ok 1 t1,1,1,3,1,2,0,0
ipt x3e730a410a3e740a430a 1 99 1 t7,7,7,7,7,7,7,7 => ok 1 t6,1,1,8,1,2,0,0
ipt x3e730a413e0a3e740a430a 4 6 0 t7,7,7,7,7,7,7,7 => ok 0 t7,7,7,7,7,7,7,7
ipt x3e730a0a3e740a430a 0 1 0 t7,7,7,7,7,7,7,7 => no 5 4 0 0 t7,7,7,7,7,7,7,7
ipt x3e730a0a3e740a430a 5 4 0 t => ok 0 t
ipt x730a3e740a430a 0 7 1 t => no 3 0 0 0 t
fed t7,7,7,7,7,7,7,7 f3e730a41,f,f0a,f3e,e => 0:0:0:0 0:0:0:0 0:0:0:0 0:0:0:1 4:6:0:1 t1,1,1,3,1,2,0,0
fed t f3e730a,f3e,e,f => 0:0:0:0 5:3:0:0 5:3:0:0 5:3:0:0 t
fed t e,f,f3e,e => 0:0:0:0 0:0:0:0 26:0:0:0 26:0:0:0 t
ffd t7,7,7,7,7,7,7,7 f3e73,f0a0a,f3e => 0:0:0:0 0:0:0:0 0:0:0:1 t1,1,0,3,1,2,0,0
ffd t7,7,7,7,7,7,7,7 f3e730a410a41410a,f41,e => 0:0:0:0 42:6:3:0 42:6:3:0 t7,7,7,7,7,7,7,7";

pub(super) const GROUP: Group = Group { families: FAMILIES, examples: EXAMPLES };

// ---- by chance ----

/// A record is at the start of a file, at least.
fn record(chance: &mut Chance) -> Vec<Value> {
    let text = file(chance).text;
    let at = if chance.once_in(2) { 0 } else { place(chance, &text) };
    vec![Bytes(text), Number(at)]
}

fn file_and_table(chance: &mut Chance) -> Vec<Value> {
    let sample = file(chance);
    let table = some_table(chance, sample.rows.len());
    vec![Bytes(sample.text), Table(table)]
}

fn spaced_file_and_table(chance: &mut Chance) -> Vec<Value> {
    if chance.once_in(2) {
        return file_and_table(chance);
    }
    let (text, records) = spaced_file(chance);
    vec![Bytes(text), Table(some_table(chance, records))]
}

/// A part of a file, a rule, and a table.
fn part_and_table(chance: &mut Chance) -> Vec<Value> {
    let mut asked = spaced_file_and_table(chance);
    let Some(Table(table)) = asked.pop() else { return asked };
    let Some(Bytes(text)) = asked.pop() else { return asked };
    let [from, to] = if chance.once_in(3) { [0, text.len() as u64] } else { some_part(chance, &text) };
    let complete = chance.one_of(&[0, 0, 0, 1, 1, u64::MAX]);
    vec![Bytes(text), Number(from), Number(to), Number(complete), Table(table)]
}

/// A table, and a file that arrives in pieces.
fn fed(chance: &mut Chance) -> Vec<Value> {
    let sample = file(chance);
    vec![Table(some_table(chance, sample.rows.len())), Value::Steps(some_steps(chance, &sample.text))]
}

fn fed_spaced(chance: &mut Chance) -> Vec<Value> {
    if chance.once_in(2) {
        return fed(chance);
    }
    let (text, records) = spaced_file(chance);
    vec![Table(some_table(chance, records)), Value::Steps(some_steps(chance, &text))]
}

// ---- every short input, and numbers at the limits ----

fn every_record() -> Source {
    let from_start = strings(b">A\n\r ", 7).map(|file| vec![Bytes(file), Number(0)]);
    let from_inside = strings(b">A\n\r", 5).flat_map(|file| {
        (1..file.len() as u64 + 2).map(|at| vec![Bytes(file.clone()), Number(at)]).collect::<Vec<_>>()
    });
    Box::new(from_inside.chain(from_start))
}

fn every_file() -> Source {
    let files = after(b">s\n", b"A\n\r>", 8).chain(strings(b">\n\rAC \t", 6));
    Box::new(files.map(|file| vec![Bytes(file), Table(table(2 * WORDS + 3))]))
}

fn every_two_records() -> Source {
    let files = after(b">s\nAA\n>t\r\n", b"A\n\r>", 6);
    Box::new(files.flat_map(|file| [0, 1, 2].map(|rows| vec![Bytes(file.clone()), Table(table(WORDS * rows))])))
}

/// Every part of every short file, by both rules.
fn every_parted_file() -> Source {
    let files = strings(b">A\n", 4).chain(after(b">s\nA\n", b"A\n\r>", 4));
    Box::new(files.flat_map(|file| {
        let n = file.len() as u64 + 2;
        let parts = (0..n).flat_map(|from| (from.saturating_sub(1)..n).map(move |to| (from, to)));
        parts
            .flat_map(|(from, to)| {
                [0, 1].map(|complete| {
                    vec![Bytes(file.clone()), Number(from), Number(to), Number(complete), Table(table(2 * WORDS))]
                })
            })
            .collect::<Vec<_>>()
    }))
}

/// Every short file byte by byte, and in two pieces at every place.
fn every_split_file() -> Source {
    let files = strings(b">A\n\r ", 6).chain(after(b">s\nA\n", b"A\n\r>", 5));
    Box::new(files.flat_map(|file| {
        let in_two = (0..file.len()).map(|at| vec![Some(file[..at].to_vec()), Some(file[at..].to_vec()), None]);
        let bytes = file.iter().map(|byte| Some(vec![*byte])).chain([None]).collect();
        in_two.chain([bytes]).map(|steps| vec![Table(table(WORDS)), Value::Steps(steps)]).collect::<Vec<_>>()
    }))
}
