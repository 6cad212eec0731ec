//! FASTQ: rows of a file, of a part of it and of an index text, one row, a line written, a region read, and the checker, of a part too.

use crate::family::{Family, Group};
use crate::form::Value::{self, Bounds, Bytes, Number, Output, Rows, Table};
use crate::generate::by_chance::{
    a_row, damage, fastq_damage, fastq_file, fastq_sample, index_text_of, name, numeral, room, some_bounds, some_part,
    some_room, some_rows, some_table_of, table, wanted,
};
use crate::generate::chance::{NUMERALS, NUMERALS_FOR_ALL};
use crate::generate::short::{after, strings};
use crate::generate::{Chance, Source};
use crate::row::{self, FASTQ_FIELDS, FASTQ_WORDS};

#[rustfmt::skip]
const FAMILIES: &[Family] = {
    use crate::family::words::*;
    &[
        asks("fqi", Entry("fastq_index"), &[Bytes, Table], Always(COUNT), &[2, 3, 4, 5, 6, 7, 8, 38, 39], Lacks,
            made(64, fastq_file_and_table, &[every_fastq_file, every_fastq_qualities])),
        // the same of a part: from and to; rows, and where it stopped
        asks("fqp", Entry("fastq_index_part"), &[Bytes, Number, Number, Table], Always(&[Field("count"), Field("next")]),
            &[2, 3, 4, 5, 6, 7, 8, 38, 39], Lacks, made(64, fastq_part_and_table, &[every_fastq_part])),
        asks("fqt", Entry("fastq_read_index"), &[Bytes, Table], Always(COUNT), &[8, 9, 10, 11, 12], Lacks,
            made(32, fastq_index, &[every_fastq_index])),
        asks("fql", Entry("fastq_read_line"), &[Bytes], IfOk(&[Row(FASTQ_FIELDS)]), &[9, 10, 11, 12], Lacks,
            made(16, fastq_line, &[every_fastq_line])),
        asks("fqw", Entry("fastq_write_line"), &[Bytes, Rows, Number, Output], Always(COUNT), &[13, 14, 25], Lacks,
            made(16, fastq_written_line, &[every_fastq_written_line])),
        asks("fqr", Entry("fastq_read"), &[Bytes, Rows, Number, Bounds, Number, Output], Always(COUNT), &[14, 16, 17, 18, 25], Lacks,
            made(48, fastq_read, &[every_fastq_read])),
        asks(
            "fqc", Entry("fastq_check"), &[Bytes, Bytes], IfOk(&[]),
            &[2, 3, 4, 5, 6, 7, 9, 10, 11, 12, 19, 20, 21, 22, 23, 38, 39], Lacks,
            made(48, fastq_pair, &[every_fastq_check]),
        ),
        // how far a part is accepted: from and to in the file, the first line's place in the index; where it stopped in both
        asks("fqk", Entry("fastq_check_part"), &[Bytes, Number, Number, Bytes, Number], IfOk(&[Field("next"), Field("count")]), &[], Lacks,
            made(64, fastq_parts_of_a_pair, &[every_fastq_check_part])),
    ]
};

const EXAMPLES: &str = "\
fqi x40730a414347540a2b0a494949490a t7,7,7,7,7,7,7 => ok 1 t1,1,4,3,4,5,10
fqi x40730a41430a470a2b730a402b0a2b t7,7,7,7,7,7,7,8 => ok 1 t1,1,3,3,2,3,11,8
fqi x40730a41430a414347 t7,7,7,7,7,7,7 => no 6 3 2 0 t7,7,7,7,7,7,7
fqi x40730a41430a0a2b0a t7,7,7,7,7,7,7 => no 6 0 2 0 t7,7,7,7,7,7,7
fqi x40730a41430a4143 t7,7,7,7,7,7,7 => no 38 0 0 0 t7,7,7,7,7,7,7
fqi x40730a41430a2b0a t7,7,7,7,7,7,7 => no 39 0 2 0 t7,7,7,7,7,7,7
fqi x40730a41430a2b0a49490d0a t7,7,7,7,7,7,7 => no 39 2 2 0 t7,7,7,7,7,7,7
fqi x40730a2b0a t7,7,7,7,7,7,7 => no 5 3 0 0 t7,7,7,7,7,7,7
fqi x40730a410a2b0a490a0a t7,7,7,7,7,7,7 => no 2 9 0 1 t1,1,1,3,1,2,7
fqi x40730a410a2b0a49 t => no 8 0 0 0 t
fqp x40730a410a2b0a490a40740a430a2b0a490a 0 1 t7,7,7,7,7,7,7 => ok 1 9 t1,1,1,3,1,2,7
fqp x40730a410a2b0a490a40740a430a2b0a490a 9 99 t7,7,7,7,7,7,7 => ok 1 18 t10,1,1,12,1,2,16
fqp x40730a410a2b0a490a40740a430a2b0a490a 0 99 t7,7,7,7,7,7,7 => no 8 1 0 1 9 t1,1,1,3,1,2,7
fqp x40730a410a2b0a490a40740a430a2b0a490a 9 9 t => ok 0 9 t
fqp x40730a410a2b0a490a40740a430a2b0a490a 7 8 t => no 3 7 0 0 7 t
fqp x40730a410a2b0a490a 10 99 t => ok 0 10 t
fqt x7309340933093409350931300a t7,7,7,7,7,7,7 => ok 1 t0,1,4,3,4,5,10
fqt x7309340933093409350a t7,7,7,7,7,7,7 => no 10 1 6 0 t7,7,7,7,7,7,7
fql x730934093309340935092b31300a => ok t0,1,4,3,4,5,10
fql x73093409330934093509313009310a => no 11 1 6
fqw x73 t0,1,4,3,4,5,10 1 0 x2e2e2e2e2e2e2e2e2e2e2e2e2e2e => ok 13 x7309340933093409350931300a2e
fqw x73 t0,1,4,3,4,5,10 1 0 x2e2e => no 14 13 0 0 x2e2e
fqr x40730a41430a470a2b0a402b0a4a0a t1,1,3,3,2,3,10 1 0 2 3 0 x2e2e2e => ok 2 x43472e
fqr x40730a41430a470a2b0a402b0a4a0a t1,1,3,3,2,3,10 1 0 2 - 1 x2e2e2e => ok 2 x2b4a2e
fqr x40730a41430a470a2b0a402b0a4a0a t1,1,3,3,2,3,10 1 0 2 4 1 x2e2e2e => no 17 3 0 0 x2e2e2e
fqc x40730a41430a470a2b0a402b0a4a0a x7309330933093209330931300a => ok
fqc x40730a41430a470a2b0a402b0a4a0a x73093309330932093309390a => no 23 1 1
fqc x40730a410a2b0a490a4074 x740931 => no 5 11 0
fqk x40730a410a2b0a490a40740a430a2b0a490a 0 1 x730931093309310932093709740a 0 => ok 0 0
fqk x40730a410a2b0a490a40740a430a2b0a490a 0 1 x73093109330931093209370a74093109313209310932093136 0 => ok 9 12
fqk x40730a410a2b0a490a40740a430a2b0a490a 9 99 x73093109330931093209370a74093109313209310932093136 12 => ok 18 25
fqk x40730a410a2b0a490a40740a430a2b0a490a 9 99 x73093109330931093209370a74093109313209310932093136 0 => ok 9 0
fqk x40730a410a2b0a490a40740a430a2b0a490a 9 9 x 7 => ok 9 7";

pub(super) const GROUP: Group = Group { families: FAMILIES, examples: EXAMPLES };

// ---- by chance ----

fn fastq_file_and_table(chance: &mut Chance) -> Vec<Value> {
    let sample = fastq_file(chance);
    let table = some_table_of(chance, FASTQ_WORDS, sample.rows.len());
    vec![Bytes(sample.text), Table(table)]
}

/// A part from where a record begins, mostly.
fn fastq_part_and_table(chance: &mut Chance) -> Vec<Value> {
    let sample = fastq_file(chance);
    let table = some_table_of(chance, FASTQ_WORDS, sample.rows.len());
    let [mut from, to] = some_part(chance, &sample.text);
    if !chance.once_in(3) {
        // a name begins behind its '@'
        let starts = sample.rows.iter().map(|row| row[0].saturating_sub(1)).chain([0]).collect::<Vec<_>>();
        from = chance.one_of(&starts);
    }
    vec![Bytes(sample.text), Number(from), Number(to), Table(table)]
}

fn fastq_index(chance: &mut Chance) -> Vec<Value> {
    let sample = fastq_sample(chance);
    let text = index_text_of(chance, &sample.text, &sample.rows, FASTQ_WORDS);
    vec![Bytes(text), Table(some_table_of(chance, FASTQ_WORDS, sample.rows.len()))]
}

fn fastq_line(chance: &mut Chance) -> Vec<Value> {
    let numbers = [4, 3, 60, 61, 10].map(|right| numeral(chance, right));
    let mut line = [&[name(chance)], &numbers[..]].concat().join(&b'\t');
    line.extend(chance.one_of(&[&b"\n"[..], b"\n", b"\r\n", b"", b"\r"]));
    if chance.once_in(4) {
        damage(chance, &mut line);
    }
    vec![Bytes(line)]
}

fn fastq_written_line(chance: &mut Chance) -> Vec<Value> {
    let sample = fastq_file(chance);
    let (row, numbers) = a_row(chance, &sample);
    let rows = some_rows(chance, &sample.rows);
    let columns = numbers[2..].iter().map(|n| n.to_string().len() as u64 + 1).sum::<u64>();
    vec![Bytes(sample.text), Rows(rows), Number(row), Output(some_room(chance, numbers[1] + columns + 1))]
}

fn fastq_read(chance: &mut Chance) -> Vec<Value> {
    let sample = fastq_file(chance);
    let (row, numbers) = a_row(chance, &sample);
    let rows = some_rows(chance, &sample.rows);
    let bounds = some_bounds(chance, numbers[2]);
    let room = some_room(chance, wanted(bounds, numbers[2]));
    let which = Number(chance.below(2) as u64);
    vec![Bytes(sample.text), Rows(rows), Number(row), Bounds(bounds), which, Output(room)]
}

fn fastq_pair(chance: &mut Chance) -> Vec<Value> {
    let mut sample = fastq_sample(chance);
    let index = index_text_of(chance, &sample.text, &sample.rows, FASTQ_WORDS);
    match chance.below(6) {
        0 => damage(chance, &mut sample.text),
        1 => fastq_damage(chance, &mut sample.text),
        _ => {}
    }
    vec![Bytes(sample.text), Bytes(index)]
}

/// A part of a file and of its index, from where a record and its line begin, mostly.
fn fastq_parts_of_a_pair(chance: &mut Chance) -> Vec<Value> {
    let mut sample = fastq_sample(chance);
    let index = index_text_of(chance, &sample.text, &sample.rows, FASTQ_WORDS);
    // a name begins behind its '@', and a line behind an LF
    let records = sample.rows.iter().map(|row| row[0].saturating_sub(1)).chain([0]);
    let lines = index.iter().enumerate().filter(|(_, byte)| **byte == b'\n').map(|(place, _)| place as u64 + 1);
    let starts: Vec<(u64, u64)> = records.zip([0].into_iter().chain(lines)).collect();
    match chance.below(6) {
        0 => damage(chance, &mut sample.text),
        1 => fastq_damage(chance, &mut sample.text),
        _ => {}
    }
    let [mut from, to] = some_part(chance, &sample.text);
    let [mut first, _] = some_part(chance, &index);
    if !chance.once_in(5) {
        (from, first) = chance.one_of(&starts);
    }
    vec![Bytes(sample.text), Number(from), Number(to), Bytes(index), Number(first)]
}

// ---- every short input, and numbers at the limits ----

fn every_fastq_file() -> Source {
    let files = strings(b"@s\n\r+A ", 4).chain(after(b"@s\n", b"A\n\r+", 7)).chain(after(b"@s\nAA\n", b"A\n\r+", 7));
    Box::new(files.map(|file| vec![Bytes(file), Table(table(2 * FASTQ_WORDS + 3))]))
}

/// Quality lines of one line, of two, and of a second record.
fn every_fastq_qualities() -> Source {
    const FRONTS: [&[u8]; 5] =
        [b"@s\nA\n+\n", b"@s\r\nA\r\n+\r\n", b"@s\nAA\nA\n+x\n", b"@s\nA\n+\nI\n@t\nAA\n+\n", b"@s\nA\nA\r\n+\n"];
    let files = FRONTS.into_iter().flat_map(|front| after(front, b"@\n\r+", 5));
    Box::new(files.flat_map(|file| [1, 2].map(|rows| vec![Bytes(file.clone()), Table(table(FASTQ_WORDS * rows))])))
}

/// Every part of some files of two records.
fn every_fastq_part() -> Source {
    const FRONTS: [&[u8]; 3] =
        [b"@s\nA\n+\nI\n@t\nA\n+\n", b"@s\nA\nA\n+\nI\n@\n@t\nA\n", b"@s\r\nA\r\n+\r\nI\r\n@t\nA\n+"];
    let files = FRONTS.into_iter().flat_map(|front| after(front, b"@\n+", 2));
    Box::new(files.flat_map(|file| {
        let n = file.len() as u64 + 2;
        let parts = (0..n).flat_map(|from| (from.saturating_sub(1)..n).map(move |to| (from, to)));
        parts
            .flat_map(|(from, to)| {
                [1, 2].map(|rows| vec![Bytes(file.clone()), Number(from), Number(to), Table(table(FASTQ_WORDS * rows))])
            })
            .collect::<Vec<_>>()
    }))
}

fn every_fastq_index() -> Source {
    const LINES: [&[u8]; 7] = [
        b"", b"s\t4\t3\t4\t5\t10", b"\t0\t0\t1\t1\t+0", b"s\t4\t3\t4\t5", b"s\t4\t3\t4\t0\t1", b"t\t1\t1\t1\t1\tx",
        b"s\t1\t1\t1\t1\t1\t1",
    ];
    const ENDS: [&[u8]; 4] = [b"\n", b"\r\n", b"\r", b""];
    const SPACES: [usize; 5] = [0, FASTQ_WORDS, 2 * FASTQ_WORDS - 1, 2 * FASTQ_WORDS, 3 * FASTQ_WORDS];
    let line = |k: usize| [LINES[k % 7], ENDS[k / 7 % 4]].concat();
    let cases = (0..28 * 28).flat_map(|k| SPACES.map(|numbers| (k, numbers)));
    Box::new(cases.map(move |(k, numbers)| {
        let text = [line(k % 28), line(k / 28)].concat();
        vec![Bytes(text), Table(table(numbers))]
    }))
}

fn every_fastq_line() -> Source {
    // the last two fields go through the numerals together with each of those before them
    let many = (0..5 * NUMERALS_FOR_ALL.pow(2)).map(|k| {
        let numeral = |place: u32| NUMERALS[k / 5 / NUMERALS_FOR_ALL.pow(place) % NUMERALS_FOR_ALL];
        let mut fields = [&b"s"[..], b"4", b"3", b"60", b"61", numeral(0)];
        fields[k % 5] = numeral(1);
        let end: &[u8] = [&b"\n"[..], b"\r\n", b"", b"\r"][k / 4 % 4];
        [&fields.join(&b'\t')[..], end].concat()
    });
    Box::new(strings(b"\t1s+\n", 6).chain(many).map(|text| vec![Bytes(text)]))
}

fn every_fastq_written_line() -> Source {
    let cases = (0..16 * 2 * 9).flat_map(|k| (0..16).map(move |space| (k, space)));
    Box::new(cases.map(|(k, space)| {
        let numbers = [[k % 4, k / 4 % 4, 10, 9, k / 16 % 2, 1, 20], [0, 1, 0, 0, 1, 1, 0]].concat();
        let rows = row::Rows { numbers, in_use: k / 32 % 3 };
        vec![Bytes(b"a\tb".to_vec()), Rows(rows), Number(k / 96), Output(room(space))]
    }))
}

fn every_fastq_read() -> Source {
    const BOUNDS: [Option<u64>; 7] = [None, Some(0), Some(1), Some(2), Some(3), Some(4), Some(u64::MAX)];
    const POSITIONS: [u64; 4] = [3, 9, 11, u64::MAX];
    let held = (0..4 * 3 * 3 * 4 * 4)
        .map(|k| [9, 9, k % 4, POSITIONS[k as usize / 36 % 4], k / 4 % 3, k / 12 % 3, POSITIONS[k as usize / 144]]);
    Box::new(held.flat_map(move |row| {
        (0..7 * 7 * 4).map(move |k| {
            let (which, space) = (k / 49 % 2, [4, 1][k / 98]);
            let bounds = (BOUNDS[k % 7], BOUNDS[k / 7 % 7]);
            let rows = row::Rows { numbers: row.to_vec(), in_use: 1 };
            let file = b"@s\nAC\nG\n+\nIJ\nK".to_vec();
            vec![Bytes(file), Rows(rows), Number(0), Bounds(bounds), Number(which as u64), Output(room(space))]
        })
    }))
}

fn every_fastq_check() -> Source {
    const FILES: [&[u8]; 6] = [
        b"@s\nA\n+\nI\n",
        b"@s\nAA\nA\n+\nII\nI",
        b"@s\nA\nA\n+\n@\n+\n",
        b"@s\r\nAA\r\n+\r\nII",
        b"@s\nAAA\n+x\nIII\n@t\nA\n+\nI\n",
        b"@s\nA\n+\n",
    ];
    let few = strings(b"@s\n\t", 3)
        .flat_map(|file| strings(b"s\n\t0", 3).map(move |index| vec![Bytes(file.clone()), Bytes(index)]));
    let many = FILES.into_iter().flat_map(|file| {
        (0..4 * 3 * 3 * 4 * 8).map(move |k| {
            let (length, position, bases, width) = (k % 4, 2 + k / 4 % 3, 1 + k / 12 % 3, 1 + k / 36 % 4);
            let index = format!("s\t{length}\t{position}\t{bases}\t{width}\t{}\n", 6 + k / 144);
            vec![Bytes(file.to_vec()), Bytes(index.into_bytes())]
        })
    });
    Box::new(few.chain(many))
}

/// Every part of a file of two records and of its index, and of one whose second line is wrong.
fn every_fastq_check_part() -> Source {
    const FILE: &[u8] = b"@s\nA\n+\nI\n@t\nC\n+\nI\n";
    const INDEXES: [&[u8]; 4] = [
        b"s\t1\t3\t1\t2\t7\nt\t1\t12\t1\t2\t16\n",
        b"s\t1\t3\t1\t2\t7\nt\t1\t12\t1\t2\t15\n",
        b"s\t1\t3\t1\t2\t7\r\nt\t1\t12\t1\t2\t16",
        b"s\t1\t3\t1\t2\t7\nt\t1\t12\t1\t2\t16\n\n",
    ];
    const NUMBERS: [u64; 8] = [0, 1, 8, 9, 10, 18, 19, u64::MAX];
    const PLACES: [u64; 9] = [0, 1, 11, 12, 13, 26, 27, 28, u64::MAX];
    Box::new(INDEXES.into_iter().flat_map(|index| {
        let parts = NUMBERS.into_iter().flat_map(|from| NUMBERS.map(|to| (from, to)));
        parts
            .flat_map(|(from, to)| PLACES.map(|first| (from, to, first)))
            .map(|(from, to, first)| {
                vec![Bytes(FILE.to_vec()), Number(from), Number(to), Bytes(index.to_vec()), Number(first)]
            })
            .collect::<Vec<_>>()
    }))
}
