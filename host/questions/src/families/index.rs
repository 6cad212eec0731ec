//! An index text, and a table of its rows: lines read and written, and a name looked up.

use crate::family::{Family, Group};
use crate::form::Value::{self, Bytes, Number, Output, Rows, Table};
use crate::generate::by_chance::{
    a_row, damage, file, index_text, name, numeral, room, sample, some_room, some_rows, some_table, table,
};
use crate::generate::chance::{NUMERALS, NUMERALS_FOR_ALL};
use crate::generate::short::{rows, strings};
use crate::generate::{Chance, Source};
use crate::row::{self, FIELDS_OF_A_LINE, OF_A_LINE, WORDS};

#[rustfmt::skip]
const FAMILIES: &[Family] = {
    use crate::family::words::*;
    &[
        // a row and whether the line is plain; a row; rows; the bytes of a written line
        asks("ixl", Entry("index_line"), &[Bytes], IfOk(&[Row(FIELDS_OF_A_LINE), Field("plain")]), &[9, 10, 11, 12], Lacks,
            made(16, index_line, &[every_index_line])),
        asks("ixc", Entry("index_content"), &[Bytes], IfOk(&[Row(FIELDS_OF_A_LINE)]), &[9, 10, 11, 12], Refusals,
            made(16, index_line, &[every_index_line])),
        asks("ixt", Entry("read_index"), &[Bytes, Table], Always(COUNT), &[8, 9, 10, 11, 12], Refusals,
            made(32, index, &[every_index])),
        asks("wrl", Entry("write_index_line"), &[Bytes, Rows, Number, Output], Always(COUNT), &[13, 14, 25], Refusals,
            made(16, written_line, &[every_written_line, every_described_line])),
        // the row of a name
        asks("fnd", Entry("find"), &[Bytes, Rows, Bytes], IfOk(COUNT), &[15, 25], Lacks,
            made(32, look_up, &[every_look_up, every_described_look_up])),
    ]
};

const EXAMPLES: &str = "\
ixl x7309340933093409350a => ok t0,1,4,3,4,5 1
ixl x730934093309340935 => ok t0,1,4,3,4,5 0
ixl x73093409330930 => no 12 1 4
ixc x730934093309340935 => ok t0,1,4,3,4,5
ixc x => no 9 1 0
ixt x73093409330934093509360a t1,1,1,1,1,1,1,1 => no 11 1 5 0 t1,1,1,1,1,1,1,1
ixt x7309340933093409350a7309340933093409350a t1,1,1,1,1,1,1,1 => no 8 1 0 1 t0,1,4,3,4,5,0,0
wrl x73 t0,1,4,3,4,5,0,0 1 0 x2e2e2e2e2e2e2e2e2e2e2e => ok 10 x7309340933093409350a2e
wrl x73 t0,1,4,3,4,5,0,0 1 0 x2e2e => no 14 10 0 0 x2e2e
wrl x73 t0,2,4,3,4,5,0,0 1 0 x2e2e => no 25 0 0 0 x2e2e
wrl x73 t0,1,4,3,4,5,2,0 1 0 x2e2e => no 25 0 0 0 x2e2e
fnd x7374 t0,1,4,3,4,5,0,0,1,1,4,3,4,5,0,0 2 x74 => ok 1
fnd x7374 t0,1,4,3,4,5,0,0,1,1,4,3,4,5,0,0 2 x => no 15 0 0";

pub(super) const GROUP: Group = Group { families: FAMILIES, examples: EXAMPLES };

// ---- by chance ----

fn index_line(chance: &mut Chance) -> Vec<Value> {
    let fields = [name(chance), numeral(chance, 4), numeral(chance, 3), numeral(chance, 60), numeral(chance, 61)];
    let mut line = fields.join(&b'\t');
    line.extend(chance.one_of(&[&b"\n"[..], b"\n", b"\r\n", b"", b"\r"]));
    if chance.once_in(4) {
        damage(chance, &mut line);
    }
    vec![Bytes(line)]
}

fn index(chance: &mut Chance) -> Vec<Value> {
    let sample = sample(chance);
    let text = index_text(chance, &sample.text, &sample.rows);
    vec![Bytes(text), Table(some_table(chance, sample.rows.len()))]
}

fn written_line(chance: &mut Chance) -> Vec<Value> {
    let sample = file(chance);
    let (row, numbers) = a_row(chance, &sample);
    let rows = some_rows(chance, &sample.rows);
    let columns = numbers[2..OF_A_LINE].iter().map(|n| n.to_string().len() as u64 + 1).sum::<u64>();
    vec![Bytes(sample.text), Rows(rows), Number(row), Output(some_room(chance, numbers[1] + columns + 1))]
}

/// A name that is there, one that may be, or one that isn't.
fn look_up(chance: &mut Chance) -> Vec<Value> {
    let sample = file(chance);
    let rows = some_rows(chance, &sample.rows);
    let (_, row) = a_row(chance, &sample);
    let there = sample.text.get(row[0] as usize..).and_then(|t| t.get(..row[1] as usize));
    let wanted = match there {
        Some(there) if !chance.once_in(4) => there.to_vec(),
        _ if chance.once_in(4) => vec![],
        _ => name(chance),
    };
    vec![Bytes(sample.text), Rows(rows), Bytes(wanted)]
}

// ---- every short input, and numbers at the limits ----

fn every_index_line() -> Source {
    let few = strings(b"\t01s+\r\n", 5);
    let many = (0..NUMERALS_FOR_ALL.pow(4)).map(|k| {
        let numeral = |place: u32| NUMERALS[k / NUMERALS_FOR_ALL.pow(place) % NUMERALS_FOR_ALL];
        let name: &[u8] = [&b"s"[..], b"", b"a b", b"\xc3\xa9", b"a\nb"][k % 5];
        let end: &[u8] = [&b"\n"[..], b"\r\n", b"", b"\r"][k / 4 % 4];
        let fields = [name, numeral(3), numeral(2), numeral(1), numeral(0)];
        [&fields.join(&b'\t')[..], end].concat()
    });
    Box::new(few.chain(many).map(|text| vec![Bytes(text)]))
}

fn every_index() -> Source {
    const LINES: [&[u8]; 9] = [
        b"", b"s\t4\t3\t4\t5", b"\t0\t0\t1\t1", b"s\t4\t3\t4", b"s\t4\t3\t0\t5", b"t\tx", b"t\t007\t3\t60\t61",
        b"s\t1\t1\t1\t1\t1", b"\xff\t1\t2\t3\t4",
    ];
    const ENDS: [&[u8]; 4] = [b"\n", b"\r\n", b"\r", b""];
    const SPACES: [usize; 5] = [0, WORDS, 2 * WORDS - 1, 2 * WORDS, 3 * WORDS];
    let line = |k: usize| [LINES[k % 9], ENDS[k / 9 % 4]].concat();
    let cases = (0..36 * 36).flat_map(|k| SPACES.map(|numbers| (k, numbers)));
    Box::new(cases.map(move |(k, numbers)| {
        let text = [line(k % 36), line(k / 36)].concat();
        vec![Bytes(text), Table(table(numbers))]
    }))
}

fn every_written_line() -> Source {
    let cases = (0..16 * 2 * 9).flat_map(|k| (0..14).map(move |space| (k, space)));
    Box::new(cases.map(|(k, space)| {
        let row = [k % 4, k / 4 % 4, 10, 9, k / 16 % 2, 1];
        let rows = rows(&[row, [0, 1, 0, 0, 1, 1]], k / 32 % 3);
        vec![Bytes(b"a\tb".to_vec()), Rows(rows), Number(k / 96), Output(room(space))]
    }))
}

fn every_look_up() -> Source {
    const NAMES: [&[u8]; 4] = [b"a", b"", b"b", b"ab"];
    let row = |k: u64| [k % 4, k / 4 % 4, 2, 3, k / 16 % 2, 1];
    let cases = (0..32 * 32).flat_map(|k| (0..16).map(move |c| (k, c)));
    Box::new(cases.map(move |(k, c)| {
        let rows = rows(&[row(k % 32), row(k / 32)], c as u64 / 4);
        vec![Bytes(b"ab".to_vec()), Rows(rows), Bytes(NAMES[c % 4].to_vec())]
    }))
}

/// Descriptions at the ends of the bytes and past them, of a row whose name is good.
fn descriptions() -> impl Iterator<Item = row::Rows> {
    const FAR: [u64; 8] = [0, 1, 2, 3, 4, u64::MAX / 2 + 1, u64::MAX - 1, u64::MAX];
    let spans = FAR.into_iter().flat_map(|start| FAR.into_iter().map(move |length| [start, length]));
    spans.map(|[start, length]| {
        let mut rows = rows(&[[0, 1, 2, 3, 4, 5]], 1);
        let last = rows.numbers.len() - 2;
        rows.numbers[last..].copy_from_slice(&[start, length]);
        rows
    })
}

/// Lines written of rows with descriptions everywhere.
fn every_described_line() -> Source {
    Box::new(descriptions().map(|rows| vec![Bytes(b"abc".to_vec()), Rows(rows), Number(0), Output(room(20))]))
}

/// Names looked up among rows with descriptions everywhere.
fn every_described_look_up() -> Source {
    Box::new(descriptions().map(|rows| vec![Bytes(b"abc".to_vec()), Rows(rows), Bytes(b"a".to_vec())]))
}
