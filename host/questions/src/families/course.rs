//! The course: an exercise, and what was typed against its key.

use crate::family::{Family, Group, Part};
use crate::form::Value::{self, Bytes, Number, Output, Rows};
use crate::generate::by_chance::{
    LETTERS, a_row, about, file, index_text, name, room, some_bases, some_room, some_rows,
};
use crate::generate::short::{rows, strings};
use crate::generate::{Chance, Source};

#[rustfmt::skip]
const FAMILIES: &[Family] = {
    use crate::family::words::*;
    const SCORE: &[Part] = &[Field("right"), Field("wrong"), Field("missing"), Field("surplus"), Field("score")];
    &[
        // an exercise's bytes; its name, bounds and edition; right, wrong, missing, surplus and score
        asks("exw", Entry("write_exercise"), &[Bytes, Number, Number, Number, Output], Always(COUNT), &[14, 31, 33], Lacks,
            made(16, written_exercise, &[every_written_exercise])),
        asks(
            "exd", Entry("read_exercise"), &[Bytes],
            IfOk(&[Span("name_start", "name_length"), Field("start"), Field("end"), Field("edition")]), &[31, 32, 33], Lacks,
            made(32, exercise, &[every_exercise]),
        ),
        asks("sco", Entry("score_typed"), &[Bytes, Bytes, Number], Bare(SCORE), &[33], Lacks,
            made(32, typed, &[every_typed])),
        asks(
            "scr", Entry("score_exercise"), &[Bytes, Bytes, Bytes, Bytes, Rows, Output], Always(SCORE),
            &[14, 15, 16, 17, 18, 25, 31, 32, 33], Lacks,
            made(48, scored_exercise, &[every_scored_exercise]),
        ),
    ]
};

const EXAMPLES: &str = "\
exw x73 1 2 1 x2e2e2e2e2e2e2e2e2e2e2e2e2e2e2e2e2e2e2e2e2e2e2e2e2e2e2e2e2e2e2e => ok 30 x0100017302000800000000000000010300080000000000000002040001012e
exw x73 1 2 3 x => no 33 26 0 0 x
exw x73 0 0 2 x => no 14 30 0 0 x
exd x010001730200080000000000000001030008000000000000000204000101 => ok x73 1 2 1
exd x0200080000000000000001 => no 31 0 0
exd x80 => no 32 0 0
exd x01000002000800000000000000010300080000000000000002040001050600 => no 33 25 0
sco x41434754 x614354 1 => 2 1 1 0 500
sco x4e54 x5255 2 => 2 0 0 0 1000
sco x4e54 x5255 1 => 0 2 0 0 0
sco x x41 1 => 0 0 0 1 0
sco x41 x41 3 => no 33 0 0
scr x010001730200080000000000000001030008000000000000000404000101 x614354 x3e730a414347540a x3e730a t1,1,4,3,4,5,0,0 1 x2e2e2e2e2e => ok 2 1 1 0 500 x414347542e
scr x010001730200080000000000000001030008000000000000000504000101 x x3e730a414347540a x3e730a t1,1,4,3,4,5,0,0 1 x2e2e => no 17 4 0 0 0 0 0 0 x2e2e
scr x010001730200080000000000000001030008000000000000000504000103 x x3e730a414347540a x3e730a t1,1,4,3,4,5,0,0 1 x2e2e => no 33 26 0 0 0 0 0 0 x2e2e
scr x010001740200080000000000000001030008000000000000000504000102 x x3e730a414347540a x3e730a t1,1,4,3,4,5,0,0 1 x2e2e => no 15 0 0 0 0 0 0 0 x2e2e
scr x010001730200080000000000000001030008000000000000000204000102 x79614e x3e730a4e520a x3e730a t1,1,2,3,4,5,0,0 1 x2e2e => ok 2 0 0 1 666 x4e52";

pub(super) const GROUP: Group = Group { families: FAMILIES, examples: EXAMPLES };

// ---- by chance ----

/// The bytes of an exercise, as they should be.
fn exercise_bytes(name: &[u8], start: u64, end: u64, edition: u8) -> Vec<u8> {
    let name_length = (name.len() as u16).to_be_bytes();
    let numbers = [&[2, 0, 8][..], &start.to_be_bytes(), &[3, 0, 8], &end.to_be_bytes(), &[4, 0, 1, edition]].concat();
    [&[1][..], &name_length, name, &numbers].concat()
}

fn edition(chance: &mut Chance) -> u64 {
    if chance.once_in(8) { about(chance, 2) } else { 1 + chance.below(2) as u64 }
}

fn written_exercise(chance: &mut Chance) -> Vec<Value> {
    // at times a name as long as a field can be, or longer
    let name = if chance.once_in(40) { vec![b'n'; 65_534 + chance.below(4)] } else { name(chance) };
    let (start, end, edition) = (about(chance, 5), about(chance, 9), edition(chance));
    let room = some_room(chance, name.len() as u64 + 29);
    vec![Bytes(name), Number(start), Number(end), Number(edition), Output(room)]
}

/// An exercise, with other fields between those that are wanted, and damaged at times.
fn exercise(chance: &mut Chance) -> Vec<Value> {
    let (name, start, end) = (name(chance), about(chance, 5), about(chance, 9));
    let edition = if chance.once_in(6) { chance.number() as u8 } else { 1 + chance.below(2) as u8 };
    let mut bytes = exercise_bytes(&name, start, end, edition);
    let fields = [0, 3 + name.len(), 14 + name.len(), 25 + name.len(), bytes.len()];
    if chance.once_in(3) {
        let at = chance.one_of(&fields);
        let more = chance.one_of(&[
            &[0, 0, 0][..],
            &[5, 0, 1, 1],
            &[127, 0, 2, 0, 128],
            &[128],
            &[255, 0, 0],
            &[1, 0, 0],
            &[4, 0, 1, 1],
        ]);
        bytes.splice(at..at, more.iter().copied());
    }
    if chance.once_in(3) {
        let at = chance.below(bytes.len());
        match chance.below(3) {
            0 => bytes.truncate(at),
            1 => bytes[at] = chance.one_of(&[0, 1, 2, 3, 4, 8, 127, 128, 255]),
            _ => {
                bytes.remove(at);
            }
        }
    }
    vec![Bytes(bytes)]
}

/// A key, and what was typed of it: the same but for some places, shorter, or longer.
fn typed(chance: &mut Chance) -> Vec<Value> {
    let key = some_bases(chance);
    let mut typed = key.clone();
    for _ in 0..chance.below(4).min(typed.len()) {
        let at = chance.below(typed.len());
        typed[at] = if chance.once_in(4) { chance.one_of(b"-[{@`.\xff") } else { chance.one_of(LETTERS) };
    }
    match chance.below(4) {
        0 => typed.truncate(chance.below(key.len() + 1)),
        1 => typed.extend(some_bases(chance)),
        _ => {}
    }
    vec![Bytes(key), Bytes(typed), Number(edition(chance))]
}

/// An exercise about a record of a file, mostly one that can be scored, and something like its bases typed.
fn scored_exercise(chance: &mut Chance) -> Vec<Value> {
    let sample = file(chance);
    let rows = some_rows(chance, &sample.rows);
    let (_, row) = a_row(chance, &sample);
    let there = sample.text.get(row[0] as usize..).and_then(|text| text.get(..row[1] as usize));
    let name = match there {
        Some(there) if !chance.once_in(8) => there.to_vec(),
        _ => name(chance),
    };
    let length = row[2];
    let (start, end) = match chance.below(8) {
        0 => (about(chance, length), about(chance, length)),
        1 => (1 + chance.below(4) as u64, length.saturating_add(1)),
        _ => {
            let start = 1 + chance.below(length.clamp(1, 200) as usize) as u64;
            (start, start + chance.below((length.saturating_sub(start) + 1).clamp(1, 200) as usize) as u64)
        }
    };
    let mut bytes = exercise_bytes(&name, start, end, 1 + chance.below(2) as u8);
    if chance.once_in(10) {
        let Some(Bytes(other)) = exercise(chance).pop() else { unreachable!("an exercise is its bytes") };
        bytes = other;
    }
    // the bases of the region where lines are ignored: right in many places
    let bases = sample.text.get(row[3] as usize..).unwrap_or_default();
    let bases =
        bases.iter().filter(|byte| !matches!(byte, b'\n' | b'\r')).skip(start as usize - usize::from(start > 0));
    let asked = if start <= end { (end - start).saturating_add(1).min(300) as usize } else { 0 };
    let mut typed: Vec<u8> = bases.copied().take(asked).collect();
    for _ in 0..chance.below(4).min(typed.len()) {
        let at = chance.below(typed.len());
        typed[at] = if chance.once_in(4) { chance.one_of(b"-[{@`.\xff") } else { chance.one_of(LETTERS) };
    }
    match chance.below(4) {
        0 => typed.truncate(chance.below(typed.len() + 1)),
        1 => typed.extend(some_bases(chance)),
        _ => {}
    }
    let room = some_room(chance, asked as u64);
    // names may be spans of the file, or of something else
    let names = if chance.once_in(12) { index_text(chance, &sample.text, &sample.rows) } else { sample.text.clone() };
    vec![Bytes(bytes), Bytes(typed), Bytes(sample.text), Bytes(names), Rows(rows), Output(room)]
}

// ---- every short input, and numbers at the limits ----

fn every_written_exercise() -> Source {
    const NUMBERS: [u64; 5] = [0, 1, 2, 255, u64::MAX];
    let cases = (0..5 * 5 * 5).flat_map(|k| [29, 30, 31, 32].map(|space| (k, space)));
    Box::new(cases.map(|(k, space)| {
        let numbers = [k % 5, k / 5 % 5, k / 25].map(|k| Number(NUMBERS[k]));
        let [start, end, edition] = numbers;
        vec![Bytes(b"s".to_vec()), start, end, edition, Output(room(space))]
    }))
}

/// Short strings of tags, lengths and values.
fn every_exercise() -> Source {
    Box::new(strings(b"\x00\x01\x02\x03\x04\x05\x80", 6).map(|bytes| vec![Bytes(bytes)]))
}

/// Every byte against every byte, and short texts against each other.
fn every_typed() -> Source {
    let pairs = (0..=65_535u16).map(|k| k.to_be_bytes());
    let pairs = pairs.flat_map(|[key, typed]| [1, 2].map(|edition| (vec![key], vec![typed], edition)));
    let keys = strings(b"ANt-", 2);
    let texts = keys.flat_map(|key| strings(b"AuN-[", 3).map(move |typed| (key.clone(), typed)));
    let texts = texts.flat_map(|(key, typed)| [0, 1, 2, 3].map(|edition| (key.clone(), typed.clone(), edition)));
    Box::new(pairs.chain(texts).map(|(key, typed, edition)| vec![Bytes(key), Bytes(typed), Number(edition)]))
}

/// Exercises about one small record: every pair of bounds, both editions and others, with too little room and enough.
fn every_scored_exercise() -> Source {
    const FILE: &[u8] = b">s\nAN\nt\n";
    let cases = (0..5 * 5 * 4).flat_map(|k| [0, 2, 3].map(|space| (k, space)));
    let bytes = |start: u64, end: u64, edition: u8| {
        let numbers = [&[2, 0, 8][..], &start.to_be_bytes(), &[3, 0, 8], &end.to_be_bytes(), &[4, 0, 1, edition]];
        [&[1, 0, 1, b's'][..], &numbers.concat()].concat()
    };
    let asked = cases.flat_map(move |(k, space)| {
        let exercise = bytes(k % 5, k / 5 % 5, (k / 25) as u8);
        strings(b"AuN", 2).map(move |typed| (exercise.clone(), typed, space)).collect::<Vec<_>>()
    });
    // fields in other orders, cut off, twice
    let short = strings(b"\x00\x01\x02\x03\x04\x05\x80", 4).map(|exercise| (exercise, b"A".to_vec(), 3));
    Box::new(asked.chain(short).flat_map(|(exercise, typed, space)| {
        // a name that is there, one that is outside of the bytes, and rows that the table lacks
        [([1, 1], 1), ([9, 1], 1), ([1, 1], 2)].map(|([start, length], in_use)| {
            let rows = rows(&[[start, length, 3, 3, 2, 3]], in_use);
            vec![
                Bytes(exercise.clone()),
                Bytes(typed.clone()),
                Bytes(FILE.to_vec()),
                Bytes(FILE.to_vec()),
                Rows(rows),
                Output(room(space)),
            ]
        })
    }))
}
