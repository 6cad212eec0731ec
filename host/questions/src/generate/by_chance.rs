//! Files, indexes, tables and bounds made by chance, and damaged.

use super::chance::{AWKWARD, Chance, NUMERALS};
use crate::form::Bounds;
use crate::row::{FASTQ_WORDS, OF_A_LINE, Row, Rows, WORDS, described, row};

/// An output as it is lent: each of its bytes tells its place.
pub(crate) fn room(length: usize) -> Vec<u8> {
    (0..length).map(|k| b'a' + (k % 26) as u8).collect()
}

/// A table as it is lent: each of its numbers tells its place.
pub(crate) fn table(numbers: usize) -> Vec<u64> {
    (0..numbers).map(|k| 700 + k as u64).collect()
}

/// A file made by chance, and what its rows should be before it is damaged.
pub(crate) struct Sample<const W: usize = WORDS> {
    pub(crate) text: Vec<u8>,
    pub(crate) rows: Vec<[u64; W]>,
}

/// A FASTQ file made by chance.
pub(crate) type FastqSample = Sample<FASTQ_WORDS>;

/// Line lengths around which blocks and buffers end.
pub(crate) const WIDTHS: [usize; 30] = [
    7, 8, 9, 15, 16, 17, 30, 31, 32, 33, 47, 48, 49, 59, 60, 61, 63, 64, 65, 70, 80, 100, 127, 128, 129, 130, 191, 192,
    193, 257,
];

/// Every letter that stands for bases.
pub(crate) const LETTERS: &[u8] = b"ACGTUNRYKMSWBDHVacgtunrykmswbdhv";

pub(crate) fn name(chance: &mut Chance) -> Vec<u8> {
    const NAMES: [&[u8]; 10] =
        [b"s", b"t", b"sq0", b"chr1", b"s:1-2", b"\xff", b"\xc3\xa9", b">", b"a\x0bb", b"HLA-A*01:01"];
    chance.one_of(&NAMES).to_vec()
}

fn base(chance: &mut Chance) -> u8 {
    if chance.once_in(150) { chance.one_of(b">\r *-.\t\0\xffx") } else { chance.one_of(b"ACGTACGTACGTNacgtn") }
}

/// Some records with lines of one length each.
pub(crate) fn sample(chance: &mut Chance) -> Sample {
    let mut sample = Sample { text: vec![], rows: vec![] };
    let end: &[u8] = if chance.once_in(3) { b"\r\n" } else { b"\n" };
    let records = chance.one_of(&[0, 1, 1, 1, 2, 2, 3, 5]);
    for _ in 0..records {
        add_record(chance, &mut sample, end);
    }
    if chance.once_in(4) {
        let kept = sample.text.len() - chance.below(end.len() + 1).min(sample.text.len());
        sample.text.truncate(kept);
    }
    if chance.once_in(8) {
        sample.text.extend(chance.one_of(&[&b"\n"[..], b"\r\n", b"\r", b"\n\n", b">"]));
    }
    sample
}

fn add_record(chance: &mut Chance, sample: &mut Sample, end: &[u8]) {
    let name = name(chance);
    let name_start = sample.text.len() + 1;
    sample.text.push(b'>');
    sample.text.extend(&name);
    // what stands behind the name, and where its description begins and how long it is
    const BEHIND: [(&[u8], [usize; 2]); 5] =
        [(b" about it", [1, 8]), (b"\tx y ", [1, 3]), (b" ", [1, 0]), (b" \x0b", [1, 1]), (b"\x0cz", [1, 1])];
    let mut description = [0, 0];
    if chance.once_in(3) {
        let (text, [start, length]) = chance.one_of(&BEHIND);
        description = [sample.text.len() + start, length];
        sample.text.extend(text);
    }
    sample.text.extend(end);
    let position = sample.text.len();
    let line_bases = if chance.once_in(3) { chance.one_of(&WIDTHS) } else { 1 + chance.below(6) };
    let whole = chance.one_of(&[0, 1, 1, 2, 2, 3, 4, 7]);
    let rest = chance.below(line_bases + 1);
    let length = (whole * line_bases + rest).min(400);
    let bases: Vec<u8> = (0..length).map(|_| base(chance)).collect();
    for line in bases.chunks(line_bases) {
        sample.text.extend(line);
        sample.text.extend(end);
    }
    let numbers = [name_start, name.len(), length, position, line_bases, line_bases + end.len()];
    sample.rows.push(described(numbers.map(|n| n as u64), description.map(|n| n as u64)));
}

/// A quality: any byte that is written for one, at times the bytes that begin other lines.
fn quality(chance: &mut Chance) -> u8 {
    if chance.once_in(100) { chance.one_of(b"\r \t\0\xff") } else { chance.one_of(b"@+!I>5?J#~@+") }
}

/// Some FASTQ records, whose sequences are of one line or of more.
pub(crate) fn fastq_sample(chance: &mut Chance) -> FastqSample {
    let mut sample = FastqSample { text: vec![], rows: vec![] };
    let end: &[u8] = if chance.once_in(3) { b"\r\n" } else { b"\n" };
    for _ in 0..chance.one_of(&[0, 1, 1, 1, 2, 2, 3, 5]) {
        add_fastq_record(chance, &mut sample, end);
    }
    if chance.once_in(4) {
        let kept = sample.text.len() - chance.below(end.len() + 1).min(sample.text.len());
        sample.text.truncate(kept);
    }
    if chance.once_in(8) {
        sample.text.extend(chance.one_of(&[&b"\n"[..], b"\r\n", b"\r", b"+", b"@"]));
    }
    sample
}

fn add_fastq_record(chance: &mut Chance, sample: &mut FastqSample, end: &[u8]) {
    let name = name(chance);
    let name_start = sample.text.len() + 1;
    let behind = chance.one_of(&[&b""[..], b"", b" about it", b"\tx y ", b" ", b"\x0cz"]);
    sample.text.extend([&b"@"[..], &name, behind, end].concat());
    let position = sample.text.len();
    let line_bases = if chance.once_in(3) { chance.one_of(&WIDTHS) } else { 1 + chance.below(6) };
    let whole = chance.one_of(&[0, 1, 1, 2, 2, 3, 4]);
    let length = (whole * line_bases + chance.below(line_bases + 1)).clamp(1, 400);
    let lines = |chance: &mut Chance, byte: fn(&mut Chance) -> u8| {
        let bytes: Vec<u8> = (0..length).map(|_| byte(chance)).collect();
        bytes.chunks(line_bases).flat_map(|line| [line, end].concat()).collect::<Vec<u8>>()
    };
    let (bases, qualities) = (lines(chance, base), lines(chance, quality));
    sample.text.extend(bases);
    let text = chance.one_of(&[&b""[..], b"", &name, b"\r", b"+"]);
    sample.text.extend([&b"+"[..], text, end].concat());
    let first = length.min(line_bases);
    let numbers = [name_start, name.len(), length, position, first, first + end.len(), sample.text.len()];
    sample.rows.push(numbers.map(|n| n as u64));
    sample.text.extend(qualities);
}

/// A FASTQ file, damaged or not.
pub(crate) fn fastq_file(chance: &mut Chance) -> FastqSample {
    let mut sample = fastq_sample(chance);
    if chance.once_in(3) {
        fastq_damage(chance, &mut sample.text);
    } else {
        damaged(chance, &mut sample.text);
    }
    sample
}

/// Damage that is FASTQ's own: a line's first byte, a line that is lost, and a blank one.
pub(crate) fn fastq_damage(chance: &mut Chance, text: &mut Vec<u8>) {
    let from = chance.below(text.len() + 1);
    let Some(lf) = text.iter().skip(from).position(|b| *b == b'\n') else { return };
    let at = from + lf + 1;
    match chance.below(5) {
        0 => text.insert(at, chance.one_of(b"+@\n\r>")),
        1 if at < text.len() => text[at] = chance.one_of(b"+@\n\rA"),
        2 => {
            let end = text[at..].iter().position(|b| *b == b'\n').map_or(text.len(), |lf| at + lf + 1);
            text.drain(at..end);
        }
        3 => {
            text.splice(at..at, chance.one_of(&[&b"\n"[..], b"\r\n", b"+\n", b"A\n"]).iter().copied());
        }
        _ => text.truncate(at),
    }
}

/// Damages some bytes in one of the ways that files are damaged.
pub(crate) fn damage(chance: &mut Chance, text: &mut Vec<u8>) {
    const BYTES: &[u8] = b"\n\n\r\r>>A \t0+\x0b\x0c\0\xff";
    let at = chance.below(text.len() + 1);
    let to = at + chance.below(text.len() + 1 - at);
    match chance.below(9) {
        0 => text.insert(at, chance.one_of(BYTES)),
        1 if at < text.len() => text[at] = chance.one_of(BYTES),
        2 if at < text.len() => {
            text.remove(at);
        }
        3 => text.truncate(at),
        4 if to - at <= 200 => {
            let copy = text[at..to].to_vec();
            text.splice(to..to, copy);
        }
        5 => {
            text.drain(at..to);
        }
        6 if at + 1 < text.len() => text.swap(at, at + 1),
        7 => {
            if let Some(lf) = text.iter().skip(at).position(|b| *b == b'\n') {
                text.insert(at + lf, chance.one_of(b"\r\r\r\nA"));
            }
        }
        _ => {
            if let Some(cr) = text.iter().skip(at).position(|b| *b == b'\r' || *b == b'\n') {
                text.remove(at + cr);
            }
        }
    }
}

fn damaged(chance: &mut Chance, text: &mut Vec<u8>) {
    if chance.once_in(2) {
        for _ in 0..1 + chance.below(3) {
            damage(chance, text);
        }
    }
}

/// A file, damaged or not.
pub(crate) fn file(chance: &mut Chance) -> Sample {
    let mut sample = sample(chance);
    damaged(chance, &mut sample.text);
    sample
}

/// Ends of a line, with blank lines behind it, by their count of bytes from 1: a record's lines may have any of one count, and one
/// index line leads through them all.
const SPACES: [&[&[u8]]; 4] = [
    &[b"\n"],
    &[b"\n\n", b"\r\n"],
    &[b"\n\n\n", b"\r\n\n", b"\n\r\n"],
    &[b"\n\n\n\n", b"\r\n\r\n", b"\n\r\n\n", b"\n\n\r\n"],
];

/// Some records whose lines may have blank ones before, between and behind them, damaged or not; and how many were made.
pub(crate) fn spaced_file(chance: &mut Chance) -> (Vec<u8>, usize) {
    let (mut text, records) = (vec![], chance.one_of(&[1, 1, 2, 2, 3, 5]));
    for _ in 0..records {
        text.extend(spaced_record(chance));
    }
    if chance.once_in(4) {
        text.truncate(text.len() - chance.below(4));
    }
    if chance.once_in(2) {
        damage(chance, &mut text);
    }
    (text, records)
}

fn spaced_record(chance: &mut Chance) -> Vec<u8> {
    let mut text = b">s\n".to_vec();
    text.extend(chance.one_of(&[&b""[..], b"", b"\n", b"\r\n", b"\n\n"]));
    let line_bases = if chance.once_in(4) { chance.one_of(&WIDTHS) } else { 1 + chance.below(5) };
    let length = (line_bases * chance.below(5) + chance.below(line_bases + 1)).min(400);
    let bases: Vec<u8> = (0..length).map(|_| base(chance)).collect();
    let ends = chance.one_of(&SPACES);
    for line in bases.chunks(line_bases) {
        text.extend(line);
        text.extend(chance.one_of(ends));
    }
    text.extend(chance.one_of(&[&b""[..], b"", b"\n", b"\r\n", b"\n\n\n"]));
    text
}

/// A number about one that is right, or an awkward one.
pub(crate) fn about(chance: &mut Chance, right: u64) -> u64 {
    match chance.below(12) {
        0..=5 => right,
        6 => right.wrapping_add(1),
        7 => right.wrapping_sub(1),
        8 => chance.below(20) as u64,
        9 => chance.number() >> chance.below(64),
        _ => chance.one_of(&AWKWARD),
    }
}

/// A place in a file, or past it.
pub(crate) fn place(chance: &mut Chance, file: &[u8]) -> u64 {
    let within = chance.below(file.len() + 2) as u64;
    if chance.once_in(12) { chance.one_of(&AWKWARD) } else { within }
}

/// A room that is empty, just enough, one short, one more, or plenty.
pub(crate) fn some_room(chance: &mut Chance, enough: u64) -> Vec<u8> {
    let enough = enough.min(600) as usize;
    room(chance.one_of(&[0, enough, enough, enough, enough + 1, enough.saturating_sub(1), enough + 7, 500]))
}

/// A table with room for about so many rows, and at times a part of one more.
pub(crate) fn some_table(chance: &mut Chance, rows: usize) -> Vec<u64> {
    some_table_of(chance, WORDS, rows)
}

/// The same, of rows with so many numbers.
pub(crate) fn some_table_of(chance: &mut Chance, words: usize, rows: usize) -> Vec<u64> {
    let rows = chance.one_of(&[rows, rows, rows + 1, rows.saturating_sub(1), 0, rows + 2]);
    let rest = if chance.once_in(3) { chance.below(words) } else { 0 };
    table(words * rows + rest)
}

/// Rows that tell the truth, or lie in some of their numbers; and how many are said to be in use.
pub(crate) fn some_rows<const W: usize>(chance: &mut Chance, rows: &[[u64; W]]) -> Rows {
    let mut numbers = rows.concat();
    if chance.once_in(2) && !numbers.is_empty() {
        for _ in 0..1 + chance.below(3) {
            let k = chance.below(numbers.len());
            numbers[k] = about(chance, numbers[k]);
        }
    }
    if chance.once_in(8) {
        numbers.extend(table(1 + chance.below(W - 1)));
    }
    if chance.once_in(16) {
        numbers.truncate(chance.below(numbers.len() + 1));
    }
    let in_use = if chance.once_in(6) { about(chance, rows.len() as u64) } else { rows.len() as u64 };
    Rows { numbers, in_use }
}

/// Bounds inside a length, at its ends, past it, or at the limits.
pub(crate) fn some_bounds(chance: &mut Chance, length: u64) -> Bounds {
    let near = length.min(1000) as usize + 2;
    let bound = |chance: &mut Chance| match chance.below(12) {
        0..=1 => None,
        2 => Some(length),
        3 => Some(length.wrapping_add(1)),
        4 => Some(chance.one_of(&AWKWARD)),
        _ => Some(chance.below(near) as u64),
    };
    let (start, end) = (bound(chance), bound(chance));
    match (start, end) {
        (Some(s), Some(e)) if s > e && !chance.once_in(8) => (end, start),
        bounds => bounds,
    }
}

/// About how many bytes a region has.
pub(crate) fn wanted(bounds: Bounds, length: u64) -> u64 {
    let (start, end) = (bounds.0.unwrap_or(1), bounds.1.unwrap_or(length));
    end.wrapping_sub(start).wrapping_add(1)
}

/// How many bytes a record has when it is written.
pub(crate) fn written_length(name: &[u8], description: Option<&[u8]>, bases: &[u8], width: u64) -> u64 {
    let bases = bases.len() as u64;
    let text = description.map_or(0, |text| text.len() + 1);
    (name.len() + text) as u64 + 2 + bases + bases.div_ceil(width.max(1))
}

/// A numeral: one that is right, an awkward number, or something that is none.
pub(crate) fn numeral(chance: &mut Chance, right: u64) -> Vec<u8> {
    if chance.once_in(9) { chance.one_of(&NUMERALS).to_vec() } else { about(chance, right).to_string().into_bytes() }
}

/// An index text for some rows whose names lie in a file; some of its numbers lie, some of its lines are damaged.
pub(crate) fn index_text(chance: &mut Chance, file: &[u8], rows: &[Row]) -> Vec<u8> {
    index_text_of(chance, file, rows, OF_A_LINE)
}

/// The same, where so many numbers of a row are those of a line.
pub(crate) fn index_text_of<const W: usize>(
    chance: &mut Chance,
    file: &[u8],
    rows: &[[u64; W]],
    of_a_line: usize,
) -> Vec<u8> {
    let honest = chance.once_in(3);
    let end: &[u8] = if chance.once_in(4) { b"\r\n" } else { b"\n" };
    let mut text = vec![];
    for row in rows {
        let name = file.get(row[0] as usize..).and_then(|f| f.get(..row[1] as usize)).unwrap_or(b"gone");
        text.extend(if honest || !chance.once_in(8) { name } else { b"t" });
        for right in &row[2..of_a_line] {
            text.push(b'\t');
            if honest || !chance.once_in(6) {
                text.extend(right.to_string().bytes());
            } else {
                text.extend(numeral(chance, *right));
            }
        }
        text.extend(end);
    }
    if chance.once_in(5) {
        text.truncate(text.len() - end.len().min(text.len()));
    }
    if chance.once_in(4) {
        damage(chance, &mut text);
    }
    text
}

/// The number of a row, at times of one that isn't there, and the row's own numbers.
pub(crate) fn a_row<const W: usize>(chance: &mut Chance, sample: &Sample<W>) -> (u64, [u64; W]) {
    let number = chance.below(sample.rows.len());
    let any = || std::array::from_fn(|word| row([1, 1, 4, 3, 4, 5])[word]);
    let numbers = sample.rows.get(number).copied().unwrap_or_else(any);
    (if chance.once_in(12) { about(chance, number as u64) } else { number as u64 }, numbers)
}

pub(crate) fn some_bases(chance: &mut Chance) -> Vec<u8> {
    let length = if chance.once_in(3) { chance.one_of(&WIDTHS) } else { chance.below(12) };
    let mut bases: Vec<u8> = (0..length).map(|_| chance.one_of(LETTERS)).collect();
    if chance.once_in(3) {
        damage(chance, &mut bases);
    }
    bases
}

/// A text in pieces, some of them empty, with its end; or steps in some other order.
pub(crate) fn some_steps(chance: &mut Chance, text: &[u8]) -> Vec<Option<Vec<u8>>> {
    let (mut steps, mut rest) = (vec![], text);
    while !rest.is_empty() {
        let longest = chance.one_of(&[1, 2, 3, 8, 40]).min(rest.len());
        let (piece, behind) = rest.split_at(chance.below(longest + 1));
        steps.push(Some(piece.to_vec()));
        rest = behind;
    }
    steps.push(None);
    if chance.once_in(6) {
        let (from, to) = (chance.below(steps.len()), chance.below(steps.len() + 1));
        let step = steps[from].clone();
        steps.insert(to, step);
    }
    steps
}

/// Two numbers that rise, mostly: where a line begins, near it, or anywhere.
pub(crate) fn some_part(chance: &mut Chance, text: &[u8]) -> [u64; 2] {
    let starts: Vec<usize> =
        (0..text.len()).filter(|at| *at == 0 || text[at - 1] == b'\n').chain([text.len()]).collect();
    let mut number = || {
        let start = chance.one_of(&starts) as u64;
        if chance.once_in(4) { place(chance, text) } else { about(chance, start) }
    };
    let (one, other) = (number(), number());
    if chance.once_in(16) { [one.max(other), one.min(other)] } else { [one.min(other), one.max(other)] }
}
