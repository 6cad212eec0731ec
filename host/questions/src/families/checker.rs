//! The checker, of a whole file and of a part; and the program's output.

use crate::family::{Family, Group};
use crate::form::Value::{self, Bytes, Number};
use crate::generate::by_chance::{damage, file, index_text, sample, some_part};
use crate::generate::short::{after, strings};
use crate::generate::{Chance, Source};

#[rustfmt::skip]
const FAMILIES: &[Family] = {
    use crate::family::words::*;
    &[
        asks("chk", Entry("check"), &[Bytes, Bytes], IfOk(&[]), &[2, 3, 4, 9, 10, 11, 12, 19, 20, 21, 22, 23], Lacks,
            made(32, pair, &[every_check])),
        asks(
            "cpt", Entry("check_part"), &[Bytes, Number, Number, Bytes, Number, Number], IfOk(&[]),
            &[2, 3, 4, 9, 10, 11, 12, 19, 20, 21, 22, 23], Lacks,
            made(48, parted_pair, &[every_parted_pair]),
        ),
        asks("prg", Program, &[Bytes], Bare(&[Other(Bytes)]), &[], Refusals, made(1, program, &[every_program_limits])),
    ]
};

const EXAMPLES: &str = "\
chk x3e730a414347540a41430a x730936093309340936 => no 23 1 5
chk x x => ok
cpt x3e730a410a3e740a430a 1 10 x73093109330931093209740a74093109380931093209 5 99 => no 11 1 5
cpt x3e730a410a3e740a430a 1 10 x730931093309310932740a7409310938093109320a 5 99 => ok
cpt x3e730a410a3e740a430a 0 5 x730931093309310932740a7409310938093109320a 5 99 => no 21 1 0
cpt x3e730a410a3e740a430a 5 9 x730a7409310938093109320a 0 3 => no 10 1 2
cpt x3e730a410a3e740a430a 6 10 x 0 0 => ok
cpt x3e730a410a 6 10 x730a 0 2 => no 20 0 0
prg x3e730a41 => x7309310933093109310a
prg x3e73 => x726566757365642035203220300a";

pub(super) const GROUP: Group = Group { families: FAMILIES, examples: EXAMPLES };

// ---- by chance ----

fn pair(chance: &mut Chance) -> Vec<Value> {
    let mut sample = sample(chance);
    let index = index_text(chance, &sample.text, &sample.rows);
    if chance.once_in(3) {
        damage(chance, &mut sample.text);
    }
    vec![Bytes(sample.text), Bytes(index)]
}

/// A part of a file and a part of its index: of the same records, mostly.
fn parted_pair(chance: &mut Chance) -> Vec<Value> {
    let mut sample = sample(chance);
    let index = index_text(chance, &sample.text, &sample.rows);
    let records: Vec<usize> = (0..sample.text.len())
        .filter(|at| sample.text[*at] == b'>' && (*at == 0 || sample.text[at - 1] == b'\n'))
        .chain([sample.text.len()])
        .collect();
    let lines: Vec<usize> =
        (0..index.len()).filter(|at| *at == 0 || index[at - 1] == b'\n').chain([index.len()]).collect();
    let (one, other) = (chance.below(records.len()), chance.below(records.len()));
    let (a, b) = (one.min(other), one.max(other));
    if chance.once_in(3) {
        damage(chance, &mut sample.text);
    }
    let line = |k: usize| lines.get(k).copied().unwrap_or(index.len()) as u64;
    let mut part = [records[a] as u64, records[b] as u64];
    let mut its_lines = [line(a), line(b)];
    if chance.once_in(4) {
        part = some_part(chance, &sample.text);
    }
    if chance.once_in(4) {
        its_lines = some_part(chance, &index);
    }
    vec![Bytes(sample.text), Number(part[0]), Number(part[1]), Bytes(index), Number(its_lines[0]), Number(its_lines[1])]
}

fn program(chance: &mut Chance) -> Vec<Value> {
    vec![Bytes(file(chance).text)]
}

// ---- every short input, and numbers at the limits ----

fn every_check() -> Source {
    let few = strings(b">s\n\t", 3)
        .flat_map(|fasta| strings(b"s\n\t0", 3).map(move |index| vec![Bytes(fasta.clone()), Bytes(index)]));
    let many = after(b">s\n", b"A\n\r>", 5).flat_map(|fasta| {
        (0..5 * 3 * 3 * 4).map(move |k| {
            let (length, position, bases, width) = (k % 5, 2 + k / 5 % 3, 1 + k / 15 % 3, 1 + k / 45 % 4);
            let index = format!("s\t{length}\t{position}\t{bases}\t{width}\n");
            vec![Bytes(fasta.clone()), Bytes(index.into_bytes())]
        })
    });
    Box::new(few.chain(many))
}

/// A file of two records and its index, and every part of both.
fn every_parted_pair() -> Source {
    const FILES: [&[u8]; 3] = [b">s\nA\n>t\nC\n", b">s\n>\n>t\nC", b">s\n\n>t\nC\n"];
    let index = b"s\t1\t3\t1\t2\nt\t1\t8\t1\t2";
    Box::new(FILES.into_iter().flat_map(move |file| {
        let (n, m) = (file.len() as u64 + 2, index.len() as u64 + 2);
        (0..n).flat_map(move |from| {
            (from..n).flat_map(move |to| {
                (0..m).flat_map(move |first| {
                    (first..m).map(move |last| {
                        let (file, index) = (Bytes(file.to_vec()), Bytes(index.to_vec()));
                        vec![file, Number(from), Number(to), index, Number(first), Number(last)]
                    })
                })
            })
        })
    }))
}

/// The program at its limits: bytes and rows, one below, at, and above.
fn every_program_limits() -> Source {
    let long = [65_535, 65_536, 65_537].map(|length: usize| [&b">s\n"[..], &vec![b'A'; length - 3]].concat());
    let many = [1_023, 1_024, 1_025, 1_026].map(|rows: usize| b">s\nA\n".repeat(rows));
    let bad = [&b">s\nA\n".repeat(1_024)[..], b">\n"].concat();
    let files = long.into_iter().chain(many).chain([bad]);
    Box::new(files.chain(after(b">s\n", b"A\n\r>", 4)).map(|file| vec![Bytes(file)]))
}
