//! Lines and sequences: a definition line, the content of a line, a run of bases, bases by the scanning rule.

use crate::family::{Family, Group, Part};
use crate::form::Value::{self, Bytes, Number, Output};
use crate::generate::by_chance::{a_row, about, file, place, room, some_room};
use crate::generate::short::{after, strings};
use crate::generate::{Chance, Source};

#[rustfmt::skip]
const FAMILIES: &[Family] = {
    use crate::family::words::*;
    const SPANS: &[Part] = &[Field("name_start"), Field("name_length"), Field("description_start"), Field("description_length")];
    &[
        // name and description; content and the next offset; a run of bases
        asks("def", Entry("definition_line"), &[Bytes], IfOk(SPANS), &[2, 3, 4], Refusals,
            made(16, definition, &[every_definition])),
        asks("dfc", Entry("definition_content"), &[Bytes], IfOk(SPANS), &[2, 3, 4], Refusals,
            made(16, definition, &[every_definition])),
        asks("lin", Entry("read_line"), &[Bytes, Number], Found("found", &[Field("start"), Field("length"), Field("next")]), &[], Refusals,
            made(16, file_and_place, &[every_place])),
        asks("run", Entry("read_run"), &[Bytes, Number], IfOk(&[Field("start"), Field("length")]), &[], Refusals,
            made(16, file_and_place, &[every_place])),
        // bases and the place that is left
        asks("seq", Entry("read_sequence"), &[Bytes, Number, Output], Always(&[Field("count"), Field("next")]), &[14], Refusals,
            made(16, sequence, &[every_sequence])),
        asks("lim", Entry("read_sequence_limit"), &[Bytes, Number, Number, Output], Always(&[Field("count"), Field("next")]), &[14], Refusals,
            made(16, limited, &[every_limit])),
    ]
};

const EXAMPLES: &str = "\
def x3e73206f6e650d0a => ok 1 1 3 3
def x0a => no 2 0 0
dfc x0a => no 3 0 0
dfc x3e73 => ok 1 1 0 0
lin x3e730d0a41 0 => ok 0 2 4
lin x3e730d0a41 5 => ok none
run x0d0a41430d 0 => ok 2 2
run x3e 7 => ok 7 0
seq x41430a47 0 x2e2e2e2e => ok 3 4 x4143472e
seq x41430a47 0 x2e2e => no 14 3 0 0 0 x2e2e
lim x410a43 0 1 x2e => ok 1 1 x41
lim x410a43 9 1 x2e => ok 0 9 x2e";

pub(super) const GROUP: Group = Group { families: FAMILIES, examples: EXAMPLES };

// ---- by chance ----

fn definition(chance: &mut Chance) -> Vec<Value> {
    let mut text = file(chance).text;
    let end = text.iter().position(|b| *b == b'\n').map_or(text.len(), |lf| lf + 1);
    text.truncate(if chance.once_in(10) { end + 5 } else { end });
    vec![Bytes(text)]
}

fn file_and_place(chance: &mut Chance) -> Vec<Value> {
    let text = file(chance).text;
    let at = place(chance, &text);
    vec![Bytes(text), Number(at)]
}

/// A file, a place in it where a sequence may begin, and about how many bases are there.
fn where_bases_are(chance: &mut Chance) -> (Vec<u8>, u64, u64) {
    let sample = file(chance);
    let (_, row) = a_row(chance, &sample);
    let at = if chance.once_in(2) { row[3] } else { place(chance, &sample.text) };
    (sample.text, at, row[2])
}

fn sequence(chance: &mut Chance) -> Vec<Value> {
    let (text, at, length) = where_bases_are(chance);
    vec![Bytes(text), Number(at), Output(some_room(chance, length))]
}

fn limited(chance: &mut Chance) -> Vec<Value> {
    let (text, at, length) = where_bases_are(chance);
    let limit = about(chance, length);
    vec![Bytes(text), Number(at), Number(limit), Output(some_room(chance, limit.min(length)))]
}

// ---- every short input, and numbers at the limits ----

fn every_definition() -> Source {
    let texts = strings(b">A \n\r\t\x0c\x0b", 5).chain(after(b">A ", b"A \n\r\t", 5));
    Box::new(texts.map(|text| vec![Bytes(text)]))
}

fn every_place() -> Source {
    Box::new(strings(b"A\n\r>", 6).flat_map(|file| {
        (0..file.len() as u64 + 2).map(|at| vec![Bytes(file.clone()), Number(at)]).collect::<Vec<_>>()
    }))
}

fn every_sequence() -> Source {
    Box::new(strings(b"A\n\r>", 6).flat_map(|file| {
        let places = (0..file.len() as u64 + 2).flat_map(|at| [(at, 0), (at, file.len())]);
        places.map(|(at, space)| vec![Bytes(file.clone()), Number(at), Output(room(space))]).collect::<Vec<_>>()
    }))
}

fn every_limit() -> Source {
    Box::new(strings(b"A\n\r>", 5).flat_map(|file| {
        let n = file.len() as u64 + 2;
        let cases = (0..n).flat_map(|at| (0..n).map(move |limit| (at, limit)));
        cases
            .flat_map(|(at, limit)| {
                let with = |space| vec![Bytes(file.clone()), Number(at), Number(limit), Output(room(space))];
                [with(file.len() + 1), with((limit as usize).saturating_sub(1))]
            })
            .collect::<Vec<_>>()
    }))
}
