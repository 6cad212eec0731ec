//! A record that is written, and bases alone.

use crate::family::{Family, Group};
use crate::form::Value::{self, Bytes, MaybeBytes, Number, Output};
use crate::generate::by_chance::{WIDTHS, about, damage, name, room, some_bases, some_room, written_length};
use crate::generate::short::strings;
use crate::generate::{Chance, Source};

#[rustfmt::skip]
const FAMILIES: &[Family] = {
    use crate::family::words::*;
    &[
        asks("wfa", Entry("write_record"), &[Bytes, MaybeBytes, Bytes, Number, Output], Always(COUNT), &[14, 27, 28, 29, 30], Refusals,
            made(32, written_record, &[every_written_name, every_written_description, every_written_bases])),
        asks("wsq", Entry("write_sequence"), &[Bytes, Number, Output], Always(COUNT), &[14, 27, 30], Lacks,
            made(16, written_sequence, &[every_written_sequence])),
    ]
};

const EXAMPLES: &str = "\
wfa x73 x6f6e65 x4143475441 3 x2e2e2e2e2e2e2e2e2e2e2e2e2e2e2e => ok 14 x3e73206f6e650a4143470a54410a2e
wfa x73 - x 1 x2e2e2e => ok 3 x3e730a
wfa x73 - x41 1 x2e2e2e2e => no 14 5 0 0 x2e2e2e2e
wfa x x x0a 0 x => no 27 0 0 0 x
wfa x730c x x0a 1 x => no 28 0 0 0 x
wfa x730b x x0a 1 x => no 29 0 0 0 x
wfa x730b x0b x413e 1 x => no 30 0 0 0 x
wsq x4143475441 3 x2e2e2e2e2e2e2e2e => ok 7 x4143470a54410a2e
wsq x 3 x => ok 0 x
wsq x 0 x => no 27 0 0 0 x
wsq x410d 1 x => no 30 0 0 0 x
wsq x41 1 x2e => no 14 2 0 0 x2e";

pub(super) const GROUP: Group = Group { families: FAMILIES, examples: EXAMPLES };

// ---- by chance ----

/// Mostly a record that can be written; at times each of its parts is damaged.
fn written_record(chance: &mut Chance) -> Vec<Value> {
    const TEXTS: [&[u8]; 6] = [b"one", b"about it", b"a\tb\rc", b"\x0bv", b">", b"\xff"];
    let (mut name, mut bases) = (name(chance), some_bases(chance));
    let mut description = (!chance.once_in(3)).then(|| chance.one_of(&TEXTS).to_vec());
    if chance.once_in(8) {
        damage(chance, &mut name);
    }
    if let Some(text) = description.as_mut().filter(|_| chance.once_in(6)) {
        damage(chance, text);
    }
    if !chance.once_in(6) {
        bases.retain(|b| !matches!(b, b'\n' | b'\r' | b'>'));
    }
    let near = if chance.once_in(2) { chance.one_of(&WIDTHS) } else { 1 + chance.below(8) };
    let width = about(chance, near as u64);
    let room = some_room(chance, written_length(&name, description.as_deref(), &bases, width));
    vec![Bytes(name), Value::MaybeBytes(description), Bytes(bases), Number(width), Output(room)]
}

/// The bases and the width of a record that is written, alone.
fn written_sequence(chance: &mut Chance) -> Vec<Value> {
    without_definition(written_record(chance))
}

// ---- every short input, and numbers at the limits ----

/// A record to be written, in a room that is just enough, one short, or one more.
fn written(name: &[u8], description: Option<&[u8]>, bases: &[u8], width: u64) -> [Vec<Value>; 3] {
    let enough = written_length(name, description, bases, width) as usize;
    [enough, enough - 1, enough + 1].map(|space| {
        let description = MaybeBytes(description.map(<[u8]>::to_vec));
        vec![Bytes(name.to_vec()), description, Bytes(bases.to_vec()), Number(width), Output(room(space))]
    })
}

fn every_written_name() -> Source {
    let names = strings(b"A \n\r\t\x0c\x0b>", 3).chain((0..=255).map(|b: u8| vec![b]));
    Box::new(names.flat_map(|name| written(&name, None, b"ACG", 2)))
}

fn every_written_description() -> Source {
    let texts = strings(b"A \n\r\t\x0c\x0b>", 4).chain((0..=255).map(|b: u8| vec![b]));
    Box::new(texts.flat_map(|text| written(b"s", Some(&text), b"ACG", 2)))
}

fn every_written_bases() -> Source {
    const WIDTHS: [u64; 10] = [0, 1, 2, 3, 4, 5, 6, 7, u64::MAX / 2 + 1, u64::MAX];
    let bases = strings(b"AC\n\r>", 5).chain((0..=255).map(|b: u8| vec![b]));
    Box::new(bases.flat_map(|bases| WIDTHS.map(|width| written(b"s", None, &bases, width)).into_iter().flatten()))
}

fn every_written_sequence() -> Source {
    Box::new(every_written_bases().map(without_definition))
}

/// The bases, the width and the room of a record that is to be written; the room is shorter by a definition line `>s`.
fn without_definition(mut record: Vec<Value>) -> Vec<Value> {
    let mut sequence = record.split_off(2);
    if let Some(Output(out)) = sequence.last_mut() {
        out.truncate(out.len().saturating_sub(3));
    }
    sequence
}
