//! Bases: their complement, and primers.

use crate::family::{Family, Group};
use crate::form::Value::{self, Bytes, Number, Output};
use crate::generate::by_chance::{LETTERS, damage, place, room, some_bases, some_room};
use crate::generate::short::strings;
use crate::generate::{Chance, Source};

#[rustfmt::skip]
const FAMILIES: &[Family] = {
    use crate::family::words::*;
    &[
        // the bytes of a complement
        asks("cmp", Entry("complement"), &[Bytes, Output], Always(COUNT), &[14, 24], Memory,
            made(16, bases, &[every_complement])),
        asks("rev", Entry("reverse_complement"), &[Bytes, Output], Always(COUNT), &[14, 24], Memory,
            made(16, bases, &[every_complement])),
        // how many sequences a primer stands for; its first place; its next place
        asks("deg", Entry("degeneracy"), &[Bytes], IfOk(COUNT), &[36, 37], Lacks,
            made(16, primer, &[every_primer])),
        asks("prm", EntryWith("find_primer", 0), &[Bytes, Bytes], Found("count", &[Field("next")]), &[36, 37], Lacks,
            made(32, primer_and_text, &[every_primer_and_text])),
        asks("prn", Entry("find_primer"), &[Bytes, Bytes, Number], Found("count", &[Field("next")]), &[36, 37], Lacks,
            made(16, primer_text_and_place, &[every_primer_text_and_place])),
    ]
};

const EXAMPLES: &str = "\
cmp x41 x2e2e => ok 1 x542e
cmp x4158 x2e2e => no 24 1 88 0 x2e2e
rev x41434755 x2e2e2e2e => ok 4 x41434754
deg x524e => ok 8
deg x => no 36 0 0
deg x412d43 => no 37 1 0
prm x4e79 x2d2d4155 => ok 2
prm x41 x4e => ok none
prm x x41 => no 36 0 0
prn x41 x414141 1 => ok 1
prn x41 x414141 18446744073709551615 => ok none";

pub(super) const GROUP: Group = Group { families: FAMILIES, examples: EXAMPLES };

// ---- by chance ----

fn bases(chance: &mut Chance) -> Vec<Value> {
    let bases = some_bases(chance);
    let room = some_room(chance, bases.len() as u64);
    vec![Bytes(bases), Output(room)]
}

/// A primer: 1 to 31 letters, or about as many, with a byte that is no letter at times.
fn some_primer(chance: &mut Chance) -> Vec<u8> {
    let length = match chance.below(8) {
        0 => chance.one_of(&[0, 1, 30, 31, 32, 33]),
        1 => 1 + chance.below(31),
        _ => 1 + chance.below(6),
    };
    let mut primer: Vec<u8> = (0..length).map(|_| chance.one_of(LETTERS)).collect();
    if chance.once_in(8) {
        damage(chance, &mut primer);
    }
    primer
}

fn primer(chance: &mut Chance) -> Vec<Value> {
    vec![Bytes(some_primer(chance))]
}

/// A primer and a text, in which it often stands: near the front, across the end of a block, or at the text's end.
fn primer_and_text(chance: &mut Chance) -> Vec<Value> {
    let primer = some_primer(chance);
    let mut text = some_bases(chance);
    if !chance.once_in(3) {
        let at = chance.below(text.len() + 1);
        // what a plain letter's set holds lies inside it; another letter lies inside itself
        let there: Vec<u8> =
            primer.iter().map(|letter| if chance.once_in(20) { chance.one_of(LETTERS) } else { *letter }).collect();
        text.splice(at..at, there);
    }
    vec![Bytes(primer), Bytes(text)]
}

fn primer_text_and_place(chance: &mut Chance) -> Vec<Value> {
    let mut arguments = primer_and_text(chance);
    let Some(Bytes(text)) = arguments.last() else { return arguments };
    let from = place(chance, text);
    arguments.push(Number(from));
    arguments
}

// ---- every short input, and numbers at the limits ----

fn every_complement() -> Source {
    let single = (0..=255).map(|b: u8| vec![b]);
    let pairs = (0..=65_535u16).map(|k| k.to_be_bytes().to_vec());
    Box::new(std::iter::once(vec![]).chain(single).chain(pairs).enumerate().map(|(k, bases)| {
        let space = (bases.len() + 2 - k % 4).max(bases.len() - bases.len().min(1));
        vec![Bytes(bases), Output(room(space))]
    }))
}

/// Letters of each kind: plain, of two bases, of all, and a byte that is none.
const CODES: &[u8] = b"ACGTRYN-";

fn every_primer() -> Source {
    Box::new(strings(b"ATUrYNv-", 5).map(|primer| vec![Bytes(primer)]))
}

fn every_primer_and_text() -> Source {
    let primers = strings(CODES, 2).chain(strings(b"ANR-", 3));
    Box::new(primers.flat_map(|primer| strings(CODES, 3).map(move |text| vec![Bytes(primer.clone()), Bytes(text)])))
}

fn every_primer_text_and_place() -> Source {
    let primers = strings(b"ARN-", 2);
    Box::new(primers.flat_map(|primer| {
        strings(b"ARN-", 4).flat_map(move |text| {
            let (primer, places) = (primer.clone(), [0, 1, 2, 3, 4, 5, u64::MAX]);
            places.map(|from| vec![Bytes(primer.clone()), Bytes(text.clone()), Number(from)])
        })
    }))
}
