//! Arguments that have the right kinds, and nothing else in common.

use super::by_chance::{
    Sample, a_row, about, file, index_text, name, some_bases, some_bounds, some_room, some_rows, some_steps, some_table,
};
use super::chance::Chance;
use crate::family::Kind;
use crate::form::Value::{self, Bounds, Bytes, Number, Output, Rows, Table};

/// Arguments of some kinds, about one file: each for itself.
pub(super) fn by_kind(chance: &mut Chance, kinds: &[Kind]) -> Vec<Value> {
    let sample = file(chance);
    let (_, row) = a_row(chance, &sample);
    let argument = |kind: &Kind| match kind {
        Kind::Bytes => Bytes(some_bytes(chance, &sample)),
        Kind::MaybeBytes => Value::MaybeBytes((!chance.once_in(3)).then(|| some_bytes(chance, &sample))),
        Kind::Number => Number(some_number(chance, &sample)),
        Kind::MaybeNumber => Value::MaybeNumber((!chance.once_in(3)).then(|| some_number(chance, &sample))),
        Kind::Bounds => Bounds(some_bounds(chance, row[2])),
        Kind::Numbers => Value::Numbers(some_rows(chance, &sample.rows).numbers),
        Kind::Rows => Rows(some_rows(chance, &sample.rows)),
        Kind::Regions => {
            let regions = chance.below(5);
            Value::Regions((0..regions).map(|_| (a_row(chance, &sample).0, some_bounds(chance, row[2]))).collect())
        }
        Kind::Steps => Value::Steps(some_steps(chance, &sample.text)),
        // only an answer has it
        Kind::Stepped => Value::Stepped(vec![]),
        Kind::Table => Table(some_table(chance, sample.rows.len())),
        Kind::Output => Output(some_room(chance, row[2])),
    };
    kinds.iter().map(argument).collect()
}

fn some_bytes(chance: &mut Chance, sample: &Sample) -> Vec<u8> {
    match chance.below(6) {
        0 => index_text(chance, &sample.text, &sample.rows),
        1 => name(chance),
        2 => some_bases(chance),
        _ => sample.text.clone(),
    }
}

fn some_number(chance: &mut Chance, sample: &Sample) -> u64 {
    let near = chance.below(sample.text.len() + 2) as u64;
    about(chance, near)
}
