//! A model of what every call answers: slow, plain, and written from the rules alone, not from the proved code.
//!
//! It is no part of the library. The library and the original crate are compared with it, question by question, so that a fault
//! in a definition that the proofs rest on would show as a difference.

mod checker;
mod complete;
mod course;
mod fastq;
mod fed;
mod lines;
mod parts;
mod primers;
mod reads;
mod rows;
mod windows;
mod writer;

use questions::form::Value::{self, Bytes, MaybeBytes};
use questions::form::{Answer, No, Speaker};

/// No byte input may be longer.
const LIMIT: usize = 1 << 40;
/// What the program takes and holds.
const PROGRAM_BYTES: usize = 65_536;
const PROGRAM_ROWS: usize = 1_024;

/// The one who answers by the rules.
pub struct Model;

fn no<T>(number: u64, first: u64, second: u64) -> Result<T, No> {
    Err([number, first, second])
}

/// A number that counts bytes or rows.
fn n(count: usize) -> u64 {
    count as u64
}

/// Refusal 1 comes first in every call, for each byte input.
fn within_limit(arguments: &[Value]) -> Result<(), No> {
    let long = |argument: &Value| match argument {
        Bytes(input) | MaybeBytes(Some(input)) => input.len() > LIMIT,
        _ => false,
    };
    if arguments.iter().any(long) { no(1, 0, 0) } else { Ok(()) }
}

/// What a file answers of a family: nothing where it has none of its rules.
type Answers = fn(&str, &mut [Value]) -> Option<Answer>;

/// Each file answers the families whose rules it has.
const FILES: [Answers; 12] = [
    lines::answer,
    rows::answer,
    complete::answer,
    parts::answer,
    fed::answer,
    reads::answer,
    windows::answer,
    primers::answer,
    writer::answer,
    course::answer,
    fastq::answer,
    checker::answer,
];

impl Speaker for Model {
    fn answer(&self, family: &str, arguments: &mut [Value]) -> Option<Answer> {
        if let Err(no) = within_limit(arguments) {
            return Some(Err::<(), No>(no).into());
        }
        FILES.iter().find_map(|answer| answer(family, arguments))
    }
}
