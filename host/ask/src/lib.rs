//! The proved library as one who answers questions: each question is one call of an entry point, and its answer is passed on as it is.
//!
//! Which call that is, and what is told of its answer, stands in the table of families (host/questions). So a new family needs no line
//! here; one whose arguments are not those of its call, or whose answer lacks a number that it tells, is answered `skip`, and the
//! tests fail.

mod call;

use call::{Told, call};
use questions::family::{Call, Part, Shape, family};
use questions::form::Value::{self, Bytes, MaybeNumber, Number, Numbers, Stepped, Steps, Table};
use questions::form::{Answer, Speaker};
use questions::row::{FASTQ_WORDS, WORDS};
use std::io::Write;
use std::path::{Path, PathBuf};
use std::process::{Command, Stdio};
use wakeluri::entry;

const _: () = assert!(WORDS == entry::ROW_WORDS, "a row has as many numbers in questions as in answers");
const _: () = assert!(FASTQ_WORDS == entry::FASTQ_ROW_WORDS, "and so has one of a FASTQ file");

/// The library, and where its program is, if it is to be run.
pub struct Library {
    /// The program `faidx`.
    pub program: Option<PathBuf>,
}

impl Speaker for Library {
    fn answer(&self, name: &str, arguments: &mut [Value]) -> Option<Answer> {
        let family = family(name)?;
        match (family.call, &mut *arguments) {
            (Call::Entry(entry), _) => told(family.tells, &*call(entry, arguments, None)?, arguments),
            (Call::EntryWith(entry, number), _) => {
                told(family.tells, &*call(entry, arguments, Some(number))?, arguments)
            }
            (Call::Fed(complete), [Table(table), Steps(steps)]) => Some(fed(table, steps, complete)),
            (Call::Program, [Bytes(input)]) => {
                Some(Answer { no: None, told: vec![Bytes(output(self.program.as_ref()?, input)?)] })
            }
            _ => None,
        }
    }
}

/// What a family tells of an answer.
fn told(shape: Shape, answer: &dyn Told, arguments: &[Value]) -> Option<Answer> {
    let no = answer.no();
    let is_told = match shape {
        Shape::Always(_) => true,
        Shape::Found(field, _) => no.is_none() && answer.number(field)? != 0,
        Shape::IfOk(_) | Shape::Bare(_) => no.is_none(),
    };
    let parts = if is_told { shape.parts() } else { &[] };
    let told = parts.iter().map(|part| value(*part, answer, arguments)).collect::<Option<_>>()?;
    Some(Answer { no, told })
}

fn value(part: Part, answer: &dyn Told, arguments: &[Value]) -> Option<Value> {
    Some(match part {
        Part::Field(field) => Number(answer.number(field)?),
        Part::Row(fields) => Numbers(fields.iter().map(|field| answer.number(field)).collect::<Option<_>>()?),
        Part::Refused(field) => {
            let number = answer.number(field)?;
            MaybeNumber(answer.no().map(|_| number))
        }
        Part::Span(start, length) => {
            let [Bytes(bytes), ..] = arguments else { return None };
            let (start, length) = (answer.number(start)? as usize, answer.number(length)? as usize);
            Bytes(bytes.get(start..)?.get(..length)?.to_vec())
        }
        Part::Other(_) => return None,
    })
}

/// A file that arrives in steps, by the original's rule for 0, else by the complete one: what each step answers.
fn fed(table: &mut [u64], steps: &[Option<Vec<u8>>], complete: u64) -> Answer {
    let mut lent = call::Lent::new(table);
    let mut feed = entry::feed_start(complete);
    let step = |step: &Option<Vec<u8>>| {
        feed = match step {
            Some(piece) => entry::feed_piece(feed, piece, &mut lent.bytes),
            None => entry::feed_end(feed, &mut lent.bytes),
        };
        [feed.refusal, feed.first, feed.second, feed.rows]
    };
    Answer { no: None, told: vec![Stepped(steps.iter().map(step).collect())] }
}

/// What a program writes for an input.
fn output(program: &Path, input: &[u8]) -> Option<Vec<u8>> {
    let mut child = Command::new(program).stdin(Stdio::piped()).stdout(Stdio::piped()).spawn().ok()?;
    let mut stdin = child.stdin.take()?;
    std::thread::scope(|scope| {
        // the program may end before it has read everything
        scope.spawn(move || stdin.write_all(input));
        child.wait_with_output().ok().map(|output| output.stdout)
    })
}
