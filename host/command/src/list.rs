//! The records of a file: name, length and description of each.

use crate::failure::Failure;
use crate::input::Input;
use crate::json::Object;
use crate::output::Answers;
use wakeluri::{Record, Table};

/// Which records are listed, and how.
#[derive(Clone, Copy, Debug)]
pub struct Form<'p> {
    /// Those whose name or description holds this, letters of either case alike.
    pub pattern: Option<&'p [u8]>,
    /// As JSON.
    pub json: bool,
}

impl Form<'_> {
    fn wants(self, record: &Record<'_>) -> bool {
        let Some(pattern) = self.pattern else { return true };
        holds(record.name, pattern) || record.description().is_some_and(|description| holds(description, pattern))
    }
}

/// Whether a text holds a pattern, letters of either case alike.
fn holds(text: &[u8], pattern: &[u8]) -> bool {
    let Some((first, _)) = pattern.split_first() else { return true };
    let starts = text.len().checked_sub(pattern.len()).map_or(0, |last| last + 1);
    (0..starts).any(|start| {
        let here = text.get(start..start + pattern.len()).unwrap_or_default();
        here.first().is_some_and(|byte| byte.eq_ignore_ascii_case(first)) && here.eq_ignore_ascii_case(pattern)
    })
}

/// Writes a line for each record that is wanted: name, length and description, with tabs between.
pub fn list(fasta: &Input, rows: &Table<'_>, form: Form<'_>) -> Result<(), Failure> {
    fasta.unchanged()?;
    let mut answers = Answers::new();
    for (number, record) in (1..).zip(rows.records()) {
        if !form.wants(&record) {
            continue;
        }
        let description = record.description().unwrap_or_default();
        if form.json {
            let mut object = Object::new();
            object.number("record", number).bytes("name", record.name).number("length", record.length);
            object.bytes("description", description);
            answers.write(object.line().as_bytes())?;
            continue;
        }
        answers.write(record.name)?;
        answers.write(format!("\t{}\t", record.length).as_bytes())?;
        answers.write(description)?;
        answers.write(b"\n")?;
    }
    answers.done()
}

#[cfg(test)]
mod tests {
    use super::*;

    #[test]
    fn patterns() {
        for (text, pattern, held) in [
            (&b"Homo sapiens"[..], &b"SAPI"[..], true),
            (b"Homo sapiens", b"", true),
            (b"", b"", true),
            (b"", b"a", false),
            (b"ens", b"sens", false),
            (b"Homo sapiens", b"ens", true),
            (b"Homo sapiens", b"homo", true),
        ] {
            assert_eq!(holds(text, pattern), held, "{text:?} {pattern:?}");
        }
    }
}
