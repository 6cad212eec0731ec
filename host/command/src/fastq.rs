//! FASTQ: whether `--fastq` is said, and rows of a FASTQ file in the form of FASTA's, so that they read its bases or its qualities.

use crate::failure::Failure;
use crate::input::Input;
use std::sync::atomic::{AtomicBool, Ordering};
use wakeluri::entry::{self, ROW_BYTES};
use wakeluri::fastq::{Part, Table as Reads};
use wakeluri::{Refusal, Table};

/// Whether files are FASTQ, whatever they begin with.
static SAID: AtomicBool = AtomicBool::new(false);

/// Sets it. If it is not said, a file's first byte decides.
pub fn say(said: bool) {
    SAID.store(said, Ordering::Relaxed);
}

/// Whether it is said.
pub fn is_said() -> bool {
    SAID.load(Ordering::Relaxed)
}

/// Fails for a FASTQ file; some commands take FASTA alone.
pub fn fasta_alone(fasta: &Input, what: &str) -> Result<(), Failure> {
    let words = || format!("{}: it begins with '@', as FASTQ does, and {what}", fasta.shown);
    if fasta.is_fastq() { Err(Failure::Usage(words())) } else { Ok(()) }
}

/// The rows of a FASTQ file's bases, up to the first record that is refused, and that refusal.
pub fn rows_until_refused(file: &[u8]) -> (Table<'_>, Option<Refusal>) {
    let (reads, refusal) = wakeluri::fastq::index_until_refused(file);
    (reads.part(Part::Bases), refusal)
}

/// A row for each line of an index of six columns.
pub fn read_index(text: &[u8]) -> Result<Table<'_>, Refusal> {
    wakeluri::fastq::read_index(text).map(|reads| reads.part(Part::Bases))
}

/// The rows of a file's bases with their descriptions. Rows of FASTQ have none, so each definition line is read again.
pub fn described<'f>(fastq: &'f Input, reads: &Reads<'f>) -> Table<'f> {
    let file = fastq.bytes();
    let mut rows = reads.part(Part::Bases).into_bytes();
    let mut line = vec![];
    for row in rows.chunks_exact_mut(ROW_BYTES) {
        let Some((start, length)) = description(file, row, &mut line) else { continue };
        row[ROW_BYTES - 16..ROW_BYTES - 8].copy_from_slice(&start.to_le_bytes());
        row[ROW_BYTES - 8..].copy_from_slice(&length.to_le_bytes());
    }
    Table::from_bytes(file, rows, reads.len())
}

/// Where the description of a row's record lies. The proved code reads the definition line, with '>' instead of '@'.
fn description(file: &[u8], row: &[u8], line: &mut Vec<u8>) -> Option<(u64, u64)> {
    let name_start = u64::from_le_bytes(*row.first_chunk()?);
    let rest = file.get(usize::try_from(name_start).ok()?..)?;
    line.clear();
    line.push(b'>');
    line.extend(rest.split_inclusive(|byte| *byte == b'\n').next()?);
    let said = entry::definition_line(line);
    let start = (name_start + said.description_start).checked_sub(1)?;
    (said.refusal == 0 && said.description_length > 0).then_some((start, said.description_length))
}

#[cfg(test)]
mod tests {
    use crate::apart::Outputs;
    use crate::input::{How, Input};
    use std::path::Path;

    #[test]
    fn descriptions_of_definition_lines() {
        let place = std::env::temp_dir().join(format!("wakeluri-described-{}.fq", std::process::id()));
        std::fs::write(&place, "@a first one \r\nA\n+\nI\n@b\nA\n+ no\nI\n@c\tx\nA\n+\nI").unwrap();
        let file = Input::open(Path::new(&place), How::Read, false, &Outputs::standard()).unwrap();
        std::fs::remove_file(&place).unwrap();
        let reads = wakeluri::fastq::index(file.bytes()).unwrap();
        let rows = super::described(&file, &reads);
        let said: Vec<_> = rows.records().map(|record| (record.name, record.description())).collect();
        assert_eq!(said, [(&b"a"[..], Some(&b"first one"[..])), (b"b", None), (b"c", Some(b"x"))]);
        assert!(file.is_fastq());
    }
}
