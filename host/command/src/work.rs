//! What the commands share: an index made of a file, an index that is checked, one that is used as it is.

use crate::failure::Failure;
use crate::fastq;
use crate::fastq_faults;
use crate::faults;
use crate::input::Input;
use crate::place;
use crate::progress::Progress;
use crate::scene::Scene;
use crate::warning::Warning;
use wakeluri::fastq::{Part, Table as Reads};
use wakeluri::{Cores, Refusal, Table};

/// The rule for indexing a file.
#[derive(Clone, Copy, Debug, Eq, PartialEq)]
pub enum Rule {
    /// Takes each record that any index line fits.
    Complete,
    /// As the original has it: the lines of a record are alike, except its last.
    Strict,
}

/// The rows of a file up to the first record that is refused, and that refusal. FASTQ has one rule; its rows lead to the bases.
pub fn rows_until_refused(fasta: &Input, rule: Rule) -> (Table<'_>, Option<Refusal>) {
    match rule {
        _ if fasta.is_fastq() => fastq::rows_until_refused(fasta.bytes()),
        Rule::Complete => wakeluri::index_until_refused(fasta.bytes()),
        Rule::Strict => wakeluri::index_strict_until_refused(fasta.bytes()),
    }
}

/// The rows of a FASTQ file, or why there are none, and where.
pub fn reads(fastq: &Input) -> Result<Reads<'_>, Failure> {
    let file = fastq.bytes();
    warn_of_nothing(fastq);
    let progress = Progress::working("indexing", &fastq.shown, file.len() as u64, fastq.is_mapped());
    let (reads, refusal) = wakeluri::fastq::index_until_refused(file);
    drop(progress);
    match refusal {
        None => Ok(reads),
        Some(refusal) => {
            let rows = reads.part(Part::Bases);
            let is_too_long = refusal.number == 1;
            Err(if is_too_long {
                Scene::of(fastq, &rows, refusal).told(refusal)
            } else {
                fastq_faults::not_indexed(fastq, &rows, refusal)
            })
        }
    }
}

/// As [`index`], with the descriptions of records.
pub fn described(fasta: &Input, rule: Rule) -> Result<Table<'_>, Failure> {
    // rows of FASTA have them
    if fasta.is_fastq() { Ok(fastq::described(fasta, &reads(fasta)?)) } else { index(fasta, rule) }
}

/// The rows of a file, or why there are none, and where.
pub fn index(fasta: &Input, rule: Rule) -> Result<Table<'_>, Failure> {
    if fasta.is_fastq() {
        return Ok(reads(fasta)?.part(Part::Bases));
    }
    let file = fasta.bytes();
    warn_of_nothing(fasta);
    let progress = Progress::working("indexing", &fasta.shown, file.len() as u64, fasta.is_mapped());
    let (rows, refusal) = rows_until_refused(fasta, rule);
    drop(progress);
    match refusal {
        None => {
            let first_line = place::lines(file, 0, 1).next().map_or(&[][..], |line| place::text(file, line));
            if let Some(warning) = faults::lines_of_cr(&fasta.shown, &rows, first_line) {
                warning.say();
            }
            Ok(rows)
        }
        Some(refusal) => Err(Scene::of(fasta, &rows, refusal).told(refusal)),
    }
}

/// A file without a byte is a file without records, and seldom what was meant.
pub fn warn_of_nothing(fasta: &Input) {
    warn_of_no_bytes(&fasta.shown, fasta.bytes().len() as u64);
}

/// The same of a file by its name and its length.
pub fn warn_of_no_bytes(file: &str, length: u64) {
    if length == 0 {
        Warning::new(file, format!("{file}: it is empty: there is no record in it")).say();
    }
}

/// Whether an index is right for a file; if not, the first fault in words.
pub fn check(fasta: &Input, index: &Input) -> Result<(), Failure> {
    let check = if fasta.is_fastq() { wakeluri::fastq::check } else { wakeluri::check };
    checked(fasta, index, || check(fasta.bytes(), index.bytes()))
}

/// The same of FASTQ. While a part's records are in a core's cache, `look` sees their rows; if the index is right, what that gives is given to
/// `take`, in the order of the file.
pub fn check_reads<'i, T: Send>(
    fastq: &Input,
    index: &'i Input,
    look: impl Fn(Reads<'i>) -> T + Sync,
    take: impl FnMut(T),
) -> Result<(), Failure> {
    checked(fastq, index, || Cores::default().check_fastq_in_parts(fastq.bytes(), index.bytes(), look, take))
}

fn checked(fasta: &Input, index: &Input, check: impl FnOnce() -> Result<(), Refusal>) -> Result<(), Failure> {
    warn_of_nothing(fasta);
    let progress = Progress::working("checking", &fasta.shown, fasta.bytes().len() as u64, fasta.is_mapped());
    let answer = check();
    drop(progress);
    answer.map_err(|refusal| faults::not_accepted(fasta, index, refusal))
}

/// The rows of an index text of a FASTQ file, or why it can't be read.
pub fn read_reads<'i>(fastq: &Input, index: &'i Input) -> Result<Reads<'i>, Failure> {
    wakeluri::fastq::read_index(index.bytes()).map_err(|refusal| faults::not_read(fastq, index, refusal))
}

/// The rows of an index text of a file, or why it can't be read.
pub fn rows_of_text<'i>(fasta: &Input, text: &'i [u8]) -> Result<Table<'i>, Refusal> {
    if fasta.is_fastq() { fastq::read_index(text) } else { wakeluri::read_index(text) }
}

/// An index text that is used unchecked, or why it can't be read.
pub fn read_index<'i>(fasta: &Input, index: &'i Input) -> Result<Table<'i>, Failure> {
    rows_of_text(fasta, index.bytes()).map_err(|refusal| faults::not_read(fasta, index, refusal))
}
