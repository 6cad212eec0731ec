//! What to do about a file or an index that was refused. Nothing is advised that was not tried: a command that is named would be answered.

use crate::input::Input;
use crate::work::{Rule, rows_until_refused};
use crate::wrap::Wrapping;
use crate::{fastq, fastq_faults, place};

/// What to do about an index that isn't right for a file.
pub fn new_index(fasta: &Input) -> String {
    index_by("make the index again:", fasta)
}

/// What to do where a file has no index.
pub fn first_index(fasta: &Input) -> String {
    index_by("make the index with", fasta)
}

/// To index a file, if that can be done; else what is wrong with it.
fn index_by(how: &str, fasta: &Input) -> String {
    let (rows, refusal) = rows_until_refused(fasta, Rule::Complete);
    let said = if fastq::is_said() { "--fastq " } else { "" };
    let Some(refusal) = refusal else { return format!("{how} `wakeluri index {said}{}`", fasta.given()) };
    let place = if fasta.is_fastq() {
        fastq_faults::refused_record(fasta.bytes(), &rows).map(|lines| lines.definition)
    } else {
        place::refused_definition(fasta.bytes(), &rows)
    };
    let line = place.map_or(String::new(), |line| format!(" (the record of line {})", place::commas(line.number)));
    let how = anew(fasta).unwrap_or_else(|| format!("`wakeluri index {said}{}` says more", fasta.given()));
    format!("no index can be made of {} as it is{line}: {}\n{how}", fasta.shown, refusal.words())
}

/// How to write a file anew so that an index fits it, if that can be done.
pub fn anew(fasta: &Input) -> Option<String> {
    if fasta.is_fastq() {
        return None;
    }
    let takes = |repair| Wrapping { fasta, width: 60, repair }.is_good();
    let repair = match (takes(false), takes(true)) {
        (true, _) => "",
        (false, true) => "--repair ",
        _ => return None,
    };
    Some(format!("`wakeluri wrap {repair}{} -o new.fa --index` writes it anew, with its index", fasta.given()))
}

/// Some advice, and how to write a file anew if that can be done.
pub fn or_anew(next: &str, fasta: &Input) -> String {
    anew(fasta).map_or(next.to_string(), |how| format!("{next}\n{how}"))
}

/// Some advice about a file that the strict rule refuses, and to leave that rule out if the other takes the file.
pub fn or_not_strict(next: &str, fasta: &Input) -> String {
    match wakeluri::index_until_refused(fasta.bytes()).1 {
        None => format!("{next}, or leave out --strict"),
        Some(_) => or_anew(next, fasta),
    }
}

/// A name as a word of a shell.
pub fn word(name: &str) -> String {
    let is_plain = |byte: u8| byte.is_ascii_alphanumeric() || b"_./-+=:,@%".contains(&byte);
    if !name.is_empty() && name.bytes().all(is_plain) {
        name.to_string()
    } else {
        format!("'{}'", name.replace('\'', "'\\''"))
    }
}
