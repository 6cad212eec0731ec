//! The index that belongs to a file: named on the command line or FILE.fai, opened, and read as rows.

use crate::advice;
use crate::failure::Failure;
use crate::input::{self, How, Input, is_placeless, is_standard};
use crate::shelf::Item;
use crate::warning::Warning;
use crate::words::{Common, path, said};
use crate::work::{self, Rule};
use clap::ArgMatches;
use std::ffi::OsString;
use std::path::{Path, PathBuf};
use wakeluri::Table;

/// FILE.fai.
pub fn index_of(file: &Path) -> PathBuf {
    let mut name = file.as_os_str().to_os_string();
    name.push(".fai");
    name.into()
}

/// The index that `check` or `index` is given: the word behind the file, or `--index`.
pub fn named_index<'m>(words: &'m ArgMatches, item: &'m Item, is_written: bool) -> Result<Option<&'m Path>, Failure> {
    let (behind, by_word) = (item.index.as_deref(), path(words, "index-option"));
    if behind.is_some() && by_word.is_some() {
        return Err(Failure::Usage("two indexes are named, and one is needed".to_string()));
    }
    // what is written to is not guessed
    let is_index = |path: &Path| path.extension().is_some_and(|end| end == "fai");
    match behind {
        Some(path) if is_written && !is_index(path) => {
            let shown = input::shown(path);
            Err(Failure::Usage(format!("to write the index to {shown}, say --output: its name doesn't end in .fai")))
        }
        _ => Ok(behind.or(by_word)),
    }
}

/// The index that a read is given: `--index`, or the word before the regions.
pub fn read_index(words: &ArgMatches) -> Option<&Path> {
    path(words, "index-option").or_else(|| index_before_regions(words))
}

/// The first region, if its name ends in .fai and there is such a file: then it is an index. A record of that name is written in braces.
pub fn index_before_regions(words: &ArgMatches) -> Option<&Path> {
    if path(words, "index-option").is_some() {
        return None;
    }
    let first = words.get_many::<OsString>("region").and_then(|mut regions| regions.next()).map(Path::new)?;
    (first.extension().is_some_and(|end| end == "fai") && first.is_file()).then_some(first)
}

/// Opens an index. If there is none, the message says how to make one.
pub fn open_index(index: &Path, fasta: &Input, common: Common) -> Result<Input, Failure> {
    match common.open(index, How::Read) {
        Err(Failure::InputOutput { words, .. }) if !is_standard(index) && !index.exists() => {
            Err(Failure::InputOutput { words, next: advice::first_index(fasta) })
        }
        opened => opened,
    }
}

/// The index that is named, or FILE.fai if there is one.
pub fn index_beside(words: &ArgMatches, file: &Path, fasta: &Input, common: Common) -> Result<Option<Input>, Failure> {
    match read_index(words) {
        Some(index) => open_index(index, fasta, common).map(Some),
        None if is_placeless(file) || !index_of(file).exists() => Ok(None),
        None => open_index(&index_of(file), fasta, common).map(Some),
    }
}

/// The rows of a file. They come from its index, which is checked first unless `--unchecked` is said; without an index a rule makes them.
pub fn rows_of<'r>(
    words: &ArgMatches,
    fasta: &'r Input,
    index: Option<&'r Input>,
    rule: Rule,
) -> Result<Table<'r>, Failure> {
    let Some(index) = index else { return work::index(fasta, rule) };
    if said(words, "unchecked") {
        warn_of_unchecked(index, fasta);
    } else {
        work::check(fasta, index)?;
    }
    work::read_index(fasta, index)
}

/// Says that an index is used as it is.
pub fn warn_of_unchecked(index: &Input, fasta: &Input) {
    let (index, fasta) = (&index.shown, &fasta.shown);
    let told = format!("{index} was not checked with {fasta}: if it is wrong, so are the bases");
    Warning::new(index, told).say();
}
