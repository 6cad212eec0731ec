//! `wakeluri list`: the records of a file.

use crate::failure::Failure;
use crate::list;
use crate::words::{Common, path, rule};
use crate::work;
use clap::ArgMatches;
use std::ffi::OsString;
use std::os::unix::ffi::OsStrExt;
use std::path::Path;

/// Lists the records of a file.
pub fn list(words: &ArgMatches, common: Common) -> Result<(), Failure> {
    let file = path(words, "file").unwrap_or(Path::new("-"));
    let fasta = common.open(file, common.how)?;
    let rows = work::described(&fasta, rule(words))?;
    let pattern = words.get_one::<OsString>("pattern").map(|pattern| pattern.as_bytes());
    list::list(&fasta, &rows, list::Form { pattern, json: common.json })
}
