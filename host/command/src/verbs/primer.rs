//! `wakeluri primer`: where a primer is found, or how many plain sequences it stands for.

use crate::beside::{index_beside, rows_of};
use crate::failure::Failure;
use crate::primer::{Form, Primer, counted};
use crate::read::Source;
use crate::sheet;
use crate::verbs::regions::{all_records, asked, how_for_regions, open_sheet};
use crate::words::{Common, path, rule, write};
use clap::ArgMatches;
use std::ffi::OsString;
use std::os::unix::ffi::OsStrExt;
use std::path::Path;

/// Lists the places of a primer in regions of a file.
pub fn primer(words: &ArgMatches, common: Common) -> Result<(), Failure> {
    let letters = words.get_one::<OsString>("primer").map(|letters| letters.as_bytes()).unwrap_or_default();
    let primer = Primer::of(letters)?;
    if words.get_flag("count") {
        return write(counted(&primer, common.json).as_bytes());
    }
    let form = match (common.json, words.get_flag("bed")) {
        (true, true) => return Err(Failure::Usage("--json and --bed are two forms: say which".to_string())),
        (true, false) => Form::Json,
        (false, true) => Form::Bed,
        (false, false) => Form::Text,
    };
    let file = path(words, "file").unwrap_or(Path::new("-"));
    let sheet = open_sheet(words, file, common)?;
    let asked = asked(words, sheet.as_ref())?;
    sheet::warn_of_strands(&asked);
    let fasta = common.open(file, how_for_regions(words, file, &asked, common))?;
    let index = index_beside(words, file, &fasta, common)?;
    let rows = rows_of(words, &fasta, index.as_ref(), rule(words))?;
    let asked = if asked.is_empty() { all_records(&rows) } else { asked };
    let source = Source { fasta: &fasta, rows: &rows, numbers: None };
    source.find(&source.regions(asked)?, &primer, form)
}
