//! `wakeluri mend`: one base of a file, in place.

use crate::beside::{index_beside, rows_of};
use crate::failure::Failure;
use crate::fastq;
use crate::input::{self, is_placeless};
use crate::mend::{self, Mend};
use crate::read::Source;
use crate::words::{Common, path, report};
use crate::work::{self, Rule};
use clap::ArgMatches;
use std::ffi::OsString;
use std::os::unix::ffi::OsStrExt;
use std::path::Path;

/// Mends a base of a file whose index is accepted, and shows that it still is.
pub fn mend(words: &ArgMatches, common: Common) -> Result<(), Failure> {
    let word = |name| words.get_one::<OsString>(name).map(|word| word.as_bytes()).unwrap_or_default();
    let (new, asked) = (mend::base(word("base"))?, mend::asked(word("region"))?);
    let file = path(words, "file").unwrap_or(Path::new("-"));
    if is_placeless(file) {
        return Err(Failure::Usage(format!("{} is no file that can be mended in place", input::shown(file))));
    }
    let dry = words.get_flag("dry-run");
    let mended = {
        let fasta = common.open(file, common.how)?;
        fastq::fasta_alone(&fasta, "`mend` takes FASTA alone")?;
        let index = index_beside(words, file, &fasta, common)?;
        let rows = rows_of(words, &fasta, index.as_ref(), Rule::Complete)?;
        let source = Source { fasta: &fasta, rows: &rows, numbers: None };
        let regions = source.regions(vec![Ok(asked)])?;
        let mended = Mend::of(source, regions[0], new)?;
        mended.judge(&fasta, words.get_flag("strict"))?;
        fasta.unchanged()?;
        mended
    };
    if !dry && mended.old != mended.new {
        mended.write(file)?;
    }
    let fasta = common.open(file, common.how)?;
    let index = index_beside(words, file, &fasta, common)?;
    match &index {
        None => drop(work::index(&fasta, Rule::Complete)?),
        Some(index) => work::check(&fasta, index)?,
    }
    if common.json {
        let mut object = mended.object(&fasta.shown, dry);
        if let Some(index) = &index {
            object.text("index", &index.shown).truth("accepted", true);
        }
        return report(object.line().as_bytes());
    }
    let accepted =
        index.map_or(String::new(), |index| format!("accepted: {} still leads to every base\n", index.shown));
    report(format!("{}{accepted}", mended.told(&fasta.shown, dry)).as_bytes())
}
