//! `wakeluri wrap`: the records of a file, written anew in lines of one width.

use crate::beside::index_of;
use crate::failure::Failure;
use crate::fastq;
use crate::input::Input;
use crate::json::Object;
use crate::output::Output;
use crate::place::{self, count};
use crate::words::{Common, output_of, path, report};
use crate::wrap::{Size, Wrapping};
use clap::ArgMatches;
use std::ffi::OsString;
use std::os::unix::ffi::OsStrExt;
use std::path::{Path, PathBuf};

/// Writes the file anew, and its index beside it if that is asked for.
pub fn wrap(words: &ArgMatches, common: Common) -> Result<(), Failure> {
    let file = path(words, "file").unwrap_or(Path::new("-"));
    let width = words.get_one::<u64>("width").copied().unwrap_or(60);
    if width == 0 {
        return Err(Failure::Usage("a line of no bases can't be written: --width is 1 at least".to_string()));
    }
    let output = output_of(words)?;
    if common.json && output.is_standard() {
        return Err(Failure::Usage(
            "the new file itself is written to standard output: --json needs --output OUT".to_string(),
        ));
    }
    let index = match output.path() {
        _ if !words.contains_id("index") => None,
        Some(place) => {
            let named = words.get_one::<OsString>("index").filter(|named| !named.is_empty());
            Some(Output::of(&named.map_or_else(|| index_of(place), PathBuf::from))?)
        }
        None => return Err(Failure::Usage("--index needs --output OUT: the index is written to OUT.fai".to_string())),
    };
    let outputs = || {
        let outputs = output.path().map_or(common.outputs, |place| common.outputs.and("the new file", place));
        index.as_ref().and_then(Output::path).map_or(outputs, |place| outputs.and("the index", place))
    };
    let fasta = Input::open(file, common.how, common.json, &outputs())?;
    fastq::fasta_alone(&fasta, "`wrap` writes FASTA alone")?;
    output.free_for_fasta()?;
    index.as_ref().map_or(Ok(()), Output::free)?;
    let repair = words.get_flag("repair");
    let size = Wrapping { fasta: &fasta, width, repair }.write(&output, index.as_ref())?;
    let Size { records, bases, mended } = size;
    let Some(place) = output.path() else { return Ok(()) };
    let shown = place::quoted(place.as_os_str().as_bytes());
    if common.json {
        let mut object = Object::new();
        object.text("file", &fasta.shown).text("output", &shown).number("width", width);
        object.number("records", records).number("bases", bases);
        if repair {
            object.number("records_mended", mended);
        }
        return report(object.line().as_bytes());
    }
    let (records, bases) = (count(records, "record"), count(bases, "base"));
    let mended = if mended > 0 { format!(" ({} mended)", place::commas(mended)) } else { String::new() };
    report(format!("{shown}: {records}{mended}, {bases}, in lines of {}\n", place::commas(width)).as_bytes())
}
