//! `wakeluri index`: the index of a file that is at hand, or that arrives.

mod reads;

use crate::apart::Outputs;
use crate::arriving;
use crate::beside::{index_of, named_index};
use crate::failure::Failure;
use crate::faults;
use crate::input::{self, Input, Stream, is_placeless, is_standard};
use crate::json::Object;
use crate::letters::Odd;
use crate::output::Output;
use crate::place::{self, count};
use crate::shelf::{self, Item, Named, Shelf, Work};
use crate::twins;
use crate::unusual::Unusual;
use crate::words::{Common, path, report, said};
use crate::work::{self, Rule};
use clap::ArgMatches;
use std::os::unix::ffi::OsStrExt;
use std::path::Path;
use wakeluri::Refusal;

/// Indexes a file, or each of a list.
pub fn index(words: &ArgMatches, common: Common) -> Result<(), Failure> {
    let strict = words.get_flag("strict");
    let one = |item: &Item, common: Common| {
        let place = item.index.clone().unwrap_or_else(|| index_of(&item.file));
        index_one(&item.file, &Output::of(&place)?, strict, common)
    };
    let item = match shelf::named(words)? {
        Named::One(item) if said(words, "alone") => {
            return shelf::alone(&item, Work::Index, one(&item, common), common.json);
        }
        Named::One(item) => item,
        Named::Many(items, passed_over) => {
            return Shelf { items: &items, passed_over, work: Work::Index, strict }.run(common, &one);
        }
    };
    let named = named_index(words, &item, true)?;
    if named.is_some() && path(words, "output").is_some() {
        return Err(Failure::Usage("two indexes are named, and one is needed".to_string()));
    }
    if let Some(saved) = path(words, "save") {
        return index_saved(&item, saved, path(words, "output").or(named), strict, common);
    }
    let output = match path(words, "output").or(named) {
        Some(output) => Output::of(output)?,
        None if is_placeless(&item.file) => Output::Standard,
        None => Output::of(&index_of(&item.file))?,
    };
    report(index_one(&item.file, &output, strict, common)?.as_bytes())
}

/// Indexes standard input as it arrives, and saves it to a file.
fn index_saved(item: &Item, saved: &Path, index: Option<&Path>, strict: bool, common: Common) -> Result<(), Failure> {
    if !is_standard(&item.file) {
        return Err(Failure::Usage("--save is for standard input: index - --save FILE".to_string()));
    }
    let index = index.map_or_else(|| index_of(saved), Path::to_path_buf);
    let (place, output) = (Output::of(saved)?, Output::of(&index)?);
    if place.is_standard() || output.is_standard() {
        return Err(Failure::Usage("what is saved with --save, and its index, are files".to_string()));
    }
    let outputs = common.outputs.and("the saved file", saved).and("the index", &index);
    let Some(mut stream) = Stream::open(&item.file, &outputs)? else { return Err(Failure::Gone) };
    if stream.is_fastq() {
        let what = "--save indexes FASTA alone as it arrives: save FASTQ first, and then index the file";
        return Err(Failure::Usage(what.to_string()));
    }
    place.free_for_fasta()?;
    output.free()?;
    let told = index_arriving((&item.file, &mut stream), (Some(&place), &output), strict, common)?;
    report(told.as_bytes())
}

/// Indexes a file; gives the line that says so, which is empty if the index went to standard output.
pub fn index_one(file: &Path, output: &Output, strict: bool, common: Common) -> Result<String, Failure> {
    if common.json && output.is_standard() {
        return Err(Failure::Usage(
            "the index itself is written to standard output: --json needs --output FILE".to_string(),
        ));
    }
    if let Some(mut stream) = Stream::open(file, &with_index(common, output))? {
        output.free()?;
        // FASTQ has no feeder
        if stream.is_fastq() {
            return index_whole(&Input::arrived(file, &mut stream)?, output, strict, common);
        }
        return index_arriving((file, &mut stream), (None, output), strict, common);
    }
    let fasta = Input::open(file, common.how, common.json, &with_index(common, output))?;
    output.free()?;
    index_whole(&fasta, output, strict, common)
}

/// All that is written to, the index too.
fn with_index<'o>(common: Common<'o>, output: &'o Output) -> Outputs<'o> {
    output.path().map_or(common.outputs, |place| common.outputs.and("the index", place))
}

/// Indexes a file that is at hand whole.
fn index_whole(fasta: &Input, output: &Output, strict: bool, common: Common) -> Result<String, Failure> {
    let as_it_was = || {
        fasta.unchanged()?;
        // the name may mean another file by now
        fasta.apart_from(&with_index(common, output))
    };
    let made = if fasta.is_fastq() && output.is_replaced() {
        // it is written as it is made: the old one is replaced once all of it is there
        output.fill_by("index", |to| {
            let made = reads::index(fasta, strict, to)?;
            as_it_was()?;
            fasta.let_go();
            Ok(made)
        })?
    } else {
        let mut text = vec![];
        let made = if fasta.is_fastq() {
            reads::index(fasta, strict, &mut text).map_err(|unfilled| unfilled.told(&fasta.shown))?
        } else {
            of_fasta(fasta, strict, &mut text)?
        };
        as_it_was()?;
        output.write(&text)?;
        made
    };
    Ok(indexed(&fasta.shown, output, &made, common.json))
}

/// Indexes a file as it arrives, and saves it on the way if a place is named. If something is refused, the files that were there stay.
fn index_arriving(
    (file, stream): (&Path, &mut Stream),
    (save, output): (Option<&Output>, &Output),
    strict: bool,
    common: Common,
) -> Result<String, Failure> {
    let shown = input::shown(file);
    let rule = if strict { Rule::Strict } else { Rule::Complete };
    let arrived = match save {
        None => {
            arriving::index(&shown, stream, rule, &mut std::io::sink()).map_err(|stopped| stopped.told(&shown, false))
        }
        Some(place) => arriving::saved(&shown, stream, rule, place),
    }?;
    let rows = arrived.fed.table();
    let text = rows.write_index().map_err(|refusal| not_written(&shown, refusal))?;
    if save.is_none() {
        // the name may mean another file by now
        stream.apart_from(&with_index(common, output), &shown)?;
    }
    output.write(&text)?;
    let file = save.and_then(Output::path).map_or(shown, input::shown);
    let (records, bases) = (rows.len() as u64, rows.records().map(|record| record.length).sum());
    let made = Made { records, bases, unusual: Some(arrived.unusual) };
    Ok(indexed(&file, output, &made, common.json))
}

/// What the line says of an index that was made. FASTQ has no unusual records.
struct Made {
    records: u64,
    bases: u64,
    unusual: Option<Unusual>,
}

/// The index of a FASTA file.
fn of_fasta(fasta: &Input, strict: bool, text: &mut Vec<u8>) -> Result<Made, Failure> {
    let rows = work::index(fasta, if strict { Rule::Strict } else { Rule::Complete })?;
    *text = rows.write_index().map_err(|refusal| not_written(&fasta.shown, refusal))?;
    Odd::of_file(fasta.bytes()).tell(fasta, strict)?;
    twins::warn(&fasta.shown, &twins::of(|| rows.records().map(|record| record.name)));
    let unusual = Some(Unusual::of(fasta.bytes(), &rows));
    let bases = rows.records().map(|record| record.length).sum();
    Ok(Made { records: rows.len() as u64, bases, unusual })
}

/// An index that can't be written.
fn not_written(file: &str, refusal: Refusal) -> Failure {
    faults::refused(file, None, &refusal.words(), String::new(), refusal)
}

/// The line about a file that was indexed; empty if the index went to standard output.
fn indexed(file: &str, output: &Output, made: &Made, json: bool) -> String {
    let Some(place) = output.path() else { return String::new() };
    let shown = place::quoted(place.as_os_str().as_bytes());
    let Made { records, bases, unusual, .. } = made;
    if json {
        let mut object = Object::new();
        object.text("file", file).text("index", &shown).number("records", *records).number("bases", *bases);
        match unusual {
            None => object.text("format", "fastq"),
            Some(unusual) => object
                .number("records_with_blank_lines", unusual.blank_lines)
                .number("records_without_bases", unusual.no_bases),
        };
        return object.line();
    }
    let told = unusual.map(Unusual::told).unwrap_or_default();
    format!("{shown}: {}{told}, {}\n", count(*records, "record"), count(*bases, "base"))
}
