//! `wakeluri check`: is an index right for its file.

use crate::beside::{index_of, named_index, open_index};
use crate::failure::Failure;
use crate::input::{self, Input, is_placeless, is_standard};
use crate::json::Object;
use crate::letters::Odd;
use crate::place::count;
use crate::shelf::{self, Item, Named, Shelf, Work};
use crate::twins;
use crate::verbs::remarks::{Glance, Remarks};
use crate::words::{Common, report, said};
use crate::work;
use clap::ArgMatches;
use std::path::Path;
use wakeluri::fastq::Table;

/// Checks one index, or those of a list of files.
pub fn check(words: &ArgMatches, common: Common) -> Result<(), Failure> {
    let strict = words.get_flag("strict");
    let one = |item: &Item, common: Common| check_one(&item.file, item.index.as_deref(), strict, common);
    match shelf::named(words)? {
        Named::One(item) if said(words, "alone") => shelf::alone(&item, Work::Check, one(&item, common), common.json),
        Named::One(item) => {
            report(check_one(&item.file, named_index(words, &item, false)?, strict, common)?.as_bytes())
        }
        Named::Many(items, passed_over) => {
            Shelf { items: &items, passed_over, work: Work::Check, strict }.run(common, &one)
        }
    }
}

/// Checks an index with its FASTQ file, and looks at the records meanwhile; gives how many there are, and their bases.
fn check_reads(fastq: &Input, index: &Input, strict: bool) -> Result<(u64, u64), Failure> {
    let (mut records, mut bases, mut glances) = (0, 0, vec![]);
    let look = |rows: Table<'_>| {
        let some: u64 = rows.records().map(|record| record.length).sum();
        (rows.len() as u64, some, Glance::at(fastq, &rows))
    };
    work::check_reads(fastq, index, look, |(count, some, glance)| {
        records += count;
        bases += some;
        glances.push(glance);
    })?;
    Remarks::in_parts(fastq, glances).say(fastq, strict)?;
    Ok((records, bases))
}

/// Checks an index with its file; gives the line that says so.
fn check_one(file: &Path, index: Option<&Path>, strict: bool, common: Common) -> Result<String, Failure> {
    let index = match index {
        Some(index) => index.to_path_buf(),
        None if is_placeless(file) => {
            let words = format!("name the index that {} is to be checked with", input::shown(file));
            return Err(Failure::Usage(words));
        }
        None => index_of(file),
    };
    if is_standard(file) && is_standard(&index) {
        return Err(Failure::Usage("the file and its index can't both come from standard input".to_string()));
    }
    let fasta = common.open(file, common.how)?;
    let index = open_index(&index, &fasta, common)?;
    let (records, bases) = if fasta.is_fastq() {
        check_reads(&fasta, &index, strict)?
    } else {
        work::check(&fasta, &index)?;
        Odd::of_file(fasta.bytes()).tell(&fasta, strict)?;
        let rows = work::read_index(&fasta, &index)?;
        twins::warn(&fasta.shown, &twins::of(|| rows.records().map(|record| record.name)));
        (rows.len() as u64, rows.records().map(|record| record.length).sum())
    };
    fasta.unchanged()?;
    if common.json {
        let mut object = Object::new();
        object.truth("accepted", true).text("file", &fasta.shown).text("index", &index.shown);
        object.number("records", records).number("bases", bases);
        if fasta.is_fastq() {
            object.text("format", "fastq");
        }
        return Ok(object.line());
    }
    let (records, bases) = (count(records, "record"), count(bases, "base"));
    let what = if fasta.is_fastq() { "every base and every quality" } else { "every base" };
    Ok(format!("accepted: {} leads to {what} of {} ({records}, {bases})\n", index.shown, fasta.shown))
}
