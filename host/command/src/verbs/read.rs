//! `wakeluri read`: regions of a file, or all its records.

use crate::beside::{index_beside, warn_of_unchecked};
use crate::failure::Failure;
use crate::header::Header;
use crate::input::Input;
use crate::narrow::Narrow;
use crate::output::Output;
use crate::qualities::Both;
use crate::read::{AllAsked, Form, Source, Turn};
use crate::sheet;
use crate::verbs::regions::{all_records, asked, how_for_regions, open_sheet};
use crate::words::{Common, output_of, path, rule, said};
use crate::work::{self, Rule};
use clap::ArgMatches;
use std::path::Path;
use wakeluri::fastq::Part;

/// Reads what is asked for, as it is.
pub fn read(words: &ArgMatches, common: Common) -> Result<(), Failure> {
    let header = Header { mark: None, is_full: said(words, "full-header") };
    read_as(words, Turn::AsIs, header, said(words, "qualities"), common)
}

/// Reads what is asked for, and writes it where it should go; with qualities as FASTQ.
pub fn read_as(
    words: &ArgMatches,
    turn: Turn,
    header: Header<'_>,
    qualities: bool,
    common: Common,
) -> Result<(), Failure> {
    let file = path(words, "file").unwrap_or(Path::new("-"));
    let output = output_of(words)?;
    let common = to_output(common, &output, qualities)?;
    let sheet = open_sheet(words, file, common)?;
    let asked = asked(words, sheet.as_ref())?;
    if turn != Turn::AsIs {
        sheet::no_strands(&asked)?;
    }
    let fasta = common.open(file, how_for_regions(words, file, &asked, common))?;
    answer(words, file, &fasta, asked, Way { turn, header, qualities, to: &output }, common)
}

/// Adds the output to what no input may be. Fails if something is there that nobody means to replace.
pub fn to_output<'o>(common: Common<'o>, output: &'o Output, qualities: bool) -> Result<Common<'o>, Failure> {
    let Some(place) = output.path() else { return Ok(common) };
    output.free_for_answers(common.json, qualities)?;
    Ok(Common { outputs: common.outputs.and("the answer", place), ..common })
}

/// How bases are turned, what stands above them, and where they go.
#[derive(Clone, Copy)]
pub struct Way<'w> {
    /// As they are, or complemented.
    pub turn: Turn,
    /// The definition line.
    pub header: Header<'w>,
    /// Whether qualities are read too.
    pub qualities: bool,
    /// Where all goes.
    pub to: &'w Output,
}

/// Reads regions of a file, or all its records if no region is asked for.
pub fn answer(
    words: &ArgMatches,
    file: &Path,
    fasta: &Input,
    asked: AllAsked<'_>,
    Way { turn, header, qualities, to }: Way<'_>,
    common: Common,
) -> Result<(), Failure> {
    let index = index_beside(words, file, fasta, common)?;
    let width = words.get_one::<usize>("width").copied().unwrap_or(60);
    let (strict, rna) = (said(words, "strict"), said(words, "rna"));
    let form = Form { turn, width, json: common.json, strict, rna, header, to };
    let is_unchecked = said(words, "unchecked");
    if header.is_full && is_unchecked {
        let what = "--full-header looks at every definition line of the file: leave out --unchecked";
        return Err(Failure::Usage(what.to_string()));
    }
    if qualities {
        return answer_with_qualities(words, fasta, index.as_ref(), asked, form);
    }
    let rows = match &index {
        None if header.is_full => work::described(fasta, rule(words))?,
        None => work::index(fasta, rule(words))?,
        Some(index) if is_unchecked => {
            warn_of_unchecked(index, fasta);
            work::read_index(fasta, index)?
        }
        // an index has no descriptions
        Some(index) if header.is_full => {
            work::check(fasta, index)?;
            work::described(fasta, rule(words))?
        }
        Some(index) => {
            work::check(fasta, index)?;
            let narrow = Narrow::of(index, &asked);
            if let Some(answered) = narrow.and_then(|narrow| narrow.answer(fasta, &asked, form)) {
                return answered;
            }
            work::read_index(fasta, index)?
        }
    };
    let asked = if asked.is_empty() { all_records(&rows) } else { asked };
    let source = Source { fasta, rows: &rows, numbers: None };
    source.give(&source.regions(asked)?, form)
}

/// Reads regions of a FASTQ file with their qualities.
fn answer_with_qualities(
    words: &ArgMatches,
    fastq: &Input,
    index: Option<&Input>,
    asked: AllAsked<'_>,
    form: Form<'_>,
) -> Result<(), Failure> {
    if !fastq.is_fastq() {
        return Err(Failure::Usage(format!("{}: it does not begin with '@', and FASTA has no qualities", fastq.shown)));
    }
    let reads = match index {
        None => work::reads(fastq)?,
        Some(index) => {
            if said(words, "unchecked") {
                warn_of_unchecked(index, fastq);
            } else {
                work::check(fastq, index)?;
            }
            work::read_reads(fastq, index)?
        }
    };
    // an index has no descriptions
    let bases = if form.header.is_full { work::described(fastq, Rule::Complete)? } else { reads.part(Part::Bases) };
    let qualities = reads.part(Part::Qualities);
    let asked = if asked.is_empty() { all_records(&bases) } else { asked };
    let source = Source { fasta: fastq, rows: &bases, numbers: None };
    Both { bases: source, qualities: &qualities }.give(&source.regions(asked)?, form)
}
