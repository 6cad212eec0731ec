//! `wakeluri faidx` and `wakeluri fqidx`: called as in samtools, so that a script changes one word. What would differ is refused, with the
//! reason.

use crate::arguments::{file, flag, output, regions};
use crate::beside::index_of;
use crate::failure::Failure;
use crate::fastq;
use crate::header::{Header, Mark};
use crate::input::is_placeless;
use crate::output::Output;
use crate::read::Turn;
use crate::verbs::index::index_one;
use crate::verbs::read::read_as;
use crate::words::{Common, path, write};
use clap::{Arg, ArgMatches, Command, ValueHint, value_parser};
use std::path::{Path, PathBuf};

const EXAMPLES: &str = "\
Examples:
  wakeluri faidx ref.fa                         writes ref.fa.fai, and says nothing
  wakeluri faidx ref.fa chr1:101-200            as samtools, where samtools gives exactly that
  wakeluri faidx -i -o out.fa ref.fa chr1:5-9   its reverse complement, as >chr1:5-9/rc, to a file

Other than samtools:
  a region past the end of its record is refused (17), and not cut short
  one region that is not good: nothing is written, and -c is refused
  the index is checked with the file before it is used; where there is none it is made and written, as samtools does
  a byte without a complement is refused (24), and not copied
  packed files (--gzi-idx) are not read";

const OF_FASTQ: &str = "\
Examples:
  wakeluri fqidx reads.fq                writes reads.fq.fai, of six columns, and says nothing
  wakeluri fqidx reads.fq r1:11-20       bases and qualities, as FASTQ

It is `wakeluri faidx -f`, whose help says what is other than samtools.";

/// `fqidx`, which is `faidx -f`.
pub fn of_fastq() -> Command {
    of(Command::new("fqidx")
        .about("Index a FASTQ file, or read regions of it, called as samtools fqidx is")
        .after_help(OF_FASTQ))
}

/// `faidx`.
pub fn command() -> Command {
    let command = Command::new("faidx").about("Index a file, or read regions of it, called as samtools faidx is");
    of(command.after_help(EXAMPLES))
        .arg(flag("fastq").short('f').help("the file is FASTQ, and so is what is read: with qualities"))
}

/// The words, as samtools has them.
fn of(command: Command) -> Command {
    let place = |name: &'static str, long: &'static str, help: &'static str| {
        Arg::new(name)
            .long(long)
            .value_name("FILE")
            .help(help)
            .value_parser(value_parser!(PathBuf))
            .value_hint(ValueHint::FilePath)
    };
    command
        .arg(file().required(true))
        .arg(regions())
        .arg(output("FILE", "write the bases to a file"))
        .arg(
            Arg::new("width")
                .long("length")
                .short('n')
                .value_name("INT")
                .help("bases to a line")
                .value_parser(value_parser!(usize))
                .default_value("60"),
        )
        .arg(place("regions", "region-file", "a file with a region to a line").short('r'))
        .arg(flag("reverse-complement").short('i').help("the reverse complement of each region"))
        .arg(
            Arg::new("mark-strand")
                .long("mark-strand")
                .value_name("TYPE")
                .help("what stands behind a region: rc (/rc if it is turned), no, sign ((+) or (-)), custom,PLUS,MINUS")
                .default_value("rc"),
        )
        .arg(place("index-option", "fai-idx", "the index, if it isn't FILE.fai"))
        .arg(flag("continue").short('c').help("refused: all regions are read, or none"))
        .arg(place("gzi-idx", "gzi-idx", "refused: packed files are not read"))
}

/// Why what samtools would do isn't done.
fn other(words: &ArgMatches) -> Result<(), Failure> {
    let refused = |what: &str| Err(Failure::Usage(what.to_string()));
    if words.get_flag("continue") {
        return refused("-c is not taken: all regions are read, or none, so that no answer lacks one unseen");
    }
    if path(words, "gzi-idx").is_some() {
        return refused(
            "--gzi-idx is not taken: packed files are not read; unpack it: `gzip -dc FILE | wakeluri read - ..`",
        );
    }
    if words.get_one::<usize>("width") == Some(&0) {
        return refused("a line of no bases can't be written: -n is 1 at least");
    }
    Ok(())
}

/// As samtools: without a region it writes the index; else it reads the regions, and first writes an index if there is none.
pub fn faidx(words: &ArgMatches, common: Common<'_>) -> Result<(), Failure> {
    other(words)?;
    let named = words.get_one::<String>("mark-strand").map_or("rc", String::as_str);
    let Some(mark) = Mark::of(named) else {
        let what = format!("--mark-strand is rc, no, sign or custom,PLUS,MINUS, and not '{named}'");
        return Err(Failure::Usage(what));
    };
    let file = path(words, "file").unwrap_or(Path::new("-"));
    let place = path(words, "index-option").map_or_else(|| index_of(file), Path::to_path_buf);
    let has_regions = words.contains_id("region") || words.contains_id("regions");
    if !has_regions {
        if words.contains_id("output") {
            let what = "-o is where bases go, and no region is named: --fai-idx names another index";
            return Err(Failure::Usage(what.to_string()));
        }
        let output = if is_placeless(file) && path(words, "index-option").is_none() {
            Output::Standard
        } else {
            Output::of(&place)?
        };
        let line = index_one(file, &output, false, common)?;
        return if common.json { write(line.as_bytes()) } else { Ok(()) };
    }
    if !is_placeless(file) && !place.exists() {
        index_one(file, &Output::of(&place)?, false, common)?;
    }
    let turn = if words.get_flag("reverse-complement") { Turn::Reverse } else { Turn::AsIs };
    read_as(words, turn, Header { mark: Some(mark), is_full: false }, fastq::is_said(), common)
}
