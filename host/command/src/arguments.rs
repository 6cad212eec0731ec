//! The words of the command.

use clap::builder::PossibleValuesParser;
use clap::{Arg, ArgAction, Command, ValueHint, value_parser};
use std::ffi::OsString;
use std::path::PathBuf;

const EXAMPLES: &str = "\
Examples:
  wakeluri index ref.fa                     writes ref.fa.fai
  wakeluri check ref.fa                     is ref.fa.fai right for ref.fa?
  wakeluri check refs/                      of every file in a folder, a line for each
  wakeluri read ref.fa chr1:101-200         exactly those hundred bases
  wakeluri read ref.fa --regions sheet.txt  all regions of a sheet, or none
  wakeluri read --qualities reads.fq r1     bases and qualities of a read, as FASTQ
  wakeluri revcomp ref.fa chr1:101-200      their reverse complement
  wakeluri primer GARNTYC ref.fa            where a primer matches, on both strands
  wakeluri mend ref.fa chr1:1204 G          one base replaced in place; the index stays good
  wakeluri wrap ref.fa -w 60 -o new.fa      the file in lines of 60 bases
  wakeluri list ref.fa                      its records, with their descriptions
  wakeluri exercise chr1:101-200 -o drill   an exercise that asks for those bases
  wakeluri score ref.fa drill typed.txt     how much of it is right, of all that was asked

Status: 0 answered, 1 refused, 2 the command makes no sense, 3 a file can't be read or written.
After a refusal the last line on standard error is for a program: refused 17 (length 6)";

const INDEX_EXAMPLES: &str = "\
Examples:
  wakeluri index ref.fa               writes ref.fa.fai, as samtools would
  wakeluri index ref.fa -o other.fai  writes it elsewhere
  wakeluri index a.fa b.fa refs/      of several files, and of those in folders; all cores work
  zcat ref.fa.gz | wakeluri index -   of standard input, to standard output
  wakeluri index reads.fq             of FASTQ, which begins with '@': six columns, as samtools fqidx

Blank lines, and records without bases, are taken wherever an index can lead to every base, and counted. A file is refused only
if no index can fit it.
The index is written beside its place and put there in one step: a stop in the middle leaves the old one whole.
It never takes the place of the file that is read, under whatever name, nor that of another FASTA file.";

const CHECK_EXAMPLES: &str = "\
Examples:
  wakeluri check ref.fa                       with ref.fa.fai
  wakeluri check ref.fa old.fai               with another index, of any program; or -i old.fai
  wakeluri check ref.fa && sheet-maker ..     only if every base is where the index says
  zcat ref.fa.gz | wakeluri check - ref.fai   a file on standard input
  wakeluri check a.fa b.fa refs/              several files, and those in folders: a line for each, and a summary

Of several files each has its own index behind it (a name that ends in .fai) or beside it. In folders, and the folders in them, files
whose names end in .fa, .fasta, .fna, .ffn, .faa, .frn, .fas, .fsa, .fq or .fastq are taken. What is said of a file, good or bad, is a line on standard
output, and is the same whatever else is in the list. The status is the worst of all.";

const READ_EXAMPLES: &str = "\
Regions, counted from 1, both ends included, with commas or without:
  chr1              the whole record
  chr1:101-200      bases 101 to 200
  chr1:101          from base 101 to the end (as samtools has it), as chr1:101-
  chr1:-200         bases 1 to 200
  {chr1:alt}:5-9    a name in braces, for where a region can be read in two ways: it is refused without them

Examples:
  wakeluri read ref.fa chr1:1,000,001-1,000,100
  wakeluri read ref.fa --regions sheet.txt    a region to a line; all of them, or nothing
  wakeluri read ref.fa chr1 -o chr1.fa        to a file, which is there whole or not at all
  wakeluri read ref.fa --full-header          all records, with their descriptions
  wakeluri read --qualities reads.fq r1:1-50  of FASTQ: bases and qualities, as FASTQ
  zcat ref.fa.gz | wakeluri read - chr1:5-9

A line of a sheet: a region; behind it, if you like, a strand, of which - reads the reverse complement, and a label.
Without a region all records are read, whole.
With an index (ref.fa.fai, or --index) it is first checked with the whole file; without one, one is made in memory.
Nothing is written before all regions are known to be good.";

const LIST_EXAMPLES: &str = "\
Examples:
  wakeluri list ref.fa                name, length and description of each record
  wakeluri list ref.fa mitochondrion  those whose name or description holds this, in either case
  wakeluri list ref.fa --json         a JSON object for each

It needs no index. A record without a description has nothing behind its last tab.";

const WRAP_EXAMPLES: &str = "\
Examples:
  wakeluri wrap ref.fa --width 60 -o new.fa          every line has 60 bases, but the last of a record
  wakeluri wrap ref.fa --width 60 -o new.fa --index  and new.fa.fai beside it
  wakeluri wrap ref.fa > new.fa                      to standard output

Names and descriptions are kept; blank lines go. With --repair a line such as '> name' becomes '>name'. The new file reads back as the same records.
A file is written beside its place and put there in one step: a stop in the middle leaves the old one whole. It never takes the
place of the file that is read, nor of a file that is not FASTA.";

const COMPLEMENT_EXAMPLES: &str = "\
Examples:
  wakeluri complement ref.fa chr1:101-200  of a read
  wakeluri complement ref.fa               of every record
  echo ACGT | wakeluri complement          of bases on standard input, here: TGCA

Bases without a '>' line: one line, or --each-line, or --joined.";

const REVCOMP_EXAMPLES: &str = "\
Examples:
  wakeluri revcomp ref.fa chr1:101-200  of a read
  wakeluri revcomp ref.fa               of every record
  echo AACG | wakeluri revcomp          of bases on standard input, here: CGTT

Bases without a '>' line: one line, or --each-line, or --joined.";

const PRIMER_EXAMPLES: &str = "\
Examples:
  wakeluri primer GARNTYC ref.fa                  every place in every record, on both strands
  wakeluri primer GARNTYC ref.fa chr1:1-100,000   in a region
  wakeluri primer GARNTYC ref.fa --bed            as BED, for other tools
  wakeluri primer --count GARNTYC                 how many plain sequences it stands for, here: 8

A primer has 1 to 31 letters of ACGTU and MRWSYKVHDBN, the IUPAC codes; small ones too, and U is T. It is found where the bases of each
letter of the file lie among those of its letter: N is found by N alone. A gap, or another byte, is in no match.
A line has the record, the first and the last base counted from 1, the strand, and the bases as that strand has them. Places may overlap.";

const MEND_EXAMPLES: &str = "\
Examples:
  wakeluri mend ref.fa chr1:1204 G             base 1204 of chr1 becomes G
  wakeluri mend ref.fa chr1:1204 G --dry-run   says what would be done, and writes nothing

The index is checked with the file first, and stays as it is: it is proved that it fits the mended file too, and that only reads that
cover this base change. One byte of the file is written, in place. A line feed, a carriage return and '>' are refused.
While the byte is on its way a note stands beside the file, FILE.mend; after a crash it says whether the byte was written.";

const EXERCISE_EXAMPLES: &str = "\
Examples:
  wakeluri exercise chr1:101-200 -o drill              asks for a hundred bases, by edition 1
  wakeluri exercise chr1:101-200 --edition 2 -o drill  by edition 2, where N stands for any base
  wakeluri exercise --show drill                       what it asks

Both bounds are given, counted from 1, both ends included. Whether the record has so many bases is judged when an answer is scored.
Edition 1: a letter is right if it is the key's, in either case. Edition 2: also if each base that it stands for is one of the key's letter.";

const SCORE_EXAMPLES: &str = "\
Examples:
  wakeluri score ref.fa drill typed.txt            one answer
  wakeluri score ref.fa drill < typed.txt          from standard input
  wakeluri score ref.fa drill typed.txt --explain  key, typed and marks under each other
  wakeluri score ref.fa drill anna.txt ben.txt     one line each, for a spreadsheet
  wakeluri score ref.fa drill --answers class/     every file of a folder

The score is of all that was asked, whatever was typed: 49 right, of fifty typed, of a hundred asked, is 49.0 %. What is typed past the end counts
against it too. Where the file has not all of the bases that are asked, there is no score. Blanks and ends of lines are not typed bases.
With an index (ref.fa.fai, or --index) it is first checked with the whole file; without one, one is made in memory.";

pub fn file() -> Arg {
    Arg::new("file")
        .value_name("FILE")
        .help("the FASTA or FASTQ file; - is standard input")
        .value_parser(value_parser!(PathBuf))
        .value_hint(ValueHint::FilePath)
}

/// Files and folders; behind one file its index may stand.
fn files() -> Arg {
    Arg::new("files")
        .value_name("FILE")
        .help("the FASTA or FASTQ file, and its INDEX behind it; or several files and folders; - is standard input")
        .num_args(1..)
        .required(true)
        .value_parser(value_parser!(PathBuf))
        .value_hint(ValueHint::AnyPath)
}

fn each() -> Arg {
    flag("each").help("every word is a file or a folder, and none an index; a line for each, also of one file alone")
}

/// One file alone is judged, and what is said of it is the line that a list has for it.
pub const ALONE: &str = "--alone";

/// The word is known only where it is said by the command itself, right behind what is to be done: no completion has it.
fn alone(command: Command) -> Command {
    if std::env::args_os().nth(2).is_some_and(|word| word == ALONE) {
        command.arg(flag("alone").hide(true))
    } else {
        command
    }
}

/// The index by a word of its own.
fn index_option() -> Arg {
    Arg::new("index-option")
        .long("index")
        .short('i')
        .value_name("INDEX")
        .help("the index, if it isn't FILE.fai")
        .value_parser(value_parser!(PathBuf))
        .value_hint(ValueHint::FilePath)
}

pub fn flag(name: &'static str) -> Arg {
    Arg::new(name).long(name).action(ArgAction::SetTrue)
}

/// For files whose first byte does not say what they are.
fn fastq() -> Arg {
    flag("fastq").help("the file is FASTQ; without it a file is if it begins with '@'")
}

fn strict() -> Arg {
    flag("strict").help("take a file only if the lines of each record are alike but the last, as noodles-fasta does, and hold letters alone")
}

pub fn regions() -> Arg {
    Arg::new("region")
        .value_name("REGION")
        .help("name, name:5, name:5-, name:-9, name:5-9; before them an INDEX may stand, a file that ends in .fai")
        .num_args(0..)
        .value_parser(value_parser!(OsString))
}

fn reading(command: Command) -> Command {
    searching(command).arg(bed_sheet()).arg(
        Arg::new("width")
            .long("width")
            .short('w')
            .value_name("BASES")
            .help("bases to a line; 0 is all in one")
            .value_parser(value_parser!(usize))
            .default_value("60"),
    )
}

/// Said of a sheet.
fn bed_sheet() -> Arg {
    let help = "the sheet is BED: name, start from 0, end that is not included";
    Arg::new("bed-sheet").long("bed").action(ArgAction::SetTrue).help(help)
}

/// What regions are looked for in.
fn searching(command: Command) -> Command {
    command
        .arg(
            Arg::new("regions")
                .long("regions")
                .short('r')
                .value_name("SHEET")
                .help("a file with a region to a line; - is standard input")
                .value_parser(value_parser!(PathBuf))
                .value_hint(ValueHint::FilePath),
        )
        .arg(index_option())
        .arg(flag("unchecked").help("use the index as it is, without checking it with the file"))
        .arg(fastq())
        .arg(strict())
}

/// Where answers go.
pub fn output(name: &'static str, help: &'static str) -> Arg {
    Arg::new("output")
        .long("output")
        .short('o')
        .value_name(name)
        .help(help)
        .value_parser(value_parser!(PathBuf))
        .value_hint(ValueHint::FilePath)
}

fn full_header() -> Arg {
    flag("full-header").help("the description of the record too, behind the region")
}

fn turning(command: Command) -> Command {
    reading(command.arg(file().default_value("-")).arg(regions()))
        .arg(full_header())
        .arg(output("OUT", "where to, if not to standard output"))
        .arg(flag("each-line").help("of plain bases: each line is a sequence of its own").conflicts_with("joined"))
        .arg(flag("joined").help("of plain bases: all lines together are one sequence"))
        .arg(flag("rna").help("write U for the complement of A, and not T"))
}

/// All of them.
pub fn command() -> Command {
    let version = env!("CARGO_PKG_VERSION");
    let proved: &'static str = Box::leak(format!("{version}\nproved with {}", wakeluri::PROVED_WITH).into_boxed_str());
    Command::new("wakeluri")
        .about("Index, check and read FASTA and FASTQ files: exactly what was asked for, or a refusal that says why")
        .version(proved)
        .after_help(EXAMPLES)
        .subcommand_required(true)
        .arg_required_else_help(true)
        .arg(flag("quiet").short('q').global(true).help("no warnings, and no summary of what was written or accepted"))
        .arg(flag("json").global(true).help("a JSON object for each answer; a refusal is one too, on standard error"))
        .arg(
            Arg::new("input")
                .long("input")
                .global(true)
                .value_name("HOW")
                .help("map a regular file into memory, or read it; auto maps from 16 MiB on")
                .value_parser(PossibleValuesParser::new(["auto", "map", "read"]))
                .default_value("auto"),
        )
        .arg(
            Arg::new("threads")
                .long("threads")
                .global(true)
                .value_name("N")
                .help("at most N threads to index and check large FASTA files; 0, as without it, for all cores")
                .value_parser(value_parser!(usize))
                .default_value("0")
                .hide_default_value(true),
        )
        .subcommand(alone(
            Command::new("index")
                .about("Write the index of a file, in samtools' form, or say what is wrong and where")
                .after_help(INDEX_EXAMPLES)
                .arg(files())
                .arg(each())
                .arg(fastq())
                .arg(index_option().help("where to, as --output"))
                .arg(
                    output("INDEX", "where to, if not to FILE.fai; - is standard output")
                        .conflicts_with("index-option"),
                )
                .arg(
                    Arg::new("save")
                        .long("save")
                        .value_name("FILE")
                        .help("with -: index standard input as it arrives, and save it here on the way")
                        .value_parser(value_parser!(PathBuf))
                        .value_hint(ValueHint::FilePath),
                )
                .arg(strict()),
        ))
        .subcommand(alone(
            Command::new("check")
                .about(
                    "Accept an index of any program, exactly if it leads to every base of the file, and every quality",
                )
                .after_help(CHECK_EXAMPLES)
                .arg(files())
                .arg(each())
                .arg(fastq())
                .arg(index_option())
                .arg(flag("strict").help("refuse bytes among the bases that are no letters")),
        ))
        .subcommand(reading(
            Command::new("read")
                .about("Read exactly the bases of some regions, as FASTA; never fewer")
                .after_help(READ_EXAMPLES)
                .arg(file().required(true))
                .arg(regions())
                .arg(full_header())
                .arg(flag("qualities").help("of FASTQ: the qualities too, as FASTQ"))
                .arg(output("OUT", "where to, if not to standard output")),
        ))
        .subcommand(crate::faidx::command())
        .subcommand(crate::faidx::of_fastq())
        .subcommand(
            Command::new("list")
                .about("List the records of a file: name, length and description")
                .after_help(LIST_EXAMPLES)
                .arg(file().required(true))
                .arg(
                    Arg::new("pattern")
                        .value_name("TEXT")
                        .help("only records whose name or description holds this, letters of either case alike")
                        .value_parser(value_parser!(OsString)),
                )
                .arg(fastq())
                .arg(strict()),
        )
        .subcommand(
            Command::new("wrap")
                .about("Write a file anew, in lines of one width")
                .after_help(WRAP_EXAMPLES)
                .arg(file().required(true))
                .arg(
                    Arg::new("width")
                        .long("width")
                        .short('w')
                        .value_name("BASES")
                        .help("bases to a line")
                        .value_parser(value_parser!(u64))
                        .default_value("60"),
                )
                .arg(output("OUT", "where to, if not to standard output"))
                .arg(
                    Arg::new("index")
                        .long("index")
                        .value_name("INDEX")
                        .help("write the index of the new file too, to OUT.fai or to INDEX")
                        .num_args(0..=1)
                        .require_equals(true)
                        .default_missing_value("")
                        .value_parser(value_parser!(OsString))
                        .value_hint(ValueHint::FilePath),
                )
                .arg(flag("repair").help("take blanks out between '>' and a name")),
        )
        .subcommand(turning(
            Command::new("complement").about("The complement, of reads or of bases").after_help(COMPLEMENT_EXAMPLES),
        ))
        .subcommand(turning(
            Command::new("revcomp").about("The reverse complement, of reads or of bases").after_help(REVCOMP_EXAMPLES),
        ))
        .subcommand(
            searching(Command::new("primer"))
                .about("Find a primer with ambiguous letters on both strands, or count what it stands for")
                .after_help(PRIMER_EXAMPLES)
                .arg(
                    Arg::new("primer")
                        .value_name("PRIMER")
                        .help("1 to 31 letters")
                        .required(true)
                        .value_parser(value_parser!(OsString)),
                )
                .arg(file().required_unless_present("count"))
                .arg(regions())
                .arg(flag("bed").help("six columns of BED: positions from 0, the end not included"))
                .arg(
                    flag("count")
                        .help("say how many plain sequences the primer stands for; no file is read")
                        .conflicts_with_all(["file", "bed"]),
                ),
        )
        .subcommand(
            Command::new("mend")
                .about("Replace one base of a file in place; its index stays good")
                .after_help(MEND_EXAMPLES)
                .arg(file().help("the FASTA file").required(true))
                .arg(
                    Arg::new("region")
                        .value_name("NAME:POSITION")
                        .help("the record's name and the base, counted from 1")
                        .required(true)
                        .value_parser(value_parser!(OsString)),
                )
                .arg(
                    Arg::new("base")
                        .value_name("BASE")
                        .help("the new base, one byte")
                        .required(true)
                        .value_parser(value_parser!(OsString)),
                )
                .arg(index_option())
                .arg(flag("dry-run").help("say what would be done, and write nothing"))
                .arg(flag("strict").help("refuse a new base that is no letter")),
        )
        .subcommand(
            Command::new("exercise")
                .about("Write an exercise that asks for some bases, or show what one asks")
                .after_help(EXERCISE_EXAMPLES)
                .arg(
                    Arg::new("asked")
                        .value_name("NAME:START-END")
                        .help("what is asked; a name in braces, where it has a colon")
                        .required_unless_present("show")
                        .value_parser(value_parser!(OsString)),
                )
                .arg(
                    Arg::new("output")
                        .long("output")
                        .short('o')
                        .value_name("EXERCISE")
                        .help("where to, if not to standard output")
                        .value_parser(value_parser!(PathBuf))
                        .value_hint(ValueHint::FilePath),
                )
                .arg(
                    Arg::new("edition")
                        .long("edition")
                        .short('e')
                        .value_name("EDITION")
                        .help("the rule of what is right")
                        .value_parser(PossibleValuesParser::new(["1", "2"]))
                        .default_value("1"),
                )
                .arg(
                    Arg::new("show")
                        .long("show")
                        .value_name("EXERCISE")
                        .help("say what an exercise asks")
                        .conflicts_with_all(["asked", "output"])
                        .value_parser(value_parser!(PathBuf))
                        .value_hint(ValueHint::FilePath),
                ),
        )
        .subcommand(
            Command::new("score")
                .about("Score what was typed for an exercise, of all that was asked")
                .after_help(SCORE_EXAMPLES)
                .arg(file().required(true))
                .arg(
                    Arg::new("exercise")
                        .value_name("EXERCISE")
                        .help("the exercise, as `wakeluri exercise` writes it")
                        .required(true)
                        .value_parser(value_parser!(PathBuf))
                        .value_hint(ValueHint::FilePath),
                )
                .arg(
                    Arg::new("typed")
                        .value_name("TYPED")
                        .help("what was typed; - is standard input. Of several each has a line")
                        .num_args(0..)
                        .value_parser(value_parser!(PathBuf))
                        .value_hint(ValueHint::FilePath),
                )
                .arg(
                    Arg::new("answers")
                        .long("answers")
                        .short('a')
                        .value_name("FOLDER")
                        .help("every file of a folder, by its name, a line for each")
                        .value_parser(value_parser!(PathBuf))
                        .value_hint(ValueHint::DirPath),
                )
                .arg(flag("csv").help("lines for a spreadsheet, of one answer too"))
                .arg(
                    flag("explain").help("key, typed and marks under each other, ten to a block").conflicts_with("csv"),
                )
                .arg(index_option())
                .arg(flag("unchecked").help("use the index as it is, without checking it with the file"))
                .arg(fastq()),
        )
        .subcommand(Command::new("completions").hide(true).about("Write the completions of a shell").arg(
            Arg::new("shell").value_name("SHELL").required(true).value_parser(value_parser!(clap_complete::Shell)),
        ))
}
