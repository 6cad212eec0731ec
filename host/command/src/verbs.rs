//! The commands: what the words behind each ask for, and what is done. A file for each, or for a few that belong together.

mod check;
mod complement;
mod course;
pub mod index;
mod list;
mod mend;
mod primer;
pub mod read;
mod regions;
mod remarks;
mod wrap;

use crate::faidx::faidx;
use crate::failure::Failure;
use crate::read::Turn;
use crate::usage::completions;
use crate::words::Common;
use clap::ArgMatches;

/// Does what the words ask for.
pub fn run(matches: &ArgMatches, common: Common) -> Result<(), Failure> {
    match matches.subcommand() {
        Some(("index", words)) => index::index(words, common),
        Some(("check", words)) => check::check(words, common),
        Some(("read", words)) => read::read(words, common),
        Some(("faidx" | "fqidx", words)) => faidx(words, common),
        Some(("complement", words)) => complement::complement(words, Turn::Complement, common),
        Some(("revcomp", words)) => complement::complement(words, Turn::Reverse, common),
        Some(("list", words)) => list::list(words, common),
        Some(("wrap", words)) => wrap::wrap(words, common),
        Some(("primer", words)) => primer::primer(words, common),
        Some(("mend", words)) => mend::mend(words, common),
        Some(("exercise", words)) => course::exercise(words, common),
        Some(("score", words)) => course::score(words, common),
        Some(("completions", words)) => completions(words),
        _ => Err(Failure::Usage("there is no such command".to_string())),
    }
}
