//! The words of a command line that several commands have, and where what a command says goes.

use crate::apart::Outputs;
use crate::failure::Failure;
use crate::input::{How, Input};
use crate::output::{Answers, Output};
use crate::warning;
use crate::work::Rule;
use clap::ArgMatches;
use std::path::{Path, PathBuf};

/// What every command has: some words, and the outputs that no input may be.
#[derive(Clone, Copy)]
pub struct Common<'o> {
    /// How files are opened.
    pub how: How,
    /// Whether answers are JSON.
    pub json: bool,
    /// Where the command writes to.
    pub outputs: Outputs<'o>,
}

impl Common<'_> {
    /// Opens an input that is none of the outputs.
    pub fn open(self, path: &Path, how: How) -> Result<Input, Failure> {
        Input::open(path, how, self.json, &self.outputs)
    }
}

/// The file that a word names.
pub fn path<'m>(words: &'m ArgMatches, name: &str) -> Option<&'m Path> {
    words.get_one::<PathBuf>(name).map(PathBuf::as_path)
}

/// Whether a word is said; not every command has it.
pub fn said(words: &ArgMatches, word: &str) -> bool {
    words.try_get_one::<bool>(word).ok().flatten().copied().unwrap_or(false)
}

/// The rule for a file without an index.
pub fn rule(words: &ArgMatches) -> Rule {
    if said(words, "strict") { Rule::Strict } else { Rule::Complete }
}

/// Where answers go.
pub fn output_of(words: &ArgMatches) -> Result<Output, Failure> {
    path(words, "output").map_or(Ok(Output::Standard), Output::of)
}

/// A summary of what was done, if somebody wants it.
pub fn report(text: &[u8]) -> Result<(), Failure> {
    if warning::is_quiet() { Ok(()) } else { write(text) }
}

/// Writes an answer to standard output.
pub fn write(text: &[u8]) -> Result<(), Failure> {
    let mut answers = Answers::new();
    answers.write(text)?;
    answers.done()
}
