//! Understands the words that the command was given, or says what is wrong with them; with `--json` in JSON. And the completions of a shell.

use crate::arguments;
use crate::colour;
use crate::failure::Failure;
use crate::json::Object;
use crate::place::seen;
use crate::warning;
use crate::words::write;
use clap::ArgMatches;
use clap::error::{Error, ErrorKind};
use std::ffi::OsString;
use std::io::Write;
use std::process::ExitCode;

/// The words understood, or how the command ends without them.
pub fn understood(words: &[OsString]) -> Result<ArgMatches, ExitCode> {
    // what follows a -- is a file or a region
    let before = || words.iter().skip(1).take_while(|word| *word != "--");
    warning::say_in_json(before().any(|word| word == "--json"));
    arguments::command().try_get_matches_from(words).map_err(|error| said(&error))
}

/// Help, the version, or what is wrong with the words.
fn said(error: &Error) -> ExitCode {
    let text = error.to_string();
    let asked_for = match error.kind() {
        ErrorKind::DisplayHelp => Some("help"),
        ErrorKind::DisplayVersion => Some("version"),
        _ => None,
    };
    let _ = match asked_for {
        Some(key) if warning::in_json() => {
            std::io::stdout().write_all(Object::new().text(key, text.trim_end()).line().as_bytes())
        }
        None if warning::in_json() => std::io::stderr().write_all(in_json(&text).as_bytes()),
        None => std::io::stderr().write_all(colour::of_messages(seen(&text)).as_bytes()),
        Some(_) => error.print(),
    };
    ExitCode::from(if asked_for.is_some() { 0 } else { 2 })
}

/// What is wrong, as an object: the first paragraph says it, and the rest what to do.
fn in_json(text: &str) -> String {
    let text = text.strip_prefix("error: ").unwrap_or(text).trim_end();
    let (words, next) = text.split_once("\n\n").unwrap_or((text, ""));
    Failure::usage_object(words, next)
}

/// Writes the completions for a shell.
pub fn completions(words: &ArgMatches) -> Result<(), Failure> {
    if warning::in_json() {
        return Err(Failure::Usage("completions are a script for a shell: leave out --json".to_string()));
    }
    let mut text = vec![];
    if let Some(shell) = words.get_one::<clap_complete::Shell>("shell") {
        clap_complete::generate(*shell, &mut arguments::command(), "wakeluri", &mut text);
    }
    write(&text)
}
