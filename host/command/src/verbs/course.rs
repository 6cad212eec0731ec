//! `wakeluri exercise` and `wakeluri score`.

use crate::beside::{index_of, open_index, rows_of};
use crate::course::{self, Drill, Typed};
use crate::failure::Failure;
use crate::input::{self, How, is_placeless, is_standard};
use crate::place;
use crate::words::{Common, output_of, path, report, write};
use crate::work::Rule;
use clap::ArgMatches;
use std::ffi::OsString;
use std::os::unix::ffi::OsStrExt;
use std::path::{Path, PathBuf};
use wakeluri::Edition;

/// Writes an exercise, or shows one.
pub fn exercise(words: &ArgMatches, common: Common) -> Result<(), Failure> {
    if let Some(shown) = path(words, "show") {
        let input = common.open(shown, How::Read)?;
        return write(course::shown(&input.shown, course::read(&input)?, common.json).as_bytes());
    }
    let asked = words.get_one::<OsString>("asked").map(|asked| asked.as_bytes()).unwrap_or_default();
    let asked = course::Asked::of(asked)?;
    let second = words.get_one::<String>("edition").is_some_and(|edition| edition == "2");
    let edition = if second { Edition::Second } else { Edition::First };
    let output = output_of(words)?;
    if common.json && output.is_standard() {
        return Err(Failure::Usage(
            "the exercise itself is written to standard output: --json needs --output EXERCISE".to_string(),
        ));
    }
    output.free_for_exercise()?;
    let bytes = asked.written(edition)?;
    output.fill("exercise", &mut |to| to.write_all(&bytes))?;
    let (Some(place), Ok(written)) = (output.path(), wakeluri::read_exercise(&bytes)) else { return Ok(()) };
    report(course::shown(&input::shown(place), written, common.json).as_bytes())
}

/// What was typed: by those who are named, or all in a folder.
fn all_typed(words: &ArgMatches, common: Common) -> Result<Vec<Typed>, Failure> {
    let named: Vec<&Path> = words.get_many::<PathBuf>("typed").unwrap_or_default().map(PathBuf::as_path).collect();
    let mut places: Vec<PathBuf> = named.into_iter().map(Path::to_path_buf).collect();
    if let Some(folder) = path(words, "answers") {
        places.extend(course::files_of(folder)?);
    } else if places.is_empty() {
        places.push(PathBuf::from("-"));
    }
    let read = |place: PathBuf| {
        let name = if is_standard(&place) { None } else { place.file_name() };
        let name = name.map_or_else(|| input::shown(&place), |name| place::quoted(name.as_bytes()));
        Typed::of(name, &common.open(&place, How::Read)?)
    };
    places.into_iter().map(read).collect()
}

/// Scores what was typed against the bases of a region.
pub fn score(words: &ArgMatches, common: Common) -> Result<(), Failure> {
    let file = path(words, "file").unwrap_or(Path::new("-"));
    let exercise = path(words, "exercise").unwrap_or(Path::new("-"));
    let named = words.get_many::<PathBuf>("typed").unwrap_or_default().count();
    let is_folder = words.contains_id("answers");
    let several = named > 1 || is_folder;
    let of_standard_input = [file, exercise].into_iter().chain(path(words, "index-option"));
    let typed = words.get_many::<PathBuf>("typed").unwrap_or_default().map(PathBuf::as_path);
    let typed = typed.chain((named == 0 && !is_folder).then_some(Path::new("-")));
    if of_standard_input.chain(typed).filter(|path| is_standard(path)).count() > 1 {
        return Err(Failure::Usage(
            "two of the file, its index, the exercise and what was typed can't come from standard input".to_string(),
        ));
    }
    let explain = words.get_flag("explain");
    if explain && several {
        return Err(Failure::Usage("--explain is said of one answer".to_string()));
    }
    if common.json && words.get_flag("csv") {
        return Err(Failure::Usage("--json and --csv are two forms: say which".to_string()));
    }
    let form = match (common.json, several || words.get_flag("csv")) {
        (true, _) => course::Form::Json,
        (false, true) => course::Form::Csv,
        (false, false) => course::Form::Text,
    };
    let exercise = common.open(exercise, How::Read)?;
    let asked = course::read(&exercise)?;
    let typed = all_typed(words, common)?;
    let fasta = common.open(file, common.how)?;
    let index = match path(words, "index-option") {
        Some(index) => Some(open_index(index, &fasta, common)?),
        None if is_placeless(file) || !index_of(file).exists() => None,
        None => Some(open_index(&index_of(file), &fasta, common)?),
    };
    let rows = rows_of(words, &fasta, index.as_ref(), Rule::Complete)?;
    let drill = Drill { fasta: &fasta, rows: &rows, exercise: &exercise, asked };
    // all of them, or nothing
    let mut answer = if form == course::Form::Csv { course::COLUMNS.to_string() } else { String::new() };
    for typed in &typed {
        answer += &drill.told(typed, form, explain)?;
    }
    fasta.unchanged()?;
    write(answer.as_bytes())
}
