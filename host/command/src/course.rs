//! Exercises written and shown, and answers scored.

use crate::failure::{Failure, Refused};
use crate::input::{self, Input};
use crate::json::Object;
use crate::nearest::nearest;
use crate::place::{commas, count, quoted, short};
use std::fmt::Write;
use std::fs;
use std::path::{Path, PathBuf};
use wakeluri::region::{self, Written};
use wakeluri::{Edition, Exercise, Refusal, Score, Table};

/// What is asked, as it is written in the words of the command: a name and two bounds.
#[derive(Clone, Copy, Debug)]
pub struct Asked<'r> {
    /// The name.
    pub name: &'r [u8],
    /// The first base.
    pub start: u64,
    /// The last base.
    pub end: u64,
}

impl<'r> Asked<'r> {
    /// A region with both its bounds, or why it is none.
    pub fn of(region: &'r [u8]) -> Result<Self, Failure> {
        let shown = short(region);
        let senseless = |why: &str| {
            Failure::Usage(format!("'{shown}': {why}; an exercise asks for NAME:START-END, as chr1:101-200"))
        };
        let reading = region::readings(region).find(|reading| reading.bounds.is_some());
        let Some((name, bounds)) = reading.and_then(|reading| Some((reading.name, reading.bounds?))) else {
            return Err(senseless("it has no bounds"));
        };
        let written = Written::of(bounds).map_err(|why| senseless(&why))?;
        let (Some(start), Some(end)) = (&written.start, &written.end) else {
            return Err(senseless("one of its bounds is missing"));
        };
        if written.senseless() {
            return Err(senseless("a bound is 0, or the start is after the end"));
        }
        match (start.value, end.value) {
            (Some(start), Some(end)) => Ok(Self { name, start, end }),
            _ => Err(senseless("a bound is over 18,446,744,073,709,551,615")),
        }
    }

    /// The bytes of the exercise.
    pub fn written(self, edition: Edition) -> Result<Vec<u8>, Failure> {
        wakeluri::write_exercise(self.name, self.start, self.end, edition)
            .map_err(|refusal| refused(refusal.words(), "", refusal, ""))
    }
}

fn refused(words: String, next: &str, refusal: Refusal, file: &str) -> Failure {
    Refused::of(file, words, next, refusal).into()
}

/// The rule of an edition, in words.
pub fn rule(edition: Edition) -> &'static str {
    match edition {
        Edition::First => "a letter is right if it is the key's, in either case",
        _ => "a letter is right if its bases lie among those of the key's letter",
    }
}

/// What an exercise says, or what is wrong with its bytes.
pub fn read(input: &Input) -> Result<Exercise<'_>, Failure> {
    let bytes = input.bytes();
    wakeluri::read_exercise(bytes).map_err(|refusal| {
        let words = format!("{}: {}", input.shown, refusal.words());
        let next = match (refusal.number, bytes) {
            (_, [] | [b'>', ..]) => "is it an exercise? `wakeluri exercise NAME:START-END -o FILE` writes one",
            (32 | 33, _) => "it may be made for a newer program: get that, or an exercise of edition 1 or 2",
            _ => "write it anew: `wakeluri exercise NAME:START-END -o FILE`",
        };
        refused(words, next, refusal, &input.shown)
    })
}

/// What an exercise asks, in words or as JSON.
pub fn shown(file: &str, exercise: Exercise<'_>, json: bool) -> String {
    let Exercise { name, start, end, edition, .. } = exercise;
    if json {
        let mut object = Object::new();
        object.text("exercise", file).bytes("name", name).number("start", start).number("end", end);
        if let Some(asked) = exercise.asked() {
            object.number("asked", asked);
        }
        return object.number("edition", edition.number()).line();
    }
    let asked = exercise.asked().map_or("none: its start is after its end".to_string(), |asked| count(asked, "base"));
    let (name, start, end) = (quoted(name), commas(start), commas(end));
    format!("{file}: {name}, bases {start} to {end} ({asked}), {edition}: {}\n", rule(edition))
}

/// What somebody typed, and the name it goes by.
#[derive(Debug)]
pub struct Typed {
    /// The name.
    pub name: String,
    /// The bases, without the white space between them.
    pub bases: Vec<u8>,
}

impl Typed {
    /// Bases as they stand in a file: blanks, tabs and ends of lines are none.
    pub fn of(name: String, input: &Input) -> Result<Self, Failure> {
        if input.bytes().first() == Some(&b'>') {
            let words = format!("{}: it begins with '>', and what was typed is bases alone", input.shown);
            return Err(Failure::Usage(words));
        }
        let bases = input.bytes().iter().copied().filter(|byte| !byte.is_ascii_whitespace()).collect();
        Ok(Self { name, bases })
    }
}

/// The files of a folder, by their names; those that begin with a point are passed over.
pub fn files_of(folder: &Path) -> Result<Vec<PathBuf>, Failure> {
    let shown = input::shown(folder);
    let failed = |error: std::io::Error| Failure::system("the folder can't be read", &shown, &error, "");
    let mut files = vec![];
    for item in fs::read_dir(folder).map_err(failed)? {
        let item = item.map_err(failed)?;
        let is_hidden = item.file_name().as_encoded_bytes().starts_with(b".");
        if !is_hidden && fs::metadata(item.path()).is_ok_and(|meta| meta.is_file()) {
            files.push(item.path());
        }
    }
    if files.is_empty() {
        return Err(Failure::Usage(format!("{shown}: there is no file in it")));
    }
    files.sort();
    Ok(files)
}

/// How scores are written.
#[derive(Clone, Copy, Debug, Eq, PartialEq)]
pub enum Form {
    /// In words.
    Text,
    /// A line for a spreadsheet.
    Csv,
    /// An object to a line.
    Json,
}

/// An exercise about a file, and its rows.
pub struct Drill<'d> {
    /// The file.
    pub fasta: &'d Input,
    /// Its rows.
    pub rows: &'d Table<'d>,
    /// The bytes of the exercise.
    pub exercise: &'d Input,
    /// What they say.
    pub asked: Exercise<'d>,
}

/// The columns of a line for a spreadsheet.
pub const COLUMNS: &str = "answer,percent,right,wrong,missing,surplus,asked,edition\n";

impl Drill<'_> {
    /// The score of what somebody typed and the key, or why there is none.
    pub fn score(&self, typed: &Typed) -> Result<(Score, Vec<u8>), Failure> {
        self.rows
            .score_with_key(self.fasta.bytes(), self.exercise.bytes(), &typed.bases)
            .map_err(|refusal| self.not_scored(refusal))
    }

    fn region(&self) -> String {
        format!("{}, bases {} to {}", short(self.asked.name), commas(self.asked.start), commas(self.asked.end))
    }

    fn not_scored(&self, refusal: Refusal) -> Failure {
        let (file, exercise) = (&self.fasta.shown, &self.exercise.shown);
        let (words, next) = match refusal.number {
            15 => {
                let name = short(self.asked.name);
                let names = nearest(self.asked.name, self.rows.records().map(|record| record.name));
                let near: Vec<String> = names.into_iter().map(short).collect();
                let next = if near.is_empty() {
                    format!("`wakeluri list {}` shows the names", self.fasta.given())
                } else {
                    format!("names like it: {}", near.join(", "))
                };
                (format!("{file}: {exercise} is about '{name}', and no record has that name"), next)
            }
            17 => (
                format!(
                    "{file}: {exercise} asks for {}, and the record has {}: there is no whole key, and no score",
                    self.region(),
                    count(refusal.first, "base")
                ),
                "nobody can type what is not there: write the exercise anew".to_string(),
            ),
            16 => (
                format!("{exercise}: it asks for {}: a bound is 0, or the start is after the end", self.region()),
                "write the exercise anew".to_string(),
            ),
            _ => (format!("{file}, {exercise}: {}", refusal.words()), String::new()),
        };
        refused(words, &next, refusal, file)
    }

    /// One score as it is written. With `explain`, the key, what was typed and the marks under each other.
    pub fn told(&self, typed: &Typed, form: Form, explain: bool) -> Result<String, Failure> {
        let (score, key) = self.score(typed)?;
        let Score { right, wrong, missing, surplus, .. } = score;
        let Exercise { name, start, end, edition, .. } = self.asked;
        Ok(match form {
            Form::Csv => {
                let percent = format!("{}.{}", score.score / 10, score.score % 10);
                let (answer, asked, edition) = (cell(&typed.name), score.asked(), edition.number());
                format!("{answer},{percent},{right},{wrong},{missing},{surplus},{asked},{edition}\n")
            }
            Form::Json => {
                let mut object = Object::new();
                object.text("answer", &typed.name).text("exercise", &self.exercise.shown);
                object.bytes("name", name).number("start", start).number("end", end);
                object.number("edition", edition.number()).number("asked", score.asked());
                object.number("right", right).number("wrong", wrong).number("missing", missing);
                object.number("surplus", surplus).number("tenths_of_a_percent", score.score);
                if explain {
                    object.bytes("key", &key).bytes("typed", &typed.bases);
                    object.bytes("marks", &marks(&key, &typed.bases, edition)?);
                }
                object.line()
            }
            Form::Text => {
                let counts = [(right, "right"), (wrong, "wrong"), (missing, "missing"), (surplus, "surplus")];
                let counts = counts.map(|(number, what)| format!("{} {what}", commas(number))).join(", ");
                let asked = commas(score.asked());
                let told = format!("{}: {score} of {asked} asked ({counts}), by {edition}\n", self.region());
                if !explain {
                    return Ok(told);
                }
                told + "\n" + &explained(&key, &typed.bases, start, edition)?
            }
        })
    }
}

/// A text as a cell of a spreadsheet: one that would be taken for a formula is kept from it.
fn cell(text: &str) -> String {
    let text = if text.starts_with(['=', '+', '-', '@', '\t', '\r']) { format!("'{text}") } else { text.to_string() };
    if text.contains([',', '"', '\n', '\r']) { format!("\"{}\"", text.replace('"', "\"\"")) } else { text }
}

/// Right as the same letter; right by the bases that it stands for; wrong; nothing typed; typed past the key.
const SAME: u8 = b'|';
const INSIDE: u8 = b':';
const WRONG: u8 = b'x';
const MISSING: u8 = b'-';
const SURPLUS: u8 = b'+';

const LEGEND: [(u8, &str); 5] = [
    (SAME, "the same letter"),
    (INSIDE, "right: its bases lie among those of the key's letter"),
    (WRONG, "wrong"),
    (MISSING, "missing"),
    (SURPLUS, "past the end of what was asked"),
];

/// A mark for each place of the key, and of what was typed past it. Each is what the proved code says of the two letters alone.
fn marks(key: &[u8], typed: &[u8], edition: Edition) -> Result<Vec<u8>, Failure> {
    let mark = |place: usize| {
        let Some(key) = key.get(place) else { return Ok(SURPLUS) };
        let Some(typed) = typed.get(place) else { return Ok(MISSING) };
        let right = |edition| wakeluri::score_typed(&[*key], &[*typed], edition).map(|score| score.right == 1);
        Ok(if right(Edition::First)? {
            SAME
        } else if right(edition)? {
            INSIDE
        } else {
            WRONG
        })
    };
    let marks: Result<Vec<u8>, Refusal> = (0..key.len().max(typed.len())).map(mark).collect();
    marks.map_err(|refusal| refused(refusal.words(), "", refusal, ""))
}

/// So many letters to a block, and blocks to a line.
const BLOCK: usize = 10;
const BLOCKS: usize = 6;

/// The key, what was typed and the marks under each other, ten to a block, with the base position at the front.
fn explained(key: &[u8], typed: &[u8], start: u64, edition: Edition) -> Result<String, Failure> {
    let marks = marks(key, typed, edition)?;
    let line = BLOCK * BLOCKS;
    let last = start.saturating_add(marks.len() as u64);
    let width = commas(last).len().max("typed".len());
    let mut told = String::new();
    for from in (0..marks.len()).step_by(line) {
        let part = |letters: &[u8]| {
            let letters = letters.get(from..).unwrap_or_default();
            let letters = letters.get(..letters.len().min(line)).unwrap_or_default();
            let blocks: Vec<String> = letters.chunks(BLOCK).map(visible).collect();
            blocks.join(" ")
        };
        let position = if from < key.len() { commas(start + from as u64) } else { String::new() };
        for (label, letters) in [(position.as_str(), part(key)), ("typed", part(typed)), ("", part(&marks))] {
            let _ = writeln!(told, "{}", format!("{label:>width$}  {letters}").trim_end());
        }
        told.push('\n');
    }
    for (mark, means) in LEGEND.into_iter().filter(|(mark, _)| marks.contains(mark)) {
        let _ = writeln!(told, "{:>width$}  {means}", char::from(mark));
    }
    let _ = writeln!(told, "{edition}: {}", rule(edition));
    Ok(told)
}

/// Letters as they can be seen, one for each.
fn visible(letters: &[u8]) -> String {
    letters.iter().map(|letter| if letter.is_ascii_graphic() { char::from(*letter) } else { '?' }).collect()
}

#[cfg(test)]
mod tests {
    use super::*;

    #[test]
    fn regions_of_exercises() {
        for (region, means) in [
            ("chr1:101-200", Some((&b"chr1"[..], 101, 200))),
            ("chr1:1,001-2,000", Some((b"chr1", 1001, 2000))),
            ("{a:b}:5-9", Some((b"a:b", 5, 9))),
            ("a:b:5-9", Some((b"a:b", 5, 9))),
            (":5-9", Some((b"", 5, 9))),
            ("chr1:7-7", Some((b"chr1", 7, 7))),
            ("chr1", None),
            ("chr1:5", None),
            ("chr1:5-", None),
            ("chr1:-5", None),
            ("chr1:0-5", None),
            ("chr1:9-5", None),
            ("chr1:x-5", None),
            ("chr1:1-18446744073709551616", None),
        ] {
            let asked = Asked::of(region.as_bytes()).ok().map(|asked| (asked.name, asked.start, asked.end));
            assert_eq!(asked, means, "{region}");
        }
    }

    #[test]
    fn cells() {
        for (text, shown) in
            [("anna.txt", "anna.txt"), ("a,b", "\"a,b\""), ("a\"b", "\"a\"\"b\""), ("=1+1", "'=1+1"), ("-x", "'-x")]
        {
            assert_eq!(cell(text), shown);
        }
    }

    #[test]
    fn marks_of_each_kind() {
        let told = |edition| marks(b"ANTR[", b"acUy[GG", edition).map(|marks| String::from_utf8(marks).unwrap());
        assert_eq!(told(Edition::First).ok().as_deref(), Some("|xxx|++"));
        assert_eq!(told(Edition::Second).ok().as_deref(), Some("|::x|++"));
        assert_eq!(marks(b"ACG", b"a", Edition::First).ok().as_deref(), Some(&b"|--"[..]));
    }
}
