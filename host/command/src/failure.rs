//! How the command ends where it can't answer: in words that say what to do next, then a line for a program, and a status.

use crate::json::Object;
use wakeluri::Refusal;

/// Why there is no answer.
#[derive(Debug)]
pub enum Failure {
    /// The proved code refused. Status 1.
    Refused(Box<Refused>),
    /// The words of the command make no sense together. Status 2.
    Usage(String),
    /// A region whose bounds can't be read, or a line of a sheet that is no region. Status 2.
    Unreadable(Box<Unreadable>),
    /// With `--strict`: bytes that are no letters. Status 1.
    NotLetters(Box<NotLetters>),
    /// All that is wrong with the regions that were asked for; never none. The worst status of them.
    Several(Vec<Failure>),
    /// A file, a pipe or the disk. Status 3.
    InputOutput {
        /// What happened, with the file's name.
        words: String,
        /// What to do next.
        next: String,
    },
    /// All is said already, and this is the status.
    Told(u8),
    /// There is nobody to speak to: the reader of the answer has gone, or words would be written to an input. Status 3.
    Gone,
}

/// A refusal with all that a person wants to know of it.
#[derive(Debug)]
pub struct Refused {
    /// What was asked and what is there, with the file, line and byte.
    pub words: String,
    /// The line at fault, with a caret under the byte; nothing if no line is shown.
    pub shown: String,
    /// What to do next.
    pub next: String,
    /// The number and its two numbers.
    pub refusal: Refusal,
    /// The file, if one is at fault.
    pub file: String,
    /// The line of the file, counted from 1, and the byte, from 0, if one is at fault.
    pub place: Option<(u64, u64)>,
    /// The region that was asked for.
    pub region: Option<String>,
    /// The sheet that it stands in, and its line.
    pub sheet: Option<(String, u64)>,
}

impl Refused {
    /// A refusal about a file, or about none, without a line, a region or a sheet.
    pub fn of(file: &str, words: String, next: impl Into<String>, refusal: Refusal) -> Self {
        let (shown, next, file) = (String::new(), next.into(), file.to_string());
        Self { words, shown, next, refusal, file, place: None, region: None, sheet: None }
    }
}

impl From<Refused> for Failure {
    fn from(refused: Refused) -> Self {
        Self::Refused(Box::new(refused))
    }
}

/// Bytes among the bases that are no letters.
#[derive(Debug)]
pub struct NotLetters {
    /// Which, and where.
    pub words: String,
    /// What to do next.
    pub next: String,
    /// The file.
    pub file: String,
    /// The line of the first and the place in it, from 1.
    pub place: (u64, u64),
}

/// A region in words that make no sense.
#[derive(Debug)]
pub struct Unreadable {
    /// What was asked for, and why it can't be read.
    pub words: String,
    /// What to write.
    pub next: String,
    /// The file, if it was opened.
    pub file: Option<String>,
    /// The region.
    pub region: Vec<u8>,
    /// The sheet that it stands in, and its line.
    pub sheet: Option<(String, u64)>,
}

/// What to do next where the words make no sense.
const EXAMPLES: &str = "`wakeluri --help` has examples";

impl Failure {
    /// What is wrong with the words of the command, as an object.
    pub fn usage_object(words: &str, next: &str) -> String {
        Object::new().number("status", 2).text("words", words).text("next", next).line()
    }

    /// An input or output error of the system about a file.
    pub fn system(doing: &str, file: &str, error: &std::io::Error, next: &str) -> Self {
        if error.kind() == std::io::ErrorKind::BrokenPipe {
            return Self::Gone;
        }
        // the system's words without "(os error 28)"
        let said = error.to_string();
        let said = said.split(" (os error").next().unwrap_or_default();
        Self::InputOutput { words: format!("{file}: {doing} ({said})"), next: next.to_string() }
    }

    /// The status that the command ends with.
    pub fn status(&self) -> u8 {
        match self {
            Self::Refused(_) | Self::NotLetters(_) => 1,
            Self::Usage(_) | Self::Unreadable(_) => 2,
            Self::Several(all) => all.iter().map(Self::status).max().unwrap_or(3),
            Self::Told(status) => *status,
            Self::InputOutput { .. } | Self::Gone => 3,
        }
    }

    /// What stands on standard error.
    pub fn told(&self, json: bool) -> String {
        let status = u64::from(self.status());
        match self {
            Self::Gone | Self::Told(_) => String::new(),
            Self::NotLetters(found) => {
                let NotLetters { words, next, file, place: (line, column) } = &**found;
                let code = format!("refused by --strict (line {line}, column {column})");
                if !json {
                    return format!("wakeluri: {words}\n{}{code}\n", indented(next));
                }
                let mut object = Object::new();
                object.number("status", status).text("file", file).number("line", *line).number("column", *column);
                object.text("words", words).text("next", next).text("code", &code).line()
            }
            Self::Several(all) => all.iter().map(|failure| failure.told(json)).collect(),
            Self::Unreadable(unreadable) if json => {
                let Unreadable { words, next, file, region, sheet } = &**unreadable;
                let mut object = Object::new();
                object.number("status", status);
                if let Some(file) = file {
                    object.text("file", file);
                }
                object.bytes("region", region);
                if let Some((sheet, line)) = sheet {
                    object.text("sheet", sheet).number("sheet_line", *line);
                }
                object.text("words", words).text("next", next).line()
            }
            Self::Unreadable(unreadable) => format!("wakeluri: {}\n{}", unreadable.words, indented(&unreadable.next)),
            Self::Refused(refused) if json => {
                let Refused { words, shown: _, next, refusal, file, place, region, sheet } = &**refused;
                let mut object = Object::new();
                object.number("status", status);
                if !file.is_empty() {
                    object.text("file", file);
                }
                if let Some(region) = region {
                    object.text("region", region);
                }
                if let Some((sheet, line)) = sheet {
                    object.text("sheet", sheet).number("sheet_line", *line);
                }
                object
                    .number("refused", refusal.number)
                    .number("first", refusal.first)
                    .number("second", refusal.second);
                if let Some((line, byte)) = place {
                    object.number("line", *line).number("byte", *byte);
                }
                object.text("words", words).text("next", next).text("code", &refusal.code());
                object.line()
            }
            Self::Refused(refused) => {
                let Refused { words, shown, next, refusal, .. } = &**refused;
                format!("wakeluri: {words}\n{}{}{}\n", indented(shown), indented(next), refusal.code())
            }
            Self::Usage(words) if json => Self::usage_object(words, EXAMPLES),
            Self::InputOutput { words, next } if json => {
                Object::new().number("status", status).text("words", words).text("next", next).line()
            }
            Self::Usage(words) => format!("wakeluri: {words}\n  {EXAMPLES}\n"),
            Self::InputOutput { words, next } => format!("wakeluri: {words}\n{}", indented(next)),
        }
    }
}

fn indented(next: &str) -> String {
    next.lines().map(|line| format!("  {line}\n")).collect()
}
