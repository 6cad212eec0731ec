//! What is wrong with a file or an index, in words, with its line and byte. The proved code has refused by then.

use crate::advice;
use crate::failure::{Failure, Refused};
use crate::fastq_faults;
use crate::input::Input;
use crate::place::{self, Line, commas, count, short};
use crate::warning::Warning;
use wakeluri::{Record, Refusal, Table};

/// A refusal about a line of a file, or about all of it.
pub fn refused(file: &str, line: Option<Line>, what: &str, next: String, refusal: Refusal) -> Failure {
    let place = line.map(|line| (line.number, line.start as u64));
    let words = match place {
        Some((line, byte)) => format!("{file}, line {} (byte {}): {what}", commas(line), commas(byte)),
        None => format!("{file}: {what}"),
    };
    Refused { place, ..Refused::of(file, words, next, refusal) }.into()
}

/// A definition line that does not read: where, by the proved code's own offset, and the line with a caret there.
pub fn refused_definition(input: &Input, line: Line, offset: u64, refusal: Refusal) -> Failure {
    let text = place::text(input.bytes(), line);
    let form = if input.is_fastq() { &FASTQ } else { &FASTA };
    bad_definition(&input.shown, form, (line, text), offset, refusal, |next| advice::or_anew(next, input))
}

/// The form of a file, for messages: its name, and the byte that a definition line begins with.
#[derive(Debug, Eq, PartialEq)]
pub struct Form {
    name: &'static str,
    mark: char,
}

/// FASTA.
pub const FASTA: Form = Form { name: "FASTA", mark: '>' };
/// FASTQ.
pub const FASTQ: Form = Form { name: "FASTQ", mark: '@' };

/// The same of a line whose bytes are at hand, or of a long one its front.
pub fn bad_definition(
    file: &str,
    form: &Form,
    (line, text): (Line, &[u8]),
    offset: u64,
    refusal: Refusal,
    advice: impl FnOnce(&str) -> String,
) -> Failure {
    let (what, next) = what_is_bad(form, (line, text), refusal.number);
    let next = advice(&next);
    let words = format!("{file}, line {} (byte {}): {what}", commas(line.number), commas(offset));
    let shown = place::pointed(text, offset.saturating_sub(line.start as u64), columns());
    let place = Some((line.number, offset));
    Refused { shown, place, ..Refused::of(file, words, next, refusal) }.into()
}

/// How wide the screen is that messages go to; 80 if nobody says.
fn columns() -> usize {
    let mut size = libc::winsize { ws_row: 0, ws_col: 0, ws_xpixel: 0, ws_ypixel: 0 };
    // SAFETY: the call fills the struct, or leaves it.
    let told = unsafe { libc::ioctl(libc::STDERR_FILENO, libc::TIOCGWINSZ, &raw mut size) };
    let by_name = || std::env::var("COLUMNS").ok().and_then(|columns| columns.parse().ok());
    let by_screen = (told == 0 && size.ws_col > 0).then_some(usize::from(size.ws_col));
    by_screen.or_else(by_name).unwrap_or(80)
}

/// What is likely wrong where a file is one line.
pub const CR_ALONE: &str = "the lines of the file end in CR alone, so that all of it is one line";
/// What to do about it.
pub const LF_ENDS: &str = "save it with LF at the ends of its lines, or with CR and LF";

/// Whether CR stands inside a line, and not just at its end.
pub fn has_cr_inside(line: &[u8]) -> bool {
    line.trim_ascii_end().contains(&b'\r')
}

/// What is likely wrong with a file though it is taken: it has one record, without bases, whose definition line, the file's first, holds CR.
pub fn lines_of_cr<'f>(file: &'f str, rows: &Table<'_>, first_line: &[u8]) -> Option<Warning<'f>> {
    let record = rows.records().next().filter(|record| rows.len() == 1 && record.length == 0)?;
    has_cr_inside(first_line).then(|| {
        let words = format!("{file}: {} has no bases: {CR_ALONE}", short(record.name));
        Warning { next: LF_ENDS.to_string(), ..Warning::new(file, words) }
    })
}

/// A refusal to write a line anew, in words.
pub fn not_wrapped(fasta: &Input, line: Line, refusal: Refusal) -> Failure {
    let file = fasta.bytes();
    let text = place::text(file, line);
    let (what, next) = match (refusal.number, text.iter().position(|byte| matches!(byte, b'>' | b'\r'))) {
        (2..=4, _) => return refused_definition(fasta, line, line.start as u64 + refusal.first, refusal),
        (30, Some(place)) => (
            format!(
                "base {} of the line is a '>' or a carriage return, which would not read back from lines of another width",
                commas(place as u64 + 1)
            ),
            "nothing was written: take it out first".to_string(),
        ),
        _ => (refusal.words(), String::new()),
    };
    refused(&fasta.shown, Some(line), &what, next, refusal)
}

/// A file that some program has packed, and how to unpack it.
fn packed(program: &str, unpack: &str, needed: &str) -> (String, String) {
    (
        format!("this is a compressed file (of {program}), and {needed} text is needed"),
        format!("unpack it first: `{unpack} FILE | wakeluri .. -`"),
    )
}

/// A line that should be a definition line.
fn what_is_bad(form: &Form, (line, text): (Line, &[u8]), number: u64) -> (String, String) {
    let Form { name, mark } = form;
    // a packed file may hold either
    let needed = if *form == FASTQ { "FASTQ" } else { "FASTA or FASTQ" };
    match (number, text) {
        (3, [0x1f, 0x8b, ..]) => (
            format!("this is a compressed file, and {needed} text is needed"),
            "unpack it first: `gzip -dc FILE | wakeluri .. -`".to_string(),
        ),
        (3, [b'B', b'Z', b'h', ..]) => packed("bzip2", "bzip2 -dc", needed),
        (3, [0xfd, b'7', b'z', b'X', b'Z', ..]) => packed("xz", "xz -dc", needed),
        (3, [0x28, 0xb5, 0x2f, 0xfd, ..]) => packed("zstd", "zstd -dc", needed),
        (3, [b'P', b'K', 3, 4, ..]) => packed("zip", "unzip -p", needed),
        (3, [0xef, 0xbb, 0xbf, ..]) => (
            format!("three bytes that some editors put before a text (EF BB BF) stand before the first '{mark}'"),
            "save the file as UTF-8 without a byte order mark".to_string(),
        ),
        (3, [0xff, 0xfe, ..] | [0xfe, 0xff, ..]) => (
            format!("this is text of two bytes to a letter (UTF-16), and {name} has one"),
            "save the file as plain text, or as UTF-8 without a byte order mark".to_string(),
        ),
        (3, [b'>', ..]) if line.start == 0 => {
            ("this is a FASTA file, and a FASTQ file begins with '@'".to_string(), "leave out --fastq".to_string())
        }
        (3, text) => {
            let shown = text.get(..text.len().min(20)).unwrap_or_default().trim_ascii_end();
            let or = if *form == FASTQ { "" } else { " (in FASTQ '@name')" };
            let next = match (*form == FASTQ, line.start) {
                (false, _) => "is it a FASTA file? or a FASTQ file?",
                (true, 0) => "is it a FASTQ file?",
                _ => "a record has as many lines of qualities as of bases: look at the one before",
            };
            let what =
                format!("a record begins with a line such as '{mark}name'{or}, and here stands '{}'", short(shown));
            (what, next.to_string())
        }
        (4, _) => (
            format!("the definition line has no name right after its '{mark}'"),
            "write the name there, without a space before it".to_string(),
        ),
        _ => (
            format!("a record begins with a line such as '{mark}name', and this line is empty"),
            "take it out".to_string(),
        ),
    }
}

/// A record's name for messages, of its definition line.
pub fn name_of(definition: &[u8]) -> String {
    // FASTQ has '@' for '>', and else the same
    let mut text = definition.to_vec();
    if let Some(mark @ b'@') = text.first_mut() {
        *mark = b'>';
    }
    match wakeluri::definition_line(&text) {
        Ok(definition) => short(definition.name),
        Err(_) => "the record".to_string(),
    }
}

/// A record of a file and its line of the index, as far as they are there.
struct Pair<'p> {
    fasta: &'p Input,
    /// The record's number, from 1.
    number: u64,
    definition: Option<Line>,
    name: String,
    line: Option<Line>,
    said: Option<Record<'p>>,
}

impl<'p> Pair<'p> {
    fn of(fasta: &'p Input, index: &'p Input, number: u64) -> Self {
        let definition = place::definition(fasta.bytes(), number);
        let name = definition.map_or("the record".to_string(), |line| name_of(place::text(fasta.bytes(), line)));
        let line = nth_line(index, number);
        let said = line.and_then(|line| wakeluri::index_line(place::text(index.bytes(), line)).ok());
        Self { fasta, number, definition, name, line, said: said.map(|(record, _)| record) }
    }

    /// The record has another name.
    fn other_name(&self) -> String {
        let said = self.said.map_or(String::new(), |said| short(said.name));
        let (number, file, name) = (commas(self.number), &self.fasta.shown, &self.name);
        format!("this line is about '{said}', and record {number} of {file} is '{name}'")
    }

    /// What is likely the cause where a line is missing: the record has the name of one before it.
    fn twin(&self) -> String {
        let file = self.fasta.bytes();
        let name =
            |line: Line| wakeluri::definition_line(place::text(file, line)).ok().map(|definition| definition.name);
        let own = self.definition.and_then(name);
        let is_definition = |line: &Line| line.start == 0 || file.get(line.start) == Some(&b'>');
        let before = place::lines(file, 0, 1).filter(is_definition).take_while(|line| Some(*line) != self.definition);
        match before.map(name).position(|name| name.is_some() && name == own) {
            None => String::new(),
            Some(first) => format!(
                "; record {} has that name too, and samtools and others leave out the second record of a name",
                commas(first as u64 + 1)
            ),
        }
    }

    /// The record has another length.
    fn other_length(&self) -> String {
        let lines = self.definition.into_iter().flat_map(|definition| place::sequence(self.fasta.bytes(), definition));
        let bases = count(lines.map(|line| line.bases as u64).sum(), "base");
        let said = commas(self.said.map_or(0, |said| said.length));
        format!("{} has {bases} in {}, and this line says {said}", self.name, self.fasta.shown)
    }

    /// A base is not where the line says.
    fn other_place(&self, base: u64) -> String {
        let said = match self.said.and_then(|said| place::said([said.position, said.line_bases, said.line_width], base))
        {
            Some(byte) => format!("at byte {}", commas(byte)),
            None => "farther than a file can be long".to_string(),
        };
        let is = self.definition.and_then(|definition| place::base(self.fasta.bytes(), definition, base));
        let is = is.map_or(String::new(), |(line, byte)| {
            let (byte, line) = (commas(byte as u64), commas(line.number));
            format!(", and it is at byte {byte} (line {line}) of {}", self.fasta.shown)
        });
        format!("by this line base {} of {} is {said}{is}{}", commas(base), self.name, self.other_ends())
    }

    /// What people meet most: the file has other line ends than it had when its index was made.
    fn other_ends(&self) -> &'static str {
        let first = self.definition.and_then(|definition| place::sequence(self.fasta.bytes(), definition).next());
        let (Some(first), Some(said)) = (first, self.said) else { return "" };
        match (first.width - first.bases, said.line_width.checked_sub(said.line_bases)) {
            (2, Some(1)) => "; its lines end in CR and LF, and the index is of lines that end in LF alone",
            (1, Some(2)) => "; its lines end in LF alone, and the index is of lines that end in CR and LF",
            _ => "",
        }
    }
}

/// A line of an index, counted from 1.
pub fn nth_line(index: &Input, number: u64) -> Option<Line> {
    let before = usize::try_from(number.checked_sub(1)?).ok()?;
    place::lines(index.bytes(), 0, 1).nth(before)
}

/// A refusal of the checker, in words.
pub fn not_accepted(fasta: &Input, index: &Input, refusal: Refusal) -> Failure {
    let of_size = |input: &Input, next: &str| refused(&input.shown, None, &refusal.words(), next.to_string(), refusal);
    match refusal.number {
        1 if fasta.bytes().len() as u64 > 1 << 40 => return of_size(fasta, "part the file"),
        1 => return of_size(index, "is it an index?"),
        _ => {}
    }
    if fasta.is_fastq() {
        return fastq_faults::not_accepted(fasta, index, refusal);
    }
    let pair = Pair::of(fasta, index, refusal.first);
    if let (2..=4, Some(line)) = (refusal.number, pair.definition) {
        return refused_definition(fasta, line, refusal.second, refusal);
    }
    let (line, what) = match refusal.number {
        19 => {
            let lines = count(place::lines(index.bytes(), 0, 1).count() as u64, "line");
            let number = commas(pair.number);
            let twin = pair.twin();
            (None, format!("it ends after {lines}, and record {number} of {} is {}{twin}", fasta.shown, pair.name))
        }
        20 => {
            let records = count(refusal.first, "record");
            let line = nth_line(index, refusal.first.saturating_add(1));
            (line, format!("it goes on here, and {} has {records}", fasta.shown))
        }
        21 => (pair.line, pair.other_name() + &pair.twin()),
        22 => (pair.line, pair.other_length()),
        23 => (pair.line, pair.other_place(refusal.second)),
        _ => (pair.line, refusal.words()),
    };
    refused(&index.shown, line, &what, advice::new_index(fasta), refusal)
}

/// A refusal of an index text, in words.
pub fn not_read(fasta: &Input, index: &Input, refusal: Refusal) -> Failure {
    let line = nth_line(index, refusal.first).filter(|_| refusal.number != 1);
    refused(&index.shown, line, &refusal.words(), advice::new_index(fasta), refusal)
}
