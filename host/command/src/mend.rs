//! One base of a file, mended in place. It is proved (`mended-checked`, docs/PROMISES.md) that an index which the checker accepts stays
//! accepted, and that only reads that cover the base change, if the new byte is no LF, CR or '>'.
//!
//! Before the byte is written, a note beside the file says what is done, and is brought to the disk. A byte is written whole or not at all:
//! after a crash the file has the old byte or the new one, and the note says which.

use crate::apart::folder;
use crate::failure::{Failure, Refused};
use crate::input::{Input, shown};
use crate::json::Object;
use crate::letters::Odd;
use crate::place::{commas, line_number, quoted, said};
use crate::read::{Asked, Named, Region, Source};
use std::ffi::OsString;
use std::fs::{self, File, OpenOptions};
use std::io::{self, ErrorKind, Read, Write};
use std::os::unix::fs::FileExt;
use std::path::{Path, PathBuf};
use wakeluri::{Call, Refusal};

/// A base that is to become another, in a file whose index was accepted.
#[derive(Clone, Debug, Eq, PartialEq)]
pub struct Mend {
    /// The record's name.
    pub name: Vec<u8>,
    /// The base's position in the record, from 1.
    pub position: u64,
    /// The offset in the file of its byte.
    pub offset: u64,
    /// Its line in the file, and its column there, from 1.
    pub line: (u64, u64),
    /// The byte that is there.
    pub old: u8,
    /// The byte that is to be there.
    pub new: u8,
}

/// Why a byte may not become a base.
fn barred(byte: u8) -> Option<&'static str> {
    match byte {
        b'\n' => Some("a line feed would end the line there, and move all bases behind it"),
        b'\r' => Some("a carriage return is no base at the end of a line, and would take one away"),
        b'>' => Some("a '>' at the front of a line begins another record"),
        _ => None,
    }
}

/// The one byte that is to be written.
pub fn base(word: &[u8]) -> Result<u8, Failure> {
    let [byte] = word else {
        return Err(Failure::Usage(format!("'{}' has {} bytes, and a base is one byte", quoted(word), word.len())));
    };
    let Some(why) = barred(*byte) else { return Ok(*byte) };
    let words = format!("'{}' can't be written as a base: {why}", byte.escape_ascii());
    let next = "nothing was changed; write the file anew if its lines are to change";
    Err(Refused::of("", words, next, Refusal::new(Call::WriteRecord, 30, 0, 0)).into())
}

/// The base that NAME:POSITION means. What stands before the last colon is the name.
pub fn asked(word: &[u8]) -> Result<Asked<'_>, Failure> {
    let colon = word.iter().rposition(|byte| *byte == b':');
    let (name, digits) = colon.map_or((word, &[][..]), |colon| (&word[..colon], &word[colon + 1..]));
    let digits: String = digits.iter().filter(|byte| **byte != b',').map(|byte| char::from(*byte)).collect();
    match digits.parse::<u64>() {
        Ok(position) if digits.bytes().all(|byte| byte.is_ascii_digit()) => {
            Ok(Asked { named: Some(Named { name, start: position, end: position }), ..Asked::of(word) })
        }
        _ => {
            Err(Failure::Usage(format!("'{}' names no base: write a name and a position, as chr1:1204", quoted(word))))
        }
    }
}

impl Mend {
    /// What is to be done at a region of one base.
    pub fn of(source: Source<'_>, region: Region<'_>, new: u8) -> Result<Self, Failure> {
        let lost = || Failure::Usage("the base is not where the index says".to_string());
        let record = source.rows.record(region.row).ok_or_else(lost)?;
        let offset = said([record.position, record.line_bases, record.line_width], region.start).ok_or_else(lost)?;
        let read = source.rows.read_exact(source.fasta.bytes(), region.row, region.start..=region.start);
        let at = usize::try_from(offset).unwrap_or(usize::MAX);
        let (Ok([old]), Some(there)) = (read.as_deref(), source.fasta.bytes().get(at)) else { return Err(lost()) };
        if old != there {
            return Err(lost());
        }
        let before = source.fasta.bytes()[..at].iter().rev().take_while(|byte| **byte != b'\n').count() as u64;
        let line = (line_number(source.fasta.bytes(), at), before + 1);
        Ok(Self { name: record.name.to_vec(), position: region.start, offset, line, old: *old, new })
    }

    /// In words, without what becomes of it.
    fn place(&self) -> String {
        let (line, column) = self.line;
        format!("{}:{} (line {}, column {})", quoted(&self.name), self.position, commas(line), commas(column))
    }

    /// What was done, or would be, in a line.
    pub fn told(&self, file: &str, dry: bool) -> String {
        let (old, new) = (self.old.escape_ascii(), self.new.escape_ascii());
        let place = self.place();
        match (self.old == self.new, dry) {
            (true, _) => format!("{file}: {place} is {old} already: nothing was written\n"),
            (false, true) => format!("{file}: {place} is {old} and would become {new}: nothing was written\n"),
            (false, false) => format!("{file}: {place} was {old} and is {new} now\n"),
        }
    }

    /// The same as an object.
    pub fn object(&self, file: &str, dry: bool) -> Object {
        let mut object = Object::new();
        object.text("file", file).bytes("name", &self.name).number("position", self.position);
        object.number("offset", self.offset).number("line", self.line.0).number("column", self.line.1);
        object.bytes("old", &[self.old]).bytes("new", &[self.new]).truth("written", !dry && self.old != self.new);
        object
    }

    /// Warns of a new byte that is no letter, or with `--strict` refuses it, as if it were in the file.
    pub fn judge(&self, fasta: &Input, strict: bool) -> Result<(), Failure> {
        let mut odd = Odd::default();
        odd.of_bases(&[self.new], None, 1);
        if odd == Odd::default() {
            return Ok(());
        }
        let words = format!("'{}' is no letter of a base", self.new.escape_ascii());
        if strict {
            return Err(Failure::Usage(format!("{words}, and --strict refuses it")));
        }
        crate::warning::Warning::new(&fasta.shown, format!("{}: {words}: it counts as one all the same", fasta.shown))
            .say();
        Ok(())
    }

    /// Writes the byte, if the file still has the old one there.
    pub fn write(&self, path: &Path) -> Result<(), Failure> {
        let shown = shown(path);
        let failed = |doing: &str, error: &io::Error| Failure::system(doing, &shown, error, "nothing was changed");
        let file = OpenOptions::new().read(true).write(true).open(path);
        let file = file.map_err(|error| failed("it can't be written to", &error))?;
        let note = Note::new(path, self, &shown)?;
        let written = self.write_byte(&file);
        note.done()?;
        written.map_err(|error| failed("the base can't be written", &error))
    }

    fn write_byte(&self, file: &File) -> io::Result<()> {
        let mut there = [0];
        file.read_exact_at(&mut there, self.offset)?;
        if there != [self.old] {
            return Err(io::Error::other("another program has changed it meanwhile"));
        }
        file.write_all_at(&[self.new], self.offset)?;
        file.sync_all()
    }
}

/// The note beside a file that is mended. It stands as long as the byte is on its way.
struct Note(PathBuf);

/// The note's name.
fn note_of(path: &Path) -> PathBuf {
    let mut name = OsString::from(path);
    name.push(".mend");
    PathBuf::from(name)
}

impl Note {
    /// Writes the note, and brings it to the disk.
    fn new(path: &Path, mend: &Mend, shown: &str) -> Result<Self, Failure> {
        let note = note_of(path);
        let named = crate::input::shown(&note);
        let mut file = match OpenOptions::new().write(true).create_new(true).open(&note) {
            Ok(file) => file,
            Err(error) if error.kind() == ErrorKind::AlreadyExists => return Err(left_over(&note, path)),
            Err(error) => return Err(Failure::system("the note can't be made", &named, &error, "nothing was changed")),
        };
        let text = format!("wakeluri mend {shown}\noffset {}\nold {}\nnew {}\n", mend.offset, mend.old, mend.new);
        let written = file.write_all(text.as_bytes()).and_then(|()| file.sync_all()).and_then(|()| synced(&note));
        written.map_err(|error| {
            let _ = fs::remove_file(&note);
            Failure::system("the note can't be written", &named, &error, "nothing was changed")
        })?;
        Ok(Self(note))
    }

    /// Takes the note away: the byte is there, or was not written.
    fn done(self) -> Result<(), Failure> {
        let removed = fs::remove_file(&self.0).and_then(|()| synced(&self.0));
        removed.map_err(|error| Failure::system("the note can't be removed", &shown(&self.0), &error, ""))
    }
}

/// Brings the names of a path's folder to the disk.
fn synced(path: &Path) -> io::Result<()> {
    File::open(folder(path))?.sync_all()
}

/// A note that stands there already: another mend is at work, or was cut off, and then it says how far that came.
fn left_over(note: &Path, path: &Path) -> Failure {
    let mut text = String::new();
    let _ = File::open(note).and_then(|file| file.take(4096).read_to_string(&mut text));
    let number = |key: &str| text.lines().find_map(|line| line.strip_prefix(key)?.trim().parse::<u64>().ok());
    let mut there = [0];
    let byte = number("offset")
        .and_then(|offset| File::open(path).and_then(|file| file.read_exact_at(&mut there, offset)).ok());
    let is = |key: &str| byte.is_some() && number(key) == Some(u64::from(there[0]));
    let state = match (is("old"), is("new")) {
        (true, false) => "the file has the old byte",
        (false, true) => "the file has the new byte",
        _ => "it can't be told which byte the file has",
    };
    let note = shown(note);
    Failure::InputOutput {
        words: format!("{note}: another mend is at work, or was cut off: {state}, and nothing else was changed"),
        next: format!("if none is at work, remove {note}, then run this again"),
    }
}

#[cfg(test)]
mod tests {
    use super::*;

    #[test]
    fn a_position_stands_behind_the_last_colon() {
        let named = |word: &'static str| asked(word.as_bytes()).ok().and_then(|asked| asked.named);
        let found = named("a:b:1,204").map(|named| (named.name, named.start, named.end));
        assert_eq!(found, Some((&b"a:b"[..], 1204, 1204)));
        for word in ["s", "s:", "s:5-6", "s:+5", "s:99999999999999999999"] {
            assert!(named(word).is_none(), "{word}");
        }
    }

    #[test]
    fn a_base_is_one_byte_that_is_not_barred() {
        assert_eq!(base(b"A").ok(), Some(b'A'));
        assert_eq!(base(b"-").ok(), Some(b'-'));
        for word in [&b""[..], b"AC", "é".as_bytes()] {
            assert!(matches!(base(word), Err(Failure::Usage(_))), "{word:?}");
        }
        for word in [b"\n", b"\r", b">"] {
            assert!(matches!(base(word), Err(Failure::Refused(refused)) if refused.refusal.number == 30), "{word:?}");
        }
    }
}
