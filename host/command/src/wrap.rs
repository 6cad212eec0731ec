//! A file written anew in lines of one width.
//!
//! It goes from line to line by the proved calls, and needs no index: so it takes a file whose lines are so uneven that no index fits it,
//! and what it writes can be indexed.

use crate::failure::Failure;
use crate::faults;
use crate::input::Input;
use crate::output::Output;
use crate::place::Line;
use std::io::{self, Write};
use wakeluri::{Definition, Refusal, Writer};

/// Bases are gathered up to so many before they are written.
const GATHERED: usize = 1 << 20;

/// What a line of a file is.
enum Part<'p> {
    /// And whether it was mended.
    Definition(Definition<'p>, bool),
    Bases(&'p [u8]),
}

/// How much was written.
#[derive(Clone, Copy, Debug, Default)]
pub struct Size {
    /// The records.
    pub records: u64,
    /// Their bases.
    pub bases: u64,
    /// The records whose definition lines were mended.
    pub mended: u64,
}

/// A file, and how wide its lines become.
#[derive(Clone, Copy, Debug)]
pub struct Wrapping<'w> {
    /// The file.
    pub fasta: &'w Input,
    /// Bases to a line.
    pub width: u64,
    /// Whether a definition line is mended where that can be done.
    pub repair: bool,
}

impl<'w> Wrapping<'w> {
    /// Writes the file anew, and its index if there is a place for it. Every line is judged before anything is written.
    pub fn write(self, output: &Output, index: Option<&Output>) -> Result<Size, Failure> {
        let size = self.judge()?;
        self.fasta.unchanged()?;
        let mut lines = vec![];
        output.fill("file", &mut |to| {
            lines = self.written(to, index.is_some())?;
            // what changed meanwhile is not put in its place
            self.fasta.unchanged().map_err(|_| io::Error::other("the file that is read has changed meanwhile"))
        })?;
        index.map_or(Ok(()), |index| index.write(&lines))?;
        Ok(size)
    }

    /// The line at an offset, and the offset of the next; none at the end. The first line is a definition line, whatever it holds.
    fn part(self, at: u64) -> Result<Option<(Part<'w>, u64)>, Refusal> {
        let file = self.fasta.bytes();
        let Some((content, next)) = wakeluri::read_line(file, at)? else { return Ok(None) };
        if at == 0 || content.first() == Some(&b'>') {
            return match wakeluri::definition_content(content) {
                Ok(definition) => Ok(Some((Part::Definition(definition, false), next))),
                Err(refusal) => match mended(content).filter(|_| self.repair) {
                    Some(definition) => Ok(Some((Part::Definition(definition, true), next))),
                    None => Err(refusal),
                },
            };
        }
        // a CR at the end of a last line without LF is no base either
        let ended = next < file.len() as u64 || file.last() == Some(&b'\n');
        let bases = if ended { content } else { content.strip_suffix(b"\r").unwrap_or(content) };
        Ok(Some((Part::Bases(bases), next)))
    }

    /// The file in lines of the width, written to a place; returns its index if it is wanted.
    fn written(self, to: &mut dyn Write, index: bool) -> io::Result<Vec<u8>> {
        let mut writer = if index { Writer::with_index(to, self.width) } else { Writer::new(to, self.width) };
        let mut gathered = Vec::with_capacity(GATHERED);
        let mut at = 0;
        while let Some((part, next)) = self.part(at).map_err(io::Error::other)? {
            let full = gathered.len() >= GATHERED;
            if full || matches!(part, Part::Definition(..)) && !gathered.is_empty() {
                writer.push(&gathered)?;
                gathered.clear();
            }
            match part {
                Part::Definition(definition, _) => writer.begin(definition.name, definition.description)?,
                Part::Bases(bases) => gathered.extend_from_slice(bases),
            }
            at = next;
        }
        if !gathered.is_empty() {
            writer.push(&gathered)?;
        }
        writer.finish().map(|(_, index)| index)
    }

    /// Fails at the first line that can't be written.
    pub fn judge(self) -> Result<Size, Failure> {
        self.judged().map_err(|(at, number, refusal)| self.refused(at, number, refusal))
    }

    /// Whether every line can be written.
    pub fn is_good(self) -> bool {
        self.judged().is_ok()
    }

    /// How much there is to write, or the first line that can't be: its offset, its number and why.
    fn judged(self) -> Result<Size, (u64, u64, Refusal)> {
        let mut size = Size::default();
        let (mut at, mut number) = (0, 1);
        loop {
            let judged = self.part(at).and_then(|part| {
                let Some((part, next)) = part else { return Ok(None) };
                match part {
                    Part::Definition(_, mended) => {
                        size.records += 1;
                        size.mended += u64::from(mended);
                    }
                    Part::Bases(bases) => {
                        // with no room, what is good is refused with 14
                        match wakeluri::write_sequence_into(bases, self.width, &mut []) {
                            Err(refusal) if refusal.number != 14 => return Err(refusal),
                            _ => size.bases += bases.len() as u64,
                        }
                    }
                }
                Ok(Some(next))
            });
            match judged {
                Ok(Some(next)) => (at, number) = (next, number + 1),
                Ok(None) => return Ok(size),
                Err(refusal) => return Err((at, number, refusal)),
            }
        }
    }

    fn refused(self, at: u64, number: u64, refusal: Refusal) -> Failure {
        let file = self.fasta.bytes();
        let start = at as usize;
        let next = wakeluri::read_line(file, at).ok().flatten().map_or(file.len(), |(_, next)| next as usize);
        let line = Line { number, start, width: next - start, bases: 0 };
        faults::not_wrapped(self.fasta, line, refusal)
    }
}

/// The definition line that was meant where blanks stand between '>' and the name.
fn mended(content: &[u8]) -> Option<Definition<'_>> {
    let rest = content.strip_prefix(b">")?.trim_ascii_start();
    let meant = [b">", rest].concat();
    let Definition { name, description, .. } = wakeluri::definition_content(&meant).ok()?;
    // the same parts of the line itself, which lies one byte behind
    let part = |part: &[u8]| {
        let start = (part.as_ptr().addr() - meant.as_ptr().addr()).checked_sub(1)?;
        rest.get(start..start + part.len())
    };
    let description = match description {
        Some(description) => Some(part(description)?),
        None => None,
    };
    Some(Definition::new(part(name)?, description))
}
