//! A record of a file: its numbers, its description and its bases.

use super::{Error, Fasta, numbers, part};
use crate::entry::ROW_BYTES;
use crate::refusal::Call;
use crate::region::Written;
use crate::table::{counted, with_room};
use crate::{Bounds, Definition, Refusal, entry, shown};

/// A record of a [`Fasta`]. It costs two words to copy, and lives as long as the file is open.
#[derive(Clone, Copy)]
pub struct Record<'f> {
    pub(super) fasta: &'f Fasta,
    pub(super) row: usize,
}

impl std::fmt::Debug for Record<'_> {
    fn fmt(&self, f: &mut std::fmt::Formatter<'_>) -> std::fmt::Result {
        let name = self.name().escape_ascii().to_string();
        f.debug_struct("Record")
            .field("number", &self.row)
            .field("name", &name)
            .field("length", &self.length())
            .finish()
    }
}

impl<'f> Record<'f> {
    /// Its number in the file, from 0.
    pub fn number(&self) -> usize {
        self.row
    }

    /// Its name, which is any bytes.
    pub fn name(&self) -> &'f [u8] {
        self.fasta.name(self.row)
    }

    /// How many bases it has.
    pub fn length(&self) -> u64 {
        self.fasta.number(self.row, 2)
    }

    /// The offset of its first base in the file.
    pub fn position(&self) -> u64 {
        self.fasta.number(self.row, 3)
    }

    /// How many bases are in a line of it.
    pub fn line_bases(&self) -> u64 {
        self.fasta.number(self.row, 4)
    }

    /// How many bytes are in a line of it, with its end.
    pub fn line_width(&self) -> u64 {
        self.fasta.number(self.row, 5)
    }

    /// The text behind its name in the definition line, without whitespace at its ends. It is looked up in the file: an index has none.
    pub fn description(&self) -> Option<&'f [u8]> {
        let [.., start, length] = self.fasta.numbers(self.row);
        if self.fasta.index.is_none() {
            return Some(part(&self.fasta.bytes, start, length)).filter(|text| !text.is_empty());
        }
        let definition = self.fasta.definition_before(self.row).or_else(|| self.fasta.definition_by_number(self.row));
        definition.and_then(|definition| definition.description)
    }

    /// Exactly the bases within some bounds, never fewer. Refuses 16, 17, 14, 18, and fails if the file has changed.
    pub fn read(&self, bounds: impl Into<Bounds>) -> Result<Vec<u8>, Error> {
        let bounds = bounds.into();
        let bases = with_room(bounds.bases(), |out| self.read_entry(bounds, out));
        self.answered(bases)
    }

    /// As [`Record::read`], to the front of a room that is lent; returns how many bytes. A refusal leaves the room as it was.
    ///
    /// ```
    /// let fasta = wakeluri::Fasta::from_bytes(b">s\nACGT\nAC\n".to_vec())?;
    /// let mut room = [0; 8];
    /// let count = fasta.record("s")?.read_into(4..=5, &mut room)?;
    /// assert_eq!(&room[..count], b"TA");
    /// # Ok::<(), wakeluri::Error>(())
    /// ```
    pub fn read_into(&self, bounds: impl Into<Bounds>, out: &mut [u8]) -> Result<usize, Error> {
        let count = self.read_entry(bounds.into(), out);
        self.answered(count)
    }

    /// The proved read.
    fn read_entry(&self, bounds: Bounds, out: &mut [u8]) -> Result<usize, Refusal> {
        let Fasta { bytes, table, rows, .. } = self.fasta;
        counted(Call::ReadExact, entry::read_exact(bytes, table, *rows as u64, self.row as u64, bounds, out))
    }

    /// An answer, if the file is still what it was.
    pub(super) fn answered<T>(&self, answer: Result<T, Refusal>) -> Result<T, Error> {
        self.fasta.unchanged_lately()?;
        answer.map_err(|refusal| Error::refused(shown::short(self.name()), refusal))
    }

    /// The bounds that are written, as numbers. Those that 64 bits don't hold are judged here: no record is as long.
    pub(super) fn bounds(&self, written: &Written) -> Result<Bounds, Error> {
        let refused =
            |number, first| Error::refused(shown::short(self.name()), Refusal::new(Call::ReadExact, number, first, 0));
        match written.bounds() {
            Some(bounds) => Ok(bounds),
            None if written.senseless() => Err(refused(16, 0)),
            None => Err(refused(17, self.length())),
        }
    }
}

impl Fasta {
    /// The definition line of a record, by its row: the line before its first base, blank lines apart.
    fn definition_before(&self, row: usize) -> Option<Definition<'_>> {
        let [_, _, length, position, ..] = self.numbers(row);
        let before = self.bytes.get(..usize::try_from(position).ok()?).filter(|_| length > 0)?;
        let end = before.iter().rposition(|byte| !matches!(byte, b'\n' | b'\r'))? + 1;
        let start = before.get(..end)?.iter().rposition(|byte| *byte == b'\n').map_or(0, |lf| lf + 1);
        crate::definition_content(before.get(start..end)?).ok().filter(|definition| definition.name == self.name(row))
    }

    /// The same of a record without bases, whose index line may say anything: by its number, in rows that are made of the file once.
    fn definition_by_number(&self, row: usize) -> Option<Definition<'_>> {
        let table = self.described.get_or_init(|| crate::index_until_refused(&self.bytes).0.into_bytes());
        let [name, named, .., start, described] = numbers(table.get(row.checked_mul(ROW_BYTES)?..)?.get(..ROW_BYTES)?);
        let description = part(&self.bytes, start, described);
        let name = part(&self.bytes, name, named);
        let description = (!description.is_empty()).then_some(description);
        (name == self.name(row)).then_some(Definition { name, description })
    }
}
