//! FASTA written: a record in one call, or a file of any size, piece by piece, with its index.

use crate::refusal::Call;
#[cfg(feature = "std")]
use crate::table::Table;
use crate::table::{counted, with_known_room};
use crate::{Refusal, entry};
use alloc::vec::Vec;
#[cfg(feature = "std")]
use std::io::{self, Write};

/// A FASTA record: its definition line, and its bases in lines of a width. Refuses 1, 27 to 30.
///
/// ```
/// let text = wakeluri::write_record(b"s", Some(b"two lines"), b"ACGTAC", 4)?;
/// assert_eq!(text, b">s two lines\nACGT\nAC\n");
/// assert_eq!(wakeluri::write_record(b"t", None, b"", 60)?, b">t\n");
///
/// let refusal = wakeluri::write_record(b"s", None, b"AC>GT", 60).unwrap_err();
/// assert_eq!(
///     refusal.to_string(),
///     "a base is a line feed, a carriage return or '>', and can't be written: refused 30"
/// );
/// # Ok::<(), wakeluri::Refusal>(())
/// ```
pub fn write_record(name: &[u8], description: Option<&[u8]>, bases: &[u8], width: u64) -> Result<Vec<u8>, Refusal> {
    // its size is known: asking for it would be one more pass over the bases
    let lines = (bases.len() as u64).div_ceil(width.max(1));
    let text = description.map_or(0, |description| description.len() + 1);
    let bytes = (name.len() + text + bases.len() + 2) as u64 + lines;
    with_known_room(bytes, |out| write_record_into(name, description, bases, width, out))
}

/// As [`write_record`], to the front of a room that is lent; returns how many bytes. Refuses 1, 27 to 30, 14.
pub fn write_record_into(
    name: &[u8],
    description: Option<&[u8]>,
    bases: &[u8],
    width: u64,
    out: &mut [u8],
) -> Result<usize, Refusal> {
    counted(Call::WriteRecord, entry::write_record(name, description, bases, width, out))
}

/// Bases alone, in lines of a width, to the front of a room that is lent; returns how many bytes. Refuses 1, 27, 30, 14.
///
/// Behind a record whose bases are whole lines it writes the next ones: the two together are the record of all the bases.
///
/// ```
/// let mut room = [0; 6];
/// let count = wakeluri::write_sequence_into(b"ACGT", 3, &mut room)?;
/// assert_eq!(&room[..count], b"ACG\nT\n");
/// # Ok::<(), wakeluri::Refusal>(())
/// ```
pub fn write_sequence_into(bases: &[u8], width: u64, out: &mut [u8]) -> Result<usize, Refusal> {
    counted(Call::WriteRecord, entry::write_sequence(bases, width, out))
}

/// About so many bytes are written at a time, in whole lines.
#[cfg(feature = "std")]
const PIECE: u64 = 1 << 16;

/// Writes FASTA records of any size to any place, in lines of one width, and makes their index on the way if it is asked to.
///
/// Bases come in pieces of any size. The memory that is used for a record is a line of it or 64 KiB; for the index it is the index.
/// A refusal is an error of the kind [`InvalidInput`](io::ErrorKind::InvalidInput) whose source is a [`Refusal`]; what was written
/// before it stays, and is not a whole file.
///
/// ```
/// let mut writer = wakeluri::Writer::with_index(vec![], 4);
/// writer.begin(b"s", Some(b"in pieces"))?;
/// writer.push(b"ACGTA")?;
/// writer.push(b"CGT")?;
/// writer.begin(b"t", None)?;
/// writer.push(b"GG")?;
/// let (fasta, index) = writer.finish()?;
/// assert_eq!(fasta, b">s in pieces\nACGT\nACGT\n>t\nGG\n");
/// assert_eq!(index, b"s\t8\t13\t4\t5\nt\t2\t26\t2\t3\n");
/// # Ok::<(), std::io::Error>(())
/// ```
#[cfg(feature = "std")]
#[derive(Debug)]
pub struct Writer<W> {
    to: W,
    width: u64,
    /// The bases to a piece: whole lines.
    piece: usize,
    room: Vec<u8>,
    /// Bases that do not fill a line yet.
    held: Vec<u8>,
    /// How many bytes were written.
    offset: u64,
    /// The record that was begun: its name, the offset of its first base, and how many bases it has so far.
    record: Option<(Vec<u8>, u64, u64)>,
    index: Option<Vec<u8>>,
}

#[cfg(feature = "std")]
impl<W: Write> Writer<W> {
    /// Nothing is written yet, and no index is made. A width of 0 is refused with the first record (27).
    pub fn new(to: W, width: u64) -> Self {
        let lines = (PIECE / width.max(1)).max(1);
        let piece = usize::try_from(lines.saturating_mul(width.max(1))).unwrap_or(usize::MAX);
        Self { to, width, piece, room: vec![], held: vec![], offset: 0, record: None, index: None }
    }

    /// The same, with an index of what is written, which [`Writer::finish`] gives.
    pub fn with_index(to: W, width: u64) -> Self {
        Self { index: Some(vec![]), ..Self::new(to, width) }
    }

    /// Ends the record before, and begins one. Refuses 1, 27 to 29.
    pub fn begin(&mut self, name: &[u8], description: Option<&[u8]>) -> io::Result<()> {
        self.end()?;
        let width = self.width;
        self.put(|out| write_record_into(name, description, &[], width, out))?;
        self.record = Some((name.to_vec(), self.offset, 0));
        Ok(())
    }

    /// Adds bases to the record that was begun. Refuses 30.
    pub fn push(&mut self, mut bases: &[u8]) -> io::Result<()> {
        let Some((_, _, count)) = &mut self.record else {
            return Err(io::Error::new(io::ErrorKind::InvalidInput, "bases came before a record was begun"));
        };
        *count += bases.len() as u64;
        let width = usize::try_from(self.width).unwrap_or(usize::MAX);
        if !self.held.is_empty() {
            let (more, rest) = bases.split_at(bases.len().min(width - self.held.len()));
            self.held.extend_from_slice(more);
            bases = rest;
            if self.held.len() < width {
                return Ok(());
            }
            self.put_held()?;
        }
        let (lines, rest) = bases.split_at(bases.len() - bases.len() % width);
        for piece in lines.chunks(self.piece) {
            self.put(|out| write_sequence_into(piece, width as u64, out))?;
        }
        self.held.extend_from_slice(rest);
        Ok(())
    }

    /// A whole record. Refuses 1, 27 to 30.
    pub fn write_record(&mut self, name: &[u8], description: Option<&[u8]>, bases: &[u8]) -> io::Result<()> {
        self.begin(name, description)?;
        self.push(bases)
    }

    /// Ends the last record. Gives back the place that was written to, and the index of what was written, if one was made.
    pub fn finish(mut self) -> io::Result<(W, Vec<u8>)> {
        self.end()?;
        self.to.flush()?;
        Ok((self.to, self.index.unwrap_or_default()))
    }

    /// Ends the record that was begun, if there is one.
    pub fn end(&mut self) -> io::Result<()> {
        if !self.held.is_empty() {
            self.put_held()?;
        }
        let (Some((name, position, bases)), Some(index)) = (self.record.take(), &mut self.index) else { return Ok(()) };
        // a record without bases has the numbers that the complete rule gives it
        let (line_bases, line_width) =
            if bases == 0 { (1, 2) } else { (bases.min(self.width), bases.min(self.width) + 1) };
        let table = Table::of_one(&name, [bases, position, line_bases, line_width]);
        table.rows().try_for_each(|row| table.write_index_line(row, index)).map_err(refused)
    }

    fn put_held(&mut self) -> io::Result<()> {
        let (held, width) = (std::mem::take(&mut self.held), self.width);
        self.put(|out| write_sequence_into(&held, width, out))?;
        self.held = held;
        self.held.clear();
        Ok(())
    }

    /// Writes what a call gives, in a room that is kept from piece to piece and made longer where the call says so.
    fn put(&mut self, write: impl Fn(&mut [u8]) -> Result<usize, Refusal>) -> io::Result<()> {
        let mut written = write(&mut self.room);
        if let Err(Refusal { number: 14, first, .. }) = written {
            self.room.resize(usize::try_from(first).unwrap_or(usize::MAX), 0);
            written = write(&mut self.room);
        }
        let written = written.map_err(refused)?;
        self.to.write_all(self.room.get(..written).unwrap_or_default())?;
        self.offset += written as u64;
        Ok(())
    }
}

#[cfg(feature = "std")]
fn refused(refusal: Refusal) -> io::Error {
    io::Error::new(io::ErrorKind::InvalidInput, refusal)
}
