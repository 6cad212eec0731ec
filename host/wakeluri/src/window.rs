//! Reads where only a part of a file is at hand: the bytes that a region needs, and the region from a window of them.

use crate::refusal::Call;
use crate::table::{counted, with_room};
use crate::{Bounds, Refusal, Row, Table, entry};
use alloc::vec::Vec;
use core::error::Error;
use core::fmt;
use core::ops::Range;
#[cfg(feature = "std")]
use std::io::{self, Read, Seek, SeekFrom};

/// Some bytes of a file, and where in it they lie.
///
/// ```
/// use wakeluri::Window;
///
/// let fasta = b">s\nACGT\nAC\n";
/// let table = wakeluri::index(fasta)?;
/// let row = table.find(b"s")?;
///
/// // base 4 is the last of a line, base 5 the first of the next: with the LF between them three bytes are needed
/// let part = table.needed_bytes(fasta.len() as u64, u64::MAX, row, 4..=5)?;
/// assert_eq!(part, 6..9);
///
/// let window = Window { bytes: b"T\nA", from: 6, file_length: fasta.len() as u64 };
/// assert_eq!(table.read_window(window, row, 4..=5)?, b"TA");
/// let refusal = table.read_window(window, row, 3..=5).unwrap_err();
/// assert_eq!(refusal.to_string(), "base 3 is not in the window: refused 34 (base 3)");
/// # Ok::<(), wakeluri::Refusal>(())
/// ```
#[derive(Clone, Copy, Debug, Eq, PartialEq)]
pub struct Window<'b> {
    /// The bytes that are at hand.
    pub bytes: &'b [u8],
    /// The offset in the file of the first of them.
    pub from: u64,
    /// How many bytes the whole file has.
    pub file_length: u64,
}

/// Why a read of a file that is fetched in parts gave no bases.
#[derive(Debug)]
pub enum ReadError<E> {
    /// It was refused.
    Refused(Refusal),
    /// The bytes could not be fetched.
    NotFetched(E),
}

impl<E> From<Refusal> for ReadError<E> {
    fn from(refusal: Refusal) -> Self {
        Self::Refused(refusal)
    }
}

impl<E: fmt::Display> fmt::Display for ReadError<E> {
    fn fmt(&self, f: &mut fmt::Formatter<'_>) -> fmt::Result {
        match self {
            Self::Refused(refusal) => refusal.fmt(f),
            Self::NotFetched(error) => write!(f, "the bytes could not be fetched: {error}"),
        }
    }
}

impl<E: Error> Error for ReadError<E> {}

impl Table<'_> {
    /// The smallest part of a file of so many bytes that has the bases of a row's record within some bounds, for an output of so
    /// much room. Refuses 1, 16, 25, 17, 14, 18, as [`Table::read_exact`] does.
    ///
    /// It reads no byte, and takes no longer for a long region than for a short one.
    pub fn needed_bytes(
        &self,
        file_length: u64,
        room: u64,
        row: Row,
        bounds: impl Into<Bounds>,
    ) -> Result<Range<u64>, Refusal> {
        let (in_use, row) = self.lent(row);
        let part = entry::needed_bytes(file_length, room, self.as_bytes(), in_use, row, bounds.into());
        Refusal::of(Call::ReadWindow, part.refusal, part.first, part.second).map(|()| part.from..part.to)
    }

    /// Exactly the bases of a row's record within some bounds, from a window of its file: what [`Table::read_exact`] gives for the
    /// whole file, if the window has them all. Refuses 1, 35, 16, 25, 17, 14, 18, 34.
    pub fn read_window(&self, window: Window<'_>, row: Row, bounds: impl Into<Bounds>) -> Result<Vec<u8>, Refusal> {
        let bounds = bounds.into();
        with_room(bounds.bases(), |out| self.read_window_into(window, row, bounds, out))
    }

    /// As [`Table::read_window`], to the front of a room that is lent; returns how many bytes. A refusal leaves it as it was.
    pub fn read_window_into(
        &self,
        Window { bytes, from, file_length }: Window<'_>,
        row: Row,
        bounds: impl Into<Bounds>,
        out: &mut [u8],
    ) -> Result<usize, Refusal> {
        let (in_use, row) = self.lent(row);
        let read = entry::read_window(file_length, bytes, from, self.as_bytes(), in_use, row, bounds.into(), out);
        counted(Call::ReadWindow, read)
    }

    /// The same of a file of so many bytes that can be fetched in parts: the part that the region needs is asked for once, and no
    /// other byte is.
    ///
    /// ```
    /// let fasta = b">s\nACGT\nAC\n";
    /// let table = wakeluri::index(fasta)?;
    /// let mut fetched = vec![];
    /// let bases = table.read_fetched(fasta.len() as u64, table.find(b"s")?, 4..=5, |part| {
    ///     fetched.push(part.clone());
    ///     fasta.get(part.start as usize..part.end as usize).map(<[u8]>::to_vec).ok_or("no such bytes")
    /// });
    /// assert_eq!(bases.unwrap(), b"TA");
    /// assert_eq!(fetched, [6..9]);
    /// # Ok::<(), wakeluri::Refusal>(())
    /// ```
    pub fn read_fetched<E>(
        &self,
        file_length: u64,
        row: Row,
        bounds: impl Into<Bounds>,
        fetch: impl FnOnce(Range<u64>) -> Result<Vec<u8>, E>,
    ) -> Result<Vec<u8>, ReadError<E>> {
        let bounds = bounds.into();
        let part = self.needed_bytes(file_length, u64::MAX, row, bounds)?;
        let bytes = fetch(part.clone()).map_err(ReadError::NotFetched)?;
        Ok(self.read_window(Window { bytes: &bytes, from: part.start, file_length }, row, bounds)?)
    }

    /// The same of anything that can be read from a place on: a file, a cursor.
    ///
    /// ```
    /// use std::io::Cursor;
    ///
    /// let fasta = b">s\nACGT\nAC\n";
    /// let table = wakeluri::index(fasta)?;
    /// let bases = table.read_sought(&mut Cursor::new(fasta), table.find(b"s")?, 4..=5);
    /// assert_eq!(bases.unwrap(), b"TA");
    /// # Ok::<(), wakeluri::Refusal>(())
    /// ```
    #[cfg(feature = "std")]
    pub fn read_sought(
        &self,
        file: &mut (impl Read + Seek),
        row: Row,
        bounds: impl Into<Bounds>,
    ) -> Result<Vec<u8>, ReadError<io::Error>> {
        let file_length = file.seek(SeekFrom::End(0)).map_err(ReadError::NotFetched)?;
        self.read_fetched(file_length, row, bounds, |part| {
            file.seek(SeekFrom::Start(part.start))?;
            let mut bytes = vec![];
            // as much as is there, so that a part that lies about its length costs no memory
            let count = file.take(part.end - part.start).read_to_end(&mut bytes)?;
            if (count as u64) < part.end - part.start {
                return Err(io::ErrorKind::UnexpectedEof.into());
            }
            Ok(bytes)
        })
    }
}
