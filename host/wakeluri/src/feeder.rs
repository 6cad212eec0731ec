//! A file that is indexed while it arrives.

use crate::entry::{self, Feed, ROW_BYTES};
use crate::refusal::Call;
use crate::{Refusal, Table};
use alloc::vec::Vec;
#[cfg(feature = "std")]
use std::io::{self, Write};

/// How many bytes are fed at a time: so much room for rows is made before.
const PIECE: usize = 1 << 16;

/// Indexes a file while it arrives, in any pieces: it is a [`std::io::Write`], so [`std::io::copy`] feeds it. Rows and refusals are those of one
/// call on the whole file. It keeps the rows, the names and descriptions of the rows so far, and the definition line on its way.
///
/// ```
/// let mut feeder = wakeluri::Feeder::new();
/// std::io::copy(&mut &b">s a first one\r\nACGT\r"[..], &mut feeder).expect("a good start");
/// feeder.feed(b"\nAC\n>t\nA\n")?;
/// // the record before is known to be whole, since another began
/// assert_eq!(feeder.rows(), 1);
///
/// let fed = feeder.end()?;
/// assert_eq!(fed.table().write_index()?, b"s\t6\t16\t4\t6\nt\t1\t28\t1\t2\n");
/// assert_eq!(fed.table().records().next().and_then(|record| record.description()), Some(&b"a first one"[..]));
/// # Ok::<(), wakeluri::Refusal>(())
/// ```
#[derive(Clone, Debug)]
pub struct Feeder {
    feed: entry::Feed,
    bytes: Vec<u8>,
    names: Vec<u8>,
    total: u64,
    /// The definition line of the record on its way, as far as it has come, and its offset in the file.
    kept: Vec<u8>,
    kept_at: u64,
}

/// The rows of a file that has arrived. Names and descriptions are kept here, one behind another.
#[derive(Clone, Debug, Eq, PartialEq)]
pub struct Fed {
    names: Vec<u8>,
    bytes: Vec<u8>,
    rows: usize,
}

impl Fed {
    /// The rows, as [`index`](crate::index) has them but for where names and descriptions lie.
    pub fn table(&self) -> Table<'_> {
        Table::of_lent(&self.names, &self.bytes, self.rows)
    }
}

impl Default for Feeder {
    fn default() -> Self {
        Self::new()
    }
}

impl Feeder {
    /// The start of a file, for the rule of [`index`](crate::index).
    pub fn new() -> Self {
        Self::by(1)
    }

    /// The start of a file, for the rule of [`index_strict`](crate::index_strict).
    pub fn strict() -> Self {
        Self::by(0)
    }

    fn by(complete: u64) -> Self {
        let feed = entry::feed_start(complete);
        Self { feed, bytes: vec![], names: vec![], total: 0, kept: vec![], kept_at: 0 }
    }

    /// How many rows are written.
    pub fn rows(&self) -> usize {
        self.feed.rows as usize
    }

    /// How many bytes have come.
    pub fn bytes(&self) -> u64 {
        self.total
    }

    fn refused(&self) -> Result<(), Refusal> {
        Refusal::of(Call::Index, self.feed.refusal, self.feed.first, self.feed.second)
    }

    /// The next bytes of the file, which may be none. Refuses as indexing the whole file does, and then again and again.
    pub fn feed(&mut self, piece: &[u8]) -> Result<(), Refusal> {
        for piece in piece.chunks(PIECE) {
            self.refused()?;
            let from = self.total;
            self.total += piece.len() as u64;
            // no record has fewer than three bytes, but the first and the last may lie outside of the piece in part
            self.make_room(piece.len() / 3 + 2);
            let rows = self.rows();
            self.feed = entry::feed_piece(self.feed, piece, &mut self.bytes);
            self.name_rows(rows, from, piece);
            self.keep_definition(from, piece);
        }
        self.refused()
    }

    /// The end of the file: its rows, or why there are none.
    pub fn end(mut self) -> Result<Fed, Refusal> {
        self.make_room(1);
        let rows = self.rows();
        self.feed = entry::feed_end(self.feed, &mut self.bytes);
        self.name_rows(rows, self.total, &[]);
        self.refused()?;
        let rows = self.rows();
        self.bytes.truncate(rows * ROW_BYTES);
        Ok(Fed { names: self.names, bytes: self.bytes, rows })
    }

    fn make_room(&mut self, more: usize) {
        let room = (self.rows() + more) * ROW_BYTES;
        if self.bytes.len() < room {
            self.bytes.resize(room.max(self.bytes.len() * 2), 0);
        }
    }

    /// Where the definition line of the record on its way lies, as far as it has come: the line that waits, if it begins with '>', or the one
    /// that the record was opened with. A row is written with the '>' behind its record, so that there is one at most.
    fn definition(&self) -> [u64; 2] {
        let Feed { at, end, waiting_starts, waiting_width, .. } = self.feed;
        if waiting_starts == 0 { [at, end] } else { [self.total.saturating_sub(waiting_width), self.total] }
    }

    /// Keeps what a piece has of that line; the piece begins at an offset.
    fn keep_definition(&mut self, from: u64, piece: &[u8]) {
        let [start, end] = self.definition();
        if start >= from || start != self.kept_at {
            self.kept.clear();
            self.kept_at = start;
        }
        let kept = self.kept_at + self.kept.len() as u64;
        if kept < end {
            self.kept.extend_from_slice(part(piece, kept.saturating_sub(from), end.saturating_sub(from)));
        }
    }

    /// Gives the rows that were written their names: a row's spans count from the start of the file, and here from that of the names. A name's
    /// bytes are in the line that was kept, in the piece, which begins at an offset, or in both.
    fn name_rows(&mut self, first: usize, from: u64, piece: &[u8]) {
        let Self { feed, bytes, names, kept, kept_at, .. } = self;
        let rows = bytes.chunks_exact_mut(ROW_BYTES).take(feed.rows as usize).skip(first);
        for row in rows {
            for word in [0, 6] {
                let Some(numbers) = row.get_mut(word * 8..).and_then(|rest| rest.first_chunk_mut::<16>()) else {
                    continue;
                };
                let [start, length] = numbers_of(*numbers);
                let end = start.saturating_add(length);
                let place = if length == 0 { 0 } else { names.len() as u64 };
                if start < from {
                    names.extend_from_slice(part(
                        kept,
                        start.saturating_sub(*kept_at),
                        end.min(from).saturating_sub(*kept_at),
                    ));
                }
                if end > from {
                    names.extend_from_slice(part(piece, start.saturating_sub(from), end - from));
                }
                numbers[..8].copy_from_slice(&place.to_le_bytes());
            }
        }
    }
}

/// Two numbers of a row.
fn numbers_of(bytes: [u8; 16]) -> [u64; 2] {
    let both = u128::from_le_bytes(bytes);
    [both as u64, (both >> 64) as u64]
}

/// A part of some bytes, as far as they reach.
fn part(bytes: &[u8], from: u64, to: u64) -> &[u8] {
    let within = |place: u64| usize::try_from(place).unwrap_or(usize::MAX).min(bytes.len());
    bytes.get(within(from)..within(to)).unwrap_or_default()
}

#[cfg(feature = "std")]
impl Write for Feeder {
    fn write(&mut self, piece: &[u8]) -> io::Result<usize> {
        self.feed(piece).map_err(|refusal| io::Error::new(io::ErrorKind::InvalidData, refusal))?;
        Ok(piece.len())
    }

    fn flush(&mut self) -> io::Result<()> {
        Ok(())
    }
}
