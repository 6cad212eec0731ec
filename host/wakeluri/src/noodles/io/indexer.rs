//! The index of a stream, record by record.

use super::peeked;
use crate::noodles::fai::Record;
use crate::{Refusal, index_record_strict};
use std::error::Error;
use std::fmt;
use std::io::{self, BufRead};

/// Indexes a stream by noodles' rule, record by record. The proved call is asked about one record at a time, so the memory that is used is
/// that of the longest.
///
/// ```
/// use wakeluri::noodles as fasta;
/// let src = b">sq0\nACGT\n>sq1\nNNNN\nNNNN\nNN\n";
/// let mut indexer = fasta::io::Indexer::new(&src[..]);
/// let mut lengths = vec![];
/// while let Some(record) = indexer.index_record()? {
///     lengths.push(record.length());
/// }
/// assert_eq!(lengths, [4, 10]);
/// # Ok::<_, std::io::Error>(())
/// ```
#[derive(Debug)]
pub struct Indexer<R> {
    inner: R,
    offset: u64,
    /// The record that is judged; it stays where it is refused.
    record: Vec<u8>,
}

impl<R: BufRead> Indexer<R> {
    /// An indexer of a stream, from where it stands, which is offset 0.
    pub fn new(inner: R) -> Self {
        Self { inner, offset: 0, record: vec![] }
    }

    /// The next record's line of an index; none at the end. A record that is refused is refused again: the place stays before it.
    pub fn index_record(&mut self) -> Result<Option<Record>, IndexError> {
        if self.record.is_empty() {
            self.take_record()?;
        }
        let told = index_record_strict(&self.record, 0).map_err(|refusal| IndexError::of(refusal, self.offset))?;
        let record = told.and_then(|(row, _)| Record::of(row)).map(|record| record.behind(self.offset));
        self.offset += self.record.len() as u64;
        self.record.clear();
        Ok(record)
    }

    /// A definition line, and all lines up to one that begins with '>'.
    fn take_record(&mut self) -> io::Result<()> {
        loop {
            self.inner.read_until(b'\n', &mut self.record)?;
            if matches!(peeked(&mut self.inner)?, None | Some(b'>')) {
                return Ok(());
            }
        }
    }
}

/// Why a record was not indexed.
#[derive(Debug)]
pub enum IndexError {
    /// The stream failed, or a definition line does not read: then it holds a [`Refusal`].
    Io(io::Error),
    /// There are no bases in the first line, which ends at this offset.
    EmptySequence(u64),
    /// A line has another number of bases: found, and expected.
    InvalidLineBases(usize, usize),
    /// A line has another number of bytes: found, and expected.
    InvalidLineWidth(usize, usize),
}

impl IndexError {
    /// A refusal of a record that begins at an offset.
    fn of(refusal: Refusal, at: u64) -> Self {
        let Refusal { number, first, second, call } = refusal;
        match number {
            5 => Self::EmptySequence(at + first),
            6 => Self::InvalidLineBases(first as usize, second as usize),
            7 => Self::InvalidLineWidth(first as usize, second as usize),
            2..=4 => Self::Io(crate::noodles::refused(Refusal::new(call, number, at + first, second))),
            _ => Self::Io(crate::noodles::refused(refusal)),
        }
    }
}

impl Error for IndexError {
    fn source(&self) -> Option<&(dyn Error + 'static)> {
        match self {
            Self::Io(error) => Some(error),
            _ => None,
        }
    }
}

impl fmt::Display for IndexError {
    fn fmt(&self, f: &mut fmt::Formatter<'_>) -> fmt::Result {
        match self {
            Self::Io(error) => error.fmt(f),
            Self::EmptySequence(offset) => write!(f, "empty sequence at offset {offset}"),
            Self::InvalidLineBases(found, expected) => {
                write!(f, "invalid line bases: expected {expected}, got {found}")
            }
            Self::InvalidLineWidth(found, expected) => {
                write!(f, "invalid line width: expected {expected}, got {found}")
            }
        }
    }
}

impl From<io::Error> for IndexError {
    fn from(error: io::Error) -> Self {
        Self::Io(error)
    }
}

impl From<IndexError> for io::Error {
    fn from(error: IndexError) -> Self {
        match error {
            IndexError::Io(error) => error,
            _ => Self::new(io::ErrorKind::InvalidInput, error),
        }
    }
}
