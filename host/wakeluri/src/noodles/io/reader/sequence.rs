//! Bases alone, from a stream.

use super::peeked;
use crate::noodles::refused;
use std::io::{self, BufRead, Read};

/// The lines from where a stream stands, up to a '>' that begins one, the end, or the line in which the bases reach a limit. Blank lines and
/// CR at the front of a line are passed, as the scanning rule does; so the stream stands where that rule stops.
pub(super) fn lines(reader: &mut impl BufRead, limit: u64) -> io::Result<Vec<u8>> {
    let mut lines = vec![];
    let mut bases = 0;
    while bases < limit && skip_ends(reader)? {
        // a line that goes on past the limit is not needed whole
        let taken = reader.by_ref().take((limit - bases).saturating_add(2)).read_until(b'\n', &mut lines)?;
        let end = lines.iter().rev().take_while(|byte| matches!(byte, b'\n' | b'\r')).count().min(taken);
        bases += (taken - end) as u64;
        if !lines.ends_with(b"\n") {
            break;
        }
    }
    Ok(lines)
}

/// Passes a run of CR and LF. Tells whether bases follow.
fn skip_ends(reader: &mut impl BufRead) -> io::Result<bool> {
    while let Some(b'\r' | b'\n') = peeked(reader)? {
        reader.consume(1);
    }
    Ok(!matches!(peeked(reader)?, None | Some(b'>')))
}

/// Reads bases without line ends, up to the next definition or the end.
///
/// ```
/// use std::io::Read;
/// use wakeluri::noodles::{self as fasta, record::Definition};
/// let mut reader = fasta::io::Reader::new(&b">sq0\nACGT\nAC\n>sq1\nN\n"[..]);
/// reader.read_definition(&mut Definition::default())?;
/// let mut bases = String::new();
/// reader.sequence_reader().read_to_string(&mut bases)?;
/// assert_eq!(bases, "ACGTAC");
/// # Ok::<(), std::io::Error>(())
/// ```
///
/// A line's bases are told by the proved [`read_run`](crate::read_run), of a line that is held whole: how the stream is buffered makes no
/// difference. A line that was begun is taken from the stream, so drop this reader at a line's end if the stream is read on otherwise.
#[derive(Debug)]
pub struct Reader<'r, R> {
    inner: &'r mut R,
    line: Vec<u8>,
    /// The bases of the line that are still to be given.
    left: std::ops::Range<usize>,
}

impl<'r, R: BufRead> Reader<'r, R> {
    pub(super) fn new(inner: &'r mut R) -> Self {
        Self { inner, line: vec![], left: 0..0 }
    }
}

impl<R: BufRead> Read for Reader<'_, R> {
    fn read(&mut self, buf: &mut [u8]) -> io::Result<usize> {
        let count = self.fill_buf()?.read(buf)?;
        self.consume(count);
        Ok(count)
    }
}

impl<R: BufRead> BufRead for Reader<'_, R> {
    fn fill_buf(&mut self) -> io::Result<&[u8]> {
        if self.left.is_empty() && skip_ends(self.inner)? {
            self.line.clear();
            self.inner.read_until(b'\n', &mut self.line)?;
            self.left = 0..crate::read_run(&self.line, 0).map_err(refused)?.len();
        }
        Ok(self.line.get(self.left.clone()).unwrap_or_default())
    }

    fn consume(&mut self, count: usize) {
        self.left.start = self.left.start.saturating_add(count).min(self.left.end);
    }
}
