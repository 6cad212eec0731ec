//! FASTA read from a stream: definitions, sequences, records, regions.

pub mod sequence;

use super::peeked;
use crate::noodles::core::Region;
use crate::noodles::fai;
use crate::noodles::fai::io::inner;
use crate::noodles::record::{Definition, Record, Sequence};
use crate::noodles::refused;
use crate::refusal::Call;
use crate::table::{counted, with_room};
use crate::{Refusal, entry};
use std::io::{self, BufRead, Read, Seek, SeekFrom};

/// Reads FASTA.
///
/// ```
/// use wakeluri::noodles::{self as fasta, record::Definition};
/// let data = b">sq0\nACGT\n>sq1\nNNNN\nNNNN\nNN\n";
/// let mut reader = fasta::io::Reader::new(&data[..]);
/// let mut definition = Definition::default();
/// reader.read_definition(&mut definition)?;
/// assert_eq!(definition.name(), "sq0");
/// let mut bases = vec![];
/// reader.read_sequence(&mut bases)?;
/// assert_eq!(bases, b"ACGT");
/// # Ok::<(), std::io::Error>(())
/// ```
#[derive(Debug)]
pub struct Reader<R> {
    inner: R,
    line: Vec<u8>,
}

inner!(Reader, R);

impl<R: BufRead> Reader<R> {
    /// A reader of a stream, from where it stands.
    pub fn new(inner: R) -> Self {
        Self { inner, line: vec![] }
    }

    /// Reads the definition line at which the stream stands; returns how many bytes it took, 0 at the end. Refuses 1 to 4.
    pub fn read_definition(&mut self, definition: &mut Definition) -> io::Result<usize> {
        self.line.clear();
        let taken = self.inner.read_until(b'\n', &mut self.line)?;
        if taken > 0 {
            *definition = crate::definition_line(&self.line).map_err(refused)?.into();
        }
        Ok(taken)
    }

    /// Adds the bases up to the next definition or the end to a buffer, by the scanning rule; returns how many.
    pub fn read_sequence(&mut self, buf: &mut Vec<u8>) -> io::Result<usize> {
        let lines = sequence::lines(&mut self.inner, u64::MAX)?;
        let (bases, _) = crate::read_sequence(&lines, 0).map_err(refused)?;
        buf.extend_from_slice(&bases);
        Ok(bases.len())
    }

    /// A reader of bases alone, from where the stream stands.
    pub fn sequence_reader(&mut self) -> sequence::Reader<'_, R> {
        sequence::Reader::new(&mut self.inner)
    }

    /// The records, from where the stream stands.
    pub fn records(&mut self) -> Records<'_, R> {
        Records { reader: self }
    }
}

impl<R: BufRead + Seek> Reader<R> {
    /// Exactly the bases of a region, never fewer, as a record that is named by the region. Refuses 15, 16, 17, 18.
    ///
    /// ```
    /// use std::io::Cursor;
    /// use wakeluri::noodles::{self as fasta, fai, refusal};
    /// let src = b">sq0\nNNNN\n>sq1\nACGT\n";
    /// let index = fai::io::Reader::new(&b"sq0\t4\t5\t4\t5\nsq1\t4\t15\t4\t5\n"[..]).read_index()?;
    /// let mut reader = fasta::io::Reader::new(Cursor::new(src));
    /// assert_eq!(reader.query(&index, &"sq1:2-3".parse()?)?.sequence().as_ref(), b"CG");
    ///
    /// // noodles gives three bases here, and says nothing
    /// let error = reader.query(&index, &"sq1:2-9".parse()?).unwrap_err();
    /// assert_eq!(error.to_string(), "the record has 4 bases, and the region goes past them: refused 17 (length 4)");
    /// assert_eq!(reader.query_raw(&index, &"sq1:2-9".parse()?)?.sequence().as_ref(), b"CGT");
    /// # Ok::<(), Box<dyn std::error::Error>>(())
    /// ```
    ///
    /// The region is judged by the proved read; then the lines that it lies in are taken from the stream, and the proved read gives the
    /// bases of these. Nothing says whether the index is right for the file: [`check`](crate::check) does.
    pub fn query(&mut self, index: &fai::Index, region: &Region) -> io::Result<Record> {
        let record = index.find(region)?;
        let bounds = region.interval().bounds();
        let table = record.table();
        let read = |file: &[u8], table: &[u8], bounds, out: &mut [u8]| {
            counted(Call::ReadExact, entry::read_exact(file, table, 1, 0, bounds, out))
        };
        // with no room, a region that is good by the record's numbers is refused with 14 and its count of bases
        let count = match read(&[], table.as_bytes(), bounds, &mut []) {
            Err(refusal) if refusal.number == 14 => refusal.first,
            other => other.map_err(refused)? as u64,
        };
        let start = bounds.start.unwrap_or(1);
        let last = start.saturating_add(count.saturating_sub(1));
        // the lines from the first base's on are a file whose first line begins at 0
        let lines = (start - 1) / record.line_base_count();
        let before = lines.saturating_mul(record.line_base_count().get());
        // where lines are said to be shorter than their bases, the end of the line before may lie behind the last base
        let line_end = last - (last - 1) % record.line_base_count() - 1;
        let offset = |base: u64| record.offset_of(base).unwrap_or(u64::MAX);
        let to = if line_end >= start { offset(last).max(offset(line_end)) } else { offset(last) };
        let mut window = vec![];
        if let Some(from) = record.offset_of(before.saturating_add(1))
            && self.seek_to(from)?
        {
            (&mut self.inner).take((to - from.min(to)).saturating_add(1)).read_to_end(&mut window)?;
        }
        let shifted = fai::Record::new(record.name(), last - before, 0, record.line_base_count(), record.line_width());
        let shifted = shifted.table();
        let bounds = (Some(start - before), Some(last - before)).into();
        let bases = with_room(count, |out| read(&window, shifted.as_bytes(), bounds, out)).map_err(|refusal| {
            let Refusal { call, number, first, second } = refusal;
            let first = if number == 18 { first.saturating_add(before) } else { first };
            refused(Refusal::new(call, number, first, second))
        })?;
        Ok(named(region, bases))
    }

    /// Goes to an offset, if there can be a byte: no file is longer than a signed number of 64 bits can say.
    fn seek_to(&mut self, offset: u64) -> io::Result<bool> {
        let there = i64::try_from(offset).is_ok();
        if there {
            self.inner.seek(SeekFrom::Start(offset))?;
        }
        Ok(there)
    }

    /// What noodles' `query` gives: the bases that a scan finds from the region's start on. It looks at no length, gives fewer bases where
    /// the file has fewer, and may run into the next record. Refuses 15, and 18 for an offset over 64 bits.
    pub fn query_raw(&mut self, index: &fai::Index, region: &Region) -> io::Result<Record> {
        let record = index.find(region)?;
        let bounds = region.interval().bounds();
        let start = bounds.start.unwrap_or(1);
        // with no end there is no limit
        let before = bounds.end.map_or(Some(u64::MAX), |end| end.checked_sub(start));
        let before = before.ok_or_else(|| refused(Refusal::new(Call::ReadRaw, 16, 0, 0)))?;
        let at = record.query(region.interval())?;
        let limit = before.saturating_add(1);
        let lines = if self.seek_to(at)? { sequence::lines(&mut self.inner, limit)? } else { vec![] };
        let (bases, _) = crate::read_sequence_limit(&lines, 0, limit).map_err(refused)?;
        Ok(named(region, bases))
    }
}

/// The record of a region's bases, named by the region.
fn named(region: &Region, bases: Vec<u8>) -> Record {
    Record::new(Definition::new(region.to_string(), None), Sequence::from(bases))
}

/// The records of a reader.
#[derive(Debug)]
pub struct Records<'a, R> {
    reader: &'a mut Reader<R>,
}

impl<R: BufRead> Iterator for Records<'_, R> {
    type Item = io::Result<Record>;

    fn next(&mut self) -> Option<Self::Item> {
        let mut definition = Definition::default();
        let mut bases = vec![];
        match self.reader.read_definition(&mut definition) {
            Ok(0) => None,
            Ok(_) => {
                Some(self.reader.read_sequence(&mut bases).map(|_| Record::new(definition, Sequence::from(bases))))
            }
            Err(error) => Some(Err(error)),
        }
    }
}
