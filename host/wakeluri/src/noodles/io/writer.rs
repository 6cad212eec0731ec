//! FASTA written.

use crate::noodles::fai::io::inner;
use crate::noodles::record::Record;
use crate::noodles::refused;
use std::fs::File;
use std::io::{self, Write};
use std::num::NonZero;
use std::path::Path;

const LINE_BASES: NonZero<usize> = NonZero::new(80).unwrap();

/// Writes FASTA.
///
/// ```
/// use wakeluri::noodles::{self as fasta, record::{Definition, Sequence}};
/// let mut writer = fasta::io::Writer::new(vec![]);
/// let record = fasta::Record::new(Definition::new("sq0", None), Sequence::from(b"ACGT".to_vec()));
/// writer.write_record(&record)?;
/// assert_eq!(writer.get_ref(), b">sq0\nACGT\n");
/// # Ok::<(), std::io::Error>(())
/// ```
#[derive(Debug)]
pub struct Writer<W> {
    inner: W,
    line_bases: NonZero<usize>,
}

inner!(Writer, W);

impl<W: Write> Writer<W> {
    /// A writer in lines of 80 bases.
    pub fn new(inner: W) -> Self {
        Builder::default().build_from_writer(inner)
    }

    /// Writes a record that reads back as it is. Refuses 28 to 30 what would not: then nothing is written.
    pub fn write_record(&mut self, record: &Record) -> io::Result<()> {
        let description = record.description().map(|text| &**text);
        let width = self.line_bases.get() as u64;
        let text = crate::write_record(record.name(), description, record.sequence().as_ref(), width);
        self.inner.write_all(&text.map_err(refused)?)
    }
}

/// How a [`Writer`] writes.
#[derive(Clone, Debug)]
pub struct Builder {
    line_bases: NonZero<usize>,
}

impl Default for Builder {
    fn default() -> Self {
        Self { line_bases: LINE_BASES }
    }
}

impl Builder {
    /// So many bases to a line; without it 80.
    pub fn set_line_base_count(self, line_base_count: NonZero<usize>) -> Self {
        Self { line_bases: line_base_count }
    }

    /// A writer to a file, which is made anew.
    pub fn build_from_path<P: AsRef<Path>>(self, dst: P) -> io::Result<Writer<File>> {
        File::create(dst).map(|file| self.build_from_writer(file))
    }

    /// A writer to anything.
    pub fn build_from_writer<W: Write>(self, writer: W) -> Writer<W> {
        Writer { inner: writer, line_bases: self.line_bases }
    }
}
