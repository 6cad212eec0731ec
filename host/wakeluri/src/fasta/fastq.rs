//! A FASTQ file and its index as one thing that an app opens once, keeps, and shares between its threads.

use super::mapped::Bytes;
use super::options::{Found, Rules};
use super::{Error, Fasta, Options, Trust};
use crate::fastq::{self, Part, Table};
use crate::refusal::Call;
use crate::table::{counted, with_room};
use crate::{Bounds, entry};
use std::path::{Path, PathBuf};

/// A FASTQ file with its index of six columns: opened and checked once, and then read as often as you like, by any number of threads.
///
/// ```
/// use wakeluri::Fastq;
/// use wakeluri::fastq::Part;
/// # let folder = std::env::temp_dir().join(format!("wakeluri-fastq-{}", std::process::id()));
/// # std::fs::create_dir_all(&folder)?;
/// # let path = folder.join("reads.fq");
/// # std::fs::write(&path, "@r1\nACGT\nAC\n+\n!\"#$\n%&\n@r2\nGG\n+\n@@\n")?;
/// let reads = Fastq::open(&path)?;
///
/// // a region as people write it, or a record and some bounds: counted from 1, both ends included, never clipped
/// assert_eq!(reads.read("r1:3-5", Part::Bases)?, b"GTA");
/// assert_eq!(reads.record("r1")?.read(Part::Qualities, 3..=5)?, b"#$%");
///
/// let error = reads.read("r1:3-7", Part::Qualities).unwrap_err();
/// assert_eq!(error.to_string(), "r1: the record has 6 bases, and the region goes past them: refused 17 (length 6)");
///
/// // an index that stands beside the file is used only if it leads to every base and every quality
/// reads.save_index()?;
/// assert_eq!(Fastq::open(&path)?.trust(), wakeluri::fasta::Trust::Checked);
/// # std::fs::remove_dir_all(&folder)?;
/// # Ok::<(), Box<dyn std::error::Error>>(())
/// ```
///
/// How a file is held and what is seen of its changes: as [`Fasta`] has it. Every byte comes from the proved call
/// [`entry::fastq_read`](crate::entry::fastq_read).
#[derive(Debug)]
pub struct Fastq {
    /// The file, its names, and the rows of its bases.
    bases: Fasta,
    /// Its rows, with their qualities.
    table: Vec<u8>,
}

impl Fastq {
    /// Opens a file with the index that stands beside it (`reads.fq.fai`), or makes one in memory if there is none.
    ///
    /// An index that is there is checked against every base and every quality, and refused if it does not lead to each. To do otherwise there
    /// is [`Fastq::options`].
    pub fn open(path: impl AsRef<Path>) -> Result<Self, Error> {
        Self::options().open_fastq(path)
    }

    /// How to open it, by [`Options::open_fastq`].
    pub fn options() -> Options {
        Options::default()
    }

    /// A FASTQ file that is in memory already. Refuses as [`fastq::index`].
    ///
    /// ```
    /// use wakeluri::fastq::Part;
    /// let reads = wakeluri::Fastq::from_bytes(b"@s\nACGT\n+\n!\"#$\n".to_vec())?;
    /// assert_eq!(reads.read("s:2-3", Part::Qualities)?, b"\"#");
    /// # Ok::<(), wakeluri::Error>(())
    /// ```
    pub fn from_bytes(fastq: impl Into<Vec<u8>>) -> Result<Self, Error> {
        let bytes = fastq.into();
        let (bases, table) = both(fastq::index(&bytes)?);
        Ok(Self { bases: Fasta::of(Bytes::Held(bytes), None, bases, Trust::Made, None, None), table })
    }

    pub(super) fn opened(found: Found) -> Result<Self, Error> {
        let (table, trust) = found.rows(&Rules {
            make: |bytes| fastq::index(bytes).map(Table::into_bytes),
            check: fastq::check,
            read: |text| fastq::read_index(text).map(Table::into_bytes),
        })?;
        let (bases, table) = both(all_in_use(b"", table));
        Ok(Self { bases: found.opened(bases, trust)?, table })
    }

    /// The rows as a table of their own.
    pub fn table(&self) -> Table<'_> {
        all_in_use(self.bases.named(), self.table.clone())
    }

    /// The file's bytes, as they were when it was opened, or as they are if it is mapped.
    pub fn bytes(&self) -> &[u8] {
        self.bases.bytes()
    }

    /// What the rows rest on.
    pub fn trust(&self) -> Trust {
        self.bases.trust()
    }

    /// How many records there are.
    pub fn len(&self) -> usize {
        self.bases.len()
    }

    /// Whether there is no record.
    pub fn is_empty(&self) -> bool {
        self.bases.is_empty()
    }

    /// A record by its name: the first that has it. Refuses 15 if none has.
    pub fn record(&self, name: impl AsRef<[u8]>) -> Result<Read<'_>, Error> {
        Ok(Read { fastq: self, bases: self.bases.record(name)? })
    }

    /// A record by its number in the file, from 0.
    pub fn nth(&self, number: usize) -> Option<Read<'_>> {
        self.bases.nth(number).map(|bases| Read { fastq: self, bases })
    }

    /// The records, in the file's order.
    pub fn records(&self) -> impl DoubleEndedIterator<Item = Read<'_>> + ExactSizeIterator {
        self.bases.records().map(|bases| Read { fastq: self, bases })
    }

    /// Exactly the bases, or the qualities, of a region, as [`Fasta::region`] reads it. Refuses 15, 16, 17, 14, 18.
    pub fn read(&self, region: impl AsRef<[u8]>, part: Part) -> Result<Vec<u8>, Error> {
        let (bases, bounds) = self.bases.region(region)?;
        Read { fastq: self, bases }.read(part, bounds)
    }

    /// The index as samtools writes it: the text that was found, or one of the rows that were made. Refuses 13.
    pub fn index_text(&self) -> Result<Vec<u8>, Error> {
        match &self.bases.index {
            Some(text) => Ok(text.clone()),
            None => Ok(self.table().write_index()?),
        }
    }

    /// Writes the index beside the file (`reads.fq.fai`), in one step: nobody sees half of it. Tells its path.
    pub fn save_index(&self) -> Result<PathBuf, Error> {
        self.unchanged()?;
        self.bases.save(&self.index_text()?)
    }

    /// Fails if the file is not what it was when it was opened: looks at it now.
    pub fn unchanged(&self) -> Result<(), Error> {
        self.bases.unchanged()
    }
}

/// The table of some rows, all of them in use.
fn all_in_use(names: &[u8], rows: Vec<u8>) -> Table<'_> {
    let in_use = rows.len() / fastq::ROW_BYTES;
    Table::from_bytes(names, rows, in_use)
}

/// The rows of the bases alone, and all rows.
fn both(table: Table<'_>) -> (Vec<u8>, Vec<u8>) {
    (table.part(Part::Bases).into_bytes(), table.into_bytes())
}

/// A record of a [`Fastq`].
#[derive(Clone, Copy, Debug)]
pub struct Read<'f> {
    fastq: &'f Fastq,
    bases: super::Record<'f>,
}

impl<'f> Read<'f> {
    /// Its number in the file, from 0.
    pub fn number(&self) -> usize {
        self.bases.number()
    }

    /// Its name, which is any bytes.
    pub fn name(&self) -> &'f [u8] {
        self.bases.name()
    }

    /// How many bases it has, and as many qualities.
    pub fn length(&self) -> u64 {
        self.bases.length()
    }

    /// Exactly the bases, or the qualities, within some bounds, never fewer. Refuses 16, 17, 14, 18, and fails if the file has changed.
    pub fn read(&self, part: Part, bounds: impl Into<Bounds>) -> Result<Vec<u8>, Error> {
        let Fastq { bases, table } = self.fastq;
        let (in_use, row, bounds) = (bases.len() as u64, self.number() as u64, bounds.into());
        let bytes = with_room(bounds.bases(), |out| {
            let read = entry::fastq_read(bases.bytes(), table, in_use, row, bounds, part.number(), out);
            counted(Call::ReadExact, read)
        });
        self.bases.answered(bytes)
    }
}
