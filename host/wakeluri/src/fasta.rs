//! A FASTA file and its index as one thing that an app opens once, keeps, and shares between its threads.

mod error;
mod fastq;
#[allow(unsafe_code)]
mod mapped;
mod names;
mod options;
mod record;
mod watch;

pub use error::Error;
pub use fastq::{Fastq, Read};
pub use options::{MAPPED_FROM, Options, Trust};
pub use record::Record;

use crate::entry::{ROW_BYTES, ROW_WORDS};
use crate::refusal::Call;
use crate::region::{Meaning, meaning, plain, plain_form};
use crate::table::counted;
use crate::{Bounds, Refusal, Row, Table, entry};
use mapped::Bytes;
use names::NameMap;
use options::beside;
use std::fs;
use std::io::Write;
use std::path::{Path, PathBuf};
use std::sync::OnceLock;
use watch::Watch;

/// A FASTA file with its index: opened and checked once, and then read as often as you like, by any number of threads.
///
/// ```
/// use wakeluri::{Bounds, Fasta};
/// # let folder = std::env::temp_dir().join(format!("wakeluri-fasta-{}", std::process::id()));
/// # std::fs::create_dir_all(&folder)?;
/// # let path = folder.join("ref.fa");
/// # std::fs::write(&path, ">chr1 a first one\nACGTA\nCGTAC\nGT\n>chr2\nNN\n")?;
/// let fasta = Fasta::open(&path)?;
///
/// // a region as people write it, or a record and some bounds: counted from 1, both ends included, never clipped
/// assert_eq!(fasta.read("chr1:5-9")?, b"ACGTA");
/// let chr1 = fasta.record("chr1")?;
/// assert_eq!(chr1.read(5..=9)?, b"ACGTA");
/// assert_eq!((chr1.length(), chr1.description()), (12, Some(&b"a first one"[..])));
///
/// let error = chr1.read(5..=13).unwrap_err();
/// assert_eq!(error.to_string(), "chr1: the record has 12 bases, and the region goes past them: refused 17 (length 12)");
///
/// // records in their order
/// let lengths: Vec<u64> = fasta.records().map(|record| record.length()).collect();
/// assert_eq!(lengths, [12, 2]);
///
/// // threads share it without a lock
/// std::thread::scope(|scope| {
///     for _ in 0..2 {
///         scope.spawn(|| fasta.read("chr2:1-2"));
///     }
/// });
/// # std::fs::remove_dir_all(&folder)?;
/// # Ok::<(), Box<dyn std::error::Error>>(())
/// ```
///
/// It owns the file's bytes, the index and a map of the names. A file of [`MAPPED_FROM`] bytes or more is mapped, a shorter one is read into
/// memory. Every base comes from the proved call [`entry::read_exact`], and every row from [`entry::find`].
///
/// # A file that changes
///
/// Opening keeps the file's length, its time of change, its inode and its device. [`Fasta::unchanged`] compares them with what the file has
/// now, and so does a read that comes ten milliseconds or more after the last such look. Once they differ, every read fails with
/// [`Error::Changed`]. What is not seen:
///
/// - a change since the last look, for ten milliseconds and the few that the clock is off;
/// - a change after which the file's time was set back, and its length is the same.
///
/// A file that was read into memory gives the bytes that it had, whatever becomes of it. A mapped file gives the bytes that another program
/// writes at once; and if it is cut shorter, the system ends a program that reads behind its end (SIGBUS), as with every map. If others may
/// cut a file in place, open it with [`Options::hold`]. It is always safe to put another file in its place by renaming: the map keeps the
/// old one, and the next look sees it.
#[derive(Debug)]
pub struct Fasta {
    bytes: Bytes,
    /// The text that the names are spans of, if it isn't the file.
    index: Option<Vec<u8>>,
    table: Vec<u8>,
    rows: usize,
    names: NameMap,
    trust: Trust,
    path: Option<PathBuf>,
    watch: Option<Watch>,
    /// The rows of the file itself, made for the descriptions of records that an index leads to no definition line of.
    described: OnceLock<Vec<u8>>,
}

impl Fasta {
    /// Opens a file with the index that stands beside it (`ref.fa.fai`), or makes one in memory if there is none.
    ///
    /// An index that is there is checked against every base, and refused if it does not lead to each: an old index is never used. To do
    /// otherwise there is [`Fasta::options`].
    pub fn open(path: impl AsRef<Path>) -> Result<Self, Error> {
        Self::options().open(path)
    }

    /// How to open it.
    pub fn options() -> Options {
        Options::default()
    }

    /// A FASTA file that is in memory already; its rows are made by the complete rule. Refuses 1 to 4, 42.
    ///
    /// ```
    /// let fasta = wakeluri::Fasta::from_bytes(b">s\nACGT\nAC\n".to_vec())?;
    /// assert_eq!(fasta.read("s:4-5")?, b"TA");
    /// # Ok::<(), wakeluri::Error>(())
    /// ```
    pub fn from_bytes(fasta: impl Into<Vec<u8>>) -> Result<Self, Error> {
        let bytes = fasta.into();
        let table = crate::index(&bytes)?.into_bytes();
        Ok(Self::of(Bytes::Held(bytes), None, table, Trust::Made, None, None))
    }

    fn of(
        bytes: Bytes,
        index: Option<Vec<u8>>,
        table: Vec<u8>,
        trust: Trust,
        path: Option<PathBuf>,
        watch: Option<Watch>,
    ) -> Self {
        let rows = table.len() / ROW_BYTES;
        let mut fasta = Self {
            bytes,
            index,
            table,
            rows,
            names: NameMap::default(),
            trust,
            path,
            watch,
            described: OnceLock::new(),
        };
        fasta.names = NameMap::of(fasta.rows, |row| fasta.name(row));
        fasta
    }

    /// The file's bytes, as they were when it was opened, or as they are if it is mapped.
    pub fn bytes(&self) -> &[u8] {
        &self.bytes
    }

    /// What the rows rest on: an index that was checked, the file itself, or an index that was believed.
    pub fn trust(&self) -> Trust {
        self.trust
    }

    /// Whether the file is mapped, and not held in memory.
    pub fn is_mapped(&self) -> bool {
        matches!(self.bytes, Bytes::Mapped(_))
    }

    /// How many records there are.
    pub fn len(&self) -> usize {
        self.rows
    }

    /// Whether there is no record.
    pub fn is_empty(&self) -> bool {
        self.rows == 0
    }

    /// The bytes that names are spans of.
    fn named(&self) -> &[u8] {
        self.index.as_deref().unwrap_or(&self.bytes)
    }

    /// The bytes of a row, for a table of it alone.
    fn row_bytes(&self, row: usize) -> &[u8] {
        let from = row.saturating_mul(ROW_BYTES);
        self.table.get(from..).and_then(|rest| rest.get(..ROW_BYTES)).unwrap_or_default()
    }

    fn numbers(&self, row: usize) -> [u64; ROW_WORDS] {
        numbers(self.row_bytes(row))
    }

    /// A number of a row, by its column.
    fn number(&self, row: usize, column: usize) -> u64 {
        let from = row.saturating_mul(ROW_BYTES).saturating_add(8 * column);
        let bytes = self.table.get(from..).and_then(|rest| rest.first_chunk());
        bytes.map_or(0, |bytes| u64::from_le_bytes(*bytes))
    }

    fn name(&self, row: usize) -> &[u8] {
        part(self.named(), self.number(row, 0), self.number(row, 1))
    }

    /// The first row of a name: the map guesses, and the proved look-up has to find the name in a table of that row alone. It is asked once
    /// for each row: its answer is about the row and a name that is the row's own.
    fn row(&self, name: &[u8]) -> Option<usize> {
        let is_found = |row| entry::find(self.named(), self.row_bytes(row), 1, name).refusal == 0;
        self.names.find(name, |row| self.name(row), is_found)
    }

    /// A record by its name: the first that has it. Refuses 15 if none has.
    pub fn record(&self, name: impl AsRef<[u8]>) -> Result<Record<'_>, Error> {
        let name = name.as_ref();
        self.row(name).map(|row| self.numbered(row)).ok_or_else(|| self.no_record(name))
    }

    fn no_record(&self, name: &[u8]) -> Error {
        // why, the proved look-up says, over the whole table
        let walked = counted(Call::Find, entry::find(self.named(), &self.table, self.rows as u64, name));
        let refusal = walked.err().unwrap_or(Refusal::new(Call::Find, 15, 0, 0));
        Error::refused(crate::shown::short(name), refusal)
    }

    fn numbered(&self, row: usize) -> Record<'_> {
        Record { fasta: self, row }
    }

    /// A record by its number in the file, from 0.
    pub fn nth(&self, number: usize) -> Option<Record<'_>> {
        (number < self.rows).then(|| self.numbered(number))
    }

    /// The records, in the file's order.
    pub fn records(&self) -> impl DoubleEndedIterator<Item = Record<'_>> + ExactSizeIterator {
        (0..self.rows).map(|row| self.numbered(row))
    }

    /// What a region means as people write it: `chr1`, `chr1:5`, `chr1:5-`, `chr1:-9`, `chr1:5-9`, with thousands commas, `{chr1}:5-9`; as in
    /// samtools, `chr1:5` is from base 5 to the end. [`region`](crate::region) has the rules.
    pub fn region(&self, region: impl AsRef<[u8]>) -> Result<(Record<'_>, Bounds), Error> {
        let region = region.as_ref();
        if let Some((name, bounds)) = plain(region).filter(|_| self.row(region).is_none()) {
            if let Some(row) = self.row(name) {
                return Ok((self.numbered(row), bounds));
            }
        }
        self.region_of_any_form(region)
    }

    fn region_of_any_form(&self, region: &[u8]) -> Result<(Record<'_>, Bounds), Error> {
        let find = |name: &[u8]| self.row(name).map(Row::of_any_table);
        match meaning(region, find) {
            Meaning::Row(row, written) => {
                let record = self.numbered(row.number());
                Ok((record, record.bounds(&written)?))
            }
            Meaning::Bounds(_, why) => Err(Error::Region { region: region.to_vec(), why }),
            Meaning::NoName(name) => Err(self.no_record(name)),
            Meaning::Several(ways) => {
                let form = |(reading, row): (_, Row)| plain_form(reading, self.numbered(row.number()).length(), find);
                Err(Error::Several { region: region.to_vec(), forms: ways.into_iter().filter_map(form).collect() })
            }
        }
    }

    /// Exactly the bases of a region, as [`Fasta::region`] reads it. Refuses 15, 16, 17, 14, 18.
    pub fn read(&self, region: impl AsRef<[u8]>) -> Result<Vec<u8>, Error> {
        let (record, bounds) = self.region(region)?;
        record.read(bounds)
    }

    /// The index as samtools writes it: the text that was found, or one of the rows that were made. Refuses 13.
    pub fn index_text(&self) -> Result<Vec<u8>, Error> {
        match &self.index {
            Some(text) => Ok(text.clone()),
            None => Ok(Table::from_bytes(&self.bytes, self.table.clone(), self.rows).write_index()?),
        }
    }

    /// Writes the index beside the file (`ref.fa.fai`), in one step: nobody sees half of it. Tells its path.
    pub fn save_index(&self) -> Result<PathBuf, Error> {
        self.unchanged()?;
        self.save(&self.index_text()?)
    }

    /// Puts an index text beside the file.
    fn save(&self, text: &[u8]) -> Result<PathBuf, Error> {
        let to = beside(self.path.as_deref().unwrap_or(Path::new("")));
        let mut name = to.clone().into_os_string();
        name.push(format!(".{}.new", std::process::id()));
        let new = PathBuf::from(name);
        let written = fs::File::create_new(&new).and_then(|mut file| {
            file.write_all(text)?;
            file.sync_all()?;
            fs::rename(&new, &to)
        });
        match written {
            Ok(()) => Ok(to),
            Err(error) => {
                let _ = fs::remove_file(&new);
                Err(Error::file(&to, error))
            }
        }
    }

    /// Fails if the file is not what it was when it was opened: looks at it now.
    pub fn unchanged(&self) -> Result<(), Error> {
        self.watch.as_ref().map_or(Ok(()), Watch::look)
    }

    /// The same, if the last look is ten milliseconds old.
    fn unchanged_lately(&self) -> Result<(), Error> {
        self.watch.as_ref().map_or(Ok(()), Watch::look_if_due)
    }
}

/// The numbers of a row.
fn numbers(row: &[u8]) -> [u64; ROW_WORDS] {
    let mut numbers = [0; ROW_WORDS];
    for (number, bytes) in numbers.iter_mut().zip(row.chunks_exact(8)) {
        *number = u64::from_le_bytes(bytes.try_into().unwrap_or_default());
    }
    numbers
}

/// A part of some bytes; nothing if it isn't there.
fn part(bytes: &[u8], start: u64, length: u64) -> &[u8] {
    let part = || bytes.get(usize::try_from(start).ok()?..)?.get(..usize::try_from(length).ok()?);
    part().unwrap_or_default()
}

#[cfg(test)]
mod tests {
    use super::Fasta;

    /// Every short region is read as it is without the short way for most of them.
    #[test]
    fn the_short_way_to_a_region() {
        let fasta = b">a\nACGT\n>a:1\nAC\n>a:1-2\nA\n>{a}\nG\n>1\nC\n>:\nT\n>b:0-1\nT\n";
        let fasta = Fasta::from_bytes(fasta.to_vec()).expect("a good file");
        let (alphabet, mut read) = (b"a:1-{}0b", 0);
        for length in 0..=6_u32 {
            for number in 0..8_usize.pow(length) {
                let region: Vec<u8> = (0..length).map(|place| alphabet[number / 8_usize.pow(place) % 8]).collect();
                let told = |found: Result<(super::Record<'_>, crate::Bounds), super::Error>| {
                    found.map(|(record, bounds)| (record.number(), bounds)).map_err(|error| error.to_string())
                };
                let found = told(fasta.region(&region));
                read += usize::from(found.is_ok());
                assert_eq!(found, told(fasta.region_of_any_form(&region)), "{}", region.escape_ascii());
            }
        }
        assert!(read > 100, "{read}");
    }
}
