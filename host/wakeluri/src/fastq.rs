//! FASTQ: a file indexed, its index of six columns read and written, and its bases or its qualities read.
//!
//! ```
//! use wakeluri::fastq::{self, Part};
//! let reads = b"@r1 a first one\nACGT\nAC\n+\nIIII\n@+\n@r2\nGG\n+\n!!\n";
//!
//! // make an index, and write it as `samtools fqidx` would
//! let table = fastq::index(reads)?;
//! let text = table.write_index()?;
//! assert_eq!(text, b"r1\t6\t16\t4\t5\t26\nr2\t2\t38\t2\t3\t43\n");
//!
//! // or take one that another program wrote: accepted only if it leads to every base and to every quality
//! fastq::check(reads, &text)?;
//!
//! // look a name up once, and read bases or qualities as often as you like: here 3 to 5, counted from 1
//! let row = table.find(b"r1")?;
//! assert_eq!(table.read(reads, row, Part::Bases, 3..=5)?, b"GTA");
//! assert_eq!(table.read(reads, row, Part::Qualities, 3..=5)?, b"II@");
//!
//! // never fewer than were asked for
//! let refusal = table.read(reads, row, Part::Qualities, 3..=7).unwrap_err();
//! assert_eq!(refusal.to_string(), "the record has 6 bases, and the region goes past them: refused 17 (length 6)");
//! # Ok::<(), wakeluri::Refusal>(())
//! ```
//!
//! A record is a definition line that begins with '@'; lines of bases, up to a line that begins with '+'; that line; and as many lines of
//! qualities, each as long as its partner. A line of qualities may begin with '@' or '+'.

use crate::refusal::Call;
use crate::row::{Identity, Row};
use crate::table::{counted, rows_for_all, with_room, write_line_behind, write_lines};
use crate::{Bounds, Refusal, entry, pages};
use alloc::vec::Vec;

/// The numbers of a row: those of an index line with the span of its name before them, so that the quality position is last.
pub const ROW_WORDS: usize = entry::FASTQ_ROW_WORDS;

/// The bytes of a row.
pub const ROW_BYTES: usize = ROW_WORDS * size_of::<u64>();

/// A table of this many rows is tried first.
const FIRST_ROWS: usize = 1 << 10;

/// What of a record is read.
#[derive(Clone, Copy, Debug, Default, Eq, Hash, PartialEq)]
pub enum Part {
    /// Its bases.
    #[default]
    Bases,
    /// Its qualities: a byte for each base.
    Qualities,
}

impl Part {
    /// As the entry point takes it: 0 for bases.
    pub(crate) const fn number(self) -> u64 {
        match self {
            Self::Bases => 0,
            Self::Qualities => 1,
        }
    }
}

/// What an index says of one record.
#[derive(Clone, Copy, Debug, Eq, PartialEq)]
#[non_exhaustive]
pub struct Record<'n> {
    /// Its name.
    pub name: &'n [u8],
    /// How many bases it has, and as many qualities.
    pub length: u64,
    /// The offset of its first base in the file.
    pub position: u64,
    /// How many bases are in a line, and qualities in a line of those.
    pub line_bases: u64,
    /// How many bytes are in a line, with its end.
    pub line_width: u64,
    /// The offset of its first quality in the file.
    pub quality_position: u64,
}

impl<'n> Record<'n> {
    /// The record of a row's numbers, whose name lies in `names`; none where it doesn't.
    fn of(names: &'n [u8], row: [u64; ROW_WORDS]) -> Option<Self> {
        let [start, name_length, length, position, line_bases, line_width, quality_position] = row;
        let name = names.get(usize::try_from(start).ok()?..)?.get(..usize::try_from(name_length).ok()?)?;
        Some(Self { name, length, position, line_bases, line_width, quality_position })
    }
}

/// The rows of an index of a FASTQ file. Names are not copied: they are parts of the bytes that they came from, a file or an index text.
///
/// Two tables are equal if their bytes are; a [`Row`] is of the one that gave it all the same, or of a clone of it.
#[derive(Clone, Debug)]
pub struct Table<'n> {
    names: &'n [u8],
    bytes: Vec<u8>,
    in_use: usize,
    identity: Identity,
}

impl PartialEq for Table<'_> {
    fn eq(&self, other: &Self) -> bool {
        (self.names, &self.bytes, self.in_use) == (other.names, &other.bytes, other.in_use)
    }
}

impl Eq for Table<'_> {}

/// A row for each record of a FASTQ file. Refuses 1, then record by record 2 to 7, 38, 39.
///
/// ```
/// use wakeluri::fastq;
/// let table = fastq::index(b"@s\nACGT\nAC\n+\n!!!!\n!!\n")?;
/// let record = table.records().next().expect("one record");
/// assert_eq!((record.name, record.length, record.position, record.quality_position), (&b"s"[..], 6, 3, 13));
///
/// let refusal = fastq::index(b"@s\nACGT\n+\n!!!\n").unwrap_err();
/// assert_eq!(refusal.code(), "refused 39 (found 3, expected 4)");
/// let refusal = fastq::index(b">s\nACGT\n").unwrap_err();
/// assert_eq!(
///     refusal.to_string(),
///     "a definition line does not begin with '@', at byte 0: refused 3 (offset 0)"
/// );
/// # Ok::<(), wakeluri::Refusal>(())
/// ```
pub fn index(fastq: &[u8]) -> Result<Table<'_>, Refusal> {
    let (table, refusal) = index_until_refused(fastq);
    refusal.map_or(Ok(table), Err)
}

/// A row for each record of a FASTQ file up to the first that is refused, and that refusal.
///
/// ```
/// let (table, refusal) = wakeluri::fastq::index_until_refused(b"@s\nAC\n+\n!!\n@t\nAC\n");
/// assert_eq!((table.len(), refusal.map(|refusal| refusal.number)), (1, Some(38)));
/// ```
///
/// Large files are indexed on all cores, or on as many as [`use_threads`](crate::use_threads) says.
pub fn index_until_refused(fastq: &[u8]) -> (Table<'_>, Option<Refusal>) {
    #[cfg(feature = "std")]
    return crate::Cores::default().index_fastq_until_refused(fastq);
    #[cfg(not(feature = "std"))]
    index_whole(fastq)
}

/// The same on one core.
pub(crate) fn index_whole(fastq: &[u8]) -> (Table<'_>, Option<Refusal>) {
    filled(fastq, most_records(fastq), Call::FastqIndex, entry::fastq_index)
}

/// No file has more records: none has fewer than eight bytes, "@s\nA\n+\n!".
pub(crate) fn most_records(fastq: &[u8]) -> usize {
    fastq.len() / 8 + 1
}

/// A row for each line of an index of six columns, whose names are parts of that text. Refuses 1, 9 to 12.
///
/// ```
/// use wakeluri::fastq;
/// let table = fastq::read_index(b"r1\t6\t16\t4\t5\t26\nr2\t2\t38\t2\t3\t43\n")?;
/// assert_eq!(table.find(b"r2")?.number(), 1);
///
/// // a FASTA file's index has five
/// let refusal = fastq::read_index(b"r1\t6\t16\t4\t5\n").unwrap_err();
/// assert_eq!(
///     refusal.to_string(),
///     "line 1 ends before field 6, the offset of the first quality: refused 10 (line 1, field 6)"
/// );
/// # Ok::<(), wakeluri::Refusal>(())
/// ```
pub fn read_index(index: &[u8]) -> Result<Table<'_>, Refusal> {
    let (table, refusal) = read_index_until_refused(index);
    refusal.map_or(Ok(table), Err)
}

/// A row for each line of an index of six columns up to the first that is refused, and that refusal.
pub fn read_index_until_refused(index: &[u8]) -> (Table<'_>, Option<Refusal>) {
    // no line has fewer than ten bytes
    filled(index, index.len() / 10 + 1, Call::ReadIndex, entry::fastq_read_index)
}

/// What an index line of six columns says, given with its end, and whether it is plain: then it is just what would be written for it.
/// Refuses 1, 9 to 12.
///
/// ```
/// let (record, plain) = wakeluri::fastq::read_line(b"s\t6\t3\t4\t5\t+13\n")?;
/// assert_eq!((record.name, record.quality_position, plain), (&b"s"[..], 13, false));
/// # Ok::<(), wakeluri::Refusal>(())
/// ```
pub fn read_line(line: &[u8]) -> Result<(Record<'_>, bool), Refusal> {
    let row = entry::fastq_read_line(line);
    Refusal::of(Call::ReadIndex, row.refusal, row.first, row.second)?;
    const NONE: Record<'_> =
        Record { name: b"", length: 0, position: 0, line_bases: 0, line_width: 0, quality_position: 0 };
    Ok((Record::of(line, row.row()).unwrap_or(NONE), row.plain != 0))
}

/// Fills a table, and tries again with a longer one while it is too short. There are never more rows than `most`.
fn filled(
    text: &[u8],
    most: usize,
    call: Call,
    fill: impl Fn(&[u8], &mut [u8]) -> entry::Answer,
) -> (Table<'_>, Option<Refusal>) {
    let mut rows = most.min(FIRST_ROWS);
    loop {
        let mut bytes = vec![0; rows * ROW_BYTES];
        pages::large(&mut bytes);
        let answer = fill(text, &mut bytes);
        let in_use = answer.count as usize;
        let mut table = Table::from_bytes(text, bytes, in_use);
        if answer.refusal == 8 && rows < most {
            let last_name = in_use.checked_sub(1).and_then(|row| table.numbers(row)).map_or(0, |[start, ..]| start);
            rows = rows_for_all(in_use, last_name, text.len()).clamp(rows + 1, most);
            continue;
        }
        table.bytes.truncate(in_use.saturating_mul(ROW_BYTES));
        table.bytes.shrink_to_fit();
        return (table, Refusal::of(call, answer.refusal, answer.first, answer.second).err());
    }
}

/// Accepts a FASTQ file and an index of six columns, of any program, exactly if [`index`] takes the file and the index leads to every base
/// and to every quality of every record.
///
/// Refuses 1; then what [`index`] refuses, wherever in the file it is; then at the first fault, record by record, 19, 9 to 12, 21 to 23, and
/// last 20.
///
/// ```
/// use wakeluri::fastq;
/// let reads = b"@s\nACGT\nAC\n+\n!!!!\n!!\n";
/// assert_eq!(fastq::check(reads, b"s\t6\t3\t4\t5\t13\n"), Ok(()));
///
/// let refusal = fastq::check(reads, b"s\t6\t3\t4\t5\t12\n").unwrap_err();
/// assert_eq!(
///     refusal.to_string(),
///     "base 1 of record 1, or its quality, is not where its index line says: refused 23 (record 1, base 1)"
/// );
/// ```
///
/// Large files are checked on all cores, or on as many as [`use_threads`](crate::use_threads) says.
pub fn check(fastq: &[u8], index: &[u8]) -> Result<(), Refusal> {
    #[cfg(feature = "std")]
    return crate::Cores::default().check_fastq(fastq, index);
    #[cfg(not(feature = "std"))]
    check_whole(fastq, index)
}

/// The same in one call.
pub(crate) fn check_whole(fastq: &[u8], index: &[u8]) -> Result<(), Refusal> {
    let answer = entry::fastq_check(fastq, index);
    Refusal::of(Call::FastqCheck, answer.refusal, answer.first, answer.second)
}

impl<'n> Table<'n> {
    /// A table from bytes as they are: [`ROW_WORDS`] numbers of eight bytes to a row, low byte first. Nothing is judged here; a row
    /// that can't be used is refused with 25 when it is.
    pub fn from_bytes(names: &'n [u8], bytes: Vec<u8>, in_use: usize) -> Self {
        Self { names, bytes, in_use, identity: Identity::fresh() }
    }

    /// How many rows are in use.
    pub fn len(&self) -> usize {
        self.in_use
    }

    /// Whether there is no row in use.
    pub fn is_empty(&self) -> bool {
        self.in_use == 0
    }

    /// The rows as bytes.
    pub fn as_bytes(&self) -> &[u8] {
        &self.bytes
    }

    /// The rows as bytes, and no longer a table: [`Table::from_bytes`] makes one of them again.
    pub fn into_bytes(self) -> Vec<u8> {
        self.bytes
    }

    /// The bytes that names are parts of.
    pub fn names(&self) -> &'n [u8] {
        self.names
    }

    /// The rows in use, in their order, as far as the bytes reach.
    pub fn rows(&self) -> impl DoubleEndedIterator<Item = Row> + ExactSizeIterator + use<'n> {
        let identity = self.identity;
        (0..self.in_use.min(self.bytes.len() / ROW_BYTES)).map(move |number| Row::new(identity, number))
    }

    /// The row of a number, counted from 0; none where it isn't in use.
    pub fn row(&self, number: usize) -> Option<Row> {
        (number < self.rows().len()).then(|| Row::new(self.identity, number))
    }

    /// The numbers of a row; none where there is no such row.
    fn numbers(&self, row: usize) -> Option<[u64; ROW_WORDS]> {
        if row >= self.in_use {
            return None;
        }
        let from = row.checked_mul(ROW_BYTES)?;
        numbers(self.bytes.get(from..)?.get(..ROW_BYTES)?)
    }

    /// The record of a row; none where there is no such row, it is of another table, or its name isn't in the bytes.
    pub fn record(&self, row: Row) -> Option<Record<'n>> {
        if row.is_of(self.identity) { Record::of(self.names, self.numbers(row.number())?) } else { None }
    }

    /// The records in order of their rows, up to one whose name isn't in the bytes.
    pub fn records(&self) -> impl Iterator<Item = Record<'n>> + '_ {
        (0..self.in_use).map_while(|row| Record::of(self.names, self.numbers(row)?))
    }

    /// How many rows a call may use, and the number of the row for it: none where the row is of another table, so that the call refuses
    /// it as one that isn't there.
    fn lent(&self, row: Row) -> (u64, u64) {
        let in_use = if row.is_of(self.identity) { self.in_use } else { 0 };
        (in_use as u64, row.number() as u64)
    }

    /// The bases, or the qualities, as the table of a FASTA file: each row has the position of that part, and a [`Row`] of the one table is
    /// one of the other. So [`Names`](crate::Names), sheets and windows serve FASTQ too.
    ///
    /// ```
    /// use wakeluri::Names;
    /// use wakeluri::fastq::{self, Part};
    /// let reads = b"@s\nAC\n+\n!!\n@t\nGT\n+\n#$\n";
    /// let table = fastq::index(reads)?;
    /// let bases = table.part(Part::Bases);
    /// let row = Names::new(&bases).find(b"t")?;
    /// assert_eq!(bases.read_exact(reads, row, ..)?, b"GT");
    /// assert_eq!(table.part(Part::Qualities).read_exact(reads, row, ..)?, b"#$");
    /// assert_eq!(table.read(reads, row, Part::Qualities, ..)?, b"#$");
    /// # Ok::<(), wakeluri::Refusal>(())
    /// ```
    pub fn part(&self, part: Part) -> crate::Table<'n> {
        let mut bytes = Vec::with_capacity(self.bytes.len() / ROW_BYTES * entry::ROW_BYTES);
        for row in self.bytes.chunks_exact(ROW_BYTES).filter_map(numbers) {
            as_fasta(row, part).iter().for_each(|number| bytes.extend_from_slice(&number.to_le_bytes()));
        }
        crate::Table::with_identity(self.names, bytes.into(), self.in_use, self.identity)
    }

    /// The first row that has a name. Refuses 1, 25, 15.
    ///
    /// It walks over the names from the first on; for many look-ups there is [`Names`](crate::Names) over [`Table::part`].
    pub fn find(&self, name: &[u8]) -> Result<Row, Refusal> {
        self.part(Part::Bases).find(name)
    }

    /// Exactly the bases, or the qualities, of a row's record within some bounds, never fewer. Refuses 1, 16, 25, 17, 14, 18.
    ///
    /// 14 tells that so many bytes are not to be had; 25 also that the row is of another table.
    pub fn read(&self, fastq: &[u8], row: Row, part: Part, bounds: impl Into<Bounds>) -> Result<Vec<u8>, Refusal> {
        let bounds = bounds.into();
        with_room(bounds.bases(), |out| self.read_into(fastq, row, part, bounds, out))
    }

    /// As [`Table::read`], to the front of a room that is lent; tells how many bytes. A refusal leaves it as it was.
    pub fn read_into(
        &self,
        fastq: &[u8],
        row: Row,
        part: Part,
        bounds: impl Into<Bounds>,
        out: &mut [u8],
    ) -> Result<usize, Refusal> {
        let (in_use, row) = self.lent(row);
        let read = entry::fastq_read(fastq, &self.bytes, in_use, row, bounds.into(), part.number(), out);
        counted(Call::ReadExact, read)
    }

    /// The whole index text, of six columns: a line for each row. Refuses 1, 25, 13.
    pub fn write_index(&self) -> Result<Vec<u8>, Refusal> {
        // each that is said to be in use: one that isn't there is refused
        write_lines(self.in_use, |number, out| self.write_line_into(Row::new(self.identity, number), out))
    }

    /// Adds the index line of a row to a text. Refuses 1, 25, 13, and then adds nothing.
    pub fn write_line(&self, row: Row, text: &mut Vec<u8>) -> Result<(), Refusal> {
        write_line_behind(text, |out| self.write_line_into(row, out))
    }

    /// The index line of a row, at the front of a room that is lent; tells how many bytes. Refuses 1, 25, 13, 14.
    pub fn write_line_into(&self, row: Row, out: &mut [u8]) -> Result<usize, Refusal> {
        let (in_use, row) = self.lent(row);
        counted(Call::WriteIndex, entry::fastq_write_line(self.names, &self.bytes, in_use, row, out))
    }
}

/// The numbers of a row's bytes; none where they are not a row's.
fn numbers(bytes: &[u8]) -> Option<[u64; ROW_WORDS]> {
    let bytes: &[u8; ROW_BYTES] = bytes.try_into().ok()?;
    let mut numbers = [0; ROW_WORDS];
    for (number, bytes) in numbers.iter_mut().zip(bytes.chunks_exact(8)) {
        *number = u64::from_le_bytes(bytes.try_into().ok()?);
    }
    Some(numbers)
}

/// A row as that of a FASTA file, whose position is that of a part. It has no description.
fn as_fasta(row: [u64; ROW_WORDS], part: Part) -> [u64; entry::ROW_WORDS] {
    let [name_start, name_length, length, position, line_bases, line_width, quality_position] = row;
    let position = match part {
        Part::Bases => position,
        Part::Qualities => quality_position,
    };
    [name_start, name_length, length, position, line_bases, line_width, 0, 0]
}
