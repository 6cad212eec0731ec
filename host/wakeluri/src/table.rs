//! The rows of an index: made from a file or read from an index text, looked up, and used to read bases.

use crate::entry::{ROW_BYTES, ROW_WORDS};
use crate::refusal::Call;
use crate::row::{Identity, Row};
use crate::{Bounds, Refusal, entry, pages};
use alloc::borrow::Cow;
use alloc::vec::Vec;
use core::ops::Range;

/// A table of this many rows is tried first: enough for most files, and so small that it costs little beside any.
const FIRST_ROWS: usize = 1 << 10;

/// What an index says of one record.
#[derive(Clone, Copy, Debug, Eq, PartialEq)]
#[non_exhaustive]
pub struct Record<'n> {
    /// Its name.
    pub name: &'n [u8],
    /// How many bases it has.
    pub length: u64,
    /// The offset of its first base in the file.
    pub position: u64,
    /// How many bases are in a line.
    pub line_bases: u64,
    /// How many bytes are in a line, with its end.
    pub line_width: u64,
    /// The text behind its name; empty where it has none.
    description: &'n [u8],
}

impl<'n> Record<'n> {
    /// No record.
    pub(crate) const NONE: Self =
        Record { name: b"", length: 0, position: 0, line_bases: 0, line_width: 0, description: b"" };

    /// The record of a row's numbers, whose name and description lie in `names`; none where they don't.
    pub(crate) fn of(names: &'n [u8], row: [u64; ROW_WORDS]) -> Option<Self> {
        let [name_start, name_length, length, position, line_bases, line_width, start, described] = row;
        let part =
            |start: u64, length: u64| names.get(usize::try_from(start).ok()?..)?.get(..usize::try_from(length).ok()?);
        let (name, description) = (part(name_start, name_length)?, part(start, described)?);
        Some(Self { name, length, position, line_bases, line_width, description })
    }

    /// The text behind the name in the definition line, without whitespace at its ends; none if there is none, and for a record
    /// that was read from an index, which has no descriptions.
    ///
    /// ```
    /// let table = wakeluri::index(b">s a first one \nACGT\n>t\nA\n")?;
    /// let described: Vec<_> = table.records().map(|record| record.description()).collect();
    /// assert_eq!(described, [Some(&b"a first one"[..]), None]);
    ///
    /// let text = table.write_index()?;
    /// assert_eq!(wakeluri::read_index(&text)?.records().next().and_then(|record| record.description()), None);
    /// # Ok::<(), wakeluri::Refusal>(())
    /// ```
    pub fn description(&self) -> Option<&'n [u8]> {
        (!self.description.is_empty()).then_some(self.description)
    }
}

/// The rows of an index. Names are not copied: they are parts of the bytes that they came from, a file or an index text.
///
/// ```
/// let fasta = b">sq0\nACGT\n>sq1\nNNNN\nNNNN\nNN\n";
/// let table = wakeluri::index(fasta)?;
/// assert_eq!(table.write_index()?, b"sq0\t4\t5\t4\t5\nsq1\t10\t15\t4\t5\n");
///
/// let row = table.find(b"sq1")?;
/// assert_eq!(table.read_exact(fasta, row, 8..)?, b"NNN");
/// # Ok::<(), wakeluri::Refusal>(())
/// ```
///
/// Two tables are equal if their bytes are; a [`Row`] is of the one that gave it all the same, or of a clone of it.
#[derive(Clone, Debug)]
pub struct Table<'n> {
    names: &'n [u8],
    bytes: Cow<'n, [u8]>,
    in_use: usize,
    identity: Identity,
}

impl PartialEq for Table<'_> {
    fn eq(&self, other: &Self) -> bool {
        (self.names, &self.bytes, self.in_use) == (other.names, &other.bytes, other.in_use)
    }
}

impl Eq for Table<'_> {}

/// A row for each record of a FASTA file. Refuses 1 to 4, and 42 only where no index of the file can ever be right.
///
/// The lines of a record need not be alike: it is taken if the numbers of any index line lead to each of its bases. So a blank line
/// at its end is no fault, nor is a record without bases. [`index_strict`] takes what noodles-fasta takes; where it gives a row, this
/// gives the same. It takes time in proportion to the file, and memory in proportion to the records.
///
/// ```
/// let table = wakeluri::index(b">s\nACGT\nAC\n")?;
/// let record = table.records().next().expect("one record");
/// assert_eq!((record.name, record.length, record.position), (&b"s"[..], 6, 3));
/// assert_eq!((record.line_bases, record.line_width), (4, 5));
///
/// // blank lines, and a record without bases
/// let fasta = b">s\nACGT\nAC\n\n>t\n>u\n\nG\n\nT\n";
/// let text = wakeluri::index(fasta)?.write_index()?;
/// assert_eq!(text, b"s\t6\t3\t4\t5\nt\t0\t15\t1\t2\nu\t2\t19\t1\t3\n");
/// assert_eq!(wakeluri::check(fasta, &text), Ok(()));
///
/// // the third line begins where no numbers can lead to it and to the lines before it
/// let refusal = wakeluri::index(b">s\nACGT\nACGT\r\nACGT\n").unwrap_err();
/// assert_eq!(
///     refusal.to_string(),
///     "no index line can lead to base 9 of a record, which lies at offset 14, and to those before it: \
///      refused 42 (offset 14, base 9)"
/// );
/// # Ok::<(), wakeluri::Refusal>(())
/// ```
pub fn index(fasta: &[u8]) -> Result<Table<'_>, Refusal> {
    let (table, refusal) = index_until_refused(fasta);
    refusal.map_or(Ok(table), Err)
}

/// A row for each record of a FASTA file up to the first that is refused, and that refusal.
///
/// ```
/// let (table, refusal) = wakeluri::index_until_refused(b">s\nAC\n>t\nG\n\nGT\n");
/// assert_eq!(table.len(), 1);
/// assert_eq!(refusal.map(|refusal| (refusal.number, refusal.first, refusal.second)), Some((42, 13, 3)));
/// ```
pub fn index_until_refused(fasta: &[u8]) -> (Table<'_>, Option<Refusal>) {
    #[cfg(feature = "std")]
    return crate::Cores::default().index_until_refused(fasta);
    #[cfg(not(feature = "std"))]
    index_whole(fasta)
}

/// The same in one call.
pub(crate) fn index_whole(fasta: &[u8]) -> (Table<'_>, Option<Refusal>) {
    // no record has fewer than three bytes, but a last one
    filled(fasta, 0..fasta.len(), fasta.len() / 3 + 1, Call::Index, entry::index_complete)
}

/// A row for each record of a FASTA file whose lines are alike, as noodles-fasta takes it. Refuses 1 to 7.
///
/// ```
/// assert_eq!(wakeluri::index_strict(b">s\nACGT\nAC\n"), wakeluri::index(b">s\nACGT\nAC\n"));
///
/// let refusal = wakeluri::index_strict(b">s\nACGT\nACGT\r\n").unwrap_err();
/// assert_eq!(
///     refusal.to_string(),
///     "a line has 6 bytes with its end, and its record's lines have 5: refused 7 (found 6, expected 5)"
/// );
/// ```
pub fn index_strict(fasta: &[u8]) -> Result<Table<'_>, Refusal> {
    let (table, refusal) = index_strict_until_refused(fasta);
    refusal.map_or(Ok(table), Err)
}

/// As [`index_strict`], up to the first record that is refused, and that refusal.
///
/// ```
/// let (table, refusal) = wakeluri::index_strict_until_refused(b">s\nAC\n>t\n\nGT\n");
/// assert_eq!(table.len(), 1);
/// assert_eq!(refusal.map(|refusal| (refusal.number, refusal.first)), Some((5, 10)));
/// ```
pub fn index_strict_until_refused(fasta: &[u8]) -> (Table<'_>, Option<Refusal>) {
    #[cfg(feature = "std")]
    return crate::Cores::default().index_strict_until_refused(fasta);
    #[cfg(not(feature = "std"))]
    index_strict_whole(fasta)
}

/// The same in one call.
pub(crate) fn index_strict_whole(fasta: &[u8]) -> (Table<'_>, Option<Refusal>) {
    // no record has fewer than four bytes
    filled(fasta, 0..fasta.len(), fasta.len() / 4 + 1, Call::Index, entry::index_file)
}

/// A row for each line of an index text, whose names are parts of that text. Refuses 1, 9 to 12.
///
/// ```
/// let table = wakeluri::read_index(b"sq0\t4\t5\t4\t5\nsq1\t10\t15\t4\t5\n")?;
/// assert_eq!(table.find(b"sq1")?.number(), 1);
///
/// let refusal = wakeluri::read_index(b"s\t4\t3\t0\t5\n").unwrap_err();
/// assert_eq!(
///     refusal.to_string(),
///     "line 1 has 0 in field 4, the bases in a line: refused 12 (line 1, field 4)"
/// );
/// # Ok::<(), wakeluri::Refusal>(())
/// ```
pub fn read_index(index: &[u8]) -> Result<Table<'_>, Refusal> {
    let (table, refusal) = read_index_until_refused(index);
    refusal.map_or(Ok(table), Err)
}

/// A row for each line of an index text up to the first that is refused, and that refusal.
pub fn read_index_until_refused(index: &[u8]) -> (Table<'_>, Option<Refusal>) {
    // no line has fewer than eight bytes
    filled(index, 0..index.len(), index.len() / 8 + 1, Call::ReadIndex, entry::read_index)
}

/// Fills a table from a part of a text, and tries again with a longer one while it is too short. There are never more rows than `most`.
pub(crate) fn filled(
    text: &[u8],
    part: Range<usize>,
    most: usize,
    call: Call,
    fill: impl Fn(&[u8], &mut [u8]) -> entry::Answer,
) -> (Table<'_>, Option<Refusal>) {
    let mut rows = most.min(FIRST_ROWS);
    loop {
        let mut bytes = vec![0; rows * ROW_BYTES];
        pages::large(&mut bytes);
        let answer = fill(text, &mut bytes);
        let in_use = answer.count as usize;
        if answer.refusal == 8 && rows < most {
            let table = Table::from_bytes(text, bytes, in_use);
            let last_name = in_use.checked_sub(1).and_then(|row| table.numbers(row)).map_or(0, |[start, ..]| start);
            let last_name = last_name.saturating_sub(part.start as u64);
            rows = rows_for_all(in_use, last_name, part.len()).clamp(rows + 1, most);
            continue;
        }
        bytes.truncate(in_use.saturating_mul(ROW_BYTES));
        bytes.shrink_to_fit();
        let refusal = Refusal::of(call, answer.refusal, answer.first, answer.second).err();
        return (Table::from_bytes(text, bytes, in_use), refusal);
    }
}

/// Accepts a FASTA file and an index of any program, exactly if the index leads to every base of every record.
///
/// Refuses 1, and at the first fault, record by record, 2 to 4, 19, 9 to 12, 21 to 23, and last 20. Large files of several records are
/// checked, and indexed, on all cores, or on as many as [`use_threads`](crate::use_threads) says.
///
/// ```
/// let fasta = b">s\nACGT\nAC\n";
/// assert_eq!(wakeluri::check(fasta, b"s\t6\t3\t4\t5\n"), Ok(()));
///
/// let refusal = wakeluri::check(fasta, b"s\t6\t3\t4\t6\n").unwrap_err();
/// assert_eq!(
///     refusal.to_string(),
///     "base 5 of record 1 is not where its index line says: refused 23 (record 1, base 5)"
/// );
/// ```
pub fn check(fasta: &[u8], index: &[u8]) -> Result<(), Refusal> {
    #[cfg(feature = "std")]
    return crate::Cores::default().check(fasta, index);
    #[cfg(not(feature = "std"))]
    check_whole(fasta, index)
}

/// The same in one call.
pub(crate) fn check_whole(fasta: &[u8], index: &[u8]) -> Result<(), Refusal> {
    let answer = entry::check(fasta, index);
    Refusal::of(Call::Check, answer.refusal, answer.first, answer.second)
}

impl<'n> Table<'n> {
    /// A table from bytes as they are: [`ROW_WORDS`] numbers of eight bytes to a row, low byte first. Nothing is judged here; a row
    /// that can't be used is refused with 25 when it is.
    pub fn from_bytes(names: &'n [u8], bytes: Vec<u8>, in_use: usize) -> Self {
        Self::with_identity(names, bytes.into(), in_use, Identity::fresh())
    }

    /// The same of bytes that stay where they are.
    pub(crate) fn of_lent(names: &'n [u8], bytes: &'n [u8], in_use: usize) -> Self {
        Self::with_identity(names, bytes.into(), in_use, Identity::fresh())
    }

    /// The same, whose rows are those of another table.
    pub(crate) fn with_identity(names: &'n [u8], bytes: Cow<'n, [u8]>, in_use: usize, identity: Identity) -> Self {
        Self { names, bytes, in_use, identity }
    }

    /// A table of one row: a name, and the numbers of its index line.
    #[cfg(feature = "std")]
    pub(crate) fn of_one(name: &'n [u8], [length, position, line_bases, line_width]: [u64; 4]) -> Self {
        let row = entry::Row {
            name_length: name.len() as u64,
            length,
            position,
            line_bases,
            line_width,
            ..Default::default()
        };
        Self::from_bytes(name, row.row().into_iter().flat_map(u64::to_le_bytes).collect(), 1)
    }

    /// How many rows are in use.
    pub fn len(&self) -> usize {
        self.in_use
    }

    /// Whether there is no row in use.
    pub fn is_empty(&self) -> bool {
        self.in_use == 0
    }

    /// The rows as bytes.
    pub fn as_bytes(&self) -> &[u8] {
        &self.bytes
    }

    /// The rows as bytes, and no longer a table: [`Table::from_bytes`] makes one of them again.
    pub fn into_bytes(self) -> Vec<u8> {
        self.bytes.into_owned()
    }

    /// The bytes that names are parts of.
    pub fn names(&self) -> &'n [u8] {
        self.names
    }

    /// The rows in use, in their order, as far as the bytes reach.
    ///
    /// ```
    /// let fasta = b">s\nAC\n>t\nGT\n";
    /// let table = wakeluri::index(fasta)?;
    /// for row in table.rows() {
    ///     assert_eq!(table.read_exact(fasta, row, ..)?.len(), 2);
    /// }
    /// # Ok::<(), wakeluri::Refusal>(())
    /// ```
    pub fn rows(&self) -> impl DoubleEndedIterator<Item = Row> + ExactSizeIterator + use<'n> {
        let identity = self.identity;
        (0..self.in_use.min(self.bytes.len() / ROW_BYTES)).map(move |number| Row::new(identity, number))
    }

    /// The row of a number, counted from 0; none if it isn't in use.
    ///
    /// ```
    /// let table = wakeluri::index(b">s\nAC\n>t\nGT\n")?;
    /// assert_eq!(table.row(1), table.find(b"t").ok());
    /// assert_eq!(table.row(2), None);
    /// # Ok::<(), wakeluri::Refusal>(())
    /// ```
    pub fn row(&self, number: usize) -> Option<Row> {
        (number < self.rows().len()).then(|| Row::new(self.identity, number))
    }

    /// How many rows a call may use, and the number of the row for it: none where the row is of another table, so that the call refuses
    /// it as one that isn't there.
    pub(crate) fn lent(&self, row: Row) -> (u64, u64) {
        let in_use = if row.is_of(self.identity) { self.in_use } else { 0 };
        (in_use as u64, row.number() as u64)
    }

    /// The numbers of a row; none if there is no such row.
    fn numbers(&self, row: usize) -> Option<[u64; ROW_WORDS]> {
        if row >= self.in_use {
            return None;
        }
        let from = row.checked_mul(ROW_BYTES)?;
        let bytes = self.bytes.get(from..)?.get(..ROW_BYTES)?;
        let mut numbers = [0; ROW_WORDS];
        for (number, bytes) in numbers.iter_mut().zip(bytes.chunks_exact(8)) {
            *number = u64::from_le_bytes(bytes.try_into().ok()?);
        }
        Some(numbers)
    }

    /// The record of a row; none if there is no such row, it is of another table, or its name isn't in the bytes.
    pub fn record(&self, row: Row) -> Option<Record<'n>> {
        if row.is_of(self.identity) { self.numbered_record(row.number()) } else { None }
    }

    fn numbered_record(&self, row: usize) -> Option<Record<'n>> {
        Record::of(self.names, self.numbers(row)?)
    }

    /// The records in order of their rows, up to one whose name isn't in the bytes.
    pub fn records(&self) -> impl Iterator<Item = Record<'n>> + '_ {
        (0..self.in_use).map_while(|row| self.numbered_record(row))
    }

    /// The first row that has a name. Refuses 1, 25, 15.
    ///
    /// It walks over the names from the first on; [`Names`](crate::Names) is for many look-ups.
    ///
    /// ```
    /// let table = wakeluri::index(b">s\nAC\n>t\nGT\n")?;
    /// assert_eq!(table.find(b"t")?.number(), 1);
    /// assert_eq!(table.find(b"u").unwrap_err().to_string(), "no record has that name: refused 15");
    /// # Ok::<(), wakeluri::Refusal>(())
    /// ```
    pub fn find(&self, name: &[u8]) -> Result<Row, Refusal> {
        let found = counted(Call::Find, entry::find(self.names, &self.bytes, self.in_use as u64, name));
        found.map(|number| Row::new(self.identity, number))
    }

    /// Exactly the bases of a row's record within some bounds, never fewer. Refuses 1, 16, 25, 17, 14, 18.
    ///
    /// 14 tells that so many bytes are not available; 25 also that the row is of another table.
    ///
    /// ```
    /// let fasta = b">s\nACGT\nAC\n";
    /// let table = wakeluri::index(fasta)?;
    /// let row = table.find(b"s")?;
    /// assert_eq!(table.read_exact(fasta, row, 4..=5)?, b"TA");
    /// assert_eq!(table.read_exact(fasta, row, ..)?, b"ACGTAC");
    /// # Ok::<(), wakeluri::Refusal>(())
    /// ```
    pub fn read_exact(&self, fasta: &[u8], row: Row, bounds: impl Into<Bounds>) -> Result<Vec<u8>, Refusal> {
        let bounds = bounds.into();
        with_room(bounds.bases(), |out| self.read_exact_into(fasta, row, bounds, out))
    }

    /// As [`Table::read_exact`], to the front of a room that is lent; returns how many bytes. A refusal leaves it as it was.
    pub fn read_exact_into(
        &self,
        fasta: &[u8],
        row: Row,
        bounds: impl Into<Bounds>,
        out: &mut [u8],
    ) -> Result<usize, Refusal> {
        let (in_use, row) = self.lent(row);
        counted(Call::ReadExact, entry::read_exact(fasta, &self.bytes, in_use, row, bounds.into(), out))
    }

    /// The bases that a scan finds from the start on. Refuses 1, 16, 25, 18, 14.
    ///
    /// This is what noodles-fasta's query does. It ignores the record's length: it gives fewer bases where the file has fewer,
    /// and where it starts behind its record it may give bytes of the next definition line. Use [`Table::read_exact`] unless
    /// you want just that.
    ///
    /// ```
    /// let fasta = b">s\nAC\n>t\nGG\n";
    /// let table = wakeluri::index(fasta)?;
    /// let row = table.find(b"s")?;
    /// assert_eq!(table.read_raw(fasta, row, 1..=100)?, b"AC");
    /// assert_eq!(table.read_raw(fasta, row, 4..=5)?, b"tG");
    /// # Ok::<(), wakeluri::Refusal>(())
    /// ```
    pub fn read_raw(&self, fasta: &[u8], row: Row, bounds: impl Into<Bounds>) -> Result<Vec<u8>, Refusal> {
        let bounds = bounds.into();
        with_room(bounds.bases(), |out| self.read_raw_into(fasta, row, bounds, out))
    }

    /// As [`Table::read_raw`], to the front of a room that is lent; returns how many bytes.
    pub fn read_raw_into(
        &self,
        fasta: &[u8],
        row: Row,
        bounds: impl Into<Bounds>,
        out: &mut [u8],
    ) -> Result<usize, Refusal> {
        let (in_use, row) = self.lent(row);
        counted(Call::ReadRaw, entry::read_raw(fasta, &self.bytes, in_use, row, bounds.into(), out))
    }

    /// The whole index text: a line for each row. Refuses 1, 25, 13.
    ///
    /// ```
    /// let table = wakeluri::index(b">s\nACGT\r\nAC")?;
    /// assert_eq!(table.write_index()?, b"s\t6\t3\t4\t6\n");
    /// # Ok::<(), wakeluri::Refusal>(())
    /// ```
    pub fn write_index(&self) -> Result<Vec<u8>, Refusal> {
        // each that is said to be in use: one that isn't there is refused
        write_lines(self.in_use, |number, out| self.write_index_line_into(Row::new(self.identity, number), out))
    }

    /// Adds the index line of a row to a text. Refuses 1, 25, 13, and then adds nothing.
    pub fn write_index_line(&self, row: Row, text: &mut Vec<u8>) -> Result<(), Refusal> {
        write_line_behind(text, |out| self.write_index_line_into(row, out))
    }

    /// The index line of a row, at the front of a room that is lent; returns how many bytes. Refuses 1, 25, 13, 14.
    pub fn write_index_line_into(&self, row: Row, out: &mut [u8]) -> Result<usize, Refusal> {
        let (in_use, row) = self.lent(row);
        counted(Call::WriteIndex, entry::write_index_line(self.names, &self.bytes, in_use, row, out))
    }
}

/// About how many rows some bytes have, where the first `rows` of them reach to this last name: as many for a byte as up to there, and an
/// eighth more; at least twice as many.
pub(crate) fn rows_for_all(rows: usize, last_name: u64, bytes: usize) -> usize {
    let likely = rows as u128 * bytes as u128 / u128::from(last_name.max(1));
    let likely = usize::try_from(likely).unwrap_or(usize::MAX);
    likely.saturating_add(likely / 8).max(rows.saturating_mul(2))
}

/// Room that is lent for a line of many; a longer one says how much it needs.
const LINE: usize = 1 << 10;

/// Most lines are shorter.
const LIKELY: usize = 128;

/// There is room for so many lines at first.
const FIRST_LINES: usize = 1 << 16;

/// So much of the room is made ready at a time, at most: it is still in the cache when it is written to.
const READY: usize = 1 << 15;

/// The lines of so many rows, one behind the other, each of which is written to the front of a room that is lent.
pub(crate) fn write_lines(
    rows: usize,
    write: impl Fn(usize, &mut [u8]) -> Result<usize, Refusal>,
) -> Result<Vec<u8>, Refusal> {
    // room that is not used is not touched, and costs nothing; there may be fewer rows than are said to be in use
    let (mut text, mut at) = (Vec::with_capacity(rows.min(FIRST_LINES) * LIKELY + LINE), 0);
    for row in 0..rows {
        if text.len() - at < LINE {
            text.resize(at + READY.min((rows - row).min(FIRST_LINES) * LIKELY + LINE), 0);
        }
        let mut written = write(row, text.get_mut(at..).unwrap_or_default());
        if let Err(Refusal { number: 14, first, .. }) = written {
            text.resize(at + first as usize, 0);
            written = write(row, text.get_mut(at..).unwrap_or_default());
        }
        at += written?;
    }
    text.truncate(at);
    text.shrink_to_fit();
    Ok(text)
}

/// Adds a line to a text, which is written to the front of a room that is lent; adds nothing where it is refused.
pub(crate) fn write_line_behind(
    text: &mut Vec<u8>,
    write: impl Fn(&mut [u8]) -> Result<usize, Refusal>,
) -> Result<(), Refusal> {
    let before = text.len();
    // room for most lines, in which digits need not be counted; a longer one says how much it needs
    text.resize(before + 192, 0);
    let mut written = write(text.get_mut(before..).unwrap_or_default());
    if let Err(Refusal { number: 14, first, .. }) = written {
        text.resize(before + first as usize, 0);
        written = write(text.get_mut(before..).unwrap_or_default());
    }
    text.truncate(before + written.unwrap_or(0));
    written.map(|_| ())
}

/// The count of an answer, or its refusal.
pub(crate) fn counted(call: Call, answer: entry::Answer) -> Result<usize, Refusal> {
    Refusal::of(call, answer.refusal, answer.first, answer.second).map(|()| answer.count as usize)
}

/// A room for what a read likely gives is made at once up to so many bytes, and above only when the read says that it needs more.
pub(crate) const FIRST_ROOM: u64 = 1 << 16;

/// What a read gives, in a room of just its size: one of `likely` bytes is tried first, and where that is too short, the read itself
/// says how much it needs.
pub(crate) fn with_room(likely: u64, read: impl Fn(&mut [u8]) -> Result<usize, Refusal>) -> Result<Vec<u8>, Refusal> {
    let first = if likely <= FIRST_ROOM { likely as usize } else { 0 };
    let mut out = vec![0; first];
    let read_first = read(&mut out);
    let count = match read_first {
        Err(refusal) if refusal.number == 14 => {
            out = room(refusal.first).ok_or(refusal)?;
            read(&mut out)?
        }
        other => other?,
    };
    out.truncate(count);
    out.shrink_to_fit();
    Ok(out)
}

/// The same where it is known how much is needed: it is made at once.
pub(crate) fn with_known_room(
    bytes: u64,
    write: impl Fn(&mut [u8]) -> Result<usize, Refusal>,
) -> Result<Vec<u8>, Refusal> {
    let Some(mut out) = room(bytes) else { return with_room(0, write) };
    let count = write(&mut out)?;
    out.truncate(count);
    Ok(out)
}

/// So many bytes, if they are available. They come from the system as zeros, so that what isn't written to costs nothing; an
/// index that lies about a length costs no memory.
pub(crate) fn room(bytes: u64) -> Option<Vec<u8>> {
    let bytes = usize::try_from(bytes).ok()?;
    let mut tried = Vec::<u8>::new();
    tried.try_reserve_exact(bytes).ok()?;
    // the compiler may not drop the trial
    core::hint::black_box(&tried);
    drop(tried);
    let mut room = vec![0; bytes];
    pages::large(&mut room);
    Some(room)
}
