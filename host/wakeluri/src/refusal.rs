//! Why a call gave no answer, in numbers and in words.

use crate::reason::Reason;
use alloc::string::{String, ToString};
use core::error::Error;
use core::fmt;

/// What was asked for when it was refused. The two numbers of some refusals mean different things in different calls.
#[derive(Clone, Copy, Debug, Eq, PartialEq)]
#[non_exhaustive]
pub enum Call {
    /// Reading a definition line.
    Definition,
    /// Indexing a file, or one of its records.
    Index,
    /// Reading an index text, or one of its lines.
    ReadIndex,
    /// Writing a line of an index.
    WriteIndex,
    /// Holding an index against its file.
    Check,
    /// Looking up a name.
    Find,
    /// An exact read.
    ReadExact,
    /// A read from a window, or which bytes it needs.
    ReadWindow,
    /// A raw read.
    ReadRaw,
    /// Reading lines or sequences from an offset on.
    ReadSequence,
    /// Complement or reverse complement.
    Complement,
    /// Writing a FASTA record.
    WriteRecord,
    /// Reading or writing an exercise.
    Exercise,
    /// Counting what was typed against a key.
    Score,
    /// Counting a primer's sequences, or finding it.
    Primer,
    /// Indexing a FASTQ file.
    FastqIndex,
    /// Holding an index of six columns against its FASTQ file.
    FastqCheck,
}

/// Why a call gave no answer: the refusal's number and its two numbers, 0 where none is named.
///
/// Its `Display` says in words what is wrong and where, then the numbers:
///
/// ```
/// let fasta = b">s\nACGT\nAC\n";
/// let table = wakeluri::index(fasta)?;
/// let refusal = table.read_exact(fasta, table.find(b"s")?, 5..=7).unwrap_err();
/// assert_eq!((refusal.number, refusal.first), (17, 6));
/// assert_eq!(refusal.to_string(), "the record has 6 bases, and the region goes past them: refused 17 (length 6)");
/// # Ok::<(), wakeluri::Refusal>(())
/// ```
///
/// [`Refusal::reason`] gives it as a case with named numbers, for a `match`.
#[derive(Clone, Copy, Debug, Eq, PartialEq)]
#[non_exhaustive]
pub struct Refusal {
    /// The number, from 1.
    pub number: u64,
    /// The first of its two numbers.
    pub first: u64,
    /// The second.
    pub second: u64,
    /// What was asked for.
    pub call: Call,
}

/// The columns of an index line, by their field's number.
fn column(field: u64) -> &'static str {
    match field {
        2 => "the length",
        3 => "the offset of the first base",
        4 => "the bases in a line",
        5 => "the bytes in a line",
        6 => "the offset of the first quality",
        _ => "the name",
    }
}

impl Refusal {
    /// A refusal by its numbers, for code that judges in place of a call.
    pub const fn new(call: Call, number: u64, first: u64, second: u64) -> Self {
        Self { number, first, second, call }
    }

    /// Why, as a case with named numbers.
    ///
    /// ```
    /// use wakeluri::Reason;
    /// let refusal = wakeluri::index(b">s\nACGT\n>\nAC\n").unwrap_err();
    /// assert_eq!(refusal.reason(), Reason::NoName { record: None, offset: 9 });
    /// ```
    pub fn reason(&self) -> Reason {
        Reason::of(self)
    }

    /// The refusal of an answer's three numbers, if there is one.
    pub(crate) fn of(call: Call, number: u64, first: u64, second: u64) -> Result<(), Self> {
        if number == 0 { Ok(()) } else { Err(Self { number, first, second, call }) }
    }

    /// The offset in the file, from 0, that it tells: of a definition line that does not read (2 to 4), of the byte at which
    /// reading it failed; of 5, of the byte behind the record's first line; of 42, of the base that no index leads to.
    ///
    /// ```
    /// let refusal = wakeluri::index(b">s\nACGT\n>\nAC\n").unwrap_err();
    /// assert_eq!((refusal.number, refusal.offset()), (4, Some(9)));
    /// assert_eq!(refusal.words(), "a definition line has no name after its '>', at byte 9");
    /// ```
    pub fn offset(&self) -> Option<u64> {
        match (self.number, self.call) {
            (2..=4, Call::Check) => Some(self.second),
            (2..=5 | 42, Call::Index) => Some(self.first),
            (2..=5, Call::FastqIndex | Call::FastqCheck) => Some(self.first),
            _ => None,
        }
    }

    /// What is wrong and where, in words.
    ///
    /// ```
    /// let refusal = wakeluri::check(b">s\nACGT\nAC\n", b"s\t6\t3\t4\t6\n").unwrap_err();
    /// assert_eq!(refusal.words(), "base 5 of record 1 is not where its index line says");
    /// ```
    pub fn words(&self) -> String {
        let (first, second) = (self.first, self.second);
        let fastq = matches!(self.call, Call::FastqIndex | Call::FastqCheck);
        let checking = matches!(self.call, Call::Check | Call::FastqCheck);
        let line = if checking { format!("the index line of record {first}") } else { format!("line {first}") };
        // the checker of FASTQ judges the whole file first, and counts no records then
        let definition = match self.call {
            Call::Check => format!("the definition line of record {first}"),
            _ => "a definition line".to_string(),
        };
        let mark = if fastq { '@' } else { '>' };
        let there = match self.offset() {
            Some(offset) => format!("byte {offset}"),
            None => format!("place {first} of the line"),
        };
        match self.number {
            1 => "an input has more than 1,099,511,627,776 bytes".to_string(),
            2 => format!("{definition} is empty, at {there}"),
            3 => format!("{definition} does not begin with '{mark}', at {there}"),
            4 => format!("{definition} has no name after its '{mark}', at {there}"),
            5 => format!("a record has no bases in its first line, which ends at offset {first}"),
            6 => format!("a line has {first} bases, and its record's lines have {second}"),
            7 => format!("a line has {first} bytes with its end, and its record's lines have {second}"),
            8 => format!("the table has room for {first} rows, and there are more"),
            9 => format!("{line} is empty"),
            10 => format!("{line} ends before field {second}, {}", column(second)),
            11 => format!("{line} has no number that 64 bits hold in field {second}, {}", column(second)),
            12 => format!("{line} has 0 in field {second}, {}", column(second)),
            13 => format!("the name has a tab or a line feed at place {first}, and can't stand in an index"),
            14 => format!("the output is too short: {first} bytes are needed"),
            15 => "no record has that name".to_string(),
            16 => "the region's start is after its end, or a bound is 0".to_string(),
            17 => format!("the record has {} bases, and the region goes past them", first),
            18 => format!("base {first} would not lie in the file, by the record's numbers"),
            19 => format!("the index has no line for record {first}"),
            20 => format!("the index goes on after the lines of all {first} records"),
            21 => format!("record {first} and its index line have different names"),
            22 => format!("record {first} has another number of bases than its index line says"),
            23 if fastq => format!("base {second} of record {first}, or its quality, is not where its index line says"),
            23 => format!("base {second} of record {first} is not where its index line says"),
            24 => format!("the byte {} at place {first} has no complement", shown(second)),
            25 => format!("row {first} is not in the table, its name is not in the bytes, or its lines have no bases"),
            26 => "the file has ended already, and takes no more bytes".to_string(),
            27 => "a line can't have 0 bases".to_string(),
            28 => "the name is empty or has whitespace in it".to_string(),
            29 => "the description is empty, has a line feed in it, or whitespace at an end".to_string(),
            30 => "a base is a line feed, a carriage return or '>', and can't be written".to_string(),
            31 => format!(
                "the exercise has no good field at offset {first}, where one of name, start, end and edition should stand"
            ),
            32 => format!("the exercise has a field at offset {first} that has to be understood, and isn't known"),
            33 => format!("the edition of the exercise (offset {first}) is neither 1 nor 2"),
            34 => format!("base {first} is not in the window"),
            35 => "the window goes past the end of the file".to_string(),
            36 => "a primer has 1 to 31 letters".to_string(),
            37 => format!("the primer's letter at place {first} stands for no bases"),
            38 => "a record has no '+' line after its bases".to_string(),
            39 => format!(
                "a quality line has {first} qualities, and its line of bases has {second} bases, or another width"
            ),
            40 => "a sheet has more than 200 regions".to_string(),
            41 => "the list of starts is shorter than the list of regions".to_string(),
            42 => format!(
                "no index line can lead to base {second} of a record, which lies at offset {first}, and to those before it"
            ),
            number => format!("it was refused for a reason that this version has no words for, {number}"),
        }
    }

    /// The numbers, for a program to read: `refused 17 (length 6)`.
    ///
    /// ```
    /// let refusal = wakeluri::index(b">s\nACGT\n\nACGT\nAC\n").unwrap_err();
    /// assert_eq!(refusal.code(), "refused 42 (offset 14, base 9)");
    /// let refusal = wakeluri::index_strict(b">s\nACGT\n\n\n").unwrap_err();
    /// assert_eq!(refusal.code(), "refused 6 (found 0, expected 4)");
    /// ```
    pub fn code(&self) -> String {
        let (number, first, second) = (self.number, self.first, self.second);
        let checking = matches!(self.call, Call::Check | Call::FastqCheck);
        let line = if checking { "record" } else { "line" };
        match number {
            2..=4 if self.call == Call::Check => format!("refused {number} (record {first}, offset {second})"),
            2..=4 if self.call == Call::Definition => format!("refused {number} (place {first})"),
            2..=5 => format!("refused {number} (offset {first})"),
            1 | 15 | 16 | 26..=30 | 35 | 36 | 38 | 40 | 41 => format!("refused {number}"),
            6 | 7 | 39 => format!("refused {number} (found {first}, expected {second})"),
            8 => format!("refused {number} (rows {first})"),
            9 if !checking => format!("refused {number} (line {first})"),
            9..=12 => format!("refused {number} ({line} {first}, field {second})"),
            13 | 37 => format!("refused {number} (place {first})"),
            14 => format!("refused {number} (bytes {first})"),
            17 => format!("refused {number} (length {first})"),
            18 | 34 => format!("refused {number} (base {first})"),
            19 | 21 | 22 => format!("refused {number} (record {first})"),
            20 => format!("refused {number} (records {first})"),
            23 => format!("refused {number} (record {first}, base {second})"),
            24 => format!("refused {number} (place {first}, byte {second})"),
            25 => format!("refused {number} (row {first})"),
            31..=33 => format!("refused {number} (offset {first})"),
            42 => format!("refused {number} (offset {first}, base {second})"),
            _ => format!("refused {number} ({first}, {second})"),
        }
    }
}

/// A byte as it is written in a sentence.
fn shown(byte: u64) -> String {
    match u8::try_from(byte) {
        Ok(byte) if byte.is_ascii_graphic() => format!("'{}'", char::from(byte)),
        _ => byte.to_string(),
    }
}

impl fmt::Display for Refusal {
    fn fmt(&self, f: &mut fmt::Formatter<'_>) -> fmt::Result {
        write!(f, "{}: {}", self.words(), self.code())
    }
}

impl Error for Refusal {}
