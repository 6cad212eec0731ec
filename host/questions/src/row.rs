//! How many numbers a row of a table has. No other place of these programs says it.

/// The numbers of a row: name start, name length, length, position, line bases, line width, description start, description length.
pub const WORDS: usize = 8;

/// The numbers of a row that an index line gives: the span of its name, and four columns.
pub const OF_A_LINE: usize = 6;

/// The numbers of a row of a FASTQ file: the same as of a line, and the quality position.
pub const FASTQ_WORDS: usize = 7;

/// Their names in the header.
pub const FIELDS: &[&str; WORDS] = &[
    "name_start", "name_length", "length", "position", "line_bases", "line_width", "description_start",
    "description_length",
];

/// Those of a line.
pub const FIELDS_OF_A_LINE: &[&str] = FIELDS.split_at(OF_A_LINE).0;

/// Those of a row of a FASTQ file.
pub const FASTQ_FIELDS: &[&str; FASTQ_WORDS] =
    &["name_start", "name_length", "length", "position", "line_bases", "line_width", "quality_position"];

/// A row of a table of a FASTQ file.
pub type FastqRow = [u64; FASTQ_WORDS];

/// A row of a table.
pub type Row = [u64; WORDS];

/// The row of what an index line gives: it has no description.
pub fn row(of_a_line: [u64; OF_A_LINE]) -> Row {
    let mut row = [0; WORDS];
    row[..OF_A_LINE].copy_from_slice(&of_a_line);
    row
}

/// The same with a description, where it is not empty: its start and its length.
pub fn described(of_a_line: [u64; OF_A_LINE], [start, length]: [u64; 2]) -> Row {
    let mut row = row(of_a_line);
    if length > 0 {
        row[OF_A_LINE..].copy_from_slice(&[start, length]);
    }
    row
}

/// A table as it is lent, and how many of its rows are said to be in use.
#[derive(Clone, Debug, Default, Eq, PartialEq)]
pub struct Rows {
    /// The numbers of all rows, one row after the other.
    pub numbers: Vec<u64>,
    /// The rows in use.
    pub in_use: u64,
}
