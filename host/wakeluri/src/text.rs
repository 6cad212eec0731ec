//! Calls on lines and sequences that need no table.

use crate::refusal::Call;
use crate::table::{Record, counted, with_room};
use crate::{Refusal, entry};
use alloc::vec::Vec;

/// What a definition line says.
#[derive(Clone, Copy, Debug, Eq, PartialEq)]
#[non_exhaustive]
pub struct Definition<'t> {
    /// The name: what follows '>', up to the first whitespace.
    pub name: &'t [u8],
    /// The rest, without whitespace at its ends, if anything is left.
    pub description: Option<&'t [u8]>,
}

impl<'t> Definition<'t> {
    /// A definition of a name and, where there is one, a description. Nothing is judged here.
    pub const fn new(name: &'t [u8], description: Option<&'t [u8]>) -> Self {
        Self { name, description }
    }
}

/// A part of some bytes, by its place; nothing if it isn't there.
fn part(bytes: &[u8], start: u64, length: u64) -> &[u8] {
    let part = || bytes.get(usize::try_from(start).ok()?..)?.get(..usize::try_from(length).ok()?);
    part().unwrap_or_default()
}

fn told(text: &[u8], d: entry::Definition) -> Result<Definition<'_>, Refusal> {
    Refusal::of(Call::Definition, d.refusal, d.first, d.second)?;
    let description = part(text, d.description_start, d.description_length);
    let description = if d.description_length == 0 { None } else { Some(description) };
    Ok(Definition { name: part(text, d.name_start, d.name_length), description })
}

/// What a definition line says, given with its end. Refuses 1 to 4.
///
/// ```
/// let definition = wakeluri::definition_line(b">chr1 a first one \r\n")?;
/// assert_eq!(definition.name, b"chr1");
/// assert_eq!(definition.description, Some(&b"a first one"[..]));
/// # Ok::<(), wakeluri::Refusal>(())
/// ```
pub fn definition_line(line: &[u8]) -> Result<Definition<'_>, Refusal> {
    told(line, entry::definition_line(line))
}

/// What a definition line's content says, without its end. Refuses 1 to 4.
pub fn definition_content(content: &[u8]) -> Result<Definition<'_>, Refusal> {
    told(content, entry::definition_content(content))
}

/// The content of the line at an offset, and the offset of the next; none at or past the end. Refuses 1.
///
/// ```
/// assert_eq!(wakeluri::read_line(b">s\r\nAC\n", 0)?, Some((&b">s"[..], 4)));
/// assert_eq!(wakeluri::read_line(b">s\r\nAC\n", 7)?, None);
/// # Ok::<(), wakeluri::Refusal>(())
/// ```
pub fn read_line(file: &[u8], at: u64) -> Result<Option<(&[u8], u64)>, Refusal> {
    let line = entry::read_line(file, at);
    Refusal::of(Call::ReadSequence, line.refusal, line.first, line.second)?;
    Ok((line.found != 0).then(|| (part(file, line.start, line.length), line.next)))
}

/// The next run of bases from a place on, by the scanning rule: nothing at '>' or at the end. Refuses 1.
///
/// ```
/// assert_eq!(wakeluri::read_run(b"\r\nAC\n>t", 0)?, b"AC");
/// # Ok::<(), wakeluri::Refusal>(())
/// ```
pub fn read_run(file: &[u8], at: u64) -> Result<&[u8], Refusal> {
    let run = entry::read_run(file, at);
    Refusal::of(Call::ReadSequence, run.refusal, run.first, run.second)?;
    Ok(part(file, run.start, run.length))
}

/// All bases from an offset on, by the scanning rule, and the place that is left. Refuses 1.
///
/// ```
/// assert_eq!(wakeluri::read_sequence(b">s\nAC\nG\n>t\nA\n", 3)?, (b"ACG".to_vec(), 8));
/// # Ok::<(), wakeluri::Refusal>(())
/// ```
pub fn read_sequence(file: &[u8], at: u64) -> Result<(Vec<u8>, u64), Refusal> {
    scanned(0, |out| entry::read_sequence(file, at, out))
}

/// At most so many bases from an offset on, and the place that is left: just behind the last one given. Refuses 1.
///
/// ```
/// assert_eq!(wakeluri::read_sequence_limit(b">s\nAC\nG\n", 3, 2)?, (b"AC".to_vec(), 5));
/// # Ok::<(), wakeluri::Refusal>(())
/// ```
pub fn read_sequence_limit(file: &[u8], at: u64, limit: u64) -> Result<(Vec<u8>, u64), Refusal> {
    scanned(limit, |out| entry::read_sequence_limit(file, at, limit, out))
}

fn scanned(likely: u64, read: impl Fn(&mut [u8]) -> entry::Answer) -> Result<(Vec<u8>, u64), Refusal> {
    let next = core::cell::Cell::new(0);
    let bases = with_room(likely, |out| {
        let answer = read(out);
        next.set(answer.next);
        counted(Call::ReadSequence, answer)
    })?;
    Ok((bases, next.get()))
}

/// The record at an offset, by the rule of [`index_strict`](crate::index_strict), and the offset behind it; none at or past the end.
/// Refuses 1 to 7.
///
/// ```
/// let fasta = b">s\nAC\n>t\nGGG\n";
/// let (first, next) = wakeluri::index_record_strict(fasta, 0)?.expect("a record");
/// assert_eq!((first.name, first.length, next), (&b"s"[..], 2, 6));
/// # Ok::<(), wakeluri::Refusal>(())
/// ```
pub fn index_record_strict(fasta: &[u8], at: u64) -> Result<Option<(Record<'_>, u64)>, Refusal> {
    let row = entry::index_record(fasta, at);
    Refusal::of(Call::Index, row.refusal, row.first, row.second)?;
    Ok(if row.found == 0 { None } else { Record::of(fasta, row.row()).map(|record| (record, row.next)) })
}

/// What an index line says, given with its end, and whether it is plain: then it is just what would be written for it. It is not if it
/// holds an LF before its end. Refuses 1, 9 to 12.
///
/// ```
/// let (record, plain) = wakeluri::index_line(b"s\t4\t3\t060\t61\n")?;
/// assert_eq!((record.name, record.line_bases, plain), (&b"s"[..], 60, false));
/// let (record, plain) = wakeluri::index_line(b"s\t4\t3\t+60\t+61\n")?;
/// assert_eq!((record.line_bases, record.line_width, plain), (60, 61, false));
/// # Ok::<(), wakeluri::Refusal>(())
/// ```
pub fn index_line(line: &[u8]) -> Result<(Record<'_>, bool), Refusal> {
    let row = entry::index_line(line);
    Refusal::of(Call::ReadIndex, row.refusal, row.first, row.second)?;
    Ok((Record::of(line, row.row()).unwrap_or(Record::NONE), row.plain != 0))
}

/// The complement of some bases, in a room of just their size. Refuses 1, and 24 with the first bad byte.
///
/// ```
/// assert_eq!(wakeluri::complement(b"ACGTNryk")?, b"TGCANyrm");
/// assert_eq!(
///     wakeluri::complement(b"AC-T").unwrap_err().to_string(),
///     "the byte '-' at place 2 has no complement: refused 24 (place 2, byte 45)"
/// );
/// # Ok::<(), wakeluri::Refusal>(())
/// ```
pub fn complement(bases: &[u8]) -> Result<Vec<u8>, Refusal> {
    with_room(bases.len() as u64, |out| complement_into(bases, out))
}

/// The reverse complement of some bases. Refuses 1, and 24 with the last bad byte.
///
/// ```
/// assert_eq!(wakeluri::reverse_complement(b"ACGU")?, b"ACGT");
/// # Ok::<(), wakeluri::Refusal>(())
/// ```
pub fn reverse_complement(bases: &[u8]) -> Result<Vec<u8>, Refusal> {
    with_room(bases.len() as u64, |out| reverse_complement_into(bases, out))
}

/// As [`complement`], to the front of a room that is lent; returns how many bytes. Refuses 1, 14, 24.
///
/// For long sequences lend one room again and again: the pages of a fresh vector cost as much as the work (docs/SPEED.md).
pub fn complement_into(bases: &[u8], out: &mut [u8]) -> Result<usize, Refusal> {
    counted(Call::Complement, entry::complement(bases, out))
}

/// As [`reverse_complement`], to the front of a room that is lent; returns how many bytes. Refuses 1, 14, 24.
///
/// For long sequences lend one room again and again: the pages of a fresh vector cost as much as the work (docs/SPEED.md).
///
/// ```
/// let mut room = vec![0; 4];
/// for (bases, expected) in [(&b"ACGU"[..], &b"ACGT"[..]), (b"GGA", b"TCC")] {
///     let n = wakeluri::reverse_complement_into(bases, &mut room)?;
///     assert_eq!(&room[..n], expected);
/// }
/// # Ok::<(), wakeluri::Refusal>(())
/// ```
pub fn reverse_complement_into(bases: &[u8], out: &mut [u8]) -> Result<usize, Refusal> {
    counted(Call::Complement, entry::reverse_complement(bases, out))
}
