//! Bytes among the bases that are no letters of a sequence: a blank, a digit, a carriage return inside a line. Each counts as a base,
//! as the proved rules have it, and the answers stay as they are; but whoever did not mean it is told, or with `--strict` refused.
//!
//! Letters are the bytes that have a complement, which the proved call is asked for, and '-' and '*'.

use crate::failure::{Failure, NotLetters};
use crate::input::Input;
use crate::place::{self, commas};
use crate::warning::Warning;
use std::sync::OnceLock;
use wakeluri::Record;

/// 1 for each byte that is no letter.
static ODD: OnceLock<[u8; 256]> = OnceLock::new();

fn odd() -> &'static [u8; 256] {
    ODD.get_or_init(|| {
        std::array::from_fn(|number| {
            let byte = u8::try_from(number).unwrap_or_default();
            u8::from(wakeluri::complement(&[byte]).is_err() && !b"-*".contains(&byte))
        })
    })
}

/// So many bytes are judged together.
const CHUNK: usize = 64;

/// So many bases of one line are.
const BASES: usize = 32;

/// Whether a byte is one of the most common letters, in either case. C and G differ in one bit.
fn is_common(byte: u8) -> bool {
    let small = byte | 0x20;
    (small == b'a') | (small | 4 == b'g') | (small == b't') | (small == b'n')
}

/// Whether some bytes are the most common letters and ends of lines, and nothing else; it also reads one more byte, which may follow a CR.
/// It is written so that the machine does many bytes at once.
fn is_plain(bytes: &[u8; CHUNK + 1]) -> bool {
    let mut all = true;
    for place in 0..CHUNK {
        let (byte, next) = (bytes[place], bytes[place + 1]);
        all &= is_common(byte) | (byte == b'\n') | ((byte == b'\r') & (next == b'\n'));
    }
    all
}

/// Whether the bytes from one place of a file to another are the most common letters and ends of lines, and nothing else.
fn are_plain(file: &[u8], from: usize, to: usize) -> bool {
    let is_chunk = |at: usize| file.get(at..).and_then(<[u8]>::first_chunk).is_some_and(is_plain);
    if to < from + CHUNK {
        return file.get(from..to).is_some_and(|few| few.iter().all(|byte| is_common(*byte)));
    }
    // the last chunk may have some bytes of the one before it
    (from..=to - CHUNK).step_by(CHUNK).all(is_chunk) && is_chunk(to - CHUNK)
}

/// The same for the bases of one line, which has no end among them: as a short read has.
fn is_plain_line(bases: &[u8]) -> bool {
    let are_common = |bases: &[u8; BASES]| bases.iter().fold(true, |all, byte| all & is_common(*byte));
    match bases.last_chunk() {
        None => bases.iter().all(|byte| is_common(*byte)),
        // the last chunk may have some bytes of the one before it
        Some(last) => bases.chunks_exact(BASES).filter_map(<[u8]>::first_chunk).all(are_common) && are_common(last),
    }
}

/// How many bytes are no letters, and where the first lies.
#[derive(Clone, Copy, Debug, Default, Eq, PartialEq)]
pub struct Odd {
    bytes: u64,
    first: Option<usize>,
}

/// Those of a file that comes in pieces.
#[derive(Clone, Copy, Debug)]
pub struct Odds {
    /// What was found so far.
    pub found: Odd,
    /// How many bytes have come.
    total: usize,
    /// The line on its way is a definition line.
    in_definition: bool,
    /// The last byte that has come.
    last: u8,
}

impl Odds {
    /// The start of a file: the first line is a definition line, whatever it holds.
    pub fn new() -> Self {
        Self { found: Odd::default(), total: 0, in_definition: true, last: 0 }
    }

    /// The next bytes of the file.
    pub fn go_on(&mut self, piece: &[u8]) {
        let (Some(next), Some(last)) = (piece.first(), piece.last()) else { return };
        // only if there is a CR are the ends of lines judged one by one
        let mut table = *odd();
        table[usize::from(b'\n')] = 0;
        let is_odd = |byte: u8| table[usize::from(byte)] == 1;
        // whether a CR is the end of a line, the byte behind it says
        if self.last == b'\r' && !self.in_definition && *next != b'\n' {
            self.found.add(self.total - 1);
        }
        let mut at = if self.in_definition { self.behind_definition(piece, 0) } else { 0 };
        while at < piece.len() {
            if piece.get(at..).and_then(<[u8]>::first_chunk).is_some_and(is_plain) {
                at += CHUNK;
                continue;
            }
            let end = piece.len().min(at + CHUNK);
            while let Some(byte) = piece.get(at).filter(|_| at < end) {
                let before = || at.checked_sub(1).map_or(self.last, |before| piece[before]);
                match byte {
                    byte if !is_odd(*byte) => at += 1,
                    b'>' if before() == b'\n' => at = self.behind_definition(piece, at),
                    b'\r' if matches!(piece.get(at + 1), None | Some(b'\n')) => at += 1,
                    _ => {
                        self.found.add(self.total + at);
                        at += 1;
                    }
                }
            }
        }
        (self.total, self.last) = (self.total + piece.len(), *last);
    }

    /// Where the piece goes on behind a definition line, which has its end here or in a later piece.
    fn behind_definition(&mut self, piece: &[u8], at: usize) -> usize {
        let end = line_end(piece, at);
        self.in_definition = piece.get(end - 1) != Some(&b'\n');
        end
    }
}

impl Odd {
    /// Those of a whole file.
    pub fn of_file(file: &[u8]) -> Self {
        let mut odds = Odds::new();
        odds.go_on(file);
        odds.found
    }

    /// Where the first lies.
    pub fn first(self) -> Option<usize> {
        self.first
    }

    /// Those among the bases of a FASTQ file, by its records; each has position, length, line bases and line width.
    pub fn of_reads(file: &[u8], records: impl Iterator<Item = [u64; 4]>) -> Self {
        let table = odd();
        let mut found = Self::default();
        for [position, length, line_bases, line_width] in records {
            let offset = |before: u64| {
                before.checked_div(line_bases).map(|lines| position + lines * line_width + before % line_bases)
            };
            let is_plain = if length <= line_bases {
                let rest = file.get(position as usize..).unwrap_or_default();
                rest.get(..length as usize).is_some_and(is_plain_line)
            } else {
                let last = length.checked_sub(1).and_then(offset);
                last.is_none_or(|last| are_plain(file, position as usize, last as usize + 1))
            };
            if is_plain {
                continue;
            }
            for line in 0..length.div_ceil(line_bases) {
                let from = position + line * line_width;
                let to = from + line_bases.min(length - line * line_bases);
                let bases = (from as usize..).zip(file.get(from as usize..to as usize).unwrap_or_default());
                bases.filter(|(_, byte)| table[usize::from(**byte)] == 1).for_each(|(at, _)| found.add(at));
            }
        }
        found
    }

    /// These, and those of what lies behind.
    pub fn and(self, later: Self) -> Self {
        Self { bytes: self.bytes + later.bytes, first: self.first.or(later.first) }
    }

    fn add(&mut self, at: usize) {
        self.bytes += 1;
        self.first = self.first.or(Some(at));
    }

    /// Those of some bases of a record, from one on.
    pub fn of_bases(&mut self, bases: &[u8], record: Option<Record<'_>>, from: u64) {
        let table = odd();
        let number = bases.iter().map(|byte| u64::from(table[usize::from(*byte)])).sum::<u64>();
        if number == 0 {
            return;
        }
        self.bytes += number;
        if self.first.is_none() {
            let place = bases.iter().position(|byte| table[usize::from(*byte)] == 1).unwrap_or(0);
            self.first = record.and_then(|record| offset(&record, from - 1 + place as u64));
        }
    }

    /// Says it of a file that is at hand, or with `--strict` fails.
    pub fn tell(self, fasta: &Input, strict: bool) -> Result<(), Failure> {
        let Some(at) = self.first else { return Ok(()) };
        let file = fasta.bytes();
        let before = file.get(..at).unwrap_or_default().iter().rev().take_while(|byte| **byte != b'\n').count();
        let (line, byte) = (place::line_number(file, at), file.get(at).copied().unwrap_or_default());
        self.tell_of(&fasta.shown, First { line, column: before as u64 + 1, byte }, strict)
    }

    /// Says it of a file and the first such byte of it, or with `--strict` fails.
    pub fn tell_of(self, file: &str, First { line, column, byte }: First, strict: bool) -> Result<(), Failure> {
        let all = if self.bytes > 1 { format!("; there are {} such bytes", commas(self.bytes)) } else { String::new() };
        let words = format!(
            "{file}, line {}, column {}: '{}' stands among the bases, and is no letter of one{all}",
            commas(line),
            commas(column),
            byte.escape_ascii()
        );
        let (next, place) = ("each counts as a base: take out what is none".to_string(), (line, column));
        if strict {
            return Err(Failure::NotLetters(Box::new(NotLetters { words, next, file: file.to_string(), place })));
        }
        Warning { next, place: Some(place), ..Warning::new(file, words) }.say();
        Ok(())
    }
}

/// The first byte that is no letter: its line and its place in it, both counted from 1.
#[derive(Clone, Copy, Debug, Eq, PartialEq)]
pub struct First {
    /// The line.
    pub line: u64,
    /// The place in it.
    pub column: u64,
    /// The byte.
    pub byte: u8,
}

/// Complements as RNA has them: what comes of A is U. Nothing else becomes T, so each T is such a one.
pub fn of_rna(mut turned: Vec<u8>, rna: bool) -> Vec<u8> {
    if rna {
        for base in &mut turned {
            *base = match *base {
                b'T' => b'U',
                b't' => b'u',
                other => other,
            };
        }
    }
    turned
}

/// Where a line ends, its LF with it.
pub fn line_end(file: &[u8], at: usize) -> usize {
    let rest = file.get(at..).unwrap_or_default();
    // SAFETY: the call only reads the bytes of `rest`.
    let found = unsafe { libc::memchr(rest.as_ptr().cast(), i32::from(b'\n'), rest.len()) };
    if found.is_null() { file.len() } else { at + (found.addr() - rest.as_ptr().addr()) + 1 }
}

/// Where a base lies by a record's row, the bases before it counted.
fn offset(record: &Record<'_>, before: u64) -> Option<usize> {
    let lines = before.checked_div(record.line_bases)?.checked_mul(record.line_width)?;
    let offset = record.position.checked_add(lines)?.checked_add(before.checked_rem(record.line_bases)?)?;
    usize::try_from(offset).ok()
}

#[cfg(test)]
mod tests {
    use super::*;

    /// The same found line by line.
    fn by_lines(file: &[u8]) -> Odd {
        let mut found = Odd::default();
        for line in place::lines(file, 0, 1).filter(|line| line.start > 0 && file[line.start] != b'>') {
            let bases = line.start..line.start + line.bases;
            bases.filter(|at| odd()[usize::from(file[*at])] == 1).for_each(|at| found.add(at));
        }
        found
    }

    fn of_reads(file: &[u8]) -> (u64, Option<usize>) {
        let rows = wakeluri::fastq::index(file).unwrap();
        let odd = Odd::of_reads(file, rows.records().map(|r| [r.position, r.length, r.line_bases, r.line_width]));
        (odd.bytes, odd.first)
    }

    #[test]
    fn as_line_by_line() {
        let mut state = 7_u64;
        let mut below = |limit: usize| {
            state = state.wrapping_mul(6364136223846793005).wrapping_add(1442695040888963407);
            (state >> 33) as usize % limit
        };
        for _ in 0..3000 {
            let letters: &[u8] =
                if below(2) == 0 { b"ACGTn-*\n\r> 1" } else { b"ACGTACGTACGTACGTACGTACGTACGTACGTn-*\n\r>x" };
            let file: Vec<u8> =
                b">s\n".iter().copied().chain((0..below(300)).map(|_| letters[below(letters.len())])).collect();
            assert_eq!(Odd::of_file(&file), by_lines(&file), "{}", file.escape_ascii());
            let (mut odds, piece) = (Odds::new(), below(90) + 1);
            file.chunks(piece).for_each(|piece| odds.go_on(piece));
            assert_eq!(odds.found, by_lines(&file), "{} in pieces of {piece}", file.escape_ascii());
        }
        assert_eq!(Odd::of_file(b""), Odd::default());
        assert_eq!(
            of_reads(b"@s x\nAC.T\r\nA T\r\n+ 1\r\n....\r\n...\r\n@t\nNNNN\n+\n1234\n@u\nA1\n+\n!!\n"),
            (3, Some(7))
        );
        // each place of a long read, in lines and in one
        for width in [7, 60, 64, 200] {
            for place in 0..200 {
                let mut bases = vec![b'A'; 200];
                bases[place] = b'!';
                let lines =
                    |bytes: &[u8]| bytes.chunks(width).flat_map(|line| [line, b"\r\n"].concat()).collect::<Vec<u8>>();
                let file = [b"@s\r\n", &lines(&bases)[..], b"+\r\n", &lines(&[b'!'; 200])].concat();
                assert_eq!(of_reads(&file), (1, Some(4 + place + 2 * (place / width))), "{width} {place}");
            }
        }
        let letters: Vec<u8> = (0..=255).filter(|byte| odd()[usize::from(*byte)] == 0).collect();
        assert_eq!(letters, b"*-ABCDGHKMNRSTUVWYabcdghkmnrstuvwy");
    }
}
