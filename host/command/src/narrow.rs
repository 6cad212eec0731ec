//! The lines of a long index that some regions ask for.
//!
//! An index of a million records takes longer to read than ten thousand regions do. Once the proved checker has accepted it, each of its
//! lines is known to be good, and only those are read whose names are asked for: they are an index by themselves, which the proved code
//! reads and looks names up in. A line that is wrongly left out makes nothing wrong: a name that isn't found here is looked for in the
//! whole index, and so is all that is refused, since messages tell of other names too. That the lines stay in their order, so that the
//! first record of a name stays the first, is what this module is to be trusted with.

use crate::failure::Failure;
use crate::input::Input;
use crate::names::Sieve;
use crate::read::{AllAsked, Form, Source};
use crate::work::rows_of_text;

/// An index is long from so many bytes on.
const LONG: usize = 1 << 16;

/// Some lines of an index.
#[derive(Debug, Default)]
pub struct Narrow {
    text: Vec<u8>,
    /// Which lines of the index they are, counted from 0.
    numbers: Vec<usize>,
}

impl Narrow {
    /// The lines that some regions ask for; none if it is as quick to read them all.
    pub fn of(index: &Input, asked: &AllAsked<'_>) -> Option<Self> {
        let text = index.bytes();
        if text.len() < LONG || asked.is_empty() || asked.len() > text.len() / 64 {
            return None;
        }
        // faults are found again with all names at hand
        if asked.iter().any(Result::is_err) {
            return None;
        }
        let wanted = asked.iter().flatten().flat_map(|asked| asked.names());
        Some(Self::of_names(text, &Sieve::new(wanted)))
    }

    fn of_names(mut text: &[u8], wanted: &Sieve) -> Self {
        let mut narrow = Self::default();
        for number in 0.. {
            let Some(tab) = place_of(b'\t', text, 0) else { break };
            let end = place_of(b'\n', text, tab).map_or(text.len(), |end| end + 1);
            let (line, rest) = text.split_at(end);
            if line.get(..tab).is_some_and(|name| wanted.lets_through(name)) {
                narrow.text.extend_from_slice(line);
                narrow.numbers.push(number);
            }
            text = rest;
        }
        narrow
    }

    /// The answer to all regions; none where one can't be answered with these lines alone.
    pub fn answer(&self, fasta: &Input, asked: &AllAsked<'_>, form: Form<'_>) -> Option<Result<(), Failure>> {
        let rows = rows_of_text(fasta, &self.text).ok()?;
        let source = Source { fasta, rows: &rows, numbers: Some(&self.numbers) };
        let asked = asked.iter().flatten().copied().map(Ok).collect();
        let regions = source.regions(asked).ok()?;
        Some(source.give(&regions, form))
    }
}

/// The first place of a byte in a text, from a place on.
fn place_of(byte: u8, text: &[u8], from: usize) -> Option<usize> {
    let rest = text.get(from..)?;
    // SAFETY: the call only reads the bytes of `rest`.
    let found = unsafe { libc::memchr(rest.as_ptr().cast(), byte.into(), rest.len()) };
    (!found.is_null()).then(|| from + (found.addr() - rest.as_ptr().addr()))
}

#[cfg(test)]
mod tests {
    use super::*;

    #[test]
    fn the_lines_that_are_asked_for_in_their_order() {
        let index: String = (0..500).map(|line| format!("n{}\t{line}\t3\t4\t5\n", line % 100)).collect();
        let narrow = Narrow::of_names(index.as_bytes(), &Sieve::new([&b"n7"[..], b"n93", b"m"].into_iter()));
        let lines: Vec<&str> = index.lines().collect();
        let kept = std::str::from_utf8(&narrow.text).unwrap();
        assert!(kept.lines().eq(narrow.numbers.iter().map(|number| lines[*number])));
        assert!(narrow.numbers.is_sorted() && narrow.numbers.len() < 100);
        for wanted in 0..5 {
            assert!(narrow.numbers.contains(&(7 + 100 * wanted)) && narrow.numbers.contains(&(93 + 100 * wanted)));
        }
        // the last line may have no end
        let narrow = Narrow::of_names(b"a\t1\t2\t3\t4\nb\t1\t2\t3\t4", &Sieve::new([&b"b"[..]].into_iter()));
        assert!(narrow.text.ends_with(b"b\t1\t2\t3\t4") && narrow.numbers.last() == Some(&1));
    }
}
