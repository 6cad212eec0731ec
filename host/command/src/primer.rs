//! Places of a primer in regions of a file, on both strands.

use crate::failure::{Failure, Refused};
use crate::json::Object;
use crate::output::Answers;
use crate::place::{count, quoted};
use crate::read::{Region, Source, Turn};
use std::iter::Peekable;
use wakeluri::{Places, Refusal};

/// The bases that are searched at a time; the next piece begins so early that a match across the two lies inside it.
const PIECE: u64 = 1 << 20;

/// How places are written.
#[derive(Clone, Copy, Debug, Eq, PartialEq)]
pub enum Form {
    /// Record, first and last base, strand, bases, with tabs between.
    Text,
    /// An object to a line.
    Json,
    /// Six columns of BED.
    Bed,
}

/// A primer as it is searched for on each strand.
#[derive(Debug)]
pub struct Primer {
    letters: Vec<u8>,
    reversed: Vec<u8>,
    /// How many plain sequences it stands for.
    pub sequences: u64,
}

/// Which strand a primer is found on.
#[derive(Clone, Copy, Debug, Eq, Ord, PartialEq, PartialOrd)]
enum Strand {
    Forward,
    Reverse,
}

impl Strand {
    fn sign(self) -> &'static str {
        if self == Self::Forward { "+" } else { "-" }
    }
}

impl Primer {
    /// A primer in letters, or why it is none.
    pub fn of(letters: &[u8]) -> Result<Self, Failure> {
        let sequences = wakeluri::degeneracy(letters).map_err(|refusal| not_taken(letters, refusal))?;
        let reversed = wakeluri::reverse_complement(letters).map_err(|refusal| not_taken(letters, refusal))?;
        Ok(Self { letters: letters.to_vec(), reversed, sequences })
    }

    /// The places in some bases, by the place and then by the strand.
    fn places<'p>(&'p self, bases: &'p [u8]) -> Result<Both<'p>, Failure> {
        let places =
            |letters: &'p [u8]| wakeluri::primer_places(letters, bases).map_err(|refusal| not_taken(letters, refusal));
        Ok(Both { forward: places(&self.letters)?.peekable(), reverse: places(&self.reversed)?.peekable() })
    }
}

/// Places on both strands in one order.
struct Both<'p> {
    forward: Peekable<Places<'p>>,
    reverse: Peekable<Places<'p>>,
}

impl Iterator for Both<'_> {
    type Item = (usize, Strand);

    fn next(&mut self) -> Option<(usize, Strand)> {
        let forward = self.forward.peek().map(|place| (*place, Strand::Forward));
        let reverse = self.reverse.peek().map(|place| (*place, Strand::Reverse));
        match forward.into_iter().chain(reverse).min()? {
            (_, Strand::Forward) => self.forward.next().map(|place| (place, Strand::Forward)),
            (_, Strand::Reverse) => self.reverse.next().map(|place| (place, Strand::Reverse)),
        }
    }
}

/// A refusal of a primer, in words.
fn not_taken(letters: &[u8], refusal: Refusal) -> Failure {
    let (shown, length) = (quoted(letters), letters.len() as u64);
    let (words, next) = match refusal.number {
        36 => (format!("a primer has 1 to 31 letters, and '{shown}' has {length}"), String::new()),
        37 => {
            let place = refusal.first;
            let letter = usize::try_from(place).ok().and_then(|place| letters.get(place)).copied().unwrap_or(b'?');
            (
                format!(
                    "letter {} of the primer '{shown}' is '{}', which stands for no base",
                    place + 1,
                    letter.escape_ascii()
                ),
                "the letters that stand for bases are ACGTU and MRWSYKVHDBN, small ones too".to_string(),
            )
        }
        _ => (format!("the primer '{shown}': {}", refusal.words()), String::new()),
    };
    Refused::of("", words, next, refusal).into()
}

/// How many sequences a primer stands for.
pub fn counted(primer: &Primer, json: bool) -> String {
    if json {
        let mut object = Object::new();
        object.bytes("primer", &primer.letters).number("sequences", primer.sequences);
        return object.line();
    }
    format!("{}: {}\n", quoted(&primer.letters), count(primer.sequences, "sequence"))
}

impl Source<'_> {
    /// Writes each place of a primer in some regions as it is found.
    pub fn find(self, regions: &[Region<'_>], primer: &Primer, form: Form) -> Result<(), Failure> {
        let mut answers = Answers::new();
        let overlap = primer.letters.len() as u64 - 1;
        for region in regions.iter().filter(|region| region.bases() > 0) {
            let name = self.rows.record(region.row).map_or(&b""[..], |record| record.name);
            let mut from = region.start;
            loop {
                let to = region.end.min(from.saturating_add(PIECE - 1));
                let bases = self.piece(*region, from, to, Turn::AsIs)?;
                for (place, strand) in primer.places(&bases)? {
                    let there = bases.get(place..place + primer.letters.len()).unwrap_or_default();
                    let start = from + place as u64;
                    answers.write(&told(name, start, strand, there, primer, form))?;
                }
                if to == region.end {
                    break;
                }
                from = to + 1 - overlap;
            }
        }
        self.fasta.unchanged()?;
        answers.done()
    }
}

/// One place, as a line. The bases are those of its strand, so that the primer matches them as they stand.
fn told(name: &[u8], start: u64, strand: Strand, there: &[u8], primer: &Primer, form: Form) -> Vec<u8> {
    let end = start + there.len() as u64 - 1;
    // every byte of a match stands for bases, and so has a complement
    let reverse = || wakeluri::reverse_complement(there).unwrap_or_default();
    let bases = if strand == Strand::Forward { there.to_vec() } else { reverse() };
    match form {
        Form::Json => {
            let mut object = Object::new();
            object.bytes("name", name).number("start", start).number("end", end).text("strand", strand.sign());
            object.bytes("bases", &bases);
            object.line().into_bytes()
        }
        Form::Text => [name, format!("\t{start}\t{end}\t{}\t", strand.sign()).as_bytes(), &bases, b"\n"].concat(),
        // BED counts from 0, and its end is not included
        Form::Bed => {
            let columns = format!("\t{}\t{end}\t{}\t0\t{}\n", start - 1, quoted(&primer.letters), strand.sign());
            [name, columns.as_bytes()].concat()
        }
    }
}
