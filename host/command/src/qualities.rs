//! Regions of a FASTQ file with their qualities, written as FASTQ.

use crate::failure::Failure;
use crate::header;
use crate::letters::Odd;
use crate::read::{Form, KEPT, Region, Source, Turn, all_of};
use std::ops::Range;
use wakeluri::fastq::{self, Part};
use wakeluri::{Call, Refusal, Table};

/// Bases and qualities of a file, by one table each.
#[derive(Clone, Copy, Debug)]
pub struct Both<'s> {
    /// The file, and where its bases lie.
    pub bases: Source<'s>,
    /// Where its qualities lie, row by row.
    pub qualities: &'s Table<'s>,
}

impl Both<'_> {
    /// The bases of a region, as they are written, and their qualities in the same order.
    fn read(self, region: Region<'_>, form: Form<'_>) -> Result<(Vec<u8>, Vec<u8>), Failure> {
        let turn = region.turn(form);
        let bases = self.bases.piece(region, region.start, region.end, turn)?;
        // a row of the one table has its number in the other
        let row = self.qualities.row(region.row.number()).unwrap_or(region.row);
        let of_qualities = Source { rows: self.qualities, ..self.bases };
        let mut qualities = of_qualities.piece(Region { row, ..region }, region.start, region.end, Turn::AsIs)?;
        if turn == Turn::Reverse {
            qualities.reverse();
        }
        Ok((bases, qualities))
    }

    /// A region as it is written: a FASTQ record, or an object.
    fn record(self, region: Region<'_>, form: Form<'_>, odd: &mut Odd) -> Result<Vec<u8>, Failure> {
        let (bases, qualities) = self.read(region, form)?;
        if region.turn(form) == Turn::AsIs {
            odd.of_bases(&bases, self.bases.rows.record(region.row), region.start);
        }
        if form.json {
            let mut object = self.bases.object(region, form, &bases);
            return Ok(object.bytes("qualities", &qualities).line().into_bytes());
        }
        let (name, description) = form.header.of(region, form, self.bases.rows.record(region.row));
        let description = (!description.is_empty()).then_some(&*description);
        if let Err(refusal) = wakeluri::write_record_into(&name, description, &[], 1, &mut []) {
            if refusal.number != 14 {
                return Err(self.bases.not_written(region, refusal));
            }
        }
        let text = written(&name, description, &bases, &qualities, form.width);
        if reads_back(&text, &name, &bases, &qualities) {
            return Ok(text);
        }
        Err(self.bases.not_written(region, Refusal::new(Call::FastqIndex, 30, 0, 0)))
    }

    /// Reads all regions, and only then writes them.
    pub fn give(self, regions: &[Region<'_>], form: Form<'_>) -> Result<(), Failure> {
        let (mut kept, mut faults, mut odd) = (vec![], vec![], Odd::default());
        let mut places: Vec<Option<Range<usize>>> = Vec::with_capacity(regions.len());
        for region in regions {
            let text = self.record(*region, form, &mut odd).unwrap_or_else(|fault| {
                faults.push(fault);
                vec![]
            });
            let start = kept.len();
            let keep = text.len() as u64 <= KEPT - start as u64;
            if keep {
                kept.extend_from_slice(&text);
            }
            places.push(keep.then_some(start..kept.len()));
        }
        all_of(faults)?;
        self.bases.fasta.unchanged()?;
        odd.tell(self.bases.fasta, form.strict)?;
        form.to.give(&mut |answers| {
            for (region, place) in regions.iter().zip(&places) {
                match place.clone().and_then(|place| kept.get(place)) {
                    Some(text) => answers.write(text)?,
                    None => answers.write(&self.record(*region, form, &mut Odd::default())?)?,
                }
            }
            if places.iter().any(Option::is_none) { self.bases.fasta.unchanged() } else { Ok(()) }
        })?;
        header::tell_of_file(self.bases.fasta, regions, form)
    }
}

/// A FASTQ record, in lines of a width; 0 is all in one.
fn written(name: &[u8], description: Option<&[u8]>, bases: &[u8], qualities: &[u8], width: usize) -> Vec<u8> {
    let width = if width == 0 { bases.len().max(1) } else { width };
    let mut text = [&b"@"[..], name].concat();
    if let Some(description) = description {
        text.push(b' ');
        text.extend_from_slice(description);
    }
    text.push(b'\n');
    for (bytes, behind) in [(bases, &b"+\n"[..]), (qualities, b"")] {
        for line in bytes.chunks(width) {
            text.extend_from_slice(line);
            text.push(b'\n');
        }
        text.extend_from_slice(behind);
    }
    text
}

/// Whether the proved code reads a record as it was meant: a '+' at the front of a line of bases, or a CR at the end of a line, would make it
/// another.
fn reads_back(text: &[u8], name: &[u8], bases: &[u8], qualities: &[u8]) -> bool {
    let Ok(table) = fastq::index(text) else { return false };
    let Some(row) = table.row(0).filter(|_| table.len() == 1) else { return false };
    let has = |part, bytes: &[u8]| table.read(text, row, part, ..).is_ok_and(|read| read == bytes);
    table.record(row).is_some_and(|record| record.name == name)
        && has(Part::Bases, bases)
        && has(Part::Qualities, qualities)
}

#[cfg(test)]
mod tests {
    use super::*;

    #[test]
    fn what_reads_back() {
        for (bases, qualities, width, good) in [
            (&b"ACGT"[..], &b"@+@+"[..], 3, true),
            (b"ACGT", b"@+@+", 0, true),
            (b"ACG+", b"IIII", 3, false),
            (b"ACG+", b"IIII", 4, true),
            (b"+CGT", b"IIII", 0, false),
            (b"AC\rG", b"IIII", 3, false),
            (b"ACGT", b"II\rI", 3, false),
            (b"A\rGT", b"I\rII", 3, true),
        ] {
            let text = written(b"s:1-4", Some(b"x"), bases, qualities, width);
            assert_eq!(reads_back(&text, b"s:1-4", bases, qualities), good, "{}", text.escape_ascii());
        }
    }
}
