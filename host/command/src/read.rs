//! Regions of a file, as they are, complemented or reversed and complemented.

mod asked;
mod faults;
mod pieces;
mod resolve;

pub use asked::{AllAsked, Asked, Named, Region};

use crate::failure::Failure;
use crate::header::{self, Header};
use crate::input::Input;
use crate::json::Object;
use crate::letters::Odd;
use crate::output::{Answers, Output, failed};
use pieces::sheets;
use std::ops::Range;
use wakeluri::{Refusal, Table, Writer};

/// Up to so many bytes are kept from reading to writing; the rest is read once more.
pub const KEPT: u64 = 1 << 30;

/// What is done with the bases.
#[derive(Clone, Copy, Debug, Eq, PartialEq)]
pub enum Turn {
    /// Nothing.
    AsIs,
    /// Complement.
    Complement,
    /// Reverse complement.
    Reverse,
}

impl Turn {
    /// What a definition line says of it.
    pub fn said(self) -> Option<&'static [u8]> {
        match self {
            Self::AsIs => None,
            Self::Complement => Some(b"complement"),
            Self::Reverse => Some(b"reverse complement"),
        }
    }

    /// Some bases, turned.
    pub fn turned(self, bases: Vec<u8>) -> Result<Vec<u8>, Refusal> {
        match self {
            Self::AsIs => Ok(bases),
            Self::Complement => wakeluri::complement(&bases),
            Self::Reverse => wakeluri::reverse_complement(&bases),
        }
    }
}

/// A file with its rows.
#[derive(Clone, Copy, Debug)]
pub struct Source<'s> {
    /// The file.
    pub fasta: &'s Input,
    /// Its rows, all of them or those that are asked for.
    pub rows: &'s Table<'s>,
    /// Which records they are, counted from 0, where they are not all.
    pub numbers: Option<&'s [usize]>,
}

/// How the answers are written, and where to.
#[derive(Clone, Copy, Debug)]
pub struct Form<'f> {
    /// What is done with the bases.
    pub turn: Turn,
    /// Bases to a line, 0 for all in one.
    pub width: usize,
    /// As JSON.
    pub json: bool,
    /// U is written for the complement of A.
    pub rna: bool,
    /// Bytes that are no letters are refused.
    pub strict: bool,
    /// What a definition line says beside the region.
    pub header: Header<'f>,
    /// Where to.
    pub to: &'f Output,
}

impl Source<'_> {
    /// Reads all regions, and only then writes them.
    pub fn give(self, regions: &[Region<'_>], form: Form<'_>) -> Result<(), Failure> {
        let (mut kept, mut faults, mut odd) = (vec![], vec![], Odd::default());
        let mut places: Vec<Option<Range<usize>>> = Vec::with_capacity(regions.len());
        for together in sheets(regions) {
            let sheet = self.sheet(together);
            for (place, region) in together.iter().enumerate() {
                let start = kept.len();
                let keep = region.bases() <= KEPT - start as u64;
                let mut from = region.start;
                let take = |piece: Result<Vec<u8>, Failure>| {
                    let piece = piece?;
                    // what is turned has letters alone
                    if region.turn(form) == Turn::AsIs {
                        odd.of_bases(&piece, self.rows.record(region.row), from);
                        from += piece.len() as u64;
                    }
                    if !form.json {
                        self.writable(*region, &piece, form)?;
                    }
                    if keep {
                        kept.extend_from_slice(&piece);
                    }
                    Ok(())
                };
                let read = match sheet.as_ref().and_then(|sheet| sheet.get(place)) {
                    Some(bases) => {
                        [self.written(*region, region.start, Ok(bases.to_vec()), form)].into_iter().try_for_each(take)
                    }
                    None => self.pieces(*region, form).try_for_each(take),
                };
                faults.extend(read.err());
                places.push(keep.then_some(start..kept.len()));
            }
        }
        all_of(faults)?;
        self.fasta.unchanged()?;
        odd.tell(self.fasta, form.strict)?;

        form.to.give(&mut |answers| {
            for (region, place) in regions.iter().zip(&places) {
                match place.clone().and_then(|place| kept.get(place)) {
                    Some(bases) => self.write(*region, [Ok(bases)], form, answers)?,
                    None => self.write(*region, self.pieces(*region, form), form, answers)?,
                }
            }
            if places.iter().any(Option::is_none) { self.fasta.unchanged() } else { Ok(()) }
        })?;
        header::tell_of_file(self.fasta, regions, form)
    }

    fn write(
        self,
        region: Region<'_>,
        pieces: impl IntoIterator<Item = Result<impl AsRef<[u8]>, Failure>>,
        form: Form<'_>,
        answers: &mut Answers<'_>,
    ) -> Result<(), Failure> {
        if form.json {
            let mut bases = vec![];
            for piece in pieces {
                bases.extend_from_slice(piece?.as_ref());
            }
            return answers.write(self.object(region, form, &bases).line().as_bytes());
        }
        let width = if form.width == 0 { region.bases().max(1) } else { form.width as u64 };
        let mut writer = Writer::new(answers.sink(), width);
        let said = |error: std::io::Error| match error.downcast::<Refusal>() {
            Ok(refusal) => self.not_written(region, refusal),
            Err(error) => failed(&error),
        };
        let (name, description) = form.header.of(region, form, self.rows.record(region.row));
        writer.begin(&name, (!description.is_empty()).then_some(&description)).map_err(said)?;
        for piece in pieces {
            writer.push(piece?.as_ref()).map_err(said)?;
        }
        writer.end().map_err(said)
    }

    /// A region as an object, with its bases.
    pub fn object(self, region: Region<'_>, form: Form<'_>, bases: &[u8]) -> Object {
        let record = self.rows.record(region.row);
        let mut object = Object::new();
        object.bytes("region", region.asked.text).bytes("name", record.map_or(&[], |record| record.name));
        object.number("start", region.start).number("end", region.end);
        object.number("length", record.map_or(0, |record| record.length));
        if let Some(turned) = region.turn(form).said() {
            object.bytes("turned", turned);
        }
        if let Some(label) = region.asked.label {
            object.bytes("label", label);
        }
        if form.header.is_full {
            object.bytes("description", record.and_then(|record| record.description()).unwrap_or_default());
        }
        object.bytes("bases", bases);
        object
    }

    /// Judges bases of a region, and its text as a name, before anything is written.
    fn writable(self, region: Region<'_>, bases: &[u8], form: Form<'_>) -> Result<(), Failure> {
        let (name, description) = form.header.of(region, form, self.rows.record(region.row));
        let description = (!description.is_empty()).then_some(&*description);
        let judged = [
            wakeluri::write_record_into(&name, description, &[], 1, &mut []),
            wakeluri::write_sequence_into(bases, 1, &mut []),
        ];
        match judged.into_iter().filter_map(Result::err).find(|refusal| refusal.number != 14) {
            Some(refusal) => Err(self.not_written(region, refusal)),
            None => Ok(()),
        }
    }
}

/// Fails with all of some faults, if there is one.
pub fn all_of(mut faults: Vec<Failure>) -> Result<(), Failure> {
    match faults.len() {
        0 => Ok(()),
        1 => faults.pop().map_or(Ok(()), Err),
        _ => Err(Failure::Several(faults)),
    }
}
