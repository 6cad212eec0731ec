//! Bases of a region, read a piece at a time, or those of several regions in one call.

use super::{Form, Region, Source, Turn};
use crate::failure::Failure;
use crate::letters::of_rna;
use wakeluri::region::Written;
use wakeluri::{Bounds, Refusal, Row, SHEET_REGIONS, Sheet, Window};

/// The bases that are read at a time.
const PIECE: u64 = 64 << 20;

/// Bases that are more bytes apart than this, and than two for each base, are read in parts.
const FAR: u64 = 1 << 20;

impl Source<'_> {
    /// Bases of a region, turned.
    pub fn piece(self, region: Region<'_>, from: u64, to: u64, turn: Turn) -> Result<Vec<u8>, Failure> {
        self.turned(region, from, self.bases(region.row, from, to)?, turn)
    }

    /// Bases of a record, or the refusal of the read. From a file in parts it reads only the bytes between them.
    fn bases(self, row: Row, from: u64, to: u64) -> Result<Result<Vec<u8>, Refusal>, Failure> {
        if !self.fasta.is_in_parts() {
            return Ok(self.rows.read_exact(self.fasta.bytes(), row, from..=to));
        }
        let mut bases = vec![];
        Ok(self.fetch(row, from, to, &mut bases)?.map(|()| bases))
    }

    /// Bases of a region from a base position on, as they were read, turned.
    fn turned(
        self,
        region: Region<'_>,
        from: u64,
        bases: Result<Vec<u8>, Refusal>,
        turn: Turn,
    ) -> Result<Vec<u8>, Failure> {
        bases.and_then(|bases| turn.turned(bases)).map_err(|refusal| {
            // a place in the piece becomes a place in the region
            let before = if refusal.number == 24 { from - region.start } else { 0 };
            let Refusal { call, number, first, second, .. } = refusal;
            let refusal = Refusal::new(call, number, first.saturating_add(before), second);
            let written = Written::of(format!("{}-{}", region.start, region.end).as_bytes()).unwrap_or_default();
            self.not_read(region.asked, region.row, &written, refusal)
        })
    }

    /// Adds the bases from one to another of a record to some others, and reads no byte of the file but those that lie between them.
    /// Where they lie far apart, as by an index that lies about its lines, they are read in two parts, and so on.
    fn fetch(self, row: Row, from: u64, to: u64, bases: &mut Vec<u8>) -> Result<Result<(), Refusal>, Failure> {
        let file_length = self.fasta.length();
        let part = match self.rows.needed_bytes(file_length, u64::MAX, row, from..=to) {
            Ok(part) => part,
            Err(refusal) => return Ok(Err(refusal)),
        };
        if from < to && part.end - part.start > FAR.max(2 * (to - from)) {
            let middle = from + (to - from) / 2;
            return match self.fetch(row, from, middle, bases)? {
                Ok(()) => self.fetch(row, middle + 1, to, bases),
                refused => Ok(refused),
            };
        }
        let bytes = self.fasta.part(part.clone())?;
        let read = self.rows.read_window(Window { bytes: &bytes, from: part.start, file_length }, row, from..=to);
        Ok(read.map(|read| bases.extend(read)))
    }

    /// Several regions in one call. If one of them is refused, each is read for itself instead, so that all faults are found.
    pub(super) fn sheet(self, regions: &[Region<'_>]) -> Option<Sheet> {
        if regions.len() < 2 || self.fasta.is_in_parts() {
            return None;
        }
        let asked: Vec<(Row, Bounds)> =
            regions.iter().map(|region| (region.row, Bounds::from(region.start..=region.end))).collect();
        self.rows.read_sheet(self.fasta.bytes(), &asked).ok()
    }

    /// The pieces of a region, in the order that they are written in.
    pub(super) fn pieces(self, region: Region<'_>, form: Form<'_>) -> impl Iterator<Item = Result<Vec<u8>, Failure>> {
        let pieces = region.bases().div_ceil(PIECE);
        (0..pieces).map(move |number| {
            let number = if region.turn(form) == Turn::Reverse { pieces - 1 - number } else { number };
            let from = region.start + number * PIECE;
            let to = region.end.min(from.saturating_add(PIECE - 1));
            self.written(region, from, self.bases(region.row, from, to)?, form)
        })
    }

    /// Bases of a region from a base position on, as they are written.
    pub(super) fn written(
        self,
        region: Region<'_>,
        from: u64,
        bases: Result<Vec<u8>, Refusal>,
        form: Form<'_>,
    ) -> Result<Vec<u8>, Failure> {
        self.turned(region, from, bases, region.turn(form)).map(|bases| of_rna(bases, form.rna))
    }
}

/// Regions for one call: as many as a sheet may have, and no more bases than are read at a time. A region without bases, or with more, is
/// alone.
pub(super) fn sheets<'r, 'a>(mut regions: &'r [Region<'a>]) -> impl Iterator<Item = &'r [Region<'a>]> {
    std::iter::from_fn(move || {
        let mut bases = 0;
        let fits = |region: &&Region<'_>| {
            bases += region.bases().min(PIECE + 1);
            region.bases() > 0 && bases <= PIECE
        };
        let together = regions.iter().take(SHEET_REGIONS).take_while(fits).count().max(1);
        let (sheet, rest) = regions.split_at_checked(together)?;
        regions = rest;
        Some(sheet)
    })
}
