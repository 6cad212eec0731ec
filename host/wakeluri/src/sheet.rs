//! A sheet: several regions read in one call, all of them or none.

use crate::refusal::Call;
use crate::row::Row;
use crate::table::{FIRST_ROOM, room};
use crate::{Bounds, Refusal, Table, entry};
use alloc::vec::Vec;
use core::error::Error;
use core::fmt;

/// The most regions of a sheet.
pub const SHEET_REGIONS: usize = 200;

/// What a sheet gives: the bases of its regions, one after another in one buffer.
#[derive(Clone, Debug, Eq, PartialEq)]
pub struct Sheet {
    bases: Vec<u8>,
    starts: Vec<u64>,
}

impl Sheet {
    /// How many regions it has.
    pub fn len(&self) -> usize {
        self.starts.len()
    }

    /// Whether it has no regions.
    pub fn is_empty(&self) -> bool {
        self.starts.is_empty()
    }

    /// The bases of a region by its place, counted from 0; none where the sheet has no such region.
    pub fn get(&self, place: usize) -> Option<&[u8]> {
        let start = *self.starts.get(place)? as usize;
        let end = self.starts.get(place + 1).map_or(self.bases.len(), |end| *end as usize);
        self.bases.get(start..end)
    }

    /// The bases of each region, in order: parts of one buffer.
    pub fn pieces(&self) -> impl ExactSizeIterator<Item = &[u8]> {
        (0..self.len()).map(|place| self.get(place).unwrap_or_default())
    }

    /// The bases of all regions, one after another.
    pub fn joined(&self) -> &[u8] {
        &self.bases
    }
}

/// Why a sheet gave nothing: a refusal, and which region it is of.
#[derive(Clone, Copy, Debug, Eq, PartialEq)]
pub struct SheetRefusal {
    /// The place of the refused region in the sheet, counted from 0; none where the sheet is refused as a whole.
    pub place: Option<usize>,
    /// What is wrong.
    pub refusal: Refusal,
}

impl fmt::Display for SheetRefusal {
    fn fmt(&self, f: &mut fmt::Formatter<'_>) -> fmt::Result {
        match self.place {
            Some(place) => write!(f, "region {} of the sheet: {}", place + 1, self.refusal),
            None => self.refusal.fmt(f),
        }
    }
}

impl Error for SheetRefusal {
    fn source(&self) -> Option<&(dyn Error + 'static)> {
        Some(&self.refusal)
    }
}

impl Table<'_> {
    /// Exactly the bases of up to [`SHEET_REGIONS`] regions, in one call: each as [`Table::read_exact`] gives it. All or nothing.
    ///
    /// Refuses 1, 40, what [`Table::read_exact`] refuses of the first refused region, and 14 where so many bytes are not available.
    ///
    /// ```
    /// let fasta = b">s\nACGT\nAC\n>t\nGG\n";
    /// let table = wakeluri::index(fasta)?;
    /// let (s, t) = (table.find(b"s")?, table.find(b"t")?);
    /// let sheet = table.read_sheet(fasta, &[(s, (4..=5).into()), (t, (..).into()), (s, (6..).into())]).expect("all are good");
    /// assert_eq!(sheet.pieces().collect::<Vec<_>>(), [&b"TA"[..], b"GG", b"C"]);
    /// assert_eq!(sheet.joined(), b"TAGGC");
    ///
    /// // one that is bad, and nothing is read
    /// let refused = table.read_sheet(fasta, &[(t, (..).into()), (s, (5..=7).into())]).unwrap_err();
    /// assert_eq!(refused.place, Some(1));
    /// assert_eq!(
    ///     refused.to_string(),
    ///     "region 2 of the sheet: the record has 6 bases, and the region goes past them: refused 17 (length 6)"
    /// );
    /// # Ok::<(), wakeluri::Refusal>(())
    /// ```
    pub fn read_sheet(&self, fasta: &[u8], regions: &[(Row, Bounds)]) -> Result<Sheet, SheetRefusal> {
        let likely =
            regions.iter().fold(0u64, |sum, (row, bounds)| sum.saturating_add(self.likely_bases(*row, *bounds)));
        let mut bases = if likely <= FIRST_ROOM { vec![0; likely as usize] } else { room(likely).unwrap_or_default() };
        let mut starts = vec![0; regions.len()];
        let mut numbers = Vec::with_capacity(regions.len() * size_of::<[u64; 5]>());
        for (row, bounds) in regions {
            self.region(*row, *bounds).into_iter().for_each(|number| numbers.extend_from_slice(&number.to_le_bytes()));
        }
        loop {
            let (bytes, in_use) = (self.as_bytes(), self.len() as u64);
            let answer = entry::read_sheet(fasta, bytes, in_use, &numbers, &mut bases, &mut starts);
            let Err(refusal) = Refusal::of(Call::ReadExact, answer.refusal, answer.first, answer.second) else {
                bases.truncate(answer.count as usize);
                return Ok(Sheet { bases, starts });
            };
            let place = answer.next as usize;
            let refused = SheetRefusal { place: (place < regions.len()).then_some(place), refusal };
            if refusal.number != 14 {
                return Err(self.of_its_own(regions, refused));
            }
            // one region's own need may be less than that of all
            let enough =
                if refused.place.is_some() { refusal.first.max(2 * bases.len() as u64) } else { refusal.first };
            bases = room(enough).ok_or(refused)?;
        }
    }

    /// About how many bases a region has, by its bounds and what its row says.
    fn likely_bases(&self, row: Row, bounds: Bounds) -> u64 {
        let length = || self.record(row).map_or(0, |record| record.length);
        let (start, end) = (bounds.start.unwrap_or(1), bounds.end.unwrap_or_else(length));
        if start <= end { (end - start).saturating_add(1) } else { 0 }
    }

    /// A region as the entry point takes it: a row of another table becomes one that no table has.
    fn region(&self, row: Row, Bounds { start, end }: Bounds) -> [u64; 5] {
        let (in_use, number) = self.lent(row);
        let number = if in_use == 0 { u64::MAX } else { number };
        let flag = |bound: Option<u64>| u64::from(bound.is_some());
        [number, flag(start), start.unwrap_or(0), flag(end), end.unwrap_or(0)]
    }

    /// A row that isn't there is refused with its own number.
    fn of_its_own(&self, regions: &[(Row, Bounds)], mut refused: SheetRefusal) -> SheetRefusal {
        let row = refused.place.and_then(|place| regions.get(place)).map(|(row, _)| row.number() as u64);
        if let (25, u64::MAX, Some(row)) = (refused.refusal.number, refused.refusal.first, row) {
            refused.refusal.first = row;
        }
        refused
    }
}
