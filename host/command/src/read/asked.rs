//! Regions as they are asked for, and as they are known to be good.

use super::{Form, Turn};
use crate::failure::Failure;
use wakeluri::Row;
use wakeluri::region::readings;

/// A region as it was asked for, and the line of the sheet that it stands in.
#[derive(Clone, Copy, Debug)]
pub struct Asked<'a> {
    /// Its text.
    pub text: &'a [u8],
    /// The sheet and the line.
    pub sheet: Option<(&'a str, u64)>,
    /// The row, if a record is meant and not a region in words.
    pub row: Option<Row>,
    /// The name and the bases, if they stand apart.
    pub named: Option<Named<'a>>,
    /// What a sheet says behind the region.
    pub label: Option<&'a [u8]>,
    /// Whether a sheet asks for the other strand.
    pub is_reverse: bool,
}

/// Bases of a name.
#[derive(Clone, Copy, Debug)]
pub struct Named<'a> {
    /// The name, and nothing else.
    pub name: &'a [u8],
    /// The first base, counted from 1.
    pub start: u64,
    /// The last base.
    pub end: u64,
}

/// Regions that are asked for, and why others can't be.
pub type AllAsked<'a> = Vec<Result<Asked<'a>, Failure>>;

impl<'a> Asked<'a> {
    /// A region in words.
    pub fn of(text: &'a [u8]) -> Self {
        Self { text, sheet: None, row: None, named: None, label: None, is_reverse: false }
    }

    /// The names that it may mean.
    pub fn names(&self) -> impl Iterator<Item = &'a [u8]> + Clone + use<'a> {
        let (of_words, of_name) = match (self.row, self.named) {
            (Some(_), _) => (None, None),
            (_, Some(named)) => (None, Some(named.name)),
            (None, None) => (Some(self.text), None),
        };
        let of_words = of_words.into_iter().chain(self.second());
        of_words.flat_map(readings).map(|reading| reading.name).chain(of_name)
    }

    /// What stands behind the region and may be one too.
    pub(super) fn second(&self) -> Option<&'a [u8]> {
        let label = self.label.filter(|_| self.named.is_none())?;
        label.split(u8::is_ascii_whitespace).next()
    }
}

/// A region that is known to be good.
#[derive(Clone, Copy, Debug)]
pub struct Region<'a> {
    /// As it was asked for.
    pub asked: Asked<'a>,
    /// The record's row.
    pub row: Row,
    /// The first base.
    pub start: u64,
    /// The last.
    pub end: u64,
}

impl Region<'_> {
    /// How many bases it has: none for a record without any, if all records are meant.
    pub fn bases(self) -> u64 {
        if self.end < self.start { 0 } else { (self.end - self.start).saturating_add(1) }
    }

    /// What is done with its bases.
    pub fn turn(self, form: Form<'_>) -> Turn {
        if self.asked.is_reverse { Turn::Reverse } else { form.turn }
    }
}
