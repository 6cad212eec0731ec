//! A line of an index.

use crate::noodles::bstr::{BStr, BString};
use crate::noodles::core::region::Interval;
use crate::noodles::refused;
use crate::refusal::Call;
use crate::{Refusal, Table};
use std::io;
use std::num::NonZero;

/// What an index says of one record.
///
/// ```
/// use std::num::NonZero;
/// use wakeluri::noodles::fai;
/// let (line_base_count, line_width) = const { (NonZero::new(80).unwrap(), NonZero::new(81).unwrap()) };
/// let record = fai::Record::new("sq0", 8, 4, line_base_count, line_width);
/// assert_eq!((record.length(), record.position()), (8, 4));
/// ```
#[derive(Clone, Debug, Eq, PartialEq)]
pub struct Record {
    name: BString,
    length: u64,
    position: u64,
    line_base_count: NonZero<u64>,
    line_width: NonZero<u64>,
}

impl Record {
    /// A record of an index.
    pub fn new<N: Into<BString>>(
        name: N,
        length: u64,
        position: u64,
        line_base_count: NonZero<u64>,
        line_width: NonZero<u64>,
    ) -> Self {
        Self { name: name.into(), length, position, line_base_count, line_width }
    }

    /// What a row says, if its lines have bases, as each has that a proved call gives.
    pub(crate) fn of(row: crate::Record<'_>) -> Option<Self> {
        let (bases, width) = (NonZero::new(row.line_bases)?, NonZero::new(row.line_width)?);
        Some(Self::new(row.name, row.length, row.position, bases, width))
    }

    /// The same, of a file that has so many bytes before.
    pub(crate) fn behind(self, bytes: u64) -> Self {
        Self { position: self.position.saturating_add(bytes), ..self }
    }

    /// A table of this one.
    pub(crate) fn table(&self) -> Table<'_> {
        let numbers = [self.length, self.position, self.line_base_count.get(), self.line_width.get()];
        Table::of_one(&self.name, numbers)
    }

    /// The name.
    pub fn name(&self) -> &BStr {
        &self.name
    }

    /// How many bases the record has.
    pub fn length(&self) -> u64 {
        self.length
    }

    /// The offset of its first base.
    pub fn position(&self) -> u64 {
        self.position
    }

    /// The same.
    #[deprecated(note = "Use `Record::position` instead.")]
    pub fn offset(&self) -> u64 {
        self.position()
    }

    /// How many bases are in a line.
    pub fn line_base_count(&self) -> NonZero<u64> {
        self.line_base_count
    }

    /// The same, as a plain number.
    #[deprecated(note = "Use `Record::line_base_count` instead.")]
    pub fn line_bases(&self) -> u64 {
        self.line_base_count.get()
    }

    /// How many bytes are in a line, with its end.
    pub fn line_width(&self) -> NonZero<u64> {
        self.line_width
    }

    /// The offset of an interval's first base, over whole numbers: where 64 bits don't hold it, it is refused (18), and doesn't wrap. Like
    /// noodles' it looks at no length.
    pub fn query(&self, interval: Interval) -> io::Result<u64> {
        let start = interval.start().map_or(1, |position| position.get() as u64);
        self.offset_of(start).ok_or_else(|| refused(Refusal::new(Call::ReadRaw, 18, start, 0)))
    }

    /// The addressing rule (docs/RULES.md, R18): the offset of a base that is counted from 1.
    pub(crate) fn offset_of(&self, base: u64) -> Option<u64> {
        let before = base.checked_sub(1)?;
        let lines = (before / self.line_base_count).checked_mul(self.line_width.get())?;
        self.position.checked_add(lines)?.checked_add(before % self.line_base_count)
    }
}

impl Default for Record {
    fn default() -> Self {
        Self::new(BString::default(), 0, 0, NonZero::<u64>::MIN, NonZero::<u64>::MIN)
    }
}
