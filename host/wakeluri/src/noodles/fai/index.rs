//! A whole index.

use super::Record;
use crate::noodles::core::Region;
use crate::noodles::refused;
use crate::refusal::Call;
use crate::{Refusal, Table};
use std::io;

/// The records of an index, in their order.
///
/// ```
/// use wakeluri::noodles::{core::Region, fai};
/// let index = fai::io::Reader::new(&b"sq0\t10946\t4\t80\t81\n"[..]).read_index()?;
/// assert_eq!(index.query(&Region::new("sq0", ..))?, 4);
/// # Ok::<_, std::io::Error>(())
/// ```
#[derive(Clone, Debug, Default, Eq, PartialEq)]
pub struct Index(Vec<Record>);

impl Index {
    /// The record of a region's name: the first that has it. Refuses 15.
    pub(crate) fn find(&self, region: &Region) -> io::Result<&Record> {
        let named = self.0.iter().find(|record| record.name() == region.name());
        named.ok_or_else(|| refused(Refusal::new(Call::Find, 15, 0, 0)))
    }

    /// The offset of a region's first base.
    pub fn query(&self, region: &Region) -> io::Result<u64> {
        self.find(region)?.query(region.interval())
    }

    /// The records of a table.
    pub(crate) fn of(table: &Table<'_>) -> Self {
        Self(table.records().filter_map(Record::of).collect())
    }
}

impl AsRef<[Record]> for Index {
    fn as_ref(&self) -> &[Record] {
        &self.0
    }
}

impl From<Vec<Record>> for Index {
    fn from(records: Vec<Record>) -> Self {
        Self(records)
    }
}

impl From<Index> for Vec<Record> {
    fn from(index: Index) -> Self {
        index.0
    }
}
