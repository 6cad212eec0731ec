//! A map from names to rows, which saves the walk over the table.

use crate::entry::ROW_BYTES;
use crate::refusal::Call;
use crate::table::counted;
use crate::{Refusal, Row, Table, entry};
#[cfg(not(feature = "std"))]
use alloc::collections::BTreeMap as Map;
#[cfg(feature = "std")]
use std::collections::HashMap as Map;

/// The first row that has a name, and the second.
#[derive(Clone, Copy, Debug)]
struct Rows {
    first: usize,
    second: Option<usize>,
}

/// The rows of a table by their names, for many look-ups: the table is walked over once, and not for each name.
///
/// ```
/// use wakeluri::Names;
/// let fasta = b">s\nAC\n>t\nGT\n>s\nNN\n";
/// let table = wakeluri::index(fasta)?;
/// let names = Names::new(&table);
/// let row = names.find(b"s")?;
/// assert_eq!(table.read_exact(fasta, row, ..)?, b"AC");
/// assert_eq!(names.find(b"u"), table.find(b"u"));
/// # Ok::<(), wakeluri::Refusal>(())
/// ```
///
/// What a look-up means is the proved [`Table::find`]'s to say: the first row whose name is equal, if all before it can be used. The map
/// is a guess that saves its walk.
///
/// - A row is given only once the proved look-up has found the name in it: it is asked about a table of that one row. So a row of
///   another name, or one that can't be used, is never given.
/// - That no row before it has the name, and that each before it can be used, rests on the map: it is filled from the first row on, up
///   to one that can't be used, and a name that is in it stays as it is. The tests compare this with the proved walk.
/// - A refusal is the proved walk's own, and takes as long: [`Names::find`] walks for a name that isn't in the map.
#[derive(Clone, Debug)]
pub struct Names<'t, 'n> {
    table: &'t Table<'n>,
    rows: Map<&'n [u8], Rows>,
}

impl<'t, 'n> Names<'t, 'n> {
    /// Walks over a table once, and keeps the rows of all names.
    pub fn new(table: &'t Table<'n>) -> Self {
        let mut names = Self { table, rows: Map::default() };
        #[cfg(feature = "std")]
        names.rows.reserve(table.rows().len());
        names.fill(|_| true);
        names
    }

    /// Walks over a table once, and keeps the rows of those names that may be asked for. A name that is passed over makes no answer of
    /// [`Names::find`] another, but a slow one.
    ///
    /// ```
    /// use wakeluri::Names;
    /// let table = wakeluri::index(b">s\nAC\n>t\nGT\n")?;
    /// let names = Names::of_some(&table, |name| name == b"t");
    /// assert_eq!(names.get(b"t"), table.row(1));
    /// assert_eq!((names.get(b"s"), names.find(b"s")), (None, table.find(b"s")));
    /// # Ok::<(), wakeluri::Refusal>(())
    /// ```
    pub fn of_some(table: &'t Table<'n>, may_be_asked_for: impl Fn(&[u8]) -> bool) -> Self {
        let mut names = Self { table, rows: Map::default() };
        names.fill(may_be_asked_for);
        names
    }

    fn fill(&mut self, may_be_asked_for: impl Fn(&[u8]) -> bool) {
        // where the table has fewer rows than are said to be in use, the walk refuses every name
        if self.table.rows().len() < self.table.len() {
            return;
        }
        let usable = self.table.records().take_while(|record| record.line_bases > 0 && record.line_width > 0);
        for (number, record) in usable.enumerate().filter(|(_, record)| may_be_asked_for(record.name)) {
            let rows = self.rows.entry(record.name).or_insert(Rows { first: number, second: None });
            if rows.first != number && rows.second.is_none() {
                rows.second = Some(number);
            }
        }
    }

    /// The first row that has a name, as [`Table::find`] gives it. Refuses 1, 25, 15.
    pub fn find(&self, name: &[u8]) -> Result<Row, Refusal> {
        self.get(name).map_or_else(|| self.table.find(name), Ok)
    }

    /// The first row that has a name; none where the map has no such name, and why isn't asked: never a walk.
    pub fn get(&self, name: &[u8]) -> Option<Row> {
        self.confirmed(self.rows.get(name)?.first, name)
    }

    /// The second row that has a name, which no look-up gives: a person who asks for the name may want to know of it.
    ///
    /// ```
    /// use wakeluri::Names;
    /// let table = wakeluri::index(b">s\nAC\n>t\nGT\n>s\nNN\n")?;
    /// let names = Names::new(&table);
    /// assert_eq!((names.second(b"s"), names.second(b"t")), (table.row(2), None));
    /// # Ok::<(), wakeluri::Refusal>(())
    /// ```
    pub fn second(&self, name: &[u8]) -> Option<Row> {
        self.confirmed(self.rows.get(name)?.second?, name)
    }

    /// A row, if the proved look-up finds the name in a table of it alone.
    fn confirmed(&self, number: usize, name: &[u8]) -> Option<Row> {
        let row = self.table.as_bytes().get(number.checked_mul(ROW_BYTES)?..)?.get(..ROW_BYTES)?;
        let found = counted(Call::Find, entry::find(self.table.names(), row, 1, name));
        if found == Ok(0) { self.table.row(number) } else { None }
    }
}
