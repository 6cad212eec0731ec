//! A row of a table, as it is handed from a look-up to the reads.

use core::sync::atomic::{AtomicU64, Ordering};

/// Which table a row is of. A table and its clones are one; any other that is made has another number, from 1.
#[derive(Clone, Copy, Debug, Eq, Hash, PartialEq)]
pub(crate) struct Identity(u64);

impl Identity {
    /// That of a row which is of whatever table it is used with.
    const ANY: Self = Self(0);

    /// One that no table has yet.
    pub(crate) fn fresh() -> Self {
        static MADE: AtomicU64 = AtomicU64::new(1);
        Self(MADE.fetch_add(1, Ordering::Relaxed))
    }
}

/// A row of a table: look a name up once, read as often as you like.
///
/// [`Table::find`](crate::Table::find) gives it, and so do [`Names`](crate::Names), [`Table::rows`](crate::Table::rows) and
/// [`Table::row`](crate::Table::row). It knows which table it is of, and costs two numbers to copy:
///
/// ```
/// let fasta = b">s\nAC\n>t\nGT\n";
/// let table = wakeluri::index(fasta)?;
/// let row = table.find(b"t")?;
/// assert_eq!(table.read_exact(fasta, row, 1..=1)?, b"G");
/// assert_eq!(table.read_exact(fasta, row, 2..=2)?, b"T");
///
/// // of another table it is refused, as a row that isn't there
/// let other = wakeluri::index(b">t\nAA\n>s\nCC\n")?;
/// let refusal = other.read_exact(b">t\nAA\n>s\nCC\n", row, ..).unwrap_err();
/// assert_eq!((refusal.number, refusal.first), (25, 1));
/// # Ok::<(), wakeluri::Refusal>(())
/// ```
///
/// What isn't seen: that a table is used with the bytes of another file than it was made of. A table doesn't know its file;
/// [`check`](crate::check) says whether an index and a file belong together.
#[derive(Clone, Copy, Debug, Eq, Hash, PartialEq)]
pub struct Row {
    table: Identity,
    number: usize,
}

impl Row {
    pub(crate) const fn new(table: Identity, number: usize) -> Self {
        Self { table, number }
    }

    /// The row of this number, counted from 0, of whatever table it is used with: nothing sees that another one was meant. Where
    /// that table has no such row, the proved call refuses it with 25.
    ///
    /// ```
    /// use wakeluri::Row;
    /// let fasta = b">s\nAC\n>t\nGT\n";
    /// let table = wakeluri::index(fasta)?;
    /// assert_eq!(table.read_exact(fasta, Row::of_any_table(1), ..)?, b"GT");
    /// assert_eq!(table.read_exact(fasta, Row::of_any_table(2), ..).unwrap_err().code(), "refused 25 (row 2)");
    /// # Ok::<(), wakeluri::Refusal>(())
    /// ```
    pub const fn of_any_table(number: usize) -> Self {
        Self::new(Identity::ANY, number)
    }

    /// Its number, counted from 0.
    pub const fn number(self) -> usize {
        self.number
    }

    /// Whether it may be used with a table.
    pub(crate) fn is_of(self, table: Identity) -> bool {
        self.table == table || self.table == Identity::ANY
    }
}
