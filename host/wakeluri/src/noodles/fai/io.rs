//! An index read and written.

use super::Index;
use crate::noodles::refused;
use std::io::{self, BufRead, Write};

/// Gives the thing that is read from or written to.
macro_rules! inner {
    ($name:ident, $inner:ident) => {
        impl<$inner> $name<$inner> {
            /// What is inside.
            pub fn get_ref(&self) -> &$inner {
                &self.inner
            }

            /// What is inside, to be changed.
            pub fn get_mut(&mut self) -> &mut $inner {
                &mut self.inner
            }

            /// What is inside, alone.
            pub fn into_inner(self) -> $inner {
                self.inner
            }
        }
    };
}

pub(crate) use inner;

/// Reads an index.
#[derive(Debug)]
pub struct Reader<R> {
    inner: R,
}

inner!(Reader, R);

impl<R: BufRead> Reader<R> {
    /// A reader of an index.
    pub fn new(inner: R) -> Self {
        Self { inner }
    }

    /// The whole index. Refuses 1, 9 to 12, with the line and the field. Names may be any bytes.
    ///
    /// ```
    /// use wakeluri::noodles::fai;
    /// let data = b"sq0\t13\t5\t80\t81\nsq1\t21\t19\t80\t81\n";
    /// let index = fai::io::Reader::new(&data[..]).read_index()?;
    /// assert_eq!(index.as_ref()[1].length(), 21);
    /// # Ok::<(), std::io::Error>(())
    /// ```
    pub fn read_index(&mut self) -> io::Result<Index> {
        let mut text = vec![];
        self.inner.read_to_end(&mut text)?;
        crate::read_index(&text).map(|table| Index::of(&table)).map_err(refused)
    }
}

/// Writes an index.
#[derive(Debug)]
pub struct Writer<W> {
    inner: W,
}

inner!(Writer, W);

impl<W: Write> Writer<W> {
    /// A writer of an index.
    pub fn new(inner: W) -> Self {
        Self { inner }
    }

    /// The whole index. Refuses 13, a name with a tab or LF, and has then written the lines before it.
    pub fn write_index(&mut self, index: &Index) -> io::Result<()> {
        for record in index.as_ref() {
            self.inner.write_all(&record.table().write_index().map_err(refused)?)?;
        }
        Ok(())
    }
}
