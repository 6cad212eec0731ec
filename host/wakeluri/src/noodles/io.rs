//! FASTA read, indexed and written.

pub mod indexer;
pub mod reader;
pub mod writer;

pub use indexer::Indexer;
pub use reader::Reader;
pub use writer::Writer;

use std::io::{self, BufRead};

/// The next byte, without taking it.
fn peeked(reader: &mut impl BufRead) -> io::Result<Option<u8>> {
    Ok(reader.fill_buf()?.first().copied())
}
