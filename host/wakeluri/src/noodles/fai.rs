//! A FASTA index and its records.

mod index;
pub mod io;
mod record;

pub use index::Index;
pub use record::Record;
