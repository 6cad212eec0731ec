//! The names and shapes of noodles-fasta 0.68.0, over the proved calls.
//!
//! An app that runs noodles-fasta today changes its `use` lines, and the compiler walks it through what differs; docs/FROM-NOODLES.md has
//! each call and what it becomes.
//!
//! | There | Here |
//! |---|---|
//! | `use noodles_fasta as fasta;` | `use wakeluri::noodles as fasta;` |
//! | `use noodles_core::{Position, Region, region::Interval};` | `use wakeluri::noodles::core::{Position, Region, region::Interval};` |
//! | `use bstr::{BStr, BString};` | `use wakeluri::noodles::bstr::{BStr, BString};` |
//!
//! ```
//! use wakeluri::noodles as fasta;
//! let src = b">sq0\nACGT\n>sq1 a longer one\nNNNN\nNNNN\nNN\n";
//! for result in fasta::io::Reader::new(&src[..]).records() {
//!     let record = result?;
//!     assert!(record.sequence().len() >= 4);
//! }
//! # Ok::<(), std::io::Error>(())
//! ```
//!
//! What is another here, on purpose:
//!
//! - [`io::Reader::query`] is exact: a region past the record's end is an error that tells its length, and never clipped. The scan that
//!   noodles' `query` does is [`io::Reader::query_raw`].
//! - No answer depends on how a reader's buffer is filled.
//! - Nothing panics, but [`record::Sequence`]'s `[..]` with a position that isn't there, which has no other way.
//! - A refusal is an [`std::io::Error`] whose inner error is a [`Refusal`]: [`refusal`] finds it.
//!
//! A record is read whole before it is judged, so the memory that is used is that of the longest record; [`Fasta`](crate::Fasta) maps a file
//! instead.

pub mod bstr;
pub mod core;
pub mod fai;
pub mod io;
pub mod record;

pub use record::Record;

use crate::Refusal;

/// The refusal in an error, if it holds one.
///
/// ```
/// use wakeluri::noodles::{fai, refusal};
/// let error = fai::io::Reader::new(&b"sq0\t13\tx\t80\t81\n"[..]).read_index().unwrap_err();
/// assert_eq!(refusal(&error).map(|refusal| refusal.code()), Some("refused 11 (line 1, field 3)".to_string()));
/// ```
pub fn refusal(error: &std::io::Error) -> Option<&Refusal> {
    error.get_ref()?.downcast_ref()
}

/// A refusal as an error: of data that is wrong, or of a question that is.
fn refused(refusal: Refusal) -> std::io::Error {
    use std::io::ErrorKind::{InvalidData, InvalidInput};
    let kind = if matches!(refusal.number, 2..=4 | 9..=12) { InvalidData } else { InvalidInput };
    std::io::Error::new(kind, refusal)
}
