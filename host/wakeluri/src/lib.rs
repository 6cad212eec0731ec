//! A FASTA index library whose every answer is proved right.
//!
//! An index of a FASTA file says of each record where its first base lies and how its lines are made, so that any part of it can
//! be read at once. Here no read is ever clipped, no wrong index goes unnoticed, and nothing depends on how a file was buffered:
//! a call gives just what was asked for, or a [`Refusal`] that says what is wrong and where.
//!
//! ```
//! // a file as it is, lent and never copied
//! let fasta = b">sq0\nACGT\n>sq1 a longer one\nNNNN\nACGT\nNN\n";
//!
//! // make an index, and write it as samtools would
//! let table = wakeluri::index(fasta)?;
//! let text = table.write_index()?;
//! assert_eq!(text, b"sq0\t4\t5\t4\t5\nsq1\t10\t28\t4\t5\n");
//!
//! // or take one that another program wrote: accepted only if it leads to every base
//! wakeluri::check(fasta, &text)?;
//! let table = wakeluri::read_index(&text)?;
//!
//! // look a name up once, and read as often as you like: here bases 5 to 8, counted from 1
//! let row = table.find(b"sq1")?;
//! assert_eq!(table.read_exact(fasta, row, 5..=8)?, b"ACGT");
//!
//! // never fewer than were asked for
//! let refusal = table.read_exact(fasta, row, 9..=11).unwrap_err();
//! assert_eq!(refusal.to_string(), "the record has 10 bases, and the region goes past them: refused 17 (length 10)");
//! # Ok::<(), wakeluri::Refusal>(())
//! ```
//!
//! The work is done by a static library of proved code; this crate makes it safe and comfortable to call, and adds nothing else.
//! [`entry`] has the calls as they are. No call panics, whatever it is given, and none copies the file.

//!
//! # Which call
//!
//! | To | |
//! |---|---|
//! | open a file with its index, and read from it in any thread | [`Fasta`] |
//! | have an index of bytes in memory, or of another's text | [`index`], [`read_index`], [`check`], [`Table`] |
//! | read regions as people write them | [`Fasta::read`], [`region`] |
//! | say how many cores index and check a large file | [`use_threads`], [`Cores`] |
//! | write FASTA | [`Writer`], [`write_record`] |
//! | index FASTQ, and read its bases and qualities | [`Fastq`], [`fastq`] |
//! | know why there is no answer | [`Refusal`], and [`Reason`] for a `match` |
//! | come from noodles-fasta | [`noodles`] |
//!
//! # Features
//!
//! `std`, which is on if nothing else is said, brings [`Fasta`], [`Fastq`], [`Writer`], [`noodles`] and [`Cores`], which need files, streams and threads. Without it the
//! crate needs `alloc` alone.

#![cfg_attr(not(feature = "std"), no_std)]
#![deny(unsafe_code)]

#[cfg_attr(not(feature = "std"), macro_use)]
extern crate alloc;

mod bounds;
#[cfg(feature = "std")]
mod cores;
mod course;
#[allow(unsafe_code)]
pub mod entry;
pub mod fastq;
mod feeder;
#[allow(unsafe_code)]
mod level;
mod list;
mod names;
#[allow(unsafe_code)]
mod pages;
mod primer;
mod refusal;
mod row;
mod sheet;
mod table;
mod text;
mod window;
mod writer;

pub use bounds::Bounds;
#[cfg(feature = "std")]
pub use cores::{Cores, use_threads};
pub use feeder::{Fed, Feeder};
pub use level::{LEVELS, use_level};
pub use names::Names;
pub use refusal::{Call, Refusal};
pub use row::Row;
pub use sheet::{SHEET_REGIONS, Sheet, SheetRefusal};
pub use window::{ReadError, Window};

// the calls: what is public in these files is the library's
pub use course::*;
pub use primer::*;
pub use table::*;
pub use text::*;
pub use writer::*;

/// The identity of the kit that the linked library was proved with.
pub const PROVED_WITH: &str = env!("WAKELURI_KIT");

// what an app has over these: a file that it opens, refusals as cases, regions as people write them, noodles' names
#[cfg(feature = "std")]
pub mod fasta;
#[cfg(feature = "std")]
pub mod noodles;
mod reason;
pub mod region;
pub mod shown;

#[cfg(feature = "std")]
pub use fasta::{Error, Fasta, Fastq};
pub use reason::Reason;
