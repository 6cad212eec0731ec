//! How a file is opened: with which index, and whether that is checked.

use super::mapped::{self, Bytes};
use super::watch::Watch;
use super::{Error, Fasta, Fastq};
use crate::{Refusal, Table};
use std::ffi::OsString;
use std::path::{Path, PathBuf};
use std::{fs, io};

/// Where the rows of a [`Fasta`] come from, and so what its answers rest on.
#[derive(Clone, Copy, Debug, Eq, PartialEq)]
#[non_exhaustive]
pub enum Trust {
    /// An index was found, and it was checked that it leads to every base of the file.
    Checked,
    /// No index was found, or none was wanted: the rows were made from the file itself.
    Made,
    /// An index was found, and [`Options::unchecked`] asked to use it as it is: if it is wrong, so are the bases.
    Unchecked,
}

/// Files from this size on are mapped into memory: below it a copy costs little, and nobody can change it.
pub const MAPPED_FROM: u64 = 16 << 20;

/// How a [`Fasta`] is opened: [`Fasta::options`].
///
/// ```no_run
/// use wakeluri::{Fasta, fasta::Trust};
/// let fasta = Fasta::options().index("made/elsewhere.fai").unchecked().open("ref.fa")?;
/// assert_eq!(fasta.trust(), Trust::Unchecked);
/// # Ok::<(), wakeluri::Error>(())
/// ```
#[derive(Clone, Debug, Default)]
#[must_use]
pub struct Options {
    index: Option<PathBuf>,
    unchecked: bool,
    no_index: bool,
    hold: bool,
}

impl Options {
    /// The index is this file, and it has to be there. Without this it is the file's name with `.fai` behind it, if that is there.
    pub fn index(mut self, path: impl Into<PathBuf>) -> Self {
        self.index = Some(path.into());
        self
    }

    /// Uses an index without checking the bases. [`Fasta::trust`] says so then.
    pub fn unchecked(mut self) -> Self {
        self.unchecked = true;
        self
    }

    /// Looks for no index: the rows are made from the file.
    pub fn no_index(mut self) -> Self {
        self.no_index = true;
        self
    }

    /// The file is read into memory, whatever its size, and not mapped: then no change of it can do harm.
    pub fn hold(mut self) -> Self {
        self.hold = true;
        self
    }

    /// Opens a FASTA file.
    pub fn open(self, path: impl AsRef<Path>) -> Result<Fasta, Error> {
        let found = self.found(path.as_ref())?;
        let (table, trust) = found.rows(&Rules {
            make: |bytes| crate::index(bytes).map(Table::into_bytes),
            check: crate::check,
            read: |text| crate::read_index(text).map(Table::into_bytes),
        })?;
        found.opened(table, trust)
    }

    /// Opens a FASTQ file, whose index has six columns.
    pub fn open_fastq(self, path: impl AsRef<Path>) -> Result<Fastq, Error> {
        Fastq::opened(self.found(path.as_ref())?)
    }

    /// The file's bytes, and its index if there is one.
    fn found(self, path: &Path) -> Result<Found, Error> {
        let (bytes, watch) = mapped::open(path, if self.hold { u64::MAX } else { MAPPED_FROM })?;
        let (index_path, named) = match self.index {
            Some(path) => (path, true),
            None => (beside(path), false),
        };
        let text = match fs::read(&index_path) {
            _ if self.no_index => None,
            Ok(text) => Some(text),
            Err(error) if error.kind() == io::ErrorKind::NotFound && !named => None,
            Err(error) => return Err(Error::file(&index_path, error)),
        };
        Ok(Found { path: path.to_path_buf(), bytes, watch, index_path, text, unchecked: self.unchecked })
    }
}

/// A file that was opened, and the index text that was found for it.
pub(super) struct Found {
    path: PathBuf,
    bytes: Bytes,
    watch: Option<Watch>,
    index_path: PathBuf,
    text: Option<Vec<u8>>,
    unchecked: bool,
}

/// The calls of a format: rows made from a file, an index checked with it, rows read from an index.
pub(super) struct Rules {
    pub make: fn(&[u8]) -> Result<Vec<u8>, Refusal>,
    pub check: fn(&[u8], &[u8]) -> Result<(), Refusal>,
    pub read: fn(&[u8]) -> Result<Vec<u8>, Refusal>,
}

impl Found {
    /// The rows as bytes, and what they rest on.
    pub fn rows(&self, rules: &Rules) -> Result<(Vec<u8>, Trust), Error> {
        let about = |what: &Path| {
            let what = what.display().to_string();
            move |refusal| Error::refused(what, refusal)
        };
        let Some(text) = &self.text else {
            return Ok(((rules.make)(&self.bytes).map_err(about(&self.path))?, Trust::Made));
        };
        if !self.unchecked {
            (rules.check)(&self.bytes, text).map_err(about(&self.index_path))?;
        }
        let table = (rules.read)(text).map_err(about(&self.index_path))?;
        Ok((table, if self.unchecked { Trust::Unchecked } else { Trust::Checked }))
    }

    /// With its rows, if the file is still what it was.
    pub fn opened(self, table: Vec<u8>, trust: Trust) -> Result<Fasta, Error> {
        let fasta = Fasta::of(self.bytes, self.text, table, trust, Some(self.path), self.watch);
        fasta.unchanged()?;
        Ok(fasta)
    }
}

/// The path of the index beside a file: `ref.fa.fai`.
pub(super) fn beside(path: &Path) -> PathBuf {
    let mut name = OsString::from(path);
    name.push(".fai");
    name.into()
}
