//! Why a file gave no answer.

use crate::{Reason, Refusal};
use std::fmt;
use std::io;
use std::path::{Path, PathBuf};

/// Why a [`Fasta`](crate::Fasta) gave no answer.
#[derive(Debug)]
#[non_exhaustive]
pub enum Error {
    /// The proved code refused: what it was asked about (a record's name, or a file's), and why.
    #[non_exhaustive]
    Refused {
        /// The record or the file, as it is written in a sentence; empty if there is none.
        about: String,
        /// Why.
        refusal: Refusal,
    },
    /// What follows a record's name in a region is no region of it.
    #[non_exhaustive]
    Region {
        /// The region as it was given.
        region: Vec<u8>,
        /// What is wrong with it.
        why: String,
    },
    /// A region can be read in more than one way, and each leads to a record.
    #[non_exhaustive]
    Several {
        /// The region as it was given.
        region: Vec<u8>,
        /// A form for each way that can't be read in another.
        forms: Vec<Vec<u8>>,
    },
    /// The file is not what it was when it was opened: open it again.
    #[non_exhaustive]
    Changed {
        /// Which.
        path: PathBuf,
    },
    /// A file can't be opened, read or written.
    #[non_exhaustive]
    File {
        /// Which.
        path: PathBuf,
        /// Why, as the system says it.
        error: io::Error,
    },
}

impl Error {
    pub(super) fn refused(about: String, refusal: Refusal) -> Self {
        Self::Refused { about, refusal }
    }

    pub(super) fn file(path: &Path, error: io::Error) -> Self {
        Self::File { path: path.to_path_buf(), error }
    }

    /// The refusal, if it is one.
    pub fn refusal(&self) -> Option<&Refusal> {
        match self {
            Self::Refused { refusal, .. } => Some(refusal),
            _ => None,
        }
    }

    /// The refusal's case with its numbers by name, if it is one.
    ///
    /// ```
    /// use wakeluri::{Fasta, Reason};
    /// let fasta = Fasta::from_bytes(b">s\nACGT\nAC\n".to_vec())?;
    /// match fasta.read("s:5-7") {
    ///     Err(error) => assert_eq!(error.reason(), Some(Reason::PastLength { length: 6 })),
    ///     Ok(bases) => panic!("{bases:?}"),
    /// }
    /// # Ok::<(), wakeluri::Error>(())
    /// ```
    pub fn reason(&self) -> Option<Reason> {
        self.refusal().map(Refusal::reason)
    }
}

impl fmt::Display for Error {
    fn fmt(&self, f: &mut fmt::Formatter<'_>) -> fmt::Result {
        use crate::shown::short;
        match self {
            Self::Refused { about, refusal } if about.is_empty() => write!(f, "{refusal}"),
            Self::Refused { about, refusal } => write!(f, "{about}: {refusal}"),
            Self::Region { region, why } => write!(f, "{}: this is no region: {why}", short(region)),
            Self::Several { region, forms } => {
                let forms: Vec<String> = forms.iter().map(|form| short(form)).collect();
                write!(f, "{}: it can be read in more than one way: write {}", short(region), forms.join(" or "))
            }
            Self::Changed { path } => write!(f, "{}: the file was changed since it was opened", path.display()),
            Self::File { path, error } => write!(f, "{}: {error}", path.display()),
        }
    }
}

impl std::error::Error for Error {
    fn source(&self) -> Option<&(dyn std::error::Error + 'static)> {
        match self {
            Self::Refused { refusal, .. } => Some(refusal),
            Self::File { error, .. } => Some(error),
            Self::Region { .. } | Self::Several { .. } | Self::Changed { .. } => None,
        }
    }
}

impl From<Refusal> for Error {
    fn from(refusal: Refusal) -> Self {
        Self::refused(String::new(), refusal)
    }
}

/// Refusals and regions are invalid input; what the system said keeps its kind.
impl From<Error> for io::Error {
    fn from(error: Error) -> Self {
        let kind = match &error {
            Error::File { error, .. } => error.kind(),
            Error::Changed { .. } => io::ErrorKind::Other,
            _ => io::ErrorKind::InvalidInput,
        };
        Self::new(kind, error)
    }
}
