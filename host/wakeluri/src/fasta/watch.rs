//! Whether a file is still what it was.

use super::Error;
use super::mapped::now;
use std::fs::{self, Metadata};
use std::path::{Path, PathBuf};
use std::sync::atomic::{AtomicBool, AtomicU64, Ordering};
use std::time::SystemTime;

/// A look is due if the last one is as old as this, in microseconds.
const DUE: u64 = 10_000;

/// What differs between two files, and between a file and what it was.
#[derive(Clone, Debug, Eq, PartialEq)]
pub(super) struct Seen {
    length: u64,
    changed: Option<SystemTime>,
    inode: [u64; 2],
}

impl Seen {
    pub(super) fn of(meta: &Metadata) -> Self {
        #[cfg(unix)]
        let inode = {
            use std::os::unix::fs::MetadataExt;
            [meta.dev(), meta.ino()]
        };
        #[cfg(not(unix))]
        let inode = [0; 2];
        Self { length: meta.len(), changed: meta.modified().ok(), inode }
    }
}

/// A file as it was seen when it was opened.
#[derive(Debug)]
pub(super) struct Watch {
    path: PathBuf,
    seen: Seen,
    /// When it was last looked at, in microseconds.
    looked: AtomicU64,
    /// Once it was seen to have changed, it stays so.
    changed: AtomicBool,
}

impl Watch {
    pub(super) fn new(path: &Path, seen: Seen) -> Self {
        let (looked, changed) = (AtomicU64::new(0), AtomicBool::new(false));
        Self { path: path.to_path_buf(), seen, looked, changed }
    }

    /// Looks at the file.
    pub(super) fn look(&self) -> Result<(), Error> {
        let same = fs::metadata(&self.path).is_ok_and(|meta| Seen::of(&meta) == self.seen);
        self.looked.store(now(), Ordering::Relaxed);
        if !same {
            self.changed.store(true, Ordering::Relaxed);
        }
        self.last()
    }

    /// Looks at the file, if the last look is old.
    pub(super) fn look_if_due(&self) -> Result<(), Error> {
        if now().saturating_sub(self.looked.load(Ordering::Relaxed)) >= DUE { self.look() } else { self.last() }
    }

    /// What the last look found.
    fn last(&self) -> Result<(), Error> {
        if self.changed.load(Ordering::Relaxed) { Err(Error::Changed { path: self.path.clone() }) } else { Ok(()) }
    }
}
