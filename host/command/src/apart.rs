//! No output is an input. One judgement compares every output with every input, in every command: by the file itself
//! (its device and its inode) and not by its name, so that a link, another spelling or a redirection makes no difference. Each input is
//! judged as it is opened, before a byte of it is read and before anything is opened for writing.

use crate::failure::Failure;
use std::fs::{self, File, Metadata};
use std::io;
use std::os::fd::{AsFd, BorrowedFd, RawFd};
use std::os::unix::fs::{FileTypeExt, MetadataExt};
use std::path::{Path, PathBuf};

/// A file itself, whatever it is called.
#[derive(Clone, Copy, Debug, Eq, PartialEq)]
enum Itself {
    /// A file or a named pipe, by its device and inode.
    File(u64, u64),
    /// A disk, by its number: several names may lead to one.
    Disk(u64),
}

impl Itself {
    /// None for what may be read and written at the same time without harm: a terminal, /dev/null, a socket.
    fn of(meta: &Metadata) -> Option<Self> {
        let kind = meta.file_type();
        if kind.is_block_device() {
            return Some(Self::Disk(meta.rdev()));
        }
        (!kind.is_char_device() && !kind.is_socket()).then(|| Self::File(meta.dev(), meta.ino()))
    }

    fn of_open(file: BorrowedFd<'_>) -> Option<Self> {
        Self::of(&opened(file).ok()?)
    }
}

/// What the system knows of an open file.
pub fn opened(file: BorrowedFd<'_>) -> io::Result<Metadata> {
    File::from(file.try_clone_to_owned()?).metadata()
}

/// All that a run writes to.
#[derive(Clone, Copy, Debug)]
pub struct Outputs<'o> {
    answers: Option<Itself>,
    messages: Option<Itself>,
    /// The files that are written, at most two: what each is, and its place, where something is there already.
    places: [Option<(&'static str, &'o Path, Itself)>; 2],
}

impl Outputs<'static> {
    /// Standard output and standard error, which every run has.
    pub fn standard() -> Self {
        Self {
            answers: Itself::of_open(io::stdout().as_fd()),
            messages: Itself::of_open(io::stderr().as_fd()),
            places: [None; 2],
        }
    }
}

impl<'o> Outputs<'o> {
    /// These, and a file that is written to a place; no run writes more than two.
    pub fn and(self, what: &'static str, place: &'o Path) -> Self {
        let there = fs::metadata(place).ok().and_then(|meta| Itself::of(&meta));
        let [first, _] = self.places;
        Self { places: [there.map(|there| (what, place, there)), first], ..self }
    }

    /// Fails if an input is one of them.
    pub fn apart_from(&self, input: &Metadata, shown: &str) -> Result<(), Failure> {
        let Some(read) = Itself::of(input) else { return Ok(()) };
        // words would be written to what is read: there is the status alone
        if self.messages == Some(read) {
            return Err(Failure::Gone);
        }
        if self.answers == Some(read) {
            let emptied = "\na shell empties the file behind `>` before the command begins: this one has no byte";
            return Err(Failure::InputOutput {
                words: format!("{shown}: this is what is read, and standard output is the very same file"),
                next: format!(
                    "write the answer to another file, and move it there afterwards{}",
                    if input.is_file() && input.size() == 0 { emptied } else { "" }
                ),
            });
        }
        match self.places.iter().flatten().find(|(.., there)| *there == read) {
            Some((what, place, _)) => {
                let place = place.display().to_string();
                let same = if place == shown { "" } else { ": it is the very same file" };
                Err(Failure::InputOutput {
                    words: format!("{place}: {what} would take the place of {shown}, which is read{same}"),
                    next: "name another file with --output".to_string(),
                })
            }
            None => Ok(()),
        }
    }
}

/// The descriptor that a name stands for, as /dev/stdin, /dev/fd/3 and /proc/self/fd/1 do, also through links.
pub fn descriptor(path: &Path) -> Option<RawFd> {
    let own = format!("/proc/{}/", std::process::id());
    let mut path = path.to_path_buf();
    for _ in 0..LINKS {
        let folder = fs::canonicalize(folder(&path)).ok()?;
        if folder.starts_with(&own) && folder.ends_with("fd") {
            return path.file_name()?.to_str()?.parse().ok();
        }
        path = folder.join(fs::read_link(&path).ok()?);
    }
    None
}

/// So many links lead from one to the next at most.
const LINKS: usize = 40;

/// The folder that a name is in.
pub fn folder(path: &Path) -> &Path {
    path.parent().filter(|folder| !folder.as_os_str().is_empty()).unwrap_or(Path::new("."))
}

/// Where a name leads at last, also where nothing is there yet.
pub fn led_to(path: &Path) -> io::Result<PathBuf> {
    let mut path = path.to_path_buf();
    for _ in 0..LINKS {
        match fs::canonicalize(&path) {
            Ok(place) => return Ok(place),
            Err(error) if error.kind() != io::ErrorKind::NotFound => return Err(error),
            Err(_) => match fs::read_link(&path) {
                Ok(link) => path = folder(&path).join(link),
                Err(_) => return Ok(path),
            },
        }
    }
    Ok(path)
}
