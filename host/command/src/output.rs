//! Answers on standard output, and files that are written beside their place and then put there in one step.

use crate::apart::{descriptor, folder, led_to};
use crate::failure::Failure;
use crate::place::quoted;
use std::ffi::CString;
use std::fs::{self, File, OpenOptions};
use std::io::{self, Read, Seek, Write};
use std::os::fd::{AsRawFd, FromRawFd, RawFd};
use std::os::unix::ffi::OsStrExt;
use std::os::unix::fs::{FileTypeExt, MetadataExt, OpenOptionsExt, chown};
use std::path::{Path, PathBuf};
use std::sync::atomic::{AtomicBool, Ordering};

/// Where answers go, for everything at once.
pub struct Answers<'w>(io::BufWriter<Box<dyn Write + 'w>>);

impl<'w> Answers<'w> {
    /// Standard output; nothing is written yet.
    pub fn new() -> Self {
        Self::to(io::stdout())
    }

    fn to(place: impl Write + 'w) -> Self {
        Self(io::BufWriter::with_capacity(1 << 16, Box::new(place)))
    }

    /// Some bytes.
    pub fn write(&mut self, bytes: &[u8]) -> Result<(), Failure> {
        self.0.write_all(bytes).map_err(|error| failed(&error))
    }

    /// Where answers go, for one that writes by itself.
    pub fn sink(&mut self) -> &mut impl Write {
        &mut self.0
    }

    /// All of it is out.
    pub fn done(mut self) -> Result<(), Failure> {
        self.0.flush().map_err(|error| failed(&error))
    }
}

/// Standard output could not be written to.
pub fn failed(error: &io::Error) -> Failure {
    Failure::system(
        "the answer can't be written",
        "standard output",
        error,
        "what was written so far is not all of it: don't use it",
    )
}

/// A place to write to that keeps the first error of the system.
struct Noting<'w> {
    to: &'w mut dyn Write,
    error: Option<io::Error>,
}

impl Noting<'_> {
    fn noted<T>(&mut self, done: io::Result<T>) -> io::Result<T> {
        done.map_err(|error| {
            let kind = error.kind();
            self.error.get_or_insert(error);
            kind.into()
        })
    }
}

impl Write for Noting<'_> {
    fn write(&mut self, bytes: &[u8]) -> io::Result<usize> {
        let done = self.to.write(bytes);
        self.noted(done)
    }

    fn flush(&mut self) -> io::Result<()> {
        let done = self.to.flush();
        self.noted(done)
    }
}

/// Writes a file, piece by piece.
pub type Fill<'f> = &'f mut dyn FnMut(&mut dyn Write) -> io::Result<()>;

/// Why a file was not filled.
#[derive(Debug)]
pub enum Unfilled {
    /// It could not be written.
    System(io::Error),
    /// There is nothing to write.
    Failed(Failure),
}

impl Unfilled {
    /// As a failure of what was to be written of a file.
    pub fn told(self, file: &str) -> Failure {
        match self {
            Self::System(error) => Failure::system("it can't be written", file, &error, ""),
            Self::Failed(failure) => failure,
        }
    }
}

impl From<io::Error> for Unfilled {
    fn from(error: io::Error) -> Self {
        Self::System(error)
    }
}

impl From<Failure> for Unfilled {
    fn from(failure: Failure) -> Self {
        Self::Failed(failure)
    }
}

/// Where a file is written to.
#[derive(Debug)]
pub enum Output {
    /// Standard output.
    Standard,
    /// A file that is open already, as /dev/fd/3: what was written to it before stays.
    Open(PathBuf, RawFd),
    /// A pipe or a device, which can't be replaced: it is written to.
    Device(PathBuf),
    /// A file, old or new.
    File(PathBuf),
}

impl Output {
    /// What a name stands for. A folder and a disk are no places for a file.
    pub fn of(path: &Path) -> Result<Self, Failure> {
        match descriptor(path) {
            Some(1) => return Ok(Self::Standard),
            Some(open) => return Ok(Self::Open(path.to_path_buf(), open)),
            None if path.as_os_str() == "-" => return Ok(Self::Standard),
            None => {}
        }
        match fs::metadata(path) {
            Ok(meta) if meta.is_dir() => Err(no_place(path, "folder, and what is written is a file", "name a file")),
            Ok(meta) if meta.file_type().is_block_device() => {
                Err(no_place(path, "disk, and all that is on it would be lost", "name a file"))
            }
            Ok(meta) if !meta.is_file() => Ok(Self::Device(path.to_path_buf())),
            _ => Ok(Self::File(path.to_path_buf())),
        }
    }

    /// Fails if something is there that nobody means to be replaced by an index.
    pub fn free(&self) -> Result<(), Failure> {
        let Self::File(path) = self else { return Ok(()) };
        let other = other_than_index(path).map(|what| format!("{what}, and the index would take its place"));
        other.map_or(Ok(()), |what| Err(no_place(path, &what, "move it away first, or name another file")))
    }

    /// Whether it is standard output.
    pub fn is_standard(&self) -> bool {
        matches!(self, Self::Standard)
    }

    /// Its name, if it is not standard output.
    pub fn path(&self) -> Option<&Path> {
        match self {
            Self::Standard => None,
            Self::Open(path, _) | Self::Device(path) | Self::File(path) => Some(path),
        }
    }

    /// Fails if something is there that is neither empty nor FASTA.
    pub fn free_for_fasta(&self) -> Result<(), Failure> {
        let Self::File(path) = self else { return Ok(()) };
        let mut start = [0];
        match File::open(path).and_then(|mut file| file.read(&mut start)) {
            Ok(1) if start != *b">" => {
                let what = "file that is not FASTA, and the new file would take its place";
                Err(no_place(path, what, "move it away first, or name another file"))
            }
            _ => Ok(()),
        }
    }

    /// Fails if something is there that is neither empty nor an exercise.
    pub fn free_for_exercise(&self) -> Result<(), Failure> {
        let Self::File(path) = self else { return Ok(()) };
        match fs::read(path) {
            Ok(bytes) if !bytes.is_empty() && wakeluri::read_exercise(&bytes).is_err() => {
                let what = "file that is not an exercise, and the new one would take its place";
                Err(no_place(path, what, "move it away first, or name another file"))
            }
            _ => Ok(()),
        }
    }

    /// Writes all of an index that is at hand.
    pub fn write(&self, text: &[u8]) -> Result<(), Failure> {
        self.fill("index", &mut |to| to.write_all(text))
    }

    /// Whether it is a file that is put in its place in one step, once it is whole.
    pub fn is_replaced(&self) -> bool {
        matches!(self, Self::File(_))
    }

    /// Writes all of a file by what may fail by itself, and gives what that gives. Then nothing is put in its place.
    pub fn fill_by<T>(
        &self,
        what: &str,
        fill: impl FnOnce(&mut dyn Write) -> Result<T, Unfilled>,
    ) -> Result<T, Failure> {
        let (mut fill, mut given) = (Some(fill), None);
        let filled = self.fill(what, &mut |to| match fill.take().map(|fill| fill(to)) {
            Some(Err(Unfilled::System(error))) => Err(error),
            Some(Err(Unfilled::Failed(failure))) => {
                given = Some(Err(failure));
                Err(io::Error::other("there is no answer"))
            }
            Some(Ok(done)) => {
                given = Some(Ok(done));
                Ok(())
            }
            // a file is filled once
            None => Err(io::Error::other("it is filled again")),
        });
        match given {
            Some(Err(failure)) => Err(failure),
            Some(Ok(done)) => filled.map(|()| done),
            None => Err(filled.err().unwrap_or(Failure::Gone)),
        }
    }

    /// Fails if something is there that nobody means to be replaced by answers.
    pub fn free_for_answers(&self, json: bool, qualities: bool) -> Result<(), Failure> {
        let Self::File(path) = self else { return Ok(()) };
        let mut start = [0];
        let is_there = File::open(path).and_then(|mut file| file.read(&mut start)).is_ok_and(|read| read == 1);
        let (form, first) = match (json, qualities) {
            (true, _) => ("JSON", b"{"),
            (false, true) => ("FASTQ", b"@"),
            (false, false) => ("FASTA", b">"),
        };
        if is_there && start != *first {
            let what = format!("file that is not {form}, and the answer would take its place");
            return Err(no_place(path, &what, "move it away first, or name another file"));
        }
        Ok(())
    }

    /// Answers, written to it: all of them, or, where it is a file, none.
    pub fn give(&self, give: &mut dyn FnMut(&mut Answers<'_>) -> Result<(), Failure>) -> Result<(), Failure> {
        if self.is_standard() {
            let mut answers = Answers::new();
            give(&mut answers)?;
            return answers.done();
        }
        let mut why = None;
        let filled = self.fill("file", &mut |to| {
            let mut noting = Noting { to, error: None };
            let mut answers = Answers::to(&mut noting);
            let given = give(&mut answers).and_then(|()| answers.done());
            match (noting.error, given) {
                (Some(error), _) => Err(error),
                (None, Ok(())) => Ok(()),
                (None, Err(failure)) => {
                    why = Some(failure);
                    Err(io::Error::other("there is no answer"))
                }
            }
        });
        why.map_or(filled, Err)
    }

    /// Writes all of a file, piece by piece. A place that is a file holds the old one or the whole new one, whenever this is stopped.
    pub fn fill(&self, what: &str, fill: Fill<'_>) -> Result<(), Failure> {
        let opened = match self {
            Self::Standard => {
                let mut answers = Answers::new();
                fill(answers.sink()).map_err(|error| failed(&error))?;
                return answers.done();
            }
            Self::File(path) => return replace(path, what, fill),
            Self::Open(_, open) => once_more(*open),
            Self::Device(path) => OpenOptions::new().write(true).open(path),
        };
        let written = opened.and_then(|file| {
            let mut to = io::BufWriter::with_capacity(1 << 16, file);
            fill(&mut to).and_then(|()| to.flush())
        });
        let shown = self.path().map(|path| quoted(path.as_os_str().as_bytes())).unwrap_or_default();
        written.map_err(|error| Failure::system("it can't be written", &shown, &error, ""))
    }
}

fn no_place(path: &Path, what: &str, next: &str) -> Failure {
    let words = format!("{}: this is a {what}", quoted(path.as_os_str().as_bytes()));
    Failure::InputOutput { words, next: format!("{next} with --output") }
}

/// An open file, opened once more, so that it stays open when this one is closed.
fn once_more(open: RawFd) -> io::Result<File> {
    // SAFETY: it only makes a new number for an open file, or says that there is none.
    let new = unsafe { libc::fcntl(open, libc::F_DUPFD_CLOEXEC, 3) };
    if new < 0 {
        return Err(io::Error::last_os_error());
    }
    // SAFETY: the number was made here, and nobody else has it.
    Ok(unsafe { File::from_raw_fd(new) })
}

/// What a file is that begins as FASTA does, as a packed file or as a program, and not as an index; nothing is said of other texts.
fn other_than_index(path: &Path) -> Option<&'static str> {
    let mut start = vec![];
    File::open(path).and_then(|file| file.take(1 << 16).read_to_end(&mut start)).ok()?;
    let line = start.split_inclusive(|byte| *byte == b'\n').next().unwrap_or_default();
    match line {
        // names hold any bytes
        _ if wakeluri::index_line(line).is_ok() || wakeluri::fastq::read_line(line).is_ok() => None,
        [b'>' | b'@', ..] => Some("file of sequences"),
        _ if start.contains(&0) || line.starts_with(b"\x1f\x8b") => Some("packed file or a program"),
        _ => None,
    }
}

/// Writes a file so that its place holds the old one or the whole new one, whenever this is stopped.
fn replace(path: &Path, what: &str, fill: Fill<'_>) -> Result<(), Failure> {
    let shown = quoted(path.as_os_str().as_bytes());
    // where a link leads, the file itself is replaced
    let place = led_to(path).map_err(|error| Failure::system("it can't be written", &shown, &error, ""))?;
    let written = write_beside(&place, fill).and_then(|beside| {
        if let Ok(old) = fs::metadata(&place) {
            as_the_old(&beside, &old);
        }
        fs::rename(&beside, &place).inspect_err(|_| {
            let _ = fs::remove_file(&beside);
        })
    });
    if let Err(error) = written {
        let old =
            if place.exists() { format!("the old {what} is as it was") } else { format!("no {what} was written") };
        let next = match error.kind() {
            io::ErrorKind::StorageFull | io::ErrorKind::FileTooLarge | io::ErrorKind::QuotaExceeded => {
                "make room on the disk, or"
            }
            io::ErrorKind::PermissionDenied | io::ErrorKind::ReadOnlyFilesystem => {
                "get leave to write to that folder, or"
            }
            io::ErrorKind::NotFound => "make that folder first, or",
            _ => "",
        };
        let next = format!("{next} write it elsewhere with --output").trim_start().to_string();
        return Err(Failure::system(&format!("it can't be written, and {old}"), &shown, &error, &next));
    }
    if !FOLDERS_LATER.load(Ordering::Relaxed) {
        sync_folder(folder(&place));
    }
    Ok(())
}

/// Whether the code that writes many files puts their folders on the disk at the end.
static FOLDERS_LATER: AtomicBool = AtomicBool::new(false);

/// From now on the caller puts the folders of written files on the disk.
pub fn sync_folders_later() {
    FOLDERS_LATER.store(true, Ordering::Relaxed);
}

/// A new name is on the disk when its folder is.
pub fn sync_folder(folder: &Path) {
    if let Ok(folder) = File::open(folder) {
        let _ = folder.sync_all();
    }
}

/// Gives a new file the owner, the group and the mode of the one whose place it takes, as far as one may.
fn as_the_old(new: &Path, old: &fs::Metadata) {
    let own = fs::metadata(new);
    let is_other = |own: fs::Metadata| (own.uid(), own.gid()) != (old.uid(), old.gid());
    if own.is_ok_and(is_other) && chown(new, Some(old.uid()), Some(old.gid())).is_err() {
        let _ = chown(new, None, Some(old.gid()));
    }
    // last, since a new owner takes bits away
    let _ = fs::set_permissions(new, old.permissions());
}

/// So many names are tried for a file beside its place.
const NAMES: u32 = 100;

/// Does something with names beside a place, one after the other, up to one that nobody uses. What has such a name, whosever it is, stays.
fn beside<T>(place: &Path, mut take: impl FnMut(&Path) -> io::Result<T>) -> io::Result<(PathBuf, T)> {
    let mut taken = io::Error::from(io::ErrorKind::AlreadyExists);
    for number in 0..NAMES {
        let beside = place.with_file_name(format!("wakeluri-{}-{number}.new", std::process::id()));
        match take(&beside) {
            Ok(done) => return Ok((beside, done)),
            Err(error) if error.kind() == io::ErrorKind::AlreadyExists => taken = error,
            Err(error) => return Err(error),
        }
    }
    Err(taken)
}

/// Writes all of a file to a name beside its place that nobody uses, and tells it. Where the system can do it the file has no name until it is
/// whole, so that a stop in the middle leaves nothing behind. What fills the file is asked once: it may read what arrives.
fn write_beside(place: &Path, fill: Fill<'_>) -> io::Result<PathBuf> {
    let nameless = OpenOptions::new().read(true).write(true).custom_flags(libc::O_TMPFILE).open(folder(place));
    let Ok(mut nameless) = nameless else { return write_named(place, fill) };
    put(&mut nameless, fill)?;
    match beside(place, |path| named(&nameless, path)) {
        Ok((path, ())) => Ok(path),
        Err(error) if error.kind() == io::ErrorKind::AlreadyExists => Err(error),
        // it can't be named, so it is copied
        Err(_) => {
            nameless.rewind()?;
            write_named(place, &mut |to| io::copy(&mut nameless, to).map(drop))
        }
    }
}

/// The same of a file that has its name from the start.
fn write_named(place: &Path, fill: Fill<'_>) -> io::Result<PathBuf> {
    let (path, mut file) = beside(place, |path| OpenOptions::new().write(true).create_new(true).open(path))?;
    put(&mut file, fill).inspect_err(|_| {
        let _ = fs::remove_file(&path);
    })?;
    Ok(path)
}

/// So many bytes are sent to the disk at once, while more are made.
const SENT: u64 = 4 << 20;

/// A file whose bytes are sent to the disk as they come, and not all of them at the end.
struct Sending<'f> {
    file: &'f mut File,
    sent: u64,
    written: u64,
}

impl Sending<'_> {
    /// Asks the system to write what came, without waiting for it. A system that can't do that writes it at the end.
    fn send(&mut self) {
        let [from, bytes] = [self.sent, self.written - self.sent].map(|n| i64::try_from(n).unwrap_or(0));
        // SAFETY: it only says to the system when to write what it has already.
        unsafe {
            libc::sync_file_range(self.file.as_raw_fd(), from, bytes, libc::SYNC_FILE_RANGE_WRITE);
        }
        self.sent = self.written;
    }
}

impl Write for Sending<'_> {
    fn write(&mut self, bytes: &[u8]) -> io::Result<usize> {
        let written = self.file.write(bytes)?;
        self.written += written as u64;
        if self.written - self.sent >= SENT {
            self.send();
        }
        Ok(written)
    }

    /// What is left of a large file is sent too. A small one is on the disk at once when it is asked for.
    fn flush(&mut self) -> io::Result<()> {
        if self.sent > 0 {
            self.send();
        }
        self.file.flush()
    }
}

/// Writes all of a file, to the disk.
fn put(file: &mut File, fill: Fill<'_>) -> io::Result<()> {
    let mut to = io::BufWriter::with_capacity(1 << 16, Sending { file, sent: 0, written: 0 });
    fill(&mut to).and_then(|()| to.flush())?;
    drop(to);
    file.sync_all()
}

/// Gives a name to a file that has none, if that can be done.
fn named(file: &File, path: &Path) -> io::Result<()> {
    let from = CString::new(format!("/proc/self/fd/{}", file.as_raw_fd()))?;
    let to = CString::new(path.as_os_str().as_bytes())?;
    // SAFETY: both are texts that end in a zero byte and live until the call is over.
    let linked =
        unsafe { libc::linkat(libc::AT_FDCWD, from.as_ptr(), libc::AT_FDCWD, to.as_ptr(), libc::AT_SYMLINK_FOLLOW) };
    if linked == 0 { Ok(()) } else { Err(io::Error::last_os_error()) }
}
