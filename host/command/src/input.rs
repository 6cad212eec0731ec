//! The bytes of a file or of standard input.
//!
//! A regular file of 16 MiB or more is mapped into memory; a smaller one, and what is no regular file (a pipe, standard input), is
//! read plainly. Of one whose index is used unchecked just the parts are read that are needed. All end clearly if the file changes meanwhile: a mapped file that gets shorter raises a signal, which is caught,
//! and before anything is answered the file's size and times are compared with those at opening.

use crate::advice::word;
use crate::apart::{Outputs, descriptor, opened};
use crate::failure::Failure;
use crate::fastq;
use crate::place::quoted;
use crate::progress::Progress;
use memmap2::Mmap;
use std::borrow::Cow;
use std::fs::{self, File, Metadata};
use std::io::{self, BufRead, BufReader, ErrorKind, Read, StdinLock};
use std::ops::Range;
use std::os::fd::AsFd;
use std::os::unix::ffi::OsStrExt;
use std::os::unix::fs::{FileExt, FileTypeExt, MetadataExt};
use std::path::Path;
use std::sync::OnceLock;

/// Files from this size on are mapped: below it a copy costs little, and nobody can change it.
pub const MAPPED_FROM: u64 = 16 << 20;

/// How much is read at a time.
const PIECE: u64 = 4 << 20;

/// How a regular file is to be read.
#[derive(Clone, Copy, Debug, Eq, PartialEq)]
pub enum How {
    /// By its size.
    Auto,
    /// Mapped, if the file can be.
    Map,
    /// Plainly.
    Read,
    /// Part by part, as it is needed, if the file can be.
    Parts,
}

/// The bytes, and where they came from.
#[derive(Debug)]
pub struct Input {
    /// The name for messages.
    pub shown: String,
    standard: bool,
    bytes: Bytes,
    opened: Option<(File, Seen)>,
}

#[derive(Debug)]
enum Bytes {
    Held(Vec<u8>),
    Mapped(Mmap),
    Parts(Parts),
}

/// A file of which parts are read.
#[derive(Debug)]
struct Parts {
    /// The whole of it, where a message has to look at it.
    whole: OnceLock<Box<Bytes>>,
    /// Whether messages are JSON.
    json: bool,
}

/// What changes when a file is written to or cut.
#[derive(Debug, Eq, PartialEq)]
struct Seen(u64, [i64; 4]);

impl Seen {
    fn of(meta: &Metadata) -> Self {
        Self(meta.size(), [meta.mtime(), meta.mtime_nsec(), meta.ctime(), meta.ctime_nsec()])
    }
}

/// What is said if a mapped file gets shorter, made before it is mapped.
static LAST_WORDS: OnceLock<String> = OnceLock::new();

/// Whether a path stands for standard input: `-`, or /dev/stdin and the like.
pub fn is_standard(path: &Path) -> bool {
    path.as_os_str() == "-" || descriptor(path) == Some(0)
}

/// Whether a path has no place of its own, beside which an index could be: standard input, or /dev/fd/63 and the like.
pub fn is_placeless(path: &Path) -> bool {
    is_standard(path) || descriptor(path).is_some()
}

/// A path's name in messages.
pub fn shown(path: &Path) -> String {
    if is_standard(path) { "standard input".to_string() } else { quoted(path.as_os_str().as_bytes()) }
}

fn changed(file: &str) -> Failure {
    Failure::InputOutput {
        words: format!(
            "{file}: the file was changed while it was read, so there is no answer, and nothing was changed here"
        ),
        next: "wait until nobody writes to it, then run this again".to_string(),
    }
}

fn not_opened(shown: &str, error: &io::Error) -> Failure {
    let (what, next) = match error.kind() {
        ErrorKind::NotFound => ("there is no such file", "look at the spelling, and at the folder you are in"),
        ErrorKind::PermissionDenied => ("you may not read it", "ask who owns it, or `chmod u+r` it"),
        _ => return Failure::system("it can't be opened", shown, error, ""),
    };
    Failure::InputOutput { words: format!("{shown}: {what}"), next: next.to_string() }
}

/// What arrives and can be read once: standard input, or a pipe that has a name.
#[derive(Debug)]
pub enum Stream {
    /// Standard input.
    Standard(StdinLock<'static>),
    /// A pipe, a socket or a terminal.
    Named(BufReader<File>),
}

impl Stream {
    /// Opens what a path stands for, if it arrives and is none of the outputs; nothing of a file that is there as a whole.
    pub fn open(path: &Path, outputs: &Outputs<'_>) -> Result<Option<Self>, Failure> {
        let shown = shown(path);
        let stream = if is_standard(path) {
            Self::Standard(io::stdin().lock())
        } else {
            let kind = fs::metadata(path).map(|meta| meta.file_type());
            if !kind.is_ok_and(|kind| kind.is_fifo() || kind.is_char_device() || kind.is_socket()) {
                return Ok(None);
            }
            Self::Named(BufReader::new(File::open(path).map_err(|error| not_opened(&shown, &error))?))
        };
        stream.apart_from(outputs, &shown)?;
        Ok(Some(stream))
    }

    /// Whether it is FASTQ, as it was said, or by its first byte, which is waited for and stays.
    pub fn is_fastq(&mut self) -> bool {
        let first = match self {
            Self::Standard(input) => input.fill_buf(),
            Self::Named(file) => file.fill_buf(),
        };
        // a file that can't be read fails when it is read
        fastq::is_said() || first.is_ok_and(|bytes| bytes.first() == Some(&b'@'))
    }

    /// Fails if it is one of some outputs by now.
    pub fn apart_from(&self, outputs: &Outputs<'_>, shown: &str) -> Result<(), Failure> {
        let now = match self {
            Self::Standard(input) => opened(input.as_fd()),
            Self::Named(file) => file.get_ref().metadata(),
        };
        now.map_or(Ok(()), |now| outputs.apart_from(&now, shown))
    }
}

impl Read for Stream {
    fn read(&mut self, room: &mut [u8]) -> io::Result<usize> {
        match self {
            Self::Standard(input) => input.read(room),
            Self::Named(file) => file.read(room),
        }
    }
}

impl Input {
    /// Opens a file, or standard input for `-`, if it is none of the outputs.
    pub fn open(path: &Path, how: How, json: bool, outputs: &Outputs<'_>) -> Result<Self, Failure> {
        let shown = shown(path);
        if is_standard(path) {
            if let Ok(meta) = opened(io::stdin().as_fd()) {
                outputs.apart_from(&meta, &shown)?;
            }
            let bytes = read_plainly(&mut io::stdin().lock(), &shown, 0)?;
            return Ok(Self { shown, standard: true, bytes: Bytes::Held(bytes), opened: None });
        }
        let failed = |error: io::Error| not_opened(&shown, &error);
        let mut file = File::open(path).map_err(failed)?;
        let meta = file.metadata().map_err(failed)?;
        if meta.is_dir() {
            return Err(Failure::InputOutput {
                words: format!("{shown}: this is a folder, and a file is needed"),
                next: "name a file in it".to_string(),
            });
        }
        outputs.apart_from(&meta, &shown)?;
        let seen = Seen::of(&meta);
        let map =
            meta.is_file() && meta.size() > 0 && (how == How::Map || (how == How::Auto && meta.size() >= MAPPED_FROM));
        if how == How::Parts && meta.is_file() && meta.size() > 0 {
            let bytes = Bytes::Parts(Parts { whole: OnceLock::new(), json });
            return Ok(Self { shown, standard: false, bytes, opened: Some((file, seen)) });
        }
        if let Some(mapped) = map.then(|| mapped(&file, &shown, json)).flatten() {
            return Ok(Self { shown, standard: false, bytes: Bytes::Mapped(mapped), opened: Some((file, seen)) });
        }
        let bytes = read_plainly(&mut file, &shown, if meta.is_file() { meta.size() } else { 0 })?;
        let kind = meta.file_type();
        let opened = (!kind.is_fifo() && !kind.is_char_device() && !kind.is_socket()).then_some((file, seen));
        let input = Self { shown, standard: false, bytes: Bytes::Held(bytes), opened };
        input.unchanged()?;
        Ok(input)
    }

    /// All that arrives.
    pub fn arrived(path: &Path, stream: &mut Stream) -> Result<Self, Failure> {
        let shown = shown(path);
        let bytes = read_plainly(stream, &shown, 0)?;
        Ok(Self { shown, standard: is_standard(path), bytes: Bytes::Held(bytes), opened: None })
    }

    /// Some bytes under a name.
    #[cfg(test)]
    pub fn held(shown: &str, bytes: Vec<u8>) -> Self {
        Self { shown: shown.to_string(), standard: false, bytes: Bytes::Held(bytes), opened: None }
    }

    /// The bytes.
    pub fn bytes(&self) -> &[u8] {
        self.bytes_of(&self.bytes)
    }

    fn bytes_of<'b>(&self, bytes: &'b Bytes) -> &'b [u8] {
        match bytes {
            Bytes::Held(bytes) => bytes,
            Bytes::Mapped(mapped) => mapped,
            Bytes::Parts(parts) => self.bytes_of(parts.whole.get_or_init(|| Box::new(self.whole(parts.json)))),
        }
    }

    /// All bytes of a file of which parts are read.
    fn whole(&self, json: bool) -> Bytes {
        let Some((file, seen)) = &self.opened else { return Bytes::Held(vec![]) };
        match mapped(file, &self.shown, json) {
            Some(mapped) => Bytes::Mapped(mapped),
            None => Bytes::Held(part_of(file, 0..seen.0).unwrap_or_default()),
        }
    }

    /// Whether it is FASTQ, as it was said, or by its first byte.
    pub fn is_fastq(&self) -> bool {
        fastq::is_said() || self.length() > 0 && self.part(0..1).is_ok_and(|first| *first == *b"@")
    }

    /// Lets go of the pages of a mapped file, which takes a while for a large one. They are the file's: whoever asks for one again gets it again.
    pub fn let_go(&self) {
        if let Bytes::Mapped(mapped) = &self.bytes {
            // SAFETY: nobody writes to these pages, so that they are in the file as they were here.
            unsafe {
                libc::madvise(mapped.as_ptr().cast_mut().cast(), mapped.len(), libc::MADV_DONTNEED);
            }
        }
    }

    /// How many bytes there are.
    pub fn length(&self) -> u64 {
        match (&self.bytes, &self.opened) {
            (Bytes::Parts(_), Some((_, seen))) => seen.0,
            _ => self.bytes().len() as u64,
        }
    }

    /// Whether parts of it are read as they are needed.
    pub fn is_in_parts(&self) -> bool {
        matches!(self.bytes, Bytes::Parts(_))
    }

    /// A part of the file: of one that is read in parts, just these bytes.
    pub fn part(&self, part: Range<u64>) -> Result<Cow<'_, [u8]>, Failure> {
        if let (Bytes::Parts(_), Some((file, _))) = (&self.bytes, &self.opened) {
            return match part_of(file, part) {
                Ok(bytes) => Ok(Cow::Owned(bytes)),
                Err(error) if error.kind() == ErrorKind::UnexpectedEof => Err(changed(&self.shown)),
                Err(error) => Err(Failure::system("it can't be read", &self.shown, &error, "")),
            };
        }
        let within = usize::try_from(part.start).ok().zip(usize::try_from(part.end).ok());
        let bytes = within.and_then(|(start, end)| self.bytes().get(start..end));
        bytes.map(Cow::Borrowed).ok_or_else(|| changed(&self.shown))
    }

    /// The file as a word of a command.
    pub fn given(&self) -> String {
        if self.standard { "-".to_string() } else { word(&self.shown) }
    }

    /// Fails if it is one of some outputs by now.
    pub fn apart_from(&self, outputs: &Outputs<'_>) -> Result<(), Failure> {
        let now = match &self.opened {
            Some((file, _)) => file.metadata(),
            None if self.standard => opened(io::stdin().as_fd()),
            None => return Ok(()),
        };
        now.map_or(Ok(()), |now| outputs.apart_from(&now, &self.shown))
    }

    /// Whether the file is mapped.
    pub fn is_mapped(&self) -> bool {
        matches!(self.bytes, Bytes::Mapped(_))
    }

    /// Fails if the file isn't what it was when it was opened.
    pub fn unchanged(&self) -> Result<(), Failure> {
        let Some((file, seen)) = &self.opened else { return Ok(()) };
        let now = file.metadata().map_err(|error| Failure::system("it can't be looked at", &self.shown, &error, ""))?;
        if Seen::of(&now) == *seen { Ok(()) } else { Err(changed(&self.shown)) }
    }
}

/// Just these bytes of a file.
fn part_of(file: &File, part: Range<u64>) -> io::Result<Vec<u8>> {
    let length = usize::try_from(part.end - part.start).map_err(|_| ErrorKind::OutOfMemory)?;
    let mut bytes = vec![];
    bytes.try_reserve_exact(length).map_err(|_| ErrorKind::OutOfMemory)?;
    bytes.resize(length, 0);
    file.read_exact_at(&mut bytes, part.start)?;
    Ok(bytes)
}

/// All that a reader has.
fn read_plainly(reader: &mut impl Read, shown: &str, expected: u64) -> Result<Vec<u8>, Failure> {
    let progress = Progress::reading(shown, expected);
    let mut bytes = vec![];
    let no_room = || Failure::InputOutput {
        words: format!("{shown}: there is not enough memory to hold it"),
        next: "give the name of a regular file, without `--input read`: it is then not held in memory".to_string(),
    };
    bytes.try_reserve_exact(usize::try_from(expected).unwrap_or(usize::MAX)).map_err(|_| no_room())?;
    loop {
        match reader.take(PIECE).read_to_end(&mut bytes) {
            Ok(0) => return Ok(bytes),
            Ok(_) => progress.at(bytes.len() as u64),
            Err(error) if error.kind() == ErrorKind::OutOfMemory => return Err(no_room()),
            Err(error) => return Err(Failure::system("it can't be read", shown, &error, "")),
        }
    }
}

/// A file's bytes where they are, if the system can do that.
fn mapped(file: &File, shown: &str, json: bool) -> Option<Mmap> {
    let _ = LAST_WORDS.set(changed(shown).told(json));
    // SAFETY: the handler only writes to standard error and ends the process, with what is prepared.
    unsafe {
        let handler: extern "C" fn(libc::c_int) = shortened;
        libc::signal(libc::SIGBUS, handler as libc::sighandler_t);
    }
    // SAFETY: the bytes are only read. If another program cuts the file, the signal above ends this one before a byte is made up;
    // if it writes to it, the file's times tell, and nothing is answered.
    let mapped = unsafe { Mmap::map(file) }.ok()?;
    // SAFETY: it only says to the system that these bytes will be read in order.
    unsafe {
        libc::madvise(mapped.as_ptr().cast_mut().cast(), mapped.len(), libc::MADV_SEQUENTIAL);
    }
    Some(mapped)
}

/// A mapped file got shorter: there is no byte to read.
extern "C" fn shortened(_: libc::c_int) {
    let words = LAST_WORDS.get().map_or("", String::as_str);
    // SAFETY: both calls may be made in a handler; the text lives as long as the process.
    unsafe {
        libc::write(2, words.as_ptr().cast(), words.len());
        libc::_exit(3);
    }
}
