//! The bytes of a file, read into memory or mapped.

use super::Error;
use super::watch::{Seen, Watch};
use std::fs::File;
use std::io::Read;
use std::ops::Deref;
use std::path::Path;

/// The bytes of a file.
#[derive(Debug)]
pub(super) enum Bytes {
    /// In memory of our own.
    Held(Vec<u8>),
    /// Where the system keeps the file.
    Mapped(Map),
}

impl Deref for Bytes {
    type Target = [u8];

    fn deref(&self) -> &[u8] {
        match self {
            Self::Held(bytes) => bytes,
            Self::Mapped(map) => map.bytes(),
        }
    }
}

/// Opens a file; one of so many bytes or more is mapped, if the system can do that. What is no regular file, as a pipe, is read to its end,
/// and isn't watched.
pub(super) fn open(path: &Path, mapped_from: u64) -> Result<(Bytes, Option<Watch>), Error> {
    let failed = |error| Error::file(path, error);
    let mut file = File::open(path).map_err(failed)?;
    let meta = file.metadata().map_err(failed)?;
    let watch = meta.is_file().then(|| Watch::new(path, Seen::of(&meta)));
    if meta.is_file()
        && meta.len() >= mapped_from
        && let Some(map) = Map::of(&file, meta.len())
    {
        return Ok((Bytes::Mapped(map), watch));
    }
    let mut bytes = vec![];
    let expected = if meta.is_file() { usize::try_from(meta.len()).unwrap_or(usize::MAX) } else { 0 };
    bytes
        .try_reserve_exact(expected)
        .map_err(|error| failed(std::io::Error::new(std::io::ErrorKind::OutOfMemory, error)))?;
    file.read_to_end(&mut bytes).map_err(failed)?;
    Ok((Bytes::Held(bytes), watch))
}

/// A file as the system has mapped it, to be read only.
#[derive(Debug)]
pub(super) struct Map {
    start: *const u8,
    length: usize,
}

// SAFETY: the bytes are only read, and the map is of nobody else; it ends when its one owner does.
unsafe impl Send for Map {}
// SAFETY: as above.
unsafe impl Sync for Map {}

impl Map {
    fn bytes(&self) -> &[u8] {
        // SAFETY: so many bytes are mapped from there, until this is dropped. That another program writes to the file meanwhile can't be
        // ruled out; `Fasta` says what that does, and the proved code reads only inside of the slice whatever its bytes are.
        unsafe { std::slice::from_raw_parts(self.start, self.length) }
    }
}

#[cfg(target_os = "linux")]
mod system {
    use super::Map;
    use std::ffi::{c_int, c_long, c_void};
    use std::fs::File;
    use std::os::fd::AsRawFd;

    // as sys/mman.h and time.h of Linux have them, on every processor
    const PROT_READ: c_int = 1;
    const MAP_PRIVATE: c_int = 2;
    const CLOCK_MONOTONIC_COARSE: c_int = 6;

    /// A time, as C has it.
    #[repr(C)]
    struct Time {
        seconds: c_long,
        nanoseconds: c_long,
    }

    unsafe extern "C" {
        fn mmap(
            at: *mut c_void,
            length: usize,
            protection: c_int,
            flags: c_int,
            file: c_int,
            offset: c_long,
        ) -> *mut c_void;
        fn munmap(at: *mut c_void, length: usize) -> c_int;
        fn clock_gettime(clock: c_int, time: *mut Time) -> c_int;
    }

    /// Microseconds since some time, to within some milliseconds: the clock that costs least.
    pub(in super::super) fn now() -> u64 {
        let mut time = Time { seconds: 0, nanoseconds: 0 };
        // SAFETY: it writes one time to the place that it is given.
        unsafe { clock_gettime(CLOCK_MONOTONIC_COARSE, &mut time) };
        (time.seconds as u64).wrapping_mul(1_000_000).wrapping_add(time.nanoseconds as u64 / 1000)
    }

    impl Map {
        /// Maps the first so many bytes of a file; none where the system can't, or where there is nothing to map.
        pub(in super::super) fn of(file: &File, length: u64) -> Option<Self> {
            let length =
                usize::try_from(length).ok().filter(|length| *length > 0 && isize::try_from(*length).is_ok())?;
            // SAFETY: it asks for a fresh map of an open file, and touches no memory that is in use.
            let start = unsafe { mmap(std::ptr::null_mut(), length, PROT_READ, MAP_PRIVATE, file.as_raw_fd(), 0) };
            // a map that failed has the address -1
            (start as isize != -1 && !start.is_null()).then_some(Self { start: start.cast(), length })
        }
    }

    impl Drop for Map {
        fn drop(&mut self) {
            // SAFETY: just this was mapped, nobody else has it, and nothing borrows from it any more.
            unsafe { munmap(self.start.cast_mut().cast(), self.length) };
        }
    }
}

#[cfg(target_os = "linux")]
pub(super) use system::now;

/// Microseconds since some time.
#[cfg(not(target_os = "linux"))]
pub(super) fn now() -> u64 {
    use std::sync::OnceLock;
    use std::time::Instant;
    static BEGUN: OnceLock<Instant> = OnceLock::new();
    u64::try_from(BEGUN.get_or_init(Instant::now).elapsed().as_micros()).unwrap_or(u64::MAX)
}

#[cfg(not(target_os = "linux"))]
impl Map {
    /// Elsewhere a file is read into memory.
    fn of(_: &File, _: u64) -> Option<Self> {
        None
    }
}
