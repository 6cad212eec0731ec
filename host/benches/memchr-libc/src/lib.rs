//! Stands for the crate memchr, over the C library's memchr: the one function of it that the original calls.

use std::ffi::{c_int, c_void};

mod c {
    use super::{c_int, c_void};
    unsafe extern "C" {
        pub fn memchr(bytes: *const c_void, wanted: c_int, length: usize) -> *const c_void;
    }
}

/// The place of the first byte that is the wanted one.
#[inline]
pub fn memchr(wanted: u8, bytes: &[u8]) -> Option<usize> {
    let start: *const u8 = bytes.as_ptr();
    // SAFETY: the pointer comes from a slice, with its length; nothing is written.
    let found = unsafe { c::memchr(start.cast(), c_int::from(wanted), bytes.len()) };
    if found.is_null() { None } else { Some(found as usize - start as usize) }
}

#[cfg(test)]
mod tests {
    #[test]
    fn finds_the_first() {
        assert_eq!(super::memchr(b'\n', b""), None);
        assert_eq!(super::memchr(b'\n', b"ACGT"), None);
        assert_eq!(super::memchr(b'\n', b"AC\nGT\n"), Some(2));
        assert_eq!(super::memchr(255, b"AC\xff"), Some(2));
    }
}
