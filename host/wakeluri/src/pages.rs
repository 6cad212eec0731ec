//! Large pages for large rooms. The system hands out the memory of a fresh vector page by page, when each is first written to: 24,414 pages of
//! 4 KiB for 100 MB, which can take longer than the work itself. It is asked for pages of 2 MiB instead, 48 for the same room. That is a
//! wish: a system that can't grant it does as it did before, and no answer depends on it.

/// Asks for large pages for a room that was not written to yet, if it is large.
#[cfg(all(feature = "std", target_os = "linux"))]
pub(crate) fn large(room: &mut [u8]) {
    use core::ffi::{c_int, c_void};

    /// A large page of x86-64, and of Arm with pages of 4 KiB.
    const PAGE: usize = 2 << 20;

    /// As sys/mman.h of Linux has it, on every processor.
    const MADV_HUGEPAGE: c_int = 14;

    unsafe extern "C" {
        fn madvise(at: *mut c_void, length: usize, advice: c_int) -> c_int;
    }

    // only whole large pages of the room; what is before and behind them may be another's
    let before = room.as_ptr().align_offset(PAGE);
    let Some(inside) = room.get_mut(before..) else { return };
    let length = inside.len() / PAGE * PAGE;
    if length >= 2 * PAGE {
        // SAFETY: these bytes are lent to this call alone, and the advice changes none of them.
        unsafe { madvise(inside.as_mut_ptr().cast(), length, MADV_HUGEPAGE) };
    }
}

/// Elsewhere there is nothing to ask for.
#[cfg(not(all(feature = "std", target_os = "linux")))]
pub(crate) fn large(_: &mut [u8]) {}

#[cfg(test)]
mod tests {
    use super::large;

    #[test]
    fn a_room_of_any_size_stays_as_it_was() {
        for bytes in [0, 1, 4095, 4 << 20, (6 << 20) + 1, 9 << 20] {
            let mut room = vec![7; bytes];
            large(&mut room);
            assert!(room.iter().all(|byte| *byte == 7), "{bytes}");
        }
    }
}
