//! Which code for the processor is in use. The library holds the proved code compiled for several levels of x86-64, and uses the best
//! that the processor has. This changes how fast an answer comes, and no answer.

unsafe extern "C" {
    fn wakeluri_use_level(level: u64) -> u64;
}

/// The levels of x86-64 that the library has code for. On other processors there is one level, 1.
pub const LEVELS: [u64; 3] = [1, 3, 4];

/// Uses the code for a level of x86-64, or for the best that the processor has where that is less; 0 asks for the best, which is in use
/// from the start. Tells the level that is in use from now on. For tests and timings: every level gives the same answers.
///
/// ```
/// let best = wakeluri::use_level(0);
/// assert_eq!(wakeluri::use_level(1), 1);
/// assert_eq!(wakeluri::reverse_complement(b"ACG")?, b"CGT");
/// assert_eq!(wakeluri::use_level(4), best.min(4));
/// # Ok::<(), wakeluri::Refusal>(())
/// ```
pub fn use_level(level: u64) -> u64 {
    // SAFETY: it takes any number, and changes, one by one and at once each, which of several equal functions an entry point jumps to.
    unsafe { wakeluri_use_level(level) }
}
