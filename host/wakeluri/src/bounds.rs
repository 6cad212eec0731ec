//! The bounds of a region.

use core::ops::{RangeFrom, RangeFull, RangeInclusive, RangeToInclusive};

/// Which bases of a record are meant: from a first to a last one, counted from 1, both of them included.
///
/// An absent start is the first base, an absent end the last. Any range of `u64` that includes its end can stand for it:
///
/// ```
/// use wakeluri::Bounds;
/// assert_eq!(Bounds::from(5..=9), Bounds { start: Some(5), end: Some(9) });
/// assert_eq!(Bounds::from(5..), Bounds { start: Some(5), end: None });
/// assert_eq!(Bounds::from(..=9), Bounds { start: None, end: Some(9) });
/// assert_eq!(Bounds::from(..), Bounds { start: None, end: None });
/// ```
///
/// 0 and a start after the end are refused when they are used, with 16, and not before.
#[derive(Clone, Copy, Debug, Default, Eq, PartialEq)]
pub struct Bounds {
    /// The first base.
    pub start: Option<u64>,
    /// The last base.
    pub end: Option<u64>,
}

impl Bounds {
    /// How many bases are meant where both bounds are given and in order; else 0.
    pub(crate) fn bases(self) -> u64 {
        match self {
            Self { start: Some(start), end: Some(end) } if start <= end => (end - start).saturating_add(1),
            _ => 0,
        }
    }
}

impl From<RangeInclusive<u64>> for Bounds {
    fn from(range: RangeInclusive<u64>) -> Self {
        Self { start: Some(*range.start()), end: Some(*range.end()) }
    }
}

impl From<RangeFrom<u64>> for Bounds {
    fn from(range: RangeFrom<u64>) -> Self {
        Self { start: Some(range.start), end: None }
    }
}

impl From<RangeToInclusive<u64>> for Bounds {
    fn from(range: RangeToInclusive<u64>) -> Self {
        Self { start: None, end: Some(range.end) }
    }
}

impl From<RangeFull> for Bounds {
    fn from(_: RangeFull) -> Self {
        Self::default()
    }
}

impl From<(Option<u64>, Option<u64>)> for Bounds {
    fn from((start, end): (Option<u64>, Option<u64>)) -> Self {
        Self { start, end }
    }
}
