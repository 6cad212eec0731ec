//! A base position.

use std::fmt;
use std::num::{NonZero, ParseIntError};
use std::ops::{Range, RangeFrom, RangeFull, RangeInclusive, RangeTo, RangeToInclusive};
use std::str::FromStr;

/// A base position, counted from 1.
///
/// ```
/// use wakeluri::noodles::core::Position;
/// assert_eq!(usize::from(Position::try_from(8)?), 8);
/// assert!(Position::try_from(0).is_err());
/// # Ok::<_, wakeluri::noodles::core::position::TryFromIntError>(())
/// ```
#[derive(Clone, Copy, Debug, Eq, Hash, Ord, PartialEq, PartialOrd)]
pub struct Position(NonZero<usize>);

/// The words for a number that is no position.
pub type TryFromIntError = std::num::TryFromIntError;

/// The words for a text that is no position.
pub type ParseError = ParseIntError;

impl Position {
    /// The first.
    pub const MIN: Self = Self(NonZero::<usize>::MIN);

    /// The last that there can be.
    pub const MAX: Self = Self(NonZero::<usize>::MAX);

    /// A position, if the number is not 0.
    pub const fn new(n: usize) -> Option<Self> {
        match NonZero::new(n) {
            Some(n) => Some(Self(n)),
            None => None,
        }
    }

    /// The number.
    pub const fn get(self) -> usize {
        self.0.get()
    }

    /// So much further, if that can be.
    pub fn checked_add(self, other: usize) -> Option<Self> {
        self.0.checked_add(other).map(Self)
    }
}

impl fmt::Display for Position {
    fn fmt(&self, f: &mut fmt::Formatter<'_>) -> fmt::Result {
        self.0.fmt(f)
    }
}

impl FromStr for Position {
    type Err = ParseError;

    fn from_str(s: &str) -> Result<Self, ParseError> {
        s.parse().map(Self)
    }
}

impl TryFrom<usize> for Position {
    type Error = TryFromIntError;

    fn try_from(n: usize) -> Result<Self, TryFromIntError> {
        NonZero::try_from(n).map(Self)
    }
}

impl From<Position> for usize {
    fn from(position: Position) -> Self {
        position.get()
    }
}

/// What a sequence can be indexed by: a position, or a range of them.
pub trait SequenceIndex<T> {
    /// What is found there.
    type Output: ?Sized;

    /// What is found there, if it is there.
    fn get(self, sequence: &[T]) -> Option<&Self::Output>;

    /// What is found there. It panics where nothing is, as `[..]` does.
    fn index(self, sequence: &[T]) -> &Self::Output;
}

impl<T> SequenceIndex<T> for Position {
    type Output = T;

    fn get(self, sequence: &[T]) -> Option<&T> {
        sequence.get(self.get() - 1)
    }

    fn index(self, sequence: &[T]) -> &T {
        &sequence[self.get() - 1]
    }
}

/// The ranges: from a number of elements before, to a number of elements in all.
macro_rules! ranges {
    ($($range:ty, $this:ident => $plain:expr;)*) => {$(
        impl<T> SequenceIndex<T> for $range {
            type Output = [T];

            fn get(self, sequence: &[T]) -> Option<&[T]> {
                let $this = self;
                sequence.get($plain)
            }

            fn index(self, sequence: &[T]) -> &[T] {
                let $this = self;
                &sequence[$plain]
            }
        }
    )*};
}

ranges! {
    Range<Position>, range => range.start.get() - 1..range.end.get() - 1;
    RangeInclusive<Position>, range => range.start().get() - 1..range.end().get();
    RangeFrom<Position>, range => range.start.get() - 1..;
    RangeTo<Position>, range => ..range.end.get() - 1;
    RangeToInclusive<Position>, range => ..range.end.get();
    RangeFull, _range => ..;
}
