//! The bases of a record.

pub mod complement;

pub use complement::Complement;

use crate::noodles::core::position::SequenceIndex;
use crate::noodles::core::region::Interval;
use std::ops::Index;

/// Some bases.
///
/// ```
/// use wakeluri::noodles::{core::Position, record::Sequence};
/// let sequence = Sequence::from(b"ACGT".to_vec());
/// let start = Position::try_from(2)?;
/// assert_eq!(sequence.get(start..), Some(&b"CGT"[..]));
/// assert_eq!(sequence.slice(start..=start), Some(Sequence::from(b"C".to_vec())));
/// # Ok::<_, wakeluri::noodles::core::position::TryFromIntError>(())
/// ```
#[derive(Clone, Debug, Default, Eq, PartialEq)]
pub struct Sequence(Vec<u8>);

impl Sequence {
    /// How many there are.
    pub fn len(&self) -> usize {
        self.0.len()
    }

    /// Whether there is none.
    pub fn is_empty(&self) -> bool {
        self.0.is_empty()
    }

    /// A base by its position, or several by a range of positions, if they are there.
    pub fn get<I: SequenceIndex<u8>>(&self, index: I) -> Option<&I::Output> {
        index.get(&self.0)
    }

    /// The bases of an interval, if they are there.
    pub fn slice<I: Into<Interval>>(&self, interval: I) -> Option<Self> {
        let interval = interval.into();
        let start = interval.start().map_or(0, |position| position.get() - 1);
        let end = interval.end().map_or(self.len(), usize::from);
        self.0.get(start..end).map(|bases| Self(bases.to_vec()))
    }

    /// The complement of each base; `rev` of it is the reverse complement.
    ///
    /// ```
    /// use wakeluri::noodles::record::Sequence;
    /// let sequence = Sequence::from(b"AACG".to_vec());
    /// let reverse: Sequence = sequence.complement().rev().collect::<Result<_, _>>()?;
    /// assert_eq!(reverse, Sequence::from(b"CGTT".to_vec()));
    /// # Ok::<_, wakeluri::noodles::record::sequence::complement::ComplementError>(())
    /// ```
    pub fn complement(&self) -> Complement<'_> {
        Complement::new(self.0.iter())
    }
}

impl AsRef<[u8]> for Sequence {
    fn as_ref(&self) -> &[u8] {
        &self.0
    }
}

impl From<Vec<u8>> for Sequence {
    fn from(bases: Vec<u8>) -> Self {
        Self(bases)
    }
}

impl FromIterator<u8> for Sequence {
    fn from_iter<T: IntoIterator<Item = u8>>(bases: T) -> Self {
        Self(bases.into_iter().collect())
    }
}

/// It panics where a position isn't there, as `[..]` does; [`Sequence::get`] doesn't.
impl<I: SequenceIndex<u8>> Index<I> for Sequence {
    type Output = I::Output;

    fn index(&self, index: I) -> &Self::Output {
        index.index(&self.0)
    }
}
