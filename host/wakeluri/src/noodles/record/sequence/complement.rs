//! The complement of bases, one by one.

use std::iter::FusedIterator;
use std::sync::OnceLock;
use std::{error, fmt, slice};

/// The complement of each base of a sequence, from either end.
#[derive(Clone, Debug)]
pub struct Complement<'a> {
    bases: slice::Iter<'a, u8>,
}

impl<'a> Complement<'a> {
    pub(super) fn new(bases: slice::Iter<'a, u8>) -> Self {
        Self { bases }
    }
}

/// A byte that has no complement.
#[derive(Clone, Debug, Eq, PartialEq)]
pub struct ComplementError(u8);

impl error::Error for ComplementError {}

impl fmt::Display for ComplementError {
    fn fmt(&self, f: &mut fmt::Formatter<'_>) -> fmt::Result {
        write!(f, "invalid base: \"{}\"", self.0.escape_ascii())
    }
}

/// What the proved call says of each byte, asked once.
fn complement(base: u8) -> Result<u8, ComplementError> {
    static PARTNERS: OnceLock<[Option<u8>; 256]> = OnceLock::new();
    let of_one = |byte: usize| {
        let mut partner = [0];
        let told = crate::complement_into(&[u8::try_from(byte).ok()?], &mut partner);
        told.ok().map(|_| partner[0])
    };
    let partners = PARTNERS.get_or_init(|| std::array::from_fn(of_one));
    partners[usize::from(base)].ok_or(ComplementError(base))
}

impl Iterator for Complement<'_> {
    type Item = Result<u8, ComplementError>;

    fn next(&mut self) -> Option<Self::Item> {
        self.bases.next().copied().map(complement)
    }

    fn size_hint(&self) -> (usize, Option<usize>) {
        self.bases.size_hint()
    }
}

impl DoubleEndedIterator for Complement<'_> {
    fn next_back(&mut self) -> Option<Self::Item> {
        self.bases.next_back().copied().map(complement)
    }
}

impl ExactSizeIterator for Complement<'_> {}

impl FusedIterator for Complement<'_> {}
