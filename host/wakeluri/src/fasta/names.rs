//! A map from names to rows that keeps no name: only the numbers of rows, by the hashes of their names.

use std::hash::{BuildHasher, RandomState};
use std::sync::atomic::{AtomicBool, Ordering};

/// The first row of each name. The names themselves stay where they are; the caller gives them.
#[derive(Debug, Default)]
pub(super) struct NameMap {
    hash: Hash,
    /// The number of a row and 1 more, 0 if there is none; a power of two of places, at most half of them taken.
    places: Vec<usize>,
    /// A bit for each length that a name has; the last for all from there on. A region's text is asked for as a name too, and most often no
    /// name is as long.
    lengths: u64,
    /// For each row whether the proved look-up has found its name in it.
    confirmed: Vec<AtomicBool>,
}

/// A number for a name, by keys that nobody knows beforehand: a file can't be made so that its names fall on one place. It is a
/// multiplication for eight bytes of a name, where the standard library's takes as long as a short read.
#[derive(Clone, Copy, Debug, Default)]
struct Hash([u64; 2]);

impl Hash {
    fn fresh() -> Self {
        let random = RandomState::new();
        Self([random.hash_one(0), random.hash_one(1) | 1])
    }

    fn of(self, name: &[u8]) -> u64 {
        let Self([first, second]) = self;
        let mixed = |state: u64, word: u64| {
            let product = u128::from(state ^ word) * u128::from(second);
            product as u64 ^ (product >> 64) as u64
        };
        let words = name.chunks_exact(8);
        let rest = words.remainder();
        let state = words.fold(first, |state, word| mixed(state, word.try_into().map_or(0, u64::from_le_bytes)));
        let rest = rest.iter().fold(0, |rest, byte| rest << 8 | u64::from(*byte));
        mixed(mixed(state, rest), name.len() as u64)
    }
}

/// The bit of a length.
fn bit(name: &[u8]) -> u64 {
    1 << name.len().min(63)
}

impl NameMap {
    /// The map of so many rows, from the first on: a name that is there stays as it is.
    pub(super) fn of<'n>(rows: usize, name: impl Fn(usize) -> &'n [u8]) -> Self {
        let size = rows.saturating_mul(2).next_power_of_two().max(2);
        let mut map = Self { hash: Hash::fresh(), places: vec![0; size], lengths: 0, confirmed: vec![] };
        map.confirmed.resize_with(rows, AtomicBool::default);
        for row in 0..rows {
            map.lengths |= bit(name(row));
            let (place, there) = map.place(name(row), &name);
            if let (None, Some(free)) = (there, map.places.get_mut(place)) {
                *free = row + 1;
            }
        }
        map
    }

    /// The first row of a name, if there is one, and it is found in the row: that is asked the first time.
    pub(super) fn find<'n>(
        &self,
        wanted: &[u8],
        name: impl Fn(usize) -> &'n [u8],
        is_found: impl Fn(usize) -> bool,
    ) -> Option<usize> {
        let row = if self.lengths & bit(wanted) == 0 { None } else { self.place(wanted, &name).1 }?;
        let confirmed = self.confirmed.get(row)?;
        if !confirmed.load(Ordering::Relaxed) {
            if !is_found(row) {
                return None;
            }
            confirmed.store(true, Ordering::Relaxed);
        }
        Some(row)
    }

    /// The place of a name, and its row; or the free place where it would be put.
    fn place<'n>(&self, wanted: &[u8], name: &impl Fn(usize) -> &'n [u8]) -> (usize, Option<usize>) {
        let size = self.places.len();
        let mut place = self.hash.of(wanted) as usize & size.saturating_sub(1);
        // half of the places are free, so the walk ends
        while let Some(row) = self.places.get(place).copied().unwrap_or(0).checked_sub(1) {
            if name(row) == wanted {
                return (place, Some(row));
            }
            place = (place + 1) & size.saturating_sub(1);
        }
        (place, None)
    }
}
