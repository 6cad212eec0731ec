//! Every short string over an alphabet, and tables of a few rows.

use crate::row::{self, row};

/// Every string over an alphabet, short ones first.
pub(crate) fn strings(alphabet: &'static [u8], longest: u32) -> impl Iterator<Item = Vec<u8>> + Send + Clone {
    let n = alphabet.len();
    (0..=longest).flat_map(move |length| {
        (0..n.pow(length)).map(move |k| (0..length).rev().map(|place| alphabet[k / n.pow(place) % n]).collect())
    })
}

pub(crate) fn after(
    front: &'static [u8],
    alphabet: &'static [u8],
    longest: u32,
) -> impl Iterator<Item = Vec<u8>> + Send + Clone {
    strings(alphabet, longest).map(move |text| [front, &text].concat())
}

/// A table of some rows, so many of them in use.
pub(crate) fn rows(rows: &[[u64; row::OF_A_LINE]], in_use: u64) -> row::Rows {
    row::Rows { numbers: rows.iter().flat_map(|numbers| row(*numbers)).collect(), in_use }
}
