//! Primers: short sequences of letters. Each letter stands for one base or several.

use crate::refusal::Call;
use crate::{Refusal, entry};
use core::iter::FusedIterator;

/// How many plain sequences a primer of 1 to 31 letters stands for. Refuses 1, 36, 37.
///
/// ```
/// // R is A or G, N is any base
/// assert_eq!(wakeluri::degeneracy(b"ARN")?, 8);
/// assert_eq!(wakeluri::degeneracy(b"AXN").unwrap_err().code(), "refused 37 (place 1)");
/// # Ok::<(), wakeluri::Refusal>(())
/// ```
pub fn degeneracy(primer: &[u8]) -> Result<u64, Refusal> {
    let answer = entry::degeneracy(primer);
    Refusal::of(Call::Primer, answer.refusal, answer.first, answer.second)?;
    Ok(answer.count)
}

/// The first place, from 0, where a text has a primer: there each text letter's bases are among those of its primer letter. Refuses 1,
/// 36, 37.
///
/// ```
/// assert_eq!(wakeluri::find_primer(b"RY", b"CCACAC")?, Some(2));
/// // N may be any base, so it is not surely A; a gap is no base at all
/// assert_eq!(wakeluri::find_primer(b"A", b"NN--")?, None);
/// # Ok::<(), wakeluri::Refusal>(())
/// ```
pub fn find_primer(primer: &[u8], text: &[u8]) -> Result<Option<usize>, Refusal> {
    find_primer_from(primer, text, 0)
}

/// The same, not before a given place. A place past the text finds none.
///
/// ```
/// assert_eq!(wakeluri::find_primer_from(b"RY", b"CCACAC", 3)?, Some(4));
/// # Ok::<(), wakeluri::Refusal>(())
/// ```
pub fn find_primer_from(primer: &[u8], text: &[u8], from: usize) -> Result<Option<usize>, Refusal> {
    let answer = entry::find_primer(primer, text, from as u64);
    Refusal::of(Call::Primer, answer.refusal, answer.first, answer.second)?;
    Ok(usize::try_from(answer.next).ok().filter(|_| answer.count != 0))
}

/// All places of a primer in a text, the first one first; they may overlap. Refuses 1, 36, 37, before the first place.
///
/// ```
/// let places: Vec<usize> = wakeluri::primer_places(b"AN", b"AAAC")?.collect();
/// assert_eq!(places, [0, 1, 2]);
/// # Ok::<(), wakeluri::Refusal>(())
/// ```
pub fn primer_places<'p>(primer: &'p [u8], text: &'p [u8]) -> Result<Places<'p>, Refusal> {
    Ok(Places { primer, text, next: find_primer(primer, text)? })
}

/// The places of a primer in a text.
#[derive(Clone, Debug)]
pub struct Places<'p> {
    primer: &'p [u8],
    text: &'p [u8],
    next: Option<usize>,
}

impl Iterator for Places<'_> {
    type Item = usize;

    fn next(&mut self) -> Option<usize> {
        let place = self.next?;
        // the primer and the text were taken once, so they are again
        self.next = find_primer_from(self.primer, self.text, place + 1).ok().flatten();
        Some(place)
    }
}

impl FusedIterator for Places<'_> {}
