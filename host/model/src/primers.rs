//! Primers: the bases that each letter allows, by the IUPAC nucleotide codes, written as texts.

use crate::{n, no};
use questions::form::{Answer, No, Value};

/// The answers of this file's families.
pub(crate) fn answer(family: &str, arguments: &mut [Value]) -> Option<Answer> {
    use questions::form::Value::{Bytes, Number};
    Some(match (family, arguments) {
        ("deg", [Bytes(primer)]) => degeneracy(primer).into(),
        ("prm", [Bytes(primer), Bytes(text)]) => next_place(primer, text, 0).into(),
        ("prn", [Bytes(primer), Bytes(text), Number(from)]) => next_place(primer, text, *from).into(),
        _ => return None,
    })
}

/// The bases that a byte stands for; none if it has no code.
pub(crate) fn bases(byte: u8) -> &'static str {
    match byte.to_ascii_uppercase() {
        b'A' => "A",
        b'C' => "C",
        b'G' => "G",
        b'T' | b'U' => "T",
        b'M' => "AC",
        b'R' => "AG",
        b'W' => "AT",
        b'S' => "CG",
        b'Y' => "CT",
        b'K' => "GT",
        b'V' => "ACG",
        b'H' => "ACT",
        b'D' => "AGT",
        b'B' => "CGT",
        b'N' => "ACGT",
        _ => "",
    }
}

/// 36 for a length that is not 1 to 31; then 37 for the first letter without a code.
fn judge(primer: &[u8]) -> Result<(), No> {
    if primer.is_empty() || primer.len() > 31 {
        return no(36, 0, 0);
    }
    match primer.iter().position(|letter| bases(*letter).is_empty()) {
        Some(place) => no(37, n(place), 0),
        None => Ok(()),
    }
}

/// How many plain sequences a primer stands for: the bases that each letter allows, multiplied together.
pub(crate) fn degeneracy(primer: &[u8]) -> Result<u64, No> {
    judge(primer)?;
    Ok(primer.iter().map(|letter| n(bases(*letter).len())).product())
}

/// All that a text byte stands for, and it stands for something, is allowed by the primer's letter.
fn fits(letter: u8, byte: u8) -> bool {
    !bases(byte).is_empty() && bases(byte).chars().all(|base| bases(letter).contains(base))
}

/// The first place, not before `from`, where each text byte fits its letter.
pub(crate) fn next_place(primer: &[u8], text: &[u8], from: u64) -> Result<Option<u64>, No> {
    judge(primer)?;
    let mut windows = text.windows(primer.len()).enumerate();
    let found = windows.find(|(place, window)| {
        n(*place) >= from && primer.iter().zip(*window).all(|(letter, byte)| fits(*letter, *byte))
    });
    Ok(found.map(|(place, _)| n(place)))
}
