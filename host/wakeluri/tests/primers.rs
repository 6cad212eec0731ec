//! Every short primer in every short text, against the rule as it is read.

use wakeluri::{degeneracy, find_primer, find_primer_from, primer_places, reverse_complement};

const LETTERS: &[u8] = b"ACGTRYN-";

/// The bases of a letter.
fn bases(letter: u8) -> &'static [u8] {
    match letter {
        b'A' => b"A",
        b'C' => b"C",
        b'G' => b"G",
        b'T' => b"T",
        b'R' => b"AG",
        b'Y' => b"CT",
        b'N' => b"ACGT",
        _ => b"",
    }
}

/// Whether a text byte fits a primer's letter, for each two letters.
fn fitting() -> [[bool; 256]; 256] {
    let mut fits = [[false; 256]; 256];
    for letter in LETTERS {
        for byte in LETTERS {
            let inside = bases(*byte).iter().all(|base| bases(*letter).contains(base));
            fits[usize::from(*letter)][usize::from(*byte)] = inside && !bases(*byte).is_empty();
        }
    }
    fits
}

fn strings(letters: &'static [u8], longest: u32) -> impl Iterator<Item = Vec<u8>> {
    let n = letters.len();
    (0..=longest).flat_map(move |length| {
        (0..n.pow(length)).map(move |k| (0..length).map(|place| letters[k / n.pow(place) % n]).collect())
    })
}

/// Every primer of up to 3 letters in every text of up to 5.
#[test]
fn every_primer_in_every_text() {
    let fits = fitting();
    let texts: Vec<Vec<u8>> = strings(LETTERS, 5).collect();
    for primer in strings(LETTERS, 3) {
        let bad = primer.iter().position(|letter| bases(*letter).is_empty());
        let refused = match bad {
            _ if primer.is_empty() => Some((36, 0)),
            Some(place) => Some((37, place as u64)),
            None => None,
        };
        if let Some(refused) = refused {
            for text in &texts {
                let refusal = find_primer(&primer, text).unwrap_err();
                assert_eq!((refusal.number, refusal.first, refusal.second), (refused.0, refused.1, 0), "{primer:?}");
            }
            continue;
        }
        for text in &texts {
            let matches = |window: &[u8]| {
                window.iter().zip(&primer).all(|(byte, letter)| fits[usize::from(*letter)][usize::from(*byte)])
            };
            let first = text.windows(primer.len()).position(matches);
            assert_eq!(find_primer(&primer, text), Ok(first), "{primer:?} in {text:?}");
        }
    }
}

/// All places, from each place on, and on the other strand from the other end.
#[test]
fn all_places_on_both_strands() {
    let fits = fitting();
    for primer in strings(b"ACRN", 2).filter(|primer| !primer.is_empty()) {
        for text in strings(b"ACGRN", 4) {
            let matches = |window: &[u8]| {
                window.iter().zip(&primer).all(|(byte, letter)| fits[usize::from(*letter)][usize::from(*byte)])
            };
            let windows = text.windows(primer.len()).enumerate();
            let places: Vec<usize> = windows.filter(|(_, window)| matches(window)).map(|(place, _)| place).collect();
            assert!(primer_places(&primer, &text).unwrap().eq(places.iter().copied()), "{primer:?} in {text:?}");
            for from in 0..text.len() + 2 {
                let next = places.iter().copied().find(|place| *place >= from);
                assert_eq!(find_primer_from(&primer, &text, from), Ok(next), "{primer:?} in {text:?} from {from}");
            }
            let (other, turned) = (reverse_complement(&primer).unwrap(), reverse_complement(&text).unwrap());
            let back = primer_places(&other, &turned).unwrap().map(|place| text.len() - primer.len() - place);
            let mut back: Vec<usize> = back.collect();
            back.reverse();
            assert_eq!(back, places, "{primer:?} in {text:?}");
        }
    }
}

/// The count is how many of all plain sequences the primer matches at their front.
#[test]
fn the_count_is_of_sequences() {
    let plain: Vec<Vec<u8>> = strings(b"ACGT", 5).filter(|text| text.len() == 5).collect();
    for primer in strings(b"ACTRYN", 5).filter(|primer| primer.len() == 5) {
        let matched = plain.iter().filter(|text| find_primer(&primer, text) == Ok(Some(0)));
        assert_eq!(degeneracy(&primer), Ok(matched.count() as u64), "{primer:?}");
    }
    assert_eq!(degeneracy(&[b'n'; 31]), Ok(1 << 62));
    assert_eq!(degeneracy(&[b'n'; 32]).unwrap_err().code(), "refused 36");
    assert_eq!(degeneracy(b"").unwrap_err().code(), "refused 36");
}

/// A primer of each length, in texts whose matches lie at each place about the ends of blocks.
#[test]
fn every_length_at_every_place() {
    for length in 1..=31 {
        let primer: Vec<u8> = (0..length).map(|k| b"GAKNS"[k % 5]).collect();
        let there: Vec<u8> = (0..length).map(|k| b"GATCC"[k % 5]).collect();
        for size in [length, 15, 16, 17, 31, 32, 33, 48, 70] {
            for place in 0..=size.saturating_sub(length) {
                let mut text = vec![b'-'; size.max(length)];
                text[place..place + length].copy_from_slice(&there);
                assert_eq!(find_primer(&primer, &text), Ok(Some(place)));
                text[place + length - 1] = b'-';
                assert_eq!(find_primer(&primer, &text).map(|found| found == Some(place)), Ok(false));
            }
        }
    }
}
