//! The names that are nearest to one that isn't there.

/// So many names are given.
const TOLD: usize = 3;

/// So many letters are compared with others one by one at most: some tenths of a second. Beyond that a name's distance is told by the
/// bits alone, which takes a letter of the other case for the same.
const COMPARED: usize = 200_000_000;

/// Names of more letters are compared by their starts alone.
const LONG: usize = 200;

/// Up to three names that a person may have meant, the nearest first, and of names as near those that come first. It compares all.
pub fn nearest<'n>(wanted: &[u8], names: impl Iterator<Item = &'n [u8]>) -> Vec<&'n [u8]> {
    // slips in a third of the letters are still slips, if some letter is left
    let limit = (wanted.len() / 3).max(2) * 2;
    let bits = Bits::of(wanted);
    let mut found: Vec<(usize, &[u8])> = vec![];
    let mut left = COMPARED;
    for name in names {
        if found.iter().any(|(_, known)| *known == name) {
            continue;
        }
        // a name that is no nearer than the last of three is left out
        let most = found.get(TOLD - 1).map_or(limit, |(steps, _)| steps - 1);
        let some_letter_is_left = (2 * wanted.len().max(name.len())).saturating_sub(1);
        let most = most.min(some_letter_is_left);
        let Some(steps) = distance(wanted, name, most, &bits, &mut left) else { continue };
        found.insert(found.partition_point(|(known, _)| *known <= steps), (steps, name));
        found.truncate(TOLD);
    }
    found.into_iter().map(|(_, name)| name).collect()
}

/// Where each letter, of whatever case, stands in a name, a bit for each place; by it the edits to another name are counted many
/// letters at once (Myers 1999, Hyyrö 2003).
struct Bits {
    places: Box<[[u64; WORDS]; 256]>,
    letters: usize,
}

const WORDS: usize = LONG.div_ceil(64);

impl Bits {
    fn of(name: &[u8]) -> Self {
        let mut places = Box::new([[0; WORDS]; 256]);
        for (place, letter) in name.iter().take(LONG).enumerate() {
            for case in [letter.to_ascii_lowercase(), letter.to_ascii_uppercase()] {
                places[usize::from(case)][place / 64] |= 1 << (place % 64);
            }
        }
        Self { places, letters: name.len() }
    }

    /// Letters put in, taken out or changed, whatever their case.
    fn edits(&self, name: &[u8]) -> usize {
        if self.letters <= 64 { self.edits_in::<1>(name) } else { self.edits_in::<WORDS>(name) }
    }

    fn edits_in<const N: usize>(&self, name: &[u8]) -> usize {
        let Some(last) = self.letters.checked_sub(1) else { return name.len() };
        let (mut up, mut down) = ([u64::MAX; N], [0_u64; N]);
        let mut edits = self.letters;
        for letter in name {
            let places = &self.places[usize::from(*letter)];
            let (mut carry, mut up_before, mut down_before) = (false, 1, 0);
            for word in 0..N {
                let (same, pv, nv) = (places[word], up[word], down[word]);
                let (sum, over) = (same & pv).overflowing_add(pv);
                let (sum, more) = sum.overflowing_add(u64::from(carry));
                carry = over | more;
                let diagonal = (sum ^ pv) | same | nv;
                let (ph, nh) = (nv | !(diagonal | pv), diagonal & pv);
                if word == last / 64 {
                    edits += usize::from(ph >> (last % 64) & 1 == 1);
                    edits -= usize::from(nh >> (last % 64) & 1 == 1);
                }
                let (ph_up, nh_up) = (ph << 1 | up_before, nh << 1 | down_before);
                (up_before, down_before) = (ph >> 63, nh >> 63);
                up[word] = nh_up | !(diagonal | ph_up);
                down[word] = ph_up & diagonal;
            }
        }
        edits
    }
}

/// The edits from one name to the other, if they are at most so many: 2 for each letter put in, taken out or changed, 1 for a letter
/// of the other case, and 1 where one is the other without 'chr', without its version or cut short.
fn distance(wanted: &[u8], name: &[u8], most: usize, bits: &Bits, left: &mut usize) -> Option<usize> {
    if most == 0 {
        return None;
    }
    let (long, short) = if name.len() > wanted.len() { (name, wanted) } else { (wanted, name) };
    let prefixed = |long: &[u8]| long.get(..3).is_some_and(|start| start.eq_ignore_ascii_case(b"chr"));
    let without_chr = prefixed(long) && long.get(3..).is_some_and(|rest| rest.eq_ignore_ascii_case(short));
    if !short.is_empty()
        && (without_chr || (long.starts_with(short) && matches!(long.get(short.len()), Some(b'.' | b':' | b'_'))))
    {
        return Some(1);
    }
    if (long.len() - short.len()) * 2 > most || long.len() > LONG {
        return None;
    }
    let at_least = bits.edits(name) * 2;
    if at_least > most {
        return None;
    }
    // what they have in common at their ends takes no edit
    let start = wanted.iter().zip(name).take_while(|(one, two)| one == two).count();
    let (wanted, name) = (wanted.get(start..)?, name.get(start..)?);
    let end = wanted.iter().rev().zip(name.iter().rev()).take_while(|(one, two)| one == two).count();
    let (wanted, name) = (wanted.get(..wanted.len() - end)?, name.get(..name.len() - end)?);
    let mut row: Vec<usize> = (0..=name.len()).map(|letters| letters * 2).collect();
    for (down, wanted) in wanted.iter().enumerate() {
        let Some(rest) = left.checked_sub(name.len() + 1) else { return Some(at_least) };
        *left = rest;
        let mut diagonal = std::mem::replace(row.first_mut()?, (down + 1) * 2);
        for (across, name) in name.iter().enumerate() {
            let change = if wanted == name { 0 } else { 2 - usize::from(wanted.eq_ignore_ascii_case(name)) };
            let above = *row.get(across + 1)?;
            let best = (diagonal + change).min(above + 2).min(row.get(across)? + 2);
            diagonal = std::mem::replace(row.get_mut(across + 1)?, best);
        }
        // there is no way back
        if row.iter().all(|steps| *steps > most) {
            return None;
        }
    }
    row.last().copied().filter(|steps| *steps <= most)
}

#[cfg(test)]
mod tests {
    use super::nearest;

    #[test]
    fn near_names_in_order() {
        let names: [&[u8]; 6] = [b"chr1", b"chr2", b"chrM", b"NM_000518.5", b"key", b"T7"];
        let near = |wanted: &str| -> Vec<String> {
            nearest(wanted.as_bytes(), names.iter().copied())
                .iter()
                .map(|name| String::from_utf8_lossy(name).into())
                .collect()
        };
        assert_eq!(near("1"), ["chr1"]);
        assert_eq!(near("CHR2").first().map(String::as_str), Some("chr2"));
        assert_eq!(near("NM_000518"), ["NM_000518.5"]);
        assert_eq!(near("Key"), ["key"]);
        assert!(near("something else").is_empty());
    }

    /// The bits count what the letters do, where case doesn't matter.
    #[test]
    fn edits_by_bits() {
        fn by_letters(one: &[u8], two: &[u8]) -> usize {
            let mut row: Vec<usize> = (0..=two.len()).collect();
            for (down, one) in one.iter().enumerate() {
                let mut diagonal = std::mem::replace(&mut row[0], down + 1);
                for (across, two) in two.iter().enumerate() {
                    let change = usize::from(!one.eq_ignore_ascii_case(two));
                    let best = (diagonal + change).min(row[across + 1] + 1).min(row[across] + 1);
                    diagonal = std::mem::replace(&mut row[across + 1], best);
                }
            }
            row[two.len()]
        }
        let mut state = 5_u64;
        let mut below = |limit: usize| {
            state = state.wrapping_mul(6364136223846793005).wrapping_add(1442695040888963407);
            (state >> 33) as usize % limit
        };
        for _ in 0..3000 {
            let most = if below(2) == 0 { 12 } else { 201 };
            let mut name = || -> Vec<u8> { (0..below(most)).map(|_| b"aAbc"[below(4)]).collect() };
            let (one, two) = (name(), name());
            assert_eq!(super::Bits::of(&one).edits(&two), by_letters(&one, &two), "{one:?} {two:?}");
        }
    }

    /// Names without end: the nearest is found among them, each is told once, and it takes no longer than a person waits.
    #[test]
    fn among_a_million() {
        let names: Vec<String> = (0..1_000_000).map(|number| format!("contig{number:07}")).collect();
        let names = || names.iter().map(String::as_bytes);
        assert_eq!(nearest(b"contig0765432x", names()).first(), Some(&&b"contig0765432"[..]));
        assert_eq!(nearest(b"s", std::iter::repeat_n(&b"S"[..], 1_000_000)), [b"S"]);
        let begun = std::time::Instant::now();
        let [one, other] = ["AB".repeat(100), "BA".repeat(100)];
        nearest(one.as_bytes(), std::iter::repeat_n(other.as_bytes(), 1_000_000));
        assert!(begun.elapsed() < std::time::Duration::from_secs(20), "{:?}", begun.elapsed());
    }
}
