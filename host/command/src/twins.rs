//! Records of one name, in a file that is indexed or checked: a look-up finds the first, and nobody may know of the others.

use crate::cores;
use crate::place::{commas, count, short};
use crate::warning::Warning;

/// So many names are named one by one.
const TOLD: usize = 10;

/// The first two records of a name, counted from 0, and the name.
pub type Twins<'n> = (usize, usize, &'n [u8]);

/// Says which names several records have.
pub fn warn(file: &str, twins: &[Twins<'_>]) {
    for (first, second, name) in twins.iter().take(TOLD) {
        let (first, second, name) = (commas(*first as u64 + 1), commas(*second as u64 + 1), short(name));
        let words =
            format!("records {first} and {second} of {file} are both named {name}: by its name the first is read");
        Warning::new(file, words).say();
    }
    if twins.len() > TOLD {
        let words = format!("so it is with {} of {file}", count((twins.len() - TOLD) as u64, "more name"));
        Warning::new(file, words).say();
    }
}

/// Names that were seen, one for each record. They can be added on another's walk over the records, while their bytes are at hand.
pub struct Seen(Vec<u64>);

impl Seen {
    /// None yet, of so many records.
    pub fn none(records: usize) -> Self {
        Self(Vec::with_capacity(records))
    }

    /// Adds the next record's name.
    pub fn add(&mut self, name: &[u8]) {
        self.0.push(mixed(name));
    }

    /// How many.
    pub fn len(&self) -> usize {
        self.0.len()
    }

    /// Adds those of the records behind them.
    pub fn extend(&mut self, later: Self) {
        self.0.extend(later.0);
    }

    /// The first two records of each name that several have, in their order; the names are those that were seen.
    pub fn twins<'n, N: Iterator<Item = &'n [u8]>>(self, names: impl FnOnce() -> N) -> Vec<Twins<'n>> {
        if are_some_alike(&self.0) { among(names()) } else { vec![] }
    }
}

/// The first two records of each name that several have, in their order.
pub fn of<'n, N: Iterator<Item = &'n [u8]>>(names: impl Fn() -> N) -> Vec<Twins<'n>> {
    Seen(names().map(mixed).collect()).twins(names)
}

/// The same, where there likely are some.
fn among<'n>(names: impl Iterator<Item = &'n [u8]>) -> Vec<Twins<'n>> {
    let mut names: Vec<(u64, usize, &[u8])> =
        names.enumerate().map(|(number, name)| (mixed(name), number, name)).collect();
    // alike names come together, and those of one name in their order
    names.sort_unstable_by(|one, two| (one.0, one.2, one.1).cmp(&(two.0, two.2, two.1)));
    let alike = names.chunk_by(|one, two| one.0 == two.0 && one.2 == two.2);
    let mut twins: Vec<_> = alike
        .filter_map(|alike| match alike {
            [(_, first, name), (_, second, _), ..] => Some((*first, *second, *name)),
            _ => None,
        })
        .collect();
    twins.sort_unstable();
    twins
}

/// Whether two numbers are alike: once they are sorted, two such stand side by side. A table of places, one look for each number, takes four times as
/// long, since nearly every look is at memory far away. Each core sorts a share: the numbers of one size.
fn are_some_alike(numbers: &[u64]) -> bool {
    let shares = cores::count().min(8) as u64;
    let shares = cores::at_once(shares as usize, |share| {
        // of all numbers each share has as many, and a product is faster than a rest
        let is_own = |number: &u64| ((*number >> 32) * shares) >> 32 == share as u64;
        let mut own: Vec<u64> = numbers.iter().copied().filter(is_own).collect();
        own.sort_unstable();
        own.windows(2).any(|two| two[0] == two[1])
    });
    shares.contains(&true)
}

/// A number for a name, so that one comparison tells most names apart.
fn mixed(name: &[u8]) -> u64 {
    let parts = name.chunks_exact(8);
    let rest = parts.remainder().iter().fold(0, |number, byte| number << 8 | u64::from(*byte));
    let whole = parts.map(|part| part.first_chunk().map_or(0, |part| u64::from_le_bytes(*part)));
    whole
        .chain([rest])
        .fold(name.len() as u64, |mixed, part| (mixed ^ part).wrapping_mul(0x9e37_79b9_7f4a_7c15).rotate_left(29))
}

#[cfg(test)]
mod tests {
    use super::{are_some_alike, of};

    #[test]
    fn first_and_second_of_each_name() {
        let rows = wakeluri::index(b">b\nA\n>a\nA\n>b\nA\n>c\nA\n>a\nA\n>b\nA\n").unwrap();
        assert_eq!(of(|| rows.records().map(|record| record.name)), [(0, 2, &b"b"[..]), (1, 4, b"a")]);
        let none = wakeluri::index(b"").unwrap();
        assert_eq!(of(|| none.records().map(|record| record.name)), []);
    }

    #[test]
    fn alike_or_not() {
        let numbers: Vec<u64> = (0..5000).map(|n: u64| n.wrapping_mul(0x1234_5678_9abc_def1)).collect();
        assert!(!are_some_alike(&numbers));
        for twin in [0, 1, 4999] {
            assert!(are_some_alike(&[&numbers[..], &[numbers[twin]]].concat()));
        }
    }
}
