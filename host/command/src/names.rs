//! The rows of the names that a sheet asks for, found in one walk over all records, so that many regions of many records take time in
//! proportion to both together. The map is the library's own (`wakeluri::Names`), which has each row that it gives confirmed by the proved
//! look-up. Here is only which names may be asked for: what is passed over needs no place in the map.

use std::collections::HashSet;
use wakeluri::{Names, Table};

/// Which names may be wanted: the end of a name rules out most of them. It lets all through that are wanted.
#[derive(Debug)]
pub struct Sieve(Vec<u64>);

impl Sieve {
    /// Of the names that are wanted. It has as many bits as let few others through.
    pub fn new<'w>(wanted: impl Iterator<Item = &'w [u8]> + Clone) -> Self {
        let words = wanted.clone().take(1 << 20).count().next_power_of_two().max(1 << 6) / 2;
        let mut sieve = Self(vec![0; words]);
        wanted.for_each(|name| sieve.add(name));
        sieve
    }

    /// The word and the bit of a name, by its length and its last eight bytes.
    fn place(&self, name: &[u8]) -> (usize, u64) {
        let short = || name.iter().fold(0, |number, byte| number << 8 | u64::from(*byte));
        let end = name.last_chunk().map_or_else(short, |end| u64::from_le_bytes(*end));
        let mixed = end.wrapping_add(name.len() as u64).wrapping_mul(0x9e37_79b9_7f4a_7c15);
        ((mixed >> 40) as usize & (self.0.len() - 1), 1 << (mixed >> 58))
    }

    fn add(&mut self, name: &[u8]) {
        let (word, bit) = self.place(name);
        if let Some(word) = self.0.get_mut(word) {
            *word |= bit;
        }
    }

    /// Whether a name may be wanted.
    pub fn lets_through(&self, name: &[u8]) -> bool {
        let (word, bit) = self.place(name);
        self.0.get(word).is_some_and(|word| word & bit != 0)
    }
}

/// The rows of the names that are wanted; of all names, where more are wanted than there are.
pub fn wanted_names<'t, 'n, 'w>(table: &'t Table<'n>, wanted: impl Iterator<Item = &'w [u8]> + Clone) -> Names<'t, 'n> {
    if wanted.clone().nth(table.len()).is_some() {
        return Names::new(table);
    }
    let wanted: HashSet<&[u8]> = wanted.collect();
    let sieve = Sieve::new(wanted.iter().copied());
    Names::of_some(table, |name| sieve.lets_through(name) && wanted.contains(name))
}

#[cfg(test)]
mod tests {
    use super::wanted_names;

    /// What is wanted is never passed over: the map and the proved look-up find the same rows, of names that are alike and of names that
    /// aren't there.
    #[test]
    fn the_proved_look_up_finds_the_same() {
        let mut state = 1_u64;
        let mut below = |limit: u64| {
            state = state.wrapping_mul(6364136223846793005).wrapping_add(1442695040888963407);
            (state >> 33) % limit
        };
        for _ in 0..300 {
            let kinds = 1 + below(40);
            let file: String = (0..below(40)).map(|_| format!(">n{}\nA\n", below(kinds))).collect();
            let table = wakeluri::index(file.as_bytes()).unwrap();
            let wanted: Vec<String> = (0..below(60)).map(|_| format!("n{}", below(45))).collect();
            let names = wanted_names(&table, wanted.iter().map(String::as_bytes));
            for name in &wanted {
                let found = names.get(name.as_bytes());
                assert_eq!(found, table.find(name.as_bytes()).ok(), "{name} in {file}");
                let mut rows = table.rows().filter(|row| table.record(*row).unwrap().name == name.as_bytes());
                assert_eq!((found, names.second(name.as_bytes())), (rows.next(), rows.next()), "{name} in {file}");
            }
        }
    }
}
