//! Questions without end: every short input over small alphabets, in turn with files and indexes made by chance and damaged,
//! numbers at the limits, tables that lie, and rooms that are empty, just enough, one short or one more.
//!
//! The same seed gives the same questions, on every machine.

pub(crate) mod by_chance;
mod by_kind;
pub(crate) mod chance;
pub(crate) mod short;

use crate::family::{self, Family};
use crate::form::{Value, question};
use by_kind::by_kind;
pub use chance::Chance;

/// Questions of one family, each by its arguments.
pub(crate) type Source = Box<dyn Iterator<Item = Vec<Value>> + Send>;

/// Questions without end: one of every short input, and one by chance, in turn.
pub struct Questions {
    chance: Chance,
    families: Vec<&'static Family>,
    /// Those of every short input that are not at their end, by family.
    sources: Vec<(&'static str, Source)>,
    turn: usize,
}

impl Questions {
    /// The questions of a seed, of every family.
    pub fn new(seed: u64) -> Self {
        Self::made_of(family::families().collect(), seed)
    }

    /// Those of one family; `None` if there is no such family.
    pub fn of(name: &str, seed: u64) -> Option<Self> {
        Some(Self::made_of(vec![family::family(name)?], seed))
    }

    fn made_of(families: Vec<&'static Family>, seed: u64) -> Self {
        let every =
            |family: &&'static Family| family.made.every.iter().map(|every| (family.name, every())).collect::<Vec<_>>();
        let sources = families.iter().flat_map(every).collect();
        Self { chance: Chance::new(seed), families, sources, turn: 0 }
    }
}

impl Iterator for Questions {
    type Item = String;

    fn next(&mut self) -> Option<String> {
        self.turn += 1;
        while self.turn % 2 == 0 && !self.sources.is_empty() {
            let turn = self.turn / 2 % self.sources.len();
            let (family, source) = &mut self.sources[turn];
            match source.next() {
                Some(arguments) => return Some(question(family, &arguments)),
                None => drop(self.sources.remove(turn)),
            }
        }
        Some(by_chance(&mut self.chance, &self.families))
    }
}

/// A question as its family makes it, or at times one whose arguments have the right kinds and nothing else in common.
fn by_chance(chance: &mut Chance, families: &[&Family]) -> String {
    let mut left = chance.below(families.iter().map(|family| family.made.share).sum());
    for family in families {
        if left < family.made.share {
            let arguments =
                if chance.once_in(24) { by_kind(chance, family.takes) } else { (family.made.by_chance)(chance) };
            return question(family.name, &arguments);
        }
        left -= family.made.share;
    }
    unreachable!("a number below the sum of the shares")
}

/// The questions that a family makes are of its kinds.
#[test]
fn every_family_makes_its_own_questions() {
    let mut chance = Chance::new(1);
    for family in family::families() {
        let by_chance = [(family.made.by_chance)(&mut chance), by_kind(&mut chance, family.takes)];
        let every = family.made.every.iter().map(|every| every().next().expect("a question"));
        for arguments in by_chance.into_iter().chain(every) {
            assert!(arguments.iter().map(Value::kind).eq(family.takes.iter().copied()), "{}", family.name);
        }
        assert!(family.made.share > 0, "{}", family.name);
    }
}

/// A name is of one family.
#[test]
fn every_family_has_a_name_of_its_own() {
    for family in family::families() {
        assert_eq!(family::families().filter(|other| other.name == family.name).count(), 1, "{}", family.name);
    }
}
