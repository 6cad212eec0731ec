//! A FASTA record, its definition and its sequence.

pub mod definition;
pub mod sequence;

pub use definition::Definition;
pub use sequence::Sequence;

use super::bstr::BStr;

/// A FASTA record.
///
/// ```
/// use wakeluri::noodles::{self as fasta, bstr::{BStr, BString}, record::{Definition, Sequence}};
/// let definition = Definition::new("sq0", Some(BString::from("LN:4")));
/// let record = fasta::Record::new(definition, Sequence::from(b"ACGT".to_vec()));
/// assert_eq!(record.name(), b"sq0");
/// assert_eq!(record.description(), Some(BStr::new("LN:4")));
/// ```
#[derive(Clone, Debug, Eq, PartialEq)]
pub struct Record {
    definition: Definition,
    sequence: Sequence,
}

impl Record {
    /// A record.
    pub fn new(definition: Definition, sequence: Sequence) -> Self {
        Self { definition, sequence }
    }

    /// Its definition.
    pub fn definition(&self) -> &Definition {
        &self.definition
    }

    /// Its name.
    pub fn name(&self) -> &[u8] {
        self.definition.name()
    }

    /// The text behind its name, if there is one.
    pub fn description(&self) -> Option<&BStr> {
        self.definition.description()
    }

    /// Its sequence.
    pub fn sequence(&self) -> &Sequence {
        &self.sequence
    }
}
