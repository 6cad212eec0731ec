//! What a definition line says.

use crate::noodles::bstr::{BStr, BString};

/// A name and, where there is one, a description.
///
/// ```
/// use wakeluri::noodles::record::Definition;
/// assert_eq!(Definition::new("sq0", None).name(), b"sq0");
/// ```
#[derive(Clone, Debug, Default, Eq, PartialEq)]
pub struct Definition {
    name: BString,
    description: Option<BString>,
}

impl Definition {
    /// A definition.
    pub fn new<N: Into<BString>>(name: N, description: Option<BString>) -> Self {
        Self { name: name.into(), description }
    }

    /// The name.
    pub fn name(&self) -> &BStr {
        &self.name
    }

    /// The description, if there is one.
    pub fn description(&self) -> Option<&BStr> {
        self.description.as_deref()
    }
}

impl From<crate::Definition<'_>> for Definition {
    fn from(told: crate::Definition<'_>) -> Self {
        Self::new(told.name, told.description.map(BString::from))
    }
}
