//! The families of questions: what each asks, which call answers it, what its answer has, and how its questions are made.
//!
//! Each family has one entry, in the file of its group in `families`. The line form reads arguments and writes answers by it; `ask`
//! and web/ask.mjs call by it; the generator, the comparison, the replayed list and the tests read it too. To add a family, add its
//! entry and its examples there, and its rule to the model.

use crate::families::GROUPS;
use crate::form::Value;
use crate::generate::{Chance, Source};

/// What an argument is, or a part of an answer. All but bounds and rows are one word.
#[derive(Clone, Copy, Debug, Eq, PartialEq)]
pub enum Kind {
    /// Bytes: `x` and hex.
    Bytes,
    /// Bytes, or `-` for none.
    MaybeBytes,
    /// A decimal number of 64 bits.
    Number,
    /// A number, or `-` for none.
    MaybeNumber,
    /// The bounds of a region, two words: each a number, or `-` for none.
    Bounds,
    /// Numbers: `t1,2,3`.
    Numbers,
    /// A table that is read, two words: its numbers, and how many rows are in use.
    Rows,
    /// Regions, each a row and its bounds: `r0:4:5,1:-:7`.
    Regions,
    /// Steps of a call that is fed a file: `f` and hex for a piece, `e` for the end, as `f3e73,f0a41,e`.
    Steps,
    /// What each step answered, a word to a step: a refusal's three numbers and the rows so far, as `0:0:0:1`.
    Stepped,
    /// Numbers that a call may change. The answer ends with them as they were left.
    Table,
    /// Bytes that a call may change. The answer ends with them as they were left.
    Output,
}

/// Which call answers a question.
#[derive(Clone, Copy, Debug, Eq, PartialEq)]
pub enum Call {
    /// The entry point of this name, with the arguments of the question.
    Entry(&'static str),
    /// The same, and this number behind them.
    EntryWith(&'static str, u64),
    /// `feed_start` with this number, then `feed_piece` or `feed_end` for each step.
    Fed(u64),
    /// The program `faidx`.
    Program,
}

/// A part of an answer, by the names that the header gives its numbers.
#[derive(Clone, Copy, Debug, Eq, PartialEq)]
pub enum Part {
    /// This number.
    Field(&'static str),
    /// These numbers, as one word.
    Row(&'static [&'static str]),
    /// This number after a refusal, and `-` without one.
    Refused(&'static str),
    /// The bytes of the first argument from one number on, so many as another says.
    Span(&'static str, &'static str),
    /// What is no number of one answer.
    Other(Kind),
}

impl Part {
    /// What kind of value it is.
    pub fn kind(self) -> Kind {
        match self {
            Self::Field(_) => Kind::Number,
            Self::Row(_) => Kind::Numbers,
            Self::Refused(_) => Kind::MaybeNumber,
            Self::Span(..) => Kind::Bytes,
            Self::Other(kind) => kind,
        }
    }
}

/// What an answer has. Lent memory stands behind it in every case.
#[derive(Clone, Copy, Debug, Eq, PartialEq)]
pub enum Shape {
    /// `ok` and these, or a refusal alone.
    IfOk(&'static [Part]),
    /// `ok` and these, `ok none` if the named number is 0, or a refusal alone.
    Found(&'static str, &'static [Part]),
    /// `ok` or a refusal, and these after both.
    Always(&'static [Part]),
    /// These, and no `ok`; or a refusal alone.
    Bare(&'static [Part]),
}

impl Shape {
    /// What is told where all of it is.
    pub fn parts(self) -> &'static [Part] {
        match self {
            Self::IfOk(parts) | Self::Found(_, parts) | Self::Always(parts) | Self::Bare(parts) => parts,
        }
    }
}

/// What the original answers for a family.
#[derive(Clone, Copy, Debug, Eq, PartialEq)]
pub enum Original {
    /// It has no such call.
    Lacks,
    /// All of an answer; of a refusal its three numbers alone.
    Refusals,
    /// All of an answer, after a refusal too.
    Memory,
}

/// How the questions of a family are made.
#[derive(Clone, Copy)]
pub(crate) struct Made {
    /// How many of those by chance are of this family, beside the other shares: 16 for most. The program is started anew for each of
    /// its questions.
    pub(crate) share: usize,
    pub(crate) by_chance: fn(&mut Chance) -> Vec<Value>,
    /// Every short input, and numbers at the limits.
    pub(crate) every: &'static [fn() -> Source],
}

/// A family of questions.
#[derive(Clone, Copy)]
pub struct Family {
    /// The word that a question begins with.
    pub name: &'static str,
    /// What answers it.
    pub call: Call,
    /// What it asks about.
    pub takes: &'static [Kind],
    /// What its answer has.
    pub tells: Shape,
    /// What it may refuse, except an input that is too long; 1 stands here if a length is stated.
    pub refuses: &'static [u64],
    /// What the original answers.
    pub original: Original,
    pub(crate) made: Made,
}

/// What the table of a group is written with.
pub(crate) mod words {
    pub(crate) use super::Call::*;
    pub(crate) use super::Kind::*;
    pub(crate) use super::Original::*;
    pub(crate) use super::Part::*;
    pub(crate) use super::Shape::*;
    use super::{Call, Family, Kind, Made, Original, Part, Shape};
    use crate::form::Value;
    use crate::generate::{Chance, Source};

    pub(crate) const fn asks(
        name: &'static str,
        call: Call,
        takes: &'static [Kind],
        tells: Shape,
        refuses: &'static [u64],
        original: Original,
        made: Made,
    ) -> Family {
        Family { name, call, takes, tells, refuses, original, made }
    }

    pub(crate) const fn made(
        share: usize,
        by_chance: fn(&mut Chance) -> Vec<Value>,
        every: &'static [fn() -> Source],
    ) -> Made {
        Made { share, by_chance, every }
    }

    /// So many bytes or rows, or a row's number.
    pub(crate) const COUNT: &[Part] = &[Field("count")];
}

/// Some families that belong together, and questions to them with their answers, by hand.
pub(crate) struct Group {
    pub(crate) families: &'static [Family],
    pub(crate) examples: &'static str,
}

/// Every family that is asked.
pub fn families() -> impl Iterator<Item = &'static Family> {
    GROUPS.iter().flat_map(|group| group.families)
}

/// Questions and their answers, by hand: some of each family, with what must be told after a refusal.
pub fn examples() -> impl Iterator<Item = &'static str> {
    GROUPS.iter().flat_map(|group| group.examples.lines())
}

/// The family of a name.
pub fn family(name: &str) -> Option<&'static Family> {
    families().find(|family| family.name == name)
}

/// The table as JSON, for those who answer and are not in Rust: of each family its name, its call, what it takes and what it tells.
pub fn as_json() -> String {
    let listed = |words: &[&str]| format!("{words:?}");
    let part = |part: &Part| match part {
        Part::Field(name) => listed(&["field", name]),
        Part::Row(names) => listed(&[&["row"], *names].concat()),
        Part::Refused(name) => listed(&["refused", name]),
        Part::Span(start, length) => listed(&["span", start, length]),
        Part::Other(kind) => format!("[\"other\", \"{kind:?}\"]"),
    };
    let entry = |family: &Family| {
        let call = match family.call {
            Call::Entry(name) => format!("{{\"entry\": {name:?}, \"with\": []}}"),
            Call::EntryWith(name, number) => format!("{{\"entry\": {name:?}, \"with\": [\"{number}\"]}}"),
            Call::Fed(number) => format!("{{\"fed\": \"{number}\"}}"),
            Call::Program => "{\"program\": true}".to_string(),
        };
        let (told, found) = match family.tells {
            Shape::IfOk(_) => ("if ok", ""),
            Shape::Found(field, _) => ("found", field),
            Shape::Always(_) => ("always", ""),
            Shape::Bare(_) => ("bare", ""),
        };
        let takes: Vec<String> = family.takes.iter().map(|kind| format!("\"{kind:?}\"")).collect();
        let parts: Vec<String> = family.tells.parts().iter().map(part).collect();
        format!(
            "{{\"family\": {:?}, \"call\": {call}, \"takes\": [{}], \"told\": {told:?}, \"found\": {found:?}, \"parts\": [{}]}}",
            family.name,
            takes.join(", "),
            parts.join(", "),
        )
    };
    format!("[\n{}\n]\n", families().map(entry).collect::<Vec<_>>().join(",\n"))
}
