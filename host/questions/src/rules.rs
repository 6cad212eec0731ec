//! When two answers to a question count as the same.
//!
//! Against the model they must be equal. Against the original there are listed differences, and each of them is held to what
//! the list says: an answer that merely looks like one is a difference.

use crate::family::{Original, family};
use crate::form;
use crate::row::WORDS;

/// Whether the original doesn't have a refusal: where such a one is right, it has no answer to give. All from 26 on were added.
fn is_added(number: &str) -> bool {
    matches!(number.parse::<u64>(), Ok(1 | 8 | 13 | 14 | 16 | 18 | 25..))
}

/// How two answers stand to each other.
#[derive(Clone, Copy, Debug, Eq, Ord, PartialEq, PartialOrd)]
pub enum Kind {
    /// They are equal.
    Same,
    /// They are equal in all that the original tells.
    SameAsToldOf,
    /// The original has no answer, and ours is a refusal that was added.
    Added,
    /// The original has no answer, or neither the model nor ours has one.
    Skipped,
    /// Ours wasn't asked: there is no program to run.
    NotAsked,
    /// Listed: the program ends at its limits of bytes and rows.
    ProgramLimit,
    /// Listed: an absent end is no limit, where the original stops at the greatest base position.
    NoLimit,
    /// Listed: a row whose description lies outside the names is refused, where the original writes its line.
    Undescribed,
    /// They differ, and no list says so.
    Different,
}

impl Kind {
    /// The kind in a few words.
    pub fn words(self) -> &'static str {
        match self {
            Self::Same => "same",
            Self::SameAsToldOf => "same as far as told",
            Self::Added => "no answer, an added refusal",
            Self::Skipped => "no answer",
            Self::NotAsked => "not asked",
            Self::ProgramLimit => "listed: program's limits",
            Self::NoLimit => "listed: no limit",
            Self::Undescribed => "listed: description outside",
            Self::Different => "DIFFERENT",
        }
    }
}

/// By which rules answers are compared.
#[derive(Clone, Copy, Debug, Eq, PartialEq)]
pub enum Rules {
    /// The first speaker is the original.
    Original,
    /// The first speaker is the model.
    Exact,
}

impl Rules {
    /// Holds our answer against the first speaker's.
    pub fn judge(self, question: &str, first: &str, ours: &str) -> Kind {
        if ours == "skip" && first != "skip" {
            return if question.starts_with("prg ") { Kind::NotAsked } else { Kind::Different };
        }
        match self {
            Self::Exact if first == ours && ours == "skip" => Kind::Skipped,
            Self::Exact if first == ours => Kind::Same,
            Self::Exact => Kind::Different,
            Self::Original => against_original(question, first, ours),
        }
    }
}

fn against_original(question: &str, original: &str, ours: &str) -> Kind {
    let (name, mine): (_, Vec<&str>) = (question.split(' ').next().unwrap_or_default(), ours.split(' ').collect());
    let refused = if mine[0] == "no" { mine.get(1).copied() } else { None };
    if original == "skip" {
        return if refused.is_some_and(is_added) { Kind::Added } else { Kind::Skipped };
    }
    if original == ours {
        return Kind::Same;
    }
    let theirs: Vec<&str> = original.split(' ').collect();
    if theirs[0] == "no" && refused.is_some() {
        let all = family(name).is_some_and(|family| family.original == Original::Memory);
        let length = if all { theirs.len().max(mine.len()) } else { 4 };
        let told = (0..length).all(|k| theirs.get(k) == Some(&"?") || theirs.get(k) == mine.get(k));
        if told {
            return Kind::SameAsToldOf;
        }
    }
    let arguments: Vec<&str> = question.split(' ').skip(1).collect();
    match name {
        "prg" if is_program_limit(&arguments, original, ours) => Kind::ProgramLimit,
        "rar" if is_no_limit(&arguments, &theirs, &mine) => Kind::NoLimit,
        "wrl" if describes_outside(&arguments) && mine.get(..2) == Some(&["no", "25"]) => Kind::Undescribed,
        _ => Kind::Different,
    }
}

/// Ours ends with refusal 8 at 1,024 rows, and all before it is the beginning of the original's.
fn is_program_limit(arguments: &[&str], original: &str, ours: &str) -> bool {
    let told = |word: &str| form::bytes(word).unwrap_or_default();
    let (theirs, mine, input) = (told(original), told(ours), told(arguments[0]));
    let rows = mine.strip_suffix(b"refused 8 1024 0\n").unwrap_or_default();
    let full = rows.iter().filter(|b| **b == b'\n').count() == 1_024;
    input.len() <= 65_536 && full && theirs.len() > rows.len() && theirs.starts_with(rows)
}

/// A raw read whose end is absent, and whose answer is as long as there are base positions up to the greatest: there the original
/// stops.
pub fn stops_at_the_greatest(arguments: &[&str], theirs: &[&str]) -> bool {
    let ([_, _, _, _, start, "-", _], ["ok", count, _]) = (arguments, theirs) else { return false };
    let (Ok(start), Ok(count)) = (start.parse::<u64>(), count.parse::<u64>()) else { return false };
    start > 0 && count == u64::MAX - start + 1
}

/// The line of a row whose description does not lie inside the names: the original knows of no description.
pub fn describes_outside(arguments: &[&str]) -> bool {
    let [names, table, _, row, _] = arguments else { return false };
    let (Some(names), Some(table), Ok(row)) = (form::bytes(names), form::table(table), row.parse::<usize>()) else {
        return false;
    };
    let span = table.chunks_exact(WORDS).nth(row).map(|row| u128::from(row[6]) + u128::from(row[7]));
    span.is_some_and(|end| end > names.len() as u128)
}

/// The original stops at the greatest base position, and ours begins with its answer.
fn is_no_limit(arguments: &[&str], theirs: &[&str], mine: &[&str]) -> bool {
    if !stops_at_the_greatest(arguments, theirs) {
        return false;
    }
    let (["ok", count, theirs], ["ok", _, mine]) = (theirs, mine) else { return false };
    let given = 1 + 2 * count.parse::<usize>().unwrap_or(0);
    mine.get(..given) == theirs.get(..given)
}
