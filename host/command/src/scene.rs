//! A record that an indexer refused, and what is wrong with it in words. The proved code has refused by then.
//!
//! Words are made of the record's definition line and of a few lines of its sequence, so that they are the same whether the whole file is at
//! hand or has gone by.

use crate::advice;
use crate::failure::Failure;
use crate::faults::{CR_ALONE, FASTA, LF_ENDS, bad_definition, has_cr_inside, name_of, refused};
use crate::input::Input;
use crate::place::{self, Line, commas, count};
use wakeluri::{Refusal, Table};

/// Those lines of a record that words are made of.
#[derive(Clone, Debug, Default)]
pub struct Seen {
    /// The record's number in the file, from 1.
    pub number: u64,
    /// Its definition line, and the bytes of that; of a long one the front.
    pub definition: Option<(Line, Vec<u8>)>,
    /// The first line of its sequence, and whether another follows.
    first: Option<Line>,
    pub is_more: bool,
    /// The first line that is not as the first.
    uneven: Option<Line>,
    /// A line is blank.
    has_blank: bool,
    /// The first two lines that have bases, and the last two.
    first_two: [Option<Line>; 2],
    last_two: [Option<Line>; 2],
}

impl Seen {
    /// A record whose definition line has come.
    pub fn of(number: u64, definition: Line, text: Vec<u8>) -> Self {
        Self { number, definition: Some((definition, text)), ..Self::default() }
    }

    /// The next line of its sequence.
    pub fn add(&mut self, line: Line) {
        match self.first {
            None => self.first = Some(line),
            Some(first) => {
                self.is_more = true;
                if self.uneven.is_none() && (line.bases, line.width) != (first.bases, first.width) {
                    self.uneven = Some(line);
                }
            }
        }
        if line.bases == 0 {
            self.has_blank = true;
            return;
        }
        if let Some(free) = self.first_two.iter_mut().find(|place| place.is_none()) {
            *free = Some(line);
        }
        self.last_two = [self.last_two[1], Some(line)];
    }

    /// Whether it has bases, and whether it has blank lines.
    pub fn bases_and_blanks(&self) -> (bool, bool) {
        (self.first_two[0].is_some(), self.has_blank)
    }

    /// Whether the line that was added last is the one at fault: it has the byte that a refusal names.
    pub fn is_at_fault(&self, refusal: Refusal) -> bool {
        let holds = |line: Line| refusal.first < (line.start + line.width) as u64;
        refusal.number == 42 && self.last_two[1].is_some_and(holds)
    }
}

/// A record that was refused, and its file.
#[derive(Debug)]
pub struct Scene<'s> {
    /// The file's name in messages.
    pub shown: &'s str,
    /// The whole file, if it is at hand: what is advised is tried on it.
    pub fasta: Option<&'s Input>,
    /// How many bytes it has.
    pub bytes: u64,
    /// What was seen of the record.
    pub seen: Seen,
    /// The bytes of the line at fault; of a long one the front.
    pub text: Vec<u8>,
}

/// What a file that has gone by can't show.
const GONE_BY: &str =
    "what stands behind it was not read: of the whole file, saved, `wakeluri index FILE` says what can be done";

impl<'s> Scene<'s> {
    /// The record of a file that was refused behind some rows.
    pub fn of(fasta: &'s Input, rows: &Table<'_>, refusal: Refusal) -> Self {
        let file = fasta.bytes();
        let definition = if refusal.number == 1 { None } else { place::refused_definition(file, rows) };
        let mut scene = Self {
            shown: &fasta.shown,
            fasta: Some(fasta),
            bytes: file.len() as u64,
            seen: Seen::default(),
            text: vec![],
        };
        let Some(definition) = definition else { return scene };
        scene.seen = Seen::of(rows.len() as u64 + 1, definition, place::text(file, definition).to_vec());
        for line in place::sequence(file, definition) {
            scene.seen.add(line);
            if scene.seen.is_at_fault(refusal) {
                scene.text = place::text(file, line).to_vec();
                break;
            }
        }
        scene
    }

    fn or_anew(&self, next: &str) -> String {
        self.fasta.map_or_else(|| format!("{next}\n{GONE_BY}"), |fasta| advice::or_anew(next, fasta))
    }

    fn or_not_strict(&self, next: &str) -> String {
        self.fasta.map_or_else(|| format!("{next}\n{GONE_BY}"), |fasta| advice::or_not_strict(next, fasta))
    }

    /// The refusal in words.
    pub fn told(&self, refusal: Refusal) -> Failure {
        let Some((definition, text)) = &self.seen.definition else {
            let (what, next) = self.of_all(refusal);
            return refused(self.shown, None, &what, next.to_string(), refusal);
        };
        let (line, what, next) = match refusal.number {
            2..=4 => {
                let line = (*definition, text.as_slice());
                return bad_definition(self.shown, &FASTA, line, refusal.first, refusal, |next| self.or_anew(next));
            }
            5 => self.no_bases(*definition, text),
            6 | 7 => {
                let (what, next) = uneven(&name_of(text), refusal);
                (self.seen.uneven.unwrap_or(*definition), what, self.or_not_strict(next))
            }
            42 => {
                let record = format!("{} (record {})", name_of(text), commas(self.seen.number));
                let (line, what) = self.no_index_fits(&record, refusal).unwrap_or((*definition, refusal.words()));
                let next = "no index can fit this file: wrap its bases anew, all lines of a record alike";
                (line, what, self.or_anew(next))
            }
            _ => (*definition, refusal.words(), String::new()),
        };
        refused(self.shown, Some(line), &what, next, refusal)
    }

    /// What is wrong with the whole file.
    fn of_all(&self, refusal: Refusal) -> (String, &'static str) {
        if refusal.number != 1 {
            return (refusal.words(), "");
        }
        let bytes = commas(self.bytes);
        (format!("it has {bytes} bytes, and 1,099,511,627,776 are the most that can be worked on"), "part the file")
    }

    /// A record without bases, or with a blank line before them.
    fn no_bases(&self, definition: Line, text: &[u8]) -> (Line, String, String) {
        let (name, line) = (name_of(text), self.seen.first.unwrap_or(definition));
        if self.seen.is_more {
            let what = format!("the first line of {name} is blank, and the bases begin after it");
            return (line, what, self.or_not_strict("take the blank line out"));
        }
        if has_cr_inside(text) {
            return (line, format!("{name} has no bases: {CR_ALONE}"), LF_ENDS.to_string());
        }
        (line, format!("{name} has no bases"), self.or_not_strict("take the record out, put its bases in"))
    }

    /// A base that no index line can lead to together with those before it: where it lies, where it would lie by the record's first lines,
    /// why, and its line.
    fn no_index_fits(&self, record: &str, refusal: Refusal) -> Option<(Line, String)> {
        let (byte, base) = (usize::try_from(refusal.first).ok()?, refusal.second);
        let [first, second] = self.seen.first_two;
        let [before, line] = self.seen.last_two;
        let (first, second, before, line) = (first?, second?, before?, line?);
        let by_first = [first.start as u64, first.bases as u64, (second.start - first.start) as u64];
        let expected = place::said(by_first, base)?;
        let why = if byte > line.start {
            let (bases, first) = (count(line.bases as u64, "base"), commas(first.bases as u64));
            format!("this line has {bases}, and the first has {first}")
        } else if let Some(blank) = blank_line([first, second], [before, line]) {
            let short = (before.bases < first.bases)
                .then(|| format!("; line {} has {}", commas(before.number), count(before.bases as u64, "base")));
            blank + &short.unwrap_or_default()
        } else if before.bases < first.bases {
            let (number, bases) = (commas(before.number), count(before.bases as u64, "base"));
            format!(
                "line {number} has {bases}, and the first has {}; only the last may have fewer",
                commas(first.bases as u64)
            )
        } else {
            "the ends of lines or the blank lines before it are not as behind the first".to_string()
        };
        let shown = place::about(&self.text, line, byte).map(|shown| format!("; here stands '{shown}'"));
        let (base, byte, expected) = (commas(base), commas(refusal.first), commas(expected));
        let words = format!(
            "base {base} of {record} lies at byte {byte}, and by the record's first lines it would lie at byte {expected}: {why}{}",
            shown.unwrap_or_default()
        );
        Some((line, words))
    }
}

/// A line that is not like those before it.
pub fn uneven(name: &str, refusal: Refusal) -> (String, &'static str) {
    let (found, expected) = (refusal.first, refusal.second);
    match (refusal.number, found) {
        (6, 0) => (format!("this line of {name} is blank, and more of the record follows"), "take the blank line out"),
        (6, _) => (
            format!(
                "this line of {name} has {}, and the lines before it have {}; only the last may have fewer, and none more",
                count(found, "base"),
                commas(expected)
            ),
            "wrap the bases of the file anew, all lines alike",
        ),
        _ => (
            format!(
                "this line of {name} has as many bases as those before it and another end: {} with it, and not {}",
                count(found, "byte"),
                commas(expected)
            ),
            "give all lines the same ends, LF alone or CR and LF",
        ),
    }
}

/// The blank line that is the fault, if one is: where more lines are blank, or fewer, than between a record's first two lines with bases. All
/// lines between two that are next to each other among those with bases are blank.
fn blank_line(first: [Line; 2], last: [Line; 2]) -> Option<String> {
    let between = |[from, to]: [Line; 2]| to.number - from.number - 1;
    let (usual, here) = (between(first), between(last));
    let said = |count: u64| if count == 1 { "1 is".to_string() } else { format!("{count} are") };
    if here > usual {
        let number = commas(last[0].number + 1 + usual);
        let usual = if usual == 0 { "none is".to_string() } else { said(usual) };
        return Some(format!("line {number} is blank, and bases follow it; behind the record's first line {usual}"));
    }
    (here < usual).then(|| {
        let number = commas(first[0].number + 1);
        format!("line {number} is blank, and behind line {} {} not", commas(last[0].number), said(usual - here))
    })
}
