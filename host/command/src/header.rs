//! The definition line of an answer: the region, and what is said of it. And the summary of answers that went to a file.

use crate::failure::Failure;
use crate::input::Input;
use crate::json::Object;
use crate::place::{count, quoted};
use crate::read::{Form, Region};
use crate::words::report;
use std::borrow::Cow;
use std::os::unix::ffi::OsStrExt;
use wakeluri::Record;

/// What a definition line says beside the region.
#[derive(Clone, Copy, Debug, Default)]
pub struct Header<'h> {
    /// What stands behind a region for its strand, as in samtools; else it is said in words.
    pub mark: Option<Mark<'h>>,
    /// The record's description too.
    pub is_full: bool,
}

/// What stands behind a region for each strand.
#[derive(Clone, Copy, Debug)]
pub struct Mark<'m> {
    /// For that of the file.
    pub plus: &'m str,
    /// For the other.
    pub minus: &'m str,
}

impl<'m> Mark<'m> {
    /// As samtools names it: rc, no, sign, or custom with two texts of one's own.
    pub fn of(named: &'m str) -> Option<Self> {
        let (plus, minus) = match named {
            "rc" => ("", "/rc"),
            "no" => ("", ""),
            "sign" => ("(+)", "(-)"),
            custom => custom.strip_prefix("custom,")?.split_once(',')?,
        };
        Some(Self { plus, minus })
    }

    /// The text of the name, and what goes to the description since a blank is before it.
    fn parts(self, is_reverse: bool) -> (&'m str, &'m str) {
        let mark = if is_reverse { self.minus } else { self.plus };
        mark.split_once(' ').unwrap_or((mark, ""))
    }
}

impl Header<'_> {
    /// The name and the description of an answer; a description of nothing is none.
    pub fn of<'r>(
        self,
        region: Region<'r>,
        form: Form<'_>,
        record: Option<Record<'r>>,
    ) -> (Cow<'r, [u8]>, Cow<'r, [u8]>) {
        let turned = region.turn(form).said();
        let (mark, behind) = self.mark.map_or(("", ""), |mark| mark.parts(turned.is_some()));
        let name = match mark {
            "" => Cow::Borrowed(region.asked.text),
            mark => [region.asked.text, mark.as_bytes()].concat().into(),
        };
        let of_record = record.filter(|_| self.is_full).and_then(|record| record.description());
        let words = [turned.filter(|_| self.mark.is_none()), Some(behind.as_bytes()), region.asked.label, of_record];
        let mut words = words.into_iter().flatten().filter(|words| !words.is_empty());
        let first = words.next().unwrap_or_default().to_vec();
        let description = words.fold(first, |said, words| [&said, &b" "[..], words].concat());
        (name, description.into())
    }
}

/// Says what a file of answers holds; nothing of standard output.
pub fn tell_of_file(fasta: &Input, regions: &[Region<'_>], form: Form<'_>) -> Result<(), Failure> {
    let Some(place) = form.to.path() else { return Ok(()) };
    let (regions, bases) = (regions.len() as u64, regions.iter().map(|region| region.bases()).sum());
    let shown = quoted(place.as_os_str().as_bytes());
    if form.json {
        let mut object = Object::new();
        object.text("file", &fasta.shown).text("output", &shown).number("regions", regions).number("bases", bases);
        return report(object.line().as_bytes());
    }
    report(format!("{shown}: {}, {}\n", count(regions, "region"), count(bases, "base")).as_bytes())
}

#[cfg(test)]
mod tests {
    use super::*;

    #[test]
    fn marks_of_samtools() {
        for (named, parts) in [
            ("rc", Some((("", ""), ("/rc", "")))),
            ("no", Some((("", ""), ("", "")))),
            ("sign", Some((("(+)", ""), ("(-)", "")))),
            ("custom,A,B", Some((("A", ""), ("B", "")))),
            ("custom, (+), (-)", Some((("", "(+)"), ("", "(-)")))),
            ("custom,,r c", Some((("", ""), ("r", "c")))),
            ("custom,A", None),
            ("foo", None),
        ] {
            assert_eq!(Mark::of(named).map(|mark| (mark.parts(false), mark.parts(true))), parts, "{named}");
        }
    }
}
