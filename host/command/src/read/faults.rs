//! What is wrong with a region, in words, and what to try instead.

use super::{Asked, Region, Source};
use crate::advice;
use crate::failure::{Failure, Refused, Unreadable};
use crate::nearest::nearest;
use crate::place::{commas, count, quoted, short};
use wakeluri::region::{Reading, Written, is_before_a_colon, plain_form};
use wakeluri::{Call, Refusal, Row};

impl Source<'_> {
    /// What was asked for, where, and what is wrong with it.
    fn words(self, asked: Asked<'_>, what: &str) -> String {
        let whence = asked.sheet.map_or(String::new(), |(sheet, line)| format!("{sheet}, line {line}: "));
        format!("{whence}{}: {} was asked for, and {what}", self.fasta.shown, short(asked.text))
    }

    fn refused(self, asked: Asked<'_>, what: String, next: String, refusal: Refusal) -> Failure {
        let words = self.words(asked, &what);
        let region = Some(quoted(asked.text));
        let sheet = asked.sheet.map(|(sheet, line)| (sheet.to_string(), line));
        Refused { region, sheet, ..Refused::of(&self.fasta.shown, words, next, refusal) }.into()
    }

    /// What follows a record's name is no region of it.
    pub(super) fn no_bounds(self, asked: Asked<'_>, row: Row, why: &str) -> Failure {
        let name = self.rows.record(row).map_or(String::new(), |record| short(record.name));
        let what = format!("there is a record {name}, and what follows is no region of it: {why}");
        self.unreadable(asked, &what, format!("write it as {name}:5-9"))
    }

    /// What stands behind a region is one too.
    pub(super) fn two_in_a_line(self, asked: Asked<'_>) -> Failure {
        let what = format!("behind it stands '{}', which is a record too", short(asked.second().unwrap_or_default()));
        self.unreadable(
            asked,
            &what,
            "write each region in a line of its own, and labels that are no names".to_string(),
        )
    }

    fn unreadable(self, asked: Asked<'_>, what: &str, next: String) -> Failure {
        Failure::Unreadable(Box::new(Unreadable {
            words: self.words(asked, what),
            next,
            file: Some(self.fasta.shown.clone()),
            region: asked.text.to_vec(),
            sheet: asked.sheet.map(|(sheet, line)| (sheet.to_string(), line)),
        }))
    }

    /// More than one record may be meant: each way to read it, and a form that has no other.
    pub(super) fn several(self, asked: Asked<'_>, ways: &[(Reading<'_>, Row)], refusal: Refusal) -> Failure {
        let told = |(reading, _): &(Reading<'_>, Row)| match reading.bounds {
            None => format!("the whole of {}", short(reading.name)),
            Some(bounds) => format!("'{}' of {}", short(bounds), short(reading.name)),
        };
        let plain = |(reading, row): &(Reading<'_>, Row)| {
            let length = self.rows.record(*row).map_or(0, |record| record.length);
            plain_form(*reading, length, |name| self.rows.find(name).ok())
        };
        let forms: Vec<String> = ways.iter().filter_map(plain).map(|form| quoted(&form)).collect();
        let what = format!(
            "it can be read in {} ways: {}",
            if ways.len() == 2 { "two" } else { "three" },
            ways.iter().map(told).collect::<Vec<_>>().join(", or ")
        );
        self.refused(asked, what, format!("say which is meant: {}", forms.join(" or ")), refusal)
    }

    pub(super) fn no_name(self, asked: Asked<'_>, name: &[u8], refusal: Refusal, look: bool) -> Failure {
        let what = format!("no record is named '{}'", short(name));
        if !look {
            return self.refused(asked, what, String::new(), refusal);
        }
        // the longest name that stands before a colon, with something that is no bounds behind it
        let records = self.rows.rows().zip(self.rows.records());
        let in_words = asked.named.is_none();
        let before = records.filter(|(_, record)| in_words && is_before_a_colon(record.name, asked.text));
        if let Some((row, record)) =
            before.reduce(|one, two| if two.1.name.len() > one.1.name.len() { two } else { one })
        {
            let behind = asked.text.get(record.name.len() + 1..).unwrap_or_default();
            if let Err(why) = Written::of(behind) {
                return self.no_bounds(asked, row, &why);
            }
        }
        let near = nearest(name, self.rows.records().map(|record| record.name));
        let near: Vec<String> = near.into_iter().map(quoted).collect();
        let next = if near.is_empty() {
            let first: Vec<String> = self.rows.records().take(5).map(|record| short(record.name)).collect();
            let more = if self.rows.len() > first.len() { ", .." } else { "" };
            format!("it has {}: {}{more}", count(self.rows.len() as u64, "record"), first.join(", "))
        } else {
            format!("the nearest {}: {}", if near.len() == 1 { "name is" } else { "names are" }, near.join(", "))
        };
        self.refused(asked, what, next, refusal)
    }

    /// A refusal of a read, in words.
    pub(super) fn not_read(self, asked: Asked<'_>, row: Row, written: &Written, refusal: Refusal) -> Failure {
        let name = self.rows.record(row).map_or(String::new(), |record| short(record.name));
        let length = self.rows.record(row).map_or(0, |record| record.length);
        let (what, next) = match refusal.number {
            16 => {
                let crossed = matches!((&written.start, &written.end), (Some(start), Some(end)) if start > end);
                if crossed {
                    (
                        "its start is after its end".to_string(),
                        "for the other strand, read it forwards with `wakeluri revcomp`".to_string(),
                    )
                } else {
                    ("a bound is 0, and bases count from 1".to_string(), format!("the first base is {name}:1-1"))
                }
            }
            17 if length == 0 => (format!("{name} has no bases"), String::new()),
            17 => {
                let over = [&written.start, &written.end].into_iter().flatten().max();
                let over = over.map_or(String::new(), |base| {
                    format!(": base {} is past their end", short(base.to_string().as_bytes()))
                });
                let bits = written.over().map_or("", |_| " (and over 64 bits)");
                let starts = written.start.as_ref().and_then(|start| start.value).unwrap_or(1);
                let next = if starts <= length && written.start.as_ref().is_none_or(|start| start.value.is_some()) {
                    format!("to read to the end: {name}:{starts}-{length}")
                } else {
                    format!("its bases are {name}:1-{length}")
                };
                (format!("{name} has {}{over}{bits}", count(length, "base")), next)
            }
            18 => (
                format!("by the index base {} would lie where the file has no byte", commas(refusal.first)),
                format!("the index is not right for this file\n{}", advice::new_index(self.fasta)),
            ),
            14 => (
                format!("{} of memory are needed for it, and not to be had", count(refusal.first, "byte")),
                "ask for less at a time".to_string(),
            ),
            24 => {
                let byte = u8::try_from(refusal.second).unwrap_or(b'?');
                let start = written.start.as_ref().and_then(|start| start.value).unwrap_or(1);
                (
                    format!(
                        "base {} of {name} is '{}', which has no complement",
                        commas(start.saturating_add(refusal.first)),
                        byte.escape_ascii()
                    ),
                    "the letters that have one are ACGTU and MRWSYKVHDBN, small ones too".to_string(),
                )
            }
            _ => (refusal.words(), String::new()),
        };
        self.refused(asked, what, next, refusal)
    }

    /// A refusal to write what was read.
    pub fn not_written(self, region: Region<'_>, refusal: Refusal) -> Failure {
        let what = match refusal.number {
            30 if refusal.call == Call::FastqIndex => {
                "it has a carriage return, or a '+' among its bases, at the end of a line or \
                 the front of one, which would not read back from a FASTQ file"
                    .to_string()
            }
            30 => "it has a '>' or a carriage return among its bases, which would not read back from a FASTA file"
                .to_string(),
            _ => refusal.words(),
        };
        self.refused(region.asked, what, "with --json the bases are written as they are".to_string(), refusal)
    }
}
