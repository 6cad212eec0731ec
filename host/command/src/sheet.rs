//! Sheets of regions, as editors, spreadsheets and other tools write them.
//!
//! A line holds a region, and behind a blank or a tab a strand ('+' or '-') and a label may follow; the label is kept in the answer, and
//! of the strand '-' the reverse complement is asked for. Lines that begin with '#' and blank lines are passed over. What may be a region
//! written in another way is never taken for a label: it is a fault.

use crate::failure::{Failure, Unreadable};
use crate::place::short;
use crate::read::{AllAsked, Asked, Named};
use crate::warning::Warning;
use std::borrow::Cow;

/// The lines of a sheet.
#[derive(Debug)]
pub struct Sheet {
    /// The name for messages.
    shown: String,
    text: Vec<u8>,
    /// Whether its lines are BED.
    bed: bool,
    /// Regions as they are shown, where lines don't hold them.
    regions: Vec<Vec<u8>>,
}

/// A line of BED: a name, and bases counted from 1.
struct Bed<'b> {
    named: Named<'b>,
    label: Option<&'b [u8]>,
    is_reverse: bool,
}

impl Sheet {
    /// Of the bytes of a file.
    pub fn new(shown: &str, bytes: &[u8], bed: bool) -> Result<Self, Failure> {
        let text = plain(bytes).map_err(|why| Failure::Usage(format!("{shown}: {why}")))?.into_owned();
        let mut sheet = Self { shown: shown.to_string(), text, bed, regions: vec![] };
        if bed {
            let shown = |(_, line)| match bed_line(line) {
                Ok(Bed { named: Named { name, start, end }, .. }) => {
                    [name, format!(":{start}-{end}").as_bytes()].concat()
                }
                Err(_) => line.to_vec(),
            };
            sheet.regions = sheet.lines().map(shown).collect();
        }
        Ok(sheet)
    }

    /// Its name for messages.
    pub fn shown(&self) -> &str {
        &self.shown
    }

    /// The lines that hold something, with their numbers.
    fn lines(&self) -> impl Iterator<Item = (u64, &[u8])> {
        let is_passed_over = |line: &[u8]| {
            line.is_empty()
                || line.starts_with(b"#")
                || self.bed && matches!(fields(line).next(), Some(b"track" | b"browser"))
        };
        let trimmed = lines(&self.text).zip(1..).map(|(line, number)| (number, line.trim_ascii()));
        trimmed.filter(move |(_, line)| !is_passed_over(line))
    }

    /// The regions that it asks for, and what is wrong with the other lines.
    pub fn asked(&self) -> Vec<Result<Asked<'_>, Failure>> {
        if self.bed {
            self.lines().zip(&self.regions).map(|((number, line), region)| self.of_bed(number, line, region)).collect()
        } else {
            self.lines().map(|(number, line)| self.of_line(number, line)).collect()
        }
    }

    fn of_line<'s>(&'s self, number: u64, line: &'s [u8]) -> Result<Asked<'s>, Failure> {
        let end = line.iter().position(u8::is_ascii_whitespace).unwrap_or(line.len());
        let (text, label) = line.split_at(end);
        let (is_reverse, label) = strand(text, label.trim_ascii());
        let label = Some(label).filter(|label| !label.is_empty());
        let asked = Asked { sheet: Some((&self.shown, number)), label, is_reverse, ..Asked::of(text) };
        match label.and_then(|label| not_a_label(text, label)) {
            None => Ok(asked),
            Some((what, next)) => Err(self.unreadable(number, line, &what, next)),
        }
    }

    fn of_bed<'s>(&'s self, number: u64, line: &'s [u8], region: &'s [u8]) -> Result<Asked<'s>, Failure> {
        let Bed { named, label, is_reverse } =
            bed_line(line).map_err(|(what, next)| self.unreadable(number, line, &what, next))?;
        let (sheet, named) = (Some((self.shown.as_str(), number)), Some(named));
        Ok(Asked { sheet, named, label, is_reverse, ..Asked::of(region) })
    }

    fn unreadable(&self, number: u64, line: &[u8], what: &str, next: String) -> Failure {
        Failure::Unreadable(Box::new(Unreadable {
            words: format!("{}, line {number}: '{}': {what}", self.shown, short(line)),
            next,
            file: None,
            region: line.to_vec(),
            sheet: Some((self.shown.clone(), number)),
        }))
    }
}

/// The first line that asks for the other strand, and its sheet.
fn first_reverse<'a>(asked: &AllAsked<'a>) -> Option<(&'a str, u64)> {
    asked.iter().flatten().find(|asked| asked.is_reverse).and_then(|asked| asked.sheet)
}

/// Fails where a strand is named, and the command turns all of them by itself.
pub fn no_strands(asked: &AllAsked<'_>) -> Result<(), Failure> {
    first_reverse(asked).map_or(Ok(()), |(sheet, line)| {
        Err(Failure::Usage(format!(
            "{sheet}, line {line}: it names the strand '-', and all regions are to be turned: `wakeluri read` reads each by its strand"
        )))
    })
}

/// Warns that strands are ignored by a command that searches both.
pub fn warn_of_strands(asked: &AllAsked<'_>) {
    let Some((sheet, line)) = first_reverse(asked) else { return };
    let words = format!("{sheet}, line {line}: the strand '-' is passed over: both strands are looked at");
    Warning { place: Some((line, 1)), ..Warning::new(sheet, words) }.say();
}

/// The text of a sheet without marks before it, and of one byte to a letter.
fn plain(bytes: &[u8]) -> Result<Cow<'_, [u8]>, String> {
    let wide = |rest: &[u8], unit: fn([u8; 2]) -> u16| {
        let units: Vec<u16> = rest.chunks(2).map(|pair| pair.try_into().map_or(0xd800, unit)).collect();
        let text = String::from_utf16(&units).map_err(|_| "it begins as UTF-16, and is broken".to_string())?;
        Ok(Cow::Owned(text.into_bytes()))
    };
    match bytes {
        [0xef, 0xbb, 0xbf, rest @ ..] => Ok(Cow::Borrowed(rest)),
        [0xff, 0xfe, rest @ ..] => wide(rest, u16::from_le_bytes),
        [0xfe, 0xff, rest @ ..] => wide(rest, u16::from_be_bytes),
        _ if bytes.contains(&0) => {
            Err("it holds zero bytes: save the sheet as plain text, or as UTF-16 with a byte order mark".to_string())
        }
        _ => Ok(Cow::Borrowed(bytes)),
    }
}

/// The lines of a text, which end in LF, in CR and LF, or in CR alone.
fn lines(text: &[u8]) -> impl Iterator<Item = &[u8]> {
    let mut rest = Some(text);
    std::iter::from_fn(move || {
        let text = rest?;
        let Some(end) = text.iter().position(|byte| matches!(byte, b'\n' | b'\r')) else {
            rest = None;
            return Some(text);
        };
        let width = if text.get(end..end + 2) == Some(b"\r\n") { 2 } else { 1 };
        rest = text.get(end + width..);
        text.get(..end)
    })
}

fn fields(line: &[u8]) -> impl Iterator<Item = &[u8]> {
    line.split(u8::is_ascii_whitespace).filter(|field| !field.is_empty())
}

/// Whether the strand '-' follows a region that has both ends, and what follows a strand. Behind another region a sign may be a part of it.
fn strand<'l>(region: &[u8], label: &'l [u8]) -> (bool, &'l [u8]) {
    let Some((sign @ (b'+' | b'-'), rest)) = label.split_first() else { return (false, label) };
    let is_alone = rest.first().is_none_or(u8::is_ascii_whitespace);
    let rest = rest.trim_ascii_start();
    let is_bound = |part: &[u8]| !part.is_empty() && part.iter().all(|byte| byte.is_ascii_digit() || *byte == b',');
    let bounds = region.rsplit(|byte| *byte == b':').next().filter(|bounds| bounds.len() < region.len());
    let mut ends = bounds.unwrap_or_default().splitn(2, |byte| *byte == b'-');
    let has_both_ends = ends.next().is_some_and(is_bound) && ends.next().is_some_and(is_bound);
    let is_followed_by_bounds = fields(rest).next().is_some_and(is_like_bounds);
    if is_alone && has_both_ends && !is_followed_by_bounds { (*sign == b'-', rest) } else { (false, label) }
}

fn is_like_bounds(field: &[u8]) -> bool {
    field.iter().all(|byte| byte.is_ascii_digit() || b",-+.:".contains(byte))
}

/// Why what follows a region may be meant as a part of it, and what to write.
fn not_a_label(region: &[u8], label: &[u8]) -> Option<(String, String)> {
    let first = fields(label).next()?;
    let like_bounds = is_like_bounds(first);
    let open = region.last().is_some_and(|byte| b":,-".contains(byte));
    if !like_bounds && !open && first.first() != Some(&b':') {
        return None;
    }
    let numbers = fields(label).take(2).all(|field| field.iter().all(u8::is_ascii_digit));
    let next = if numbers && fields(label).nth(1).is_some() {
        "of BED, which counts from 0, say so with --bed; else write it as name:5-9"
    } else if matches!(label, b"+" | b"-") {
        "write a region without blanks; a strand stands behind one with both ends, as name:5-9 -"
    } else {
        "write a region without blanks, as name:5-9; a label behind it begins with a letter"
    };
    Some(("what follows the blank is no label, but may be a part of the region".to_string(), next.to_string()))
}

/// A line of BED, half open from 0, or what is wrong with it.
fn bed_line(line: &[u8]) -> Result<Bed<'_>, (String, String)> {
    let wrong = |what: &str| {
        (what.to_string(), "a line of BED has a name, a start from 0 and an end, which is not included".to_string())
    };
    let by_tabs = line.contains(&b'\t');
    let columns: Vec<&[u8]> = if by_tabs {
        line.split(|byte| *byte == b'\t').map(<[u8]>::trim_ascii).collect()
    } else {
        fields(line).collect()
    };
    let [name, start, end, more @ ..] = columns.as_slice() else {
        return Err(wrong("it has fewer than three columns"));
    };
    let number = |text: &[u8]| {
        let digits = std::str::from_utf8(text).ok().filter(|text| text.bytes().all(|byte| byte.is_ascii_digit()));
        digits.and_then(|digits| digits.parse::<u64>().ok())
    };
    let start = number(start).and_then(|start| start.checked_add(1)).ok_or(wrong("its start is no number"))?;
    let end = number(end).ok_or(wrong("its end is no number"))?;
    if end < start {
        return Err(wrong("its end is not behind its start, so that it has no bases"));
    }
    let label = more.first().copied().filter(|label| !matches!(*label, b"" | b"."));
    Ok(Bed { named: Named { name, start, end }, label, is_reverse: more.get(2) == Some(&&b"-"[..]) })
}

#[cfg(test)]
mod tests {
    use super::*;

    #[test]
    fn ends_of_lines() {
        let all: Vec<&[u8]> = lines(b"a\rb\r\nc\n\rd").collect();
        assert_eq!(all, [&b"a"[..], b"b", b"c", b"", b"d"]);
    }

    #[test]
    fn what_is_no_label() {
        for line in
            ["s:1 -5", "s:100 - 200", "s:1 000-2 000", "s 5 9", "s :5", "s: 5", "s:5- 9", "s:5 -", "s +", "s:5, 6"]
        {
            let (region, label) = line.split_once(' ').unwrap();
            assert_eq!(strand(region.as_bytes(), label.as_bytes()), (false, label.as_bytes()), "{line}");
            assert!(not_a_label(region.as_bytes(), label.as_bytes()).is_some(), "{line}");
        }
        for line in ["s:1-5 first primer", "s 5prime", "s:5 T7", "s exon-1"] {
            let (region, label) = line.split_once(' ').unwrap();
            assert!(not_a_label(region.as_bytes(), label.as_bytes()).is_none(), "{line}");
        }
    }

    #[test]
    fn strands() {
        for (line, is_reverse, label) in [
            ("s:5-9 -", true, ""),
            ("s:5-9 +", false, ""),
            ("s:1,005-1,009 -\tfirst primer", true, "first primer"),
            ("s:5-9 - x", true, "x"),
            ("s:5-9 -x", false, "-x"),
            ("s:5-9 - 12", false, "- 12"),
            ("s:5- -", false, "-"),
            ("s:-9 -", false, "-"),
            ("5-9 -", false, "-"),
        ] {
            let (region, rest) = line.split_once(' ').unwrap();
            assert_eq!(strand(region.as_bytes(), rest.as_bytes()), (is_reverse, label.as_bytes()), "{line}");
        }
    }
}
