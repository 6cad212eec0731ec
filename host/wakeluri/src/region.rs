//! Regions as people write them: `name`, `name:5`, `name:5-`, `name:-9`, `name:5-9`, with thousands commas, `{name}:5-9`.
//!
//! ```
//! use wakeluri::region::{Meaning, meaning};
//! let table = wakeluri::index(b">chr1\nACGT\n>HLA:A\nAC\n")?;
//! let find = |name: &[u8]| table.find(name).ok();
//! let Meaning::Row(row, written) = meaning(b"chr1:2-1,000", find) else { panic!("a row") };
//! assert_eq!((row.number(), written.bounds()), (0, Some((2..=1000).into())));
//! let Meaning::Row(row, written) = meaning(b"HLA:A", find) else { panic!("a row") };
//! assert_eq!((row.number(), written.bounds()), (1, Some((..).into())));
//! # Ok::<(), wakeluri::Refusal>(())
//! ```
//!
//! As in samtools, `name:5` is from base 5 to the end. A region may be read in three ways: as a name in braces, as a name, and as a
//! name with bounds behind its last colon. It is answered where one of them leads to a record that exists. Where more than one does,
//! nobody can know which is meant, and it is refused.

use crate::shown::short;
use crate::{Bounds, Row};
use alloc::string::{String, ToString};
use alloc::vec::Vec;
use core::cmp::Ordering;

/// A number as it is written: its value where 64 bits hold it, and else its digits without needless zeros.
#[derive(Clone, Debug, Eq, PartialEq)]
pub struct Number {
    /// The value, if 64 bits hold it.
    pub value: Option<u64>,
    /// The digits, if they don't.
    digits: String,
}

impl Number {
    /// Digits, with commas before each group of three or none.
    fn of(text: &str) -> Result<Self, String> {
        let all_digits = |part: &str| !part.is_empty() && part.bytes().all(|byte| byte.is_ascii_digit());
        if all_digits(text) {
            return Ok(Self::of_digits(text));
        }
        let (first, rest) = text.split_once(',').unwrap_or((text, ""));
        if !all_digits(first) || !rest.split(',').all(all_digits) {
            return Err(format!("'{}' is no number", short(text.as_bytes())));
        }
        if first.len() > 3 || rest.split(',').any(|group| group.len() != 3) {
            return Err(format!("the commas of '{}' don't part its digits in threes", short(text.as_bytes())));
        }
        Ok(Self::of_digits(&text.replace(',', "")))
    }

    fn of_digits(digits: &str) -> Self {
        let value = digits.parse().ok();
        let kept = if value.is_some() { "" } else { digits.trim_start_matches('0') };
        Self { value, digits: kept.to_string() }
    }
}

impl PartialOrd for Number {
    fn partial_cmp(&self, other: &Self) -> Option<Ordering> {
        Some(self.cmp(other))
    }
}

impl Ord for Number {
    fn cmp(&self, other: &Self) -> Ordering {
        match (self.value, other.value) {
            (Some(value), Some(other)) => value.cmp(&other),
            (Some(_), None) => Ordering::Less,
            (None, Some(_)) => Ordering::Greater,
            (None, None) => self.digits.len().cmp(&other.digits.len()).then_with(|| self.digits.cmp(&other.digits)),
        }
    }
}

impl core::fmt::Display for Number {
    fn fmt(&self, f: &mut core::fmt::Formatter<'_>) -> core::fmt::Result {
        match self.value {
            Some(value) => value.fmt(f),
            None => f.write_str(&self.digits),
        }
    }
}

/// The bounds as they are written.
#[derive(Clone, Debug, Default, Eq, PartialEq)]
pub struct Written {
    /// The first base.
    pub start: Option<Number>,
    /// The last base.
    pub end: Option<Number>,
}

impl Written {
    /// What stands after the colon.
    pub fn of(text: &[u8]) -> Result<Self, String> {
        if let Some(written) = Self::of_plain(text) {
            return Ok(written);
        }
        let text = core::str::from_utf8(text).map_err(|_| "the bounds are no text".to_string())?;
        let number = |text: &str| if text.is_empty() { Ok(None) } else { Number::of(text).map(Some) };
        match text.split_once('-') {
            None if text.is_empty() => Err("nothing stands after the colon".to_string()),
            None => Ok(Self { start: number(text)?, end: None }),
            Some(("", "")) => Err("there is no number at either side of '-'".to_string()),
            Some((start, end)) => Ok(Self { start: number(start)?, end: number(end)? }),
        }
    }

    /// The same of what is written most often: `5-9`.
    fn of_plain(text: &[u8]) -> Option<Self> {
        let number = |value| Some(Number { value: Some(value), digits: String::new() });
        let ([start, end], before) = plain_bounds(text)?;
        before.is_empty().then_some(Self { start: number(start), end: number(end) })
    }

    /// Whether a bound is 0, or the start after the end.
    pub fn senseless(&self) -> bool {
        let zero = |number: &Option<Number>| number.as_ref().is_some_and(|number| number.value == Some(0));
        let crossed = matches!((&self.start, &self.end), (Some(start), Some(end)) if start > end);
        zero(&self.start) || zero(&self.end) || crossed
    }

    /// The bounds as numbers, if 64 bits hold them.
    pub fn bounds(&self) -> Option<Bounds> {
        let value = |number: &Option<Number>| match number {
            None => Some(None),
            Some(number) => number.value.map(Some),
        };
        Some(Bounds { start: value(&self.start)?, end: value(&self.end)? })
    }

    /// The first bound that 64 bits don't hold.
    pub fn over(&self) -> Option<&Number> {
        [&self.start, &self.end].into_iter().flatten().find(|number| number.value.is_none())
    }
}

/// A number of up to 19 digits at the end of a text, and what stands before it.
fn last_number(text: &[u8]) -> Option<(u64, &[u8])> {
    let (mut value, mut unit, mut before) = (0, 1, text);
    while let [rest @ .., byte @ b'0'..=b'9'] = before {
        if text.len() - before.len() == 19 {
            return None;
        }
        value += u64::from(byte - b'0') * unit;
        (unit, before) = (unit.wrapping_mul(10), rest);
    }
    (before.len() < text.len()).then_some((value, before))
}

/// The bounds `5-9` at the end of a text, in digits that 64 bits hold, and what stands before them: one look at each byte.
fn plain_bounds(text: &[u8]) -> Option<([u64; 2], &[u8])> {
    let (end, before) = last_number(text)?;
    let (start, before) = last_number(before.strip_suffix(b"-")?)?;
    Some(([start, end], before))
}

/// The name and the bounds of a region as most are written, `name:5-9`. Where all of it is no name, and the name exists, that is what
/// [`meaning`] says of it.
#[cfg(feature = "std")]
pub(crate) fn plain(region: &[u8]) -> Option<(&[u8], Bounds)> {
    let ([start, end], before) = plain_bounds(region)?;
    let name = before.strip_suffix(b":").filter(|_| !region.starts_with(b"{"))?;
    Some((name, (start..=end).into()))
}

/// A way to read a region: a name, and what stands behind the colon after it.
#[derive(Clone, Copy, Debug, Eq, PartialEq)]
pub struct Reading<'r> {
    /// The name.
    pub name: &'r [u8],
    /// The bounds as they are written; none for a whole record.
    pub bounds: Option<&'r [u8]>,
}

impl Reading<'_> {
    /// Whether it makes sense, if there is such a record. What was surely not meant as bounds does not: HLA:A is no part of HLA.
    fn is_sensible(&self) -> bool {
        self.bounds.is_none_or(like_bounds)
    }
}

/// The ways to read a region, whatever records there are.
pub fn readings(region: &[u8]) -> impl Iterator<Item = Reading<'_>> + Clone {
    let whole = Reading { name: region, bounds: None };
    let parted = region.iter().rposition(|byte| *byte == b':').map(|colon| before_and_behind(region, colon));
    [braced(region), Some(whole), parted].into_iter().flatten()
}

/// The name before a colon, and the bounds behind it.
fn before_and_behind(region: &[u8], colon: usize) -> Reading<'_> {
    Reading { name: region.get(..colon).unwrap_or_default(), bounds: region.get(colon + 1..) }
}

/// A name in braces, and what stands behind a colon after it.
fn braced(region: &[u8]) -> Option<Reading<'_>> {
    let inner = region.strip_prefix(b"{")?;
    let close = inner.iter().rposition(|byte| *byte == b'}')?;
    match (inner.get(..close)?, inner.get(close + 1..)?) {
        (name, []) => Some(Reading { name, bounds: None }),
        (name, [b':', bounds @ ..]) => Some(Reading { name, bounds: Some(bounds) }),
        _ => None,
    }
}

/// Whether a text may be meant as bounds, good or bad: digits, commas and hyphens, nothing at all, and the numbers of other tools
/// (1.5k, 2e6, +5).
fn like_bounds(text: &[u8]) -> bool {
    let begins = text.first().is_none_or(|byte| byte.is_ascii_digit() || b",-+.".contains(byte));
    begins && text.iter().all(|byte| byte.is_ascii_digit() || b",-+.eEkKmMgG".contains(byte))
}

/// What a region means.
#[derive(Debug, Eq, PartialEq)]
pub enum Meaning<'r> {
    /// This row, with these bounds.
    Row(Row, Written),
    /// A name that exists, with bounds that can't be read, and why.
    Bounds(Row, String),
    /// More than one way to read it leads to a record.
    Several(Vec<(Reading<'r>, Row)>),
    /// No name in it exists: the name that was most likely meant.
    NoName(&'r [u8]),
}

/// What a region means; `find` gives the row of a name.
pub fn meaning(region: &[u8], find: impl Fn(&[u8]) -> Option<Row>) -> Meaning<'_> {
    // there are three ways at most
    let mut there = [None; 3];
    let found = readings(region).filter_map(|reading| Some((reading, find(reading.name)?)));
    there.iter_mut().zip(found).for_each(|(place, way)| *place = Some(way));
    let sensible = there.map(|way| way.filter(|(reading, _)| reading.is_sensible()));
    let mut ways = sensible.iter().flatten();
    let first = ways.next();
    if ways.next().is_some() {
        return Meaning::Several(sensible.into_iter().flatten().collect());
    }
    // bounds that make no sense are the answer only if there is nothing better
    match first.or(there.iter().flatten().next()) {
        Some((Reading { bounds: None, .. }, row)) => Meaning::Row(*row, Written::default()),
        Some((Reading { bounds: Some(bounds), .. }, row)) => bounded(*row, bounds),
        None => Meaning::NoName(meant(region)),
    }
}

/// The name that was most likely meant: what stands in braces, or before a colon that bounds follow, or all.
fn meant(region: &[u8]) -> &[u8] {
    let bounded = |reading: &Reading<'_>| reading.bounds.is_some_and(|bounds| Written::of(bounds).is_ok());
    let named = braced(region).or_else(|| readings(region).find(bounded));
    named.map_or(region, |reading| reading.name)
}

/// Whether a name is all that stands before one of a region's colons.
pub fn is_before_a_colon(name: &[u8], region: &[u8]) -> bool {
    region.strip_prefix(name).is_some_and(|rest| rest.starts_with(b":"))
}

/// A form of a reading that can't be read in another way, if there is one; for a record of so many bases.
pub fn plain_form(reading: Reading<'_>, length: u64, find: impl Fn(&[u8]) -> Option<Row>) -> Option<Vec<u8>> {
    let behind = reading.bounds.map_or(vec![], |bounds| [b":", bounds].concat());
    let whole = format!(":1-{length}").into_bytes();
    let only = |form: &Vec<u8>| match meaning(form, &find) {
        Meaning::Row(row, _) | Meaning::Bounds(row, _) => find(reading.name) == Some(row),
        Meaning::Several(_) | Meaning::NoName(_) => false,
    };
    let forms = [behind, whole].into_iter().take(if reading.bounds.is_none() { 2 } else { 1 });
    let forms =
        forms.flat_map(|behind| [[b"{", reading.name, b"}", &behind].concat(), [reading.name, &behind].concat()]);
    forms.into_iter().find(only)
}

fn bounded<'r>(row: Row, bounds: &[u8]) -> Meaning<'r> {
    match Written::of(bounds) {
        Ok(written) => Meaning::Row(row, written),
        Err(why) => Meaning::Bounds(row, why),
    }
}

#[cfg(test)]
mod tests {
    use super::*;

    fn told(region: &str, names: &[&str]) -> String {
        let find = |name: &[u8]| names.iter().position(|known| known.as_bytes() == name).map(Row::of_any_table);
        let number = |number: Option<Number>| number.map_or("_".to_string(), |number| number.to_string());
        match meaning(region.as_bytes(), find) {
            Meaning::Row(row, Written { start, end }) => {
                format!("{} {} {}", names[row.number()], number(start), number(end))
            }
            Meaning::Bounds(row, why) => format!("{}? {why}", names[row.number()]),
            Meaning::NoName(name) => format!("no {}", String::from_utf8_lossy(name)),
            Meaning::Several(ways) => {
                let form = |(reading, _)| plain_form(reading, 7, find).unwrap_or_default();
                let forms = ways.into_iter().map(|way| String::from_utf8(form(way)).unwrap());
                format!("say {}", forms.collect::<Vec<_>>().join(" or "))
            }
        }
    }

    #[test]
    fn each_form() {
        for (region, means) in [
            ("s", "s _ _"),
            ("s:5", "s 5 _"),
            ("s:5-", "s 5 _"),
            ("s:-9", "s _ 9"),
            ("s:5-9", "s 5 9"),
            ("s:1,000-12,345,678", "s 1000 12345678"),
            ("{s}", "s _ _"),
            ("{s}:5-9", "s 5 9"),
            ("s:007", "s 7 _"),
            ("s:", "s? nothing stands after the colon"),
            ("s:-", "s? there is no number at either side of '-'"),
            ("s:x", "s? 'x' is no number"),
            ("s:5-9-12", "s? '9-12' is no number"),
            ("s:1,00", "s? the commas of '1,00' don't part its digits in threes"),
            ("s:+5", "s? '+5' is no number"),
            ("t:5-9", "no t"),
            ("t", "no t"),
            ("t:u", "no t:u"),
            ("{t}:5", "no t"),
        ] {
            assert_eq!(told(region, &["s"]), means, "{region}");
        }
    }

    #[test]
    fn names_with_colons_and_braces() {
        for (region, names, means) in [
            ("a:b:5-9", &["a", "a:b"][..], "a:b 5 9"),
            ("a:b", &["a:b", "a"], "a:b _ _"),
            ("a:b:c", &["a", "a:b"], "a:b? 'c' is no number"),
            ("{a}:5", &["a", "a:5"], "a 5 _"),
            ("{a:5}", &["a", "a:5"], "a:5 _ _"),
            ("{a:5}:5", &["a", "a:5"], "a:5 5 _"),
            ("a:5:5", &["a", "a:5"], "a:5 5 _"),
            ("{odd}name", &["{odd}name"], "{odd}name _ _"),
            ("{odd}:5", &["{odd}"], "{odd} 5 _"),
            ("{odd}", &["{odd}"], "{odd} _ _"),
            ("{odd", &["{odd"], "{odd _ _"),
            ("{a", &["a"], "no {a"),
            ("a}", &["a"], "no a}"),
            ("{a}x", &["a"], "no {a}x"),
            ("{}:5", &["a"], "no "),
        ] {
            assert_eq!(told(region, names), means, "{region} among {names:?}");
        }
    }

    #[test]
    fn more_than_one_way_to_read_it() {
        for (region, names, says) in [
            ("a:5", &["a", "a:5"][..], "say {a:5} or {a}:5"),
            ("a:5-9", &["a:5-9", "a"], "say {a:5-9} or {a}:5-9"),
            ("a:b:1,000", &["a:b", "a:b:1,000"], "say {a:b:1,000} or {a:b}:1,000"),
            // what other tools take for bounds
            ("a:", &["a", "a:"], "say {a:} or {a}:"),
            ("a:-", &["a", "a:-"], "say {a:-} or {a}:-"),
            ("a:1,0", &["a", "a:1,0"], "say {a:1,0} or {a}:1,0"),
            ("a:1k", &["a", "a:1k"], "say {a:1k} or {a}:1k"),
            // names in braces
            ("{a}", &["a", "{a}"], "say a or {{a}}"),
            ("{a}:5", &["a", "{a}"], "say a:5 or {{a}}:5"),
            ("{a}:5", &["{a}", "{a}:5"], "say {{a}:5} or {{a}}:5"),
            ("{a}:5", &["a", "{a}", "{a}:5"], "say a:5 or {{a}:5} or {{a}}:5"),
            ("a:5", &["a", "a:5", "{a:5}"], "say a:5:1-7 or {a}:5"),
        ] {
            assert_eq!(told(region, names), says, "{region} among {names:?}");
        }
    }

    #[test]
    fn numbers_of_any_size() {
        let written = Written::of(b"99999999999999999999-18446744073709551615").unwrap();
        assert!(written.senseless());
        assert!(written.over().is_some());
        assert!(!Written::of(b"18446744073709551615-18446744073709551616").unwrap().senseless());
        assert!(Written::of(b"18446744073709551615").unwrap().over().is_none());
    }
}
