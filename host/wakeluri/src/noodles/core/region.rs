//! A region: a name and an interval.

use super::Position;
use crate::noodles::bstr::{BStr, BString};
use crate::region::{Reading, Written, readings};
use std::error::Error;
use std::fmt;
use std::ops::{Bound, RangeBounds, RangeFrom, RangeFull, RangeInclusive, RangeToInclusive};
use std::str::FromStr;

/// From a first base to a last one, both included; each may be absent.
///
/// ```
/// use wakeluri::noodles::core::{Position, region::Interval};
/// let interval = Interval::from(Position::MIN..);
/// assert_eq!((interval.start(), interval.end()), (Some(Position::MIN), None));
/// assert_eq!("8-13".parse::<Interval>()?.to_string(), "8-13");
/// # Ok::<_, Box<dyn std::error::Error>>(())
/// ```
#[derive(Clone, Copy, Debug, Default, Eq, Hash, PartialEq)]
pub struct Interval {
    start: Option<Position>,
    end: Option<Position>,
}

impl Interval {
    /// The first base.
    pub fn start(&self) -> Option<Position> {
        self.start
    }

    /// The last base.
    pub fn end(&self) -> Option<Position> {
        self.end
    }

    /// The same as bounds.
    pub(crate) fn bounds(&self) -> crate::Bounds {
        let number = |position: Option<Position>| position.map(|position| position.get() as u64);
        (number(self.start), number(self.end)).into()
    }
}

macro_rules! from {
    ($($range:ty, $this:ident => $start:expr, $end:expr;)*) => {$(
        impl From<$range> for Interval {
            fn from($this: $range) -> Self {
                Self { start: $start, end: $end }
            }
        }
    )*};
}

from! {
    RangeInclusive<Position>, range => Some(*range.start()), Some(*range.end());
    RangeFrom<Position>, range => Some(range.start), None;
    RangeToInclusive<Position>, range => None, Some(range.end);
    RangeFull, _range => None, None;
}

impl RangeBounds<Position> for Interval {
    fn start_bound(&self) -> Bound<&Position> {
        self.start.as_ref().map_or(Bound::Unbounded, Bound::Included)
    }

    fn end_bound(&self) -> Bound<&Position> {
        self.end.as_ref().map_or(Bound::Unbounded, Bound::Included)
    }
}

impl fmt::Display for Interval {
    fn fmt(&self, f: &mut fmt::Formatter<'_>) -> fmt::Result {
        match (self.start, self.end) {
            (None, None) => Ok(()),
            (Some(start), None) => write!(f, "{start}"),
            (None, Some(end)) => write!(f, "{}-{end}", Position::MIN),
            (Some(start), Some(end)) => write!(f, "{start}-{end}"),
        }
    }
}

/// What is wrong with the text of a region.
#[derive(Clone, Debug, Eq, PartialEq)]
pub struct ParseError(String);

impl fmt::Display for ParseError {
    fn fmt(&self, f: &mut fmt::Formatter<'_>) -> fmt::Result {
        f.write_str(&self.0)
    }
}

impl Error for ParseError {}

/// The positions of bounds as they are written.
fn interval(written: &Written) -> Result<Interval, ParseError> {
    if written.senseless() {
        return Err(ParseError("a bound is 0, or the start is after the end".to_string()));
    }
    let bounds = written.bounds().ok_or_else(|| ParseError("a bound is over 64 bits".to_string()))?;
    let position = |number: Option<u64>| number.and_then(|number| Position::new(usize::try_from(number).ok()?));
    Ok(Interval { start: position(bounds.start), end: position(bounds.end) })
}

impl FromStr for Interval {
    type Err = ParseError;

    fn from_str(s: &str) -> Result<Self, ParseError> {
        if s.is_empty() { Ok(Self::default()) } else { interval(&Written::of(s.as_bytes()).map_err(ParseError)?) }
    }
}

/// A name and an interval.
///
/// ```
/// use wakeluri::noodles::core::{Position, Region};
/// let region: Region = "sq0:8-13".parse()?;
/// assert_eq!(region, Region::new("sq0", Position::try_from(8)?..=Position::try_from(13)?));
/// assert_eq!(region.to_string(), "sq0:8-13");
/// # Ok::<_, Box<dyn std::error::Error>>(())
/// ```
///
/// A text is parted at its last colon, if what follows can be bounds, as noodles does it: it knows no index. Where names may have colons,
/// [`Fasta::region`](crate::Fasta::region) asks which records there are.
#[derive(Clone, Debug, Eq, Hash, PartialEq)]
pub struct Region {
    name: BString,
    interval: Interval,
}

impl Region {
    /// A region.
    pub fn new(name: impl Into<BString>, interval: impl Into<Interval>) -> Self {
        Self { name: name.into(), interval: interval.into() }
    }

    /// The name.
    pub fn name(&self) -> &BStr {
        &self.name
    }

    /// The first base, as a bound.
    pub fn start(&self) -> Bound<Position> {
        self.interval.start.map_or(Bound::Unbounded, Bound::Included)
    }

    /// The last base, as a bound.
    pub fn end(&self) -> Bound<Position> {
        self.interval.end.map_or(Bound::Unbounded, Bound::Included)
    }

    /// The interval.
    pub fn interval(&self) -> Interval {
        self.interval
    }
}

impl fmt::Display for Region {
    fn fmt(&self, f: &mut fmt::Formatter<'_>) -> fmt::Result {
        match (self.interval.start, self.interval.end) {
            (None, None) => self.name.fmt(f),
            _ => write!(f, "{}:{}", self.name, self.interval),
        }
    }
}

impl FromStr for Region {
    type Err = ParseError;

    fn from_str(s: &str) -> Result<Self, ParseError> {
        let bounded =
            readings(s.as_bytes()).find_map(|Reading { name, bounds }| Some((name, Written::of(bounds?).ok()?)));
        let (name, interval) = match bounded {
            Some((name, written)) => (name, interval(&written)?),
            None => (s.as_bytes(), Interval::default()),
        };
        if name.is_empty() { Err(ParseError("there is no name".to_string())) } else { Ok(Self::new(name, interval)) }
    }
}
