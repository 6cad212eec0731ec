//! One call of an entry point by its name: the arguments of a question go as the call takes them, and the numbers of its answer are
//! had by their names. Both follow from the lists of host/wakeluri.

use questions::form::{self, Value};
use std::borrow::Cow;
use std::vec::IntoIter;
use wakeluri::{Bounds, entry};

/// The numbers of an answer.
pub(crate) trait Told {
    /// The refusal and its two numbers, if there is one.
    fn no(&self) -> Option<[u64; 3]>;
    /// The number of a name.
    fn number(&self, name: &str) -> Option<u64>;
}

macro_rules! numbers_by_name {
    ($($(#[$doc:meta])* struct $answer:ident { $($field:ident),* })*) => {$(
        impl Told for entry::$answer {
            fn no(&self) -> Option<[u64; 3]> {
                entry::$answer::no(self)
            }

            fn number(&self, name: &str) -> Option<u64> {
                match name {
                    $(stringify!($field) => Some(self.$field),)*
                    _ => None,
                }
            }
        }
    )*};
}

wakeluri::answers!(numbers_by_name);

/// A table as entry points take it: eight bytes to a number, low byte first.
fn bytes(table: &[u64]) -> Vec<u8> {
    table.iter().flat_map(|number| number.to_le_bytes()).collect()
}

/// A table that is lent as bytes, and is taken back as they were left.
pub(crate) struct Lent<'a> {
    table: &'a mut [u64],
    pub(crate) bytes: Vec<u8>,
}

impl<'a> Lent<'a> {
    pub(crate) fn new(table: &'a mut [u64]) -> Self {
        Self { bytes: bytes(table), table }
    }
}

impl Drop for Lent<'_> {
    fn drop(&mut self) {
        for (number, bytes) in self.table.iter_mut().zip(self.bytes.chunks_exact(8)) {
            *number = bytes.iter().rev().fold(0, |number, byte| number << 8 | u64::from(*byte));
        }
    }
}

/// What stands for one parameter of a call.
enum Argument<'a> {
    Bytes(Cow<'a, [u8]>),
    Maybe(Option<&'a [u8]>),
    Number(u64),
    Bounds(Bounds),
    Output(&'a mut [u8]),
    Table(&'a mut [u64]),
}

/// A region of a sheet as entry points take it: its row, and each bound with a flag before it.
fn region(row: u64, (start, end): form::Bounds) -> [u64; 5] {
    let flag = |bound: Option<u64>| u64::from(bound.is_some());
    [row, flag(start), start.unwrap_or(0), flag(end), end.unwrap_or(0)]
}

/// What stands for the parameters of a call: rows are a table, and how many are in use. None where an argument is none of one call.
fn arguments(values: &mut [Value]) -> Option<Vec<Argument<'_>>> {
    let mut found = vec![];
    for value in values {
        match value {
            Value::Bytes(bytes) => found.push(Argument::Bytes(Cow::Borrowed(bytes))),
            Value::MaybeBytes(bytes) => found.push(Argument::Maybe(bytes.as_deref())),
            Value::Number(number) => found.push(Argument::Number(*number)),
            Value::Bounds(bounds) => found.push(Argument::Bounds((*bounds).into())),
            Value::Rows(rows) => {
                found.push(Argument::Bytes(Cow::Owned(bytes(&rows.numbers))));
                found.push(Argument::Number(rows.in_use));
            }
            Value::Regions(regions) => {
                let numbers: Vec<u64> = regions.iter().flat_map(|(row, bounds)| region(*row, *bounds)).collect();
                found.push(Argument::Bytes(Cow::Owned(bytes(&numbers))));
            }
            Value::Output(out) => found.push(Argument::Output(out)),
            Value::Table(table) => found.push(Argument::Table(table)),
            Value::MaybeNumber(_) | Value::Numbers(_) | Value::Steps(_) | Value::Stepped(_) => return None,
        }
    }
    Some(found)
}

/// The next argument, if it is of the kind that a parameter has.
macro_rules! next {
    ($arguments:ident $kind:ident) => {
        match $arguments.next()? {
            Argument::$kind(argument) => argument,
            _ => return None,
        }
    };
}

/// The next argument as a parameter takes it.
macro_rules! lent {
    ($arguments:ident bytes) => { &next!($arguments Bytes) };
    ($arguments:ident maybe) => { next!($arguments Maybe) };
    ($arguments:ident number) => { next!($arguments Number) };
    ($arguments:ident bounds) => { next!($arguments Bounds) };
    ($arguments:ident output) => { next!($arguments Output) };
    ($arguments:ident table) => { &mut Lent::new(next!($arguments Table)).bytes };
    ($arguments:ident fastq_table) => { &mut Lent::new(next!($arguments Table)).bytes };
    ($arguments:ident numbers) => { next!($arguments Table) };
    ($arguments:ident state) => { state(&mut $arguments)? };
}

/// No argument of a question is what an earlier call left.
fn state(_: &mut IntoIter<Argument<'_>>) -> Option<entry::Feed> {
    None
}

macro_rules! calls {
    ($($(#[$doc:meta])* fn $name:ident($($parameter:ident: $kind:ident),*) -> $answer:ident;)*) => {
        /// Calls an entry point with these arguments, and a number behind them if there is one; `None` if it has other parameters.
        pub(crate) fn call(name: &str, values: &mut [Value], more: Option<u64>) -> Option<Box<dyn Told>> {
            let mut given = arguments(values)?;
            given.extend(more.map(Argument::Number));
            let count = given.len();
            let mut given = given.into_iter();
            Some(match name {
                $(stringify!($name) if count == [$(stringify!($parameter)),*].len() => {
                    Box::new(entry::$name($(lent!(given $kind)),*))
                })*
                _ => return None,
            })
        }

        /// The names of all entry points.
        #[cfg(test)]
        pub(crate) const NAMES: &[&str] = &[$(stringify!($name)),*];
    };
}

wakeluri::entry_points!(calls);

/// Each entry point answers some family: those that a file is fed to by the steps of one question, the others by their names.
#[test]
fn every_entry_point_is_asked() {
    use questions::family::{Call, families};
    for name in NAMES {
        let asked = families().any(|family| match family.call {
            Call::Entry(entry) | Call::EntryWith(entry, _) => entry == *name,
            Call::Fed(_) => name.starts_with("feed_"),
            Call::Program => false,
        });
        assert!(asked, "{name}");
    }
}
