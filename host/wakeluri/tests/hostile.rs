//! Calls with hostile numbers: random lengths, rows and bounds, tables that lie, empty slices, and bytes of all kinds.
//!
//! No call may crash, panic, or touch memory that it wasn't lent: tools/dev hostile runs this under valgrind. After each call the
//! memory that should have stayed is looked at. WAKELURI_CALLS says how many calls are made.

use questions::generate::Chance;
use wakeluri::entry::{self, ROW_BYTES, ROW_WORDS};
use wakeluri::fastq::{self, Part};
use wakeluri::{Bounds, Call, Edition, Names, ReadError, Refusal, Row, Table, Window};

const NUMBERS: [u64; 16] = [
    0,
    1,
    2,
    3,
    5,
    16,
    48,
    1 << 32,
    (1 << 40) - 1,
    1 << 40,
    (1 << 40) + 1,
    u64::MAX / 2,
    u64::MAX / 2 + 1,
    u64::MAX / 6,
    u64::MAX - 1,
    u64::MAX,
];

/// What stands in a list of starts before a call.
const STARTS: u64 = u64::MAX - 5;

fn number(chance: &mut Chance) -> u64 {
    match chance.below(4) {
        0 => chance.one_of(&NUMBERS),
        1 => chance.number() >> chance.below(64),
        _ => chance.below(40) as u64,
    }
}

/// Bytes in a piece of memory of just their size, so that a byte too far is noticed.
fn bytes(chance: &mut Chance, alphabet: &[u8]) -> Box<[u8]> {
    let most = chance.one_of(&[1, 4, 16, 40, 70, 150]);
    let length = chance.below(most);
    let any = chance.once_in(4);
    (0..length).map(|_| if any { chance.number() as u8 } else { chance.one_of(alphabet) }).collect()
}

fn fasta(chance: &mut Chance) -> Box<[u8]> {
    let mut text = bytes(chance, b">ss\n\nACGT\nACGT\nAC\r\n \t").into_vec();
    if chance.once_in(2) {
        text.splice(0..0, *b">s\n");
    }
    text.into_boxed_slice()
}

/// A FASTQ file, whose parts may not fit.
fn reads(chance: &mut Chance) -> Box<[u8]> {
    let records = chance.below(4);
    let mut text = vec![];
    for _ in 0..records {
        let bases = bytes(chance, b"ACGT\nACGT\n");
        let qualities: Vec<u8> = bases.iter().map(|b| if *b == b'\n' { *b } else { chance.one_of(b"@+I!") }).collect();
        text.extend([b"@s\n", &bases[..], b"\n+\n", &qualities, b"\n"].concat());
    }
    if chance.once_in(3) && !text.is_empty() {
        let at = chance.below(text.len());
        text[at] = chance.one_of(b"@+\n\rA");
    }
    text.into_boxed_slice()
}

/// An index of five or six columns.
fn index(chance: &mut Chance) -> Box<[u8]> {
    let lines = chance.below(4);
    let columns = 4 + chance.below(2);
    let text: String = (0..lines)
        .map(|_| (0..columns).fold("s".to_string(), |line, _| format!("{line}\t{}", number(chance))) + "\n")
        .collect();
    let mut text = text.into_bytes();
    if chance.once_in(3) && !text.is_empty() {
        let at = chance.below(text.len());
        text[at] = chance.one_of(b"\t\n\r0+x");
    }
    text.into_boxed_slice()
}

/// A table whose numbers may say anything, and whose last row may be a part of one.
fn table(chance: &mut Chance) -> Box<[u8]> {
    let rows = chance.below(4);
    let mut table: Vec<u8> = (0..ROW_WORDS * rows).flat_map(|_| number(chance).to_le_bytes()).collect();
    if chance.once_in(3) {
        table.extend(vec![9; chance.below(ROW_BYTES)]);
    }
    table.into_boxed_slice()
}

/// Regions of a sheet, the last of which may be a part of one; at times more than a sheet may have.
fn regions(chance: &mut Chance) -> Box<[u8]> {
    let regions = if chance.once_in(50) { 199 + chance.below(4) } else { chance.below(6) };
    let mut bytes = vec![];
    for _ in 0..regions {
        let row = if chance.once_in(3) { number(chance) } else { chance.below(3) as u64 };
        let Bounds { start, end } = if chance.once_in(3) { Bounds::from(1..=1) } else { bounds(chance) };
        let flag = |bound: Option<u64>| if bound.is_some() { 1 } else { 0 };
        let numbers = [row, flag(start), start.unwrap_or(7), flag(end), end.unwrap_or(7)];
        bytes.extend(numbers.into_iter().flat_map(u64::to_le_bytes));
    }
    if chance.once_in(3) {
        bytes.extend(vec![9; chance.below(40)]);
    }
    bytes.into_boxed_slice()
}

fn bounds(chance: &mut Chance) -> Bounds {
    let mut bound = || if chance.once_in(4) { None } else { Some(number(chance)) };
    Bounds { start: bound(), end: bound() }
}

/// Memory that a call may change, all of one byte.
fn room(chance: &mut Chance, longest: usize) -> Box<[u8]> {
    vec![b'.'; chance.below(longest)].into_boxed_slice()
}

/// Where the arguments of a call come from.
struct Hostile {
    chance: Chance,
    /// The whole rows of the last table.
    rows: usize,
}

impl Hostile {
    /// The bytes of a parameter, by its name.
    fn bytes(&mut self, parameter: &str) -> Box<[u8]> {
        let chance = &mut self.chance;
        match parameter {
            "line" | "content" if chance.once_in(2) => index(chance),
            "file" if chance.once_in(4) => reads(chance),
            "fastq" => reads(chance),
            "file" | "fasta" | "piece" | "names" | "line" | "content" => fasta(chance),
            "index" => index(chance),
            "bases" | "key" | "typed" => bytes(chance, b"ACGTN"),
            "exercise" if chance.once_in(3) => bytes(chance, b"\x01\x00\x01\x02\x00\x08\x03\x04"),
            "exercise" => {
                let (start, end) = (number(chance).min(3), number(chance));
                let edition = chance.one_of(&[Edition::First, Edition::Second]);
                wakeluri::write_exercise(b"s", start, end, edition).unwrap_or_default().into_boxed_slice()
            }
            "primer" | "text" => bytes(chance, b"ACGTRYN"),
            "regions" => regions(chance),
            "table" => {
                let table = table(chance);
                self.rows = table.len() / ROW_BYTES;
                table
            }
            _ => bytes(chance, b"s"),
        }
    }

    /// A number for a parameter, by its name: of a table's rows it is at times a right one.
    fn number(&mut self, parameter: &str) -> u64 {
        match parameter {
            "in_use" if self.chance.once_in(2) => self.rows as u64,
            "row" if self.chance.once_in(2) => 0,
            "length" if self.chance.once_in(2) => 1 << self.chance.below(41),
            "from" if self.chance.once_in(2) => self.chance.below(8) as u64,
            _ => number(&mut self.chance),
        }
    }
}

/// So many rows as nobody knows.
const ANY: usize = usize::MAX;

/// A state as no call need have left it: mostly small numbers, some of them hostile.
fn state(chance: &mut Chance) -> entry::Feed {
    let mut feed = entry::feed_start(chance.below(2) as u64);
    if chance.once_in(2) {
        feed = entry::feed_piece(feed, &fasta(chance), &mut table(chance));
    }
    let mut some = |at: &mut u64| {
        if chance.once_in(4) {
            *at = number(chance);
        }
    };
    some(&mut feed.rows);
    some(&mut feed.total);
    some(&mut feed.stage);
    some(&mut feed.next);
    some(&mut feed.at);
    some(&mut feed.end);
    some(&mut feed.name_start);
    some(&mut feed.description_start);
    some(&mut feed.lines);
    some(&mut feed.position);
    some(&mut feed.line_bases);
    some(&mut feed.line_width);
    some(&mut feed.bases);
    some(&mut feed.waiting_width);
    some(&mut feed.waiting_bases);
    some(&mut feed.waiting_whole);
    some(&mut feed.waiting_starts);
    some(&mut feed.waiting_name);
    some(&mut feed.waiting_text);
    some(&mut feed.waiting_kept);
    feed
}

/// What an answer tells: the refusal, how many bytes or rows it counts, and where the parts that it names end.
trait Judged {
    fn told(&self) -> (u64, usize, u64);
}

impl Judged for entry::Answer {
    fn told(&self) -> (u64, usize, u64) {
        (self.refusal, self.count as usize, 0)
    }
}

impl Judged for entry::Definition {
    fn told(&self) -> (u64, usize, u64) {
        let description = end(self.description_start, self.description_length);
        (self.refusal, 0, end(self.name_start, self.name_length).max(description))
    }
}

impl Judged for entry::Span {
    fn told(&self) -> (u64, usize, u64) {
        (self.refusal, 0, end(self.start, self.length))
    }
}

impl Judged for entry::Row {
    fn told(&self) -> (u64, usize, u64) {
        (self.refusal, 0, end(self.name_start, self.name_length))
    }
}

impl Judged for entry::Fastq {
    fn told(&self) -> (u64, usize, u64) {
        (self.refusal, 0, end(self.name_start, self.name_length))
    }
}

impl Judged for entry::Exercise {
    fn told(&self) -> (u64, usize, u64) {
        (self.refusal, 0, end(self.name_start, self.name_length))
    }
}

/// A state may say any refusal and any rows, and they are told again: only that nothing else is touched is looked at.
impl Judged for entry::Feed {
    fn told(&self) -> (u64, usize, u64) {
        (0, ANY, 0)
    }
}

impl Judged for entry::Score {
    fn told(&self) -> (u64, usize, u64) {
        assert!(self.score <= 1000);
        // a key that was fetched has as many bases as were asked
        (self.refusal, (self.right + self.wrong + self.missing) as usize, 0)
    }
}

impl Judged for entry::Part {
    fn told(&self) -> (u64, usize, u64) {
        // a part that is told has a byte, and is within the limit
        assert!(if self.refusal == 0 { self.from < self.to && self.to <= 1 << 40 } else { self.to == 0 });
        (self.refusal, 0, 0)
    }
}

/// Where a part ends; one of no bytes may be told at any place.
fn end(start: u64, length: u64) -> u64 {
    if length == 0 { 0 } else { start.saturating_add(length) }
}

/// The calls that are told how long a file is, beside what is lent.
const STATED: [&str; 2] = ["read_window", "needed_bytes"];

/// No refusal, or one that the library has words for. That of size is only of a length that is stated: nothing so long is lent.
fn has_words(call: &str, number: u64) -> bool {
    let refusal = Refusal::new(Call::Check, number, 0, 0);
    (number != 1 || STATED.contains(&call)) && (number == 0 || !refusal.words().contains("no words for"))
}

/// What was counted lies in what was lent, and all behind it is as it was.
fn stayed(written: usize, lent: &[u8]) {
    assert!(written <= lent.len() && lent[written..].iter().all(|b| *b == b'.'));
}

/// An argument of a kind.
#[rustfmt::skip]
macro_rules! made {
    (bytes $parameter:ident $hostile:ident) => { $hostile.bytes(stringify!($parameter)) };
    (maybe $parameter:ident $hostile:ident) => {
        if $hostile.chance.once_in(3) { None } else { Some($hostile.bytes(stringify!($parameter))) }
    };
    (output $parameter:ident $hostile:ident) => { room(&mut $hostile.chance, 60) };
    (table $parameter:ident $hostile:ident) => { room(&mut $hostile.chance, 3 * ROW_BYTES + 6) };
    (fastq_table $parameter:ident $hostile:ident) => { room(&mut $hostile.chance, 3 * fastq::ROW_BYTES + 6) };
    (numbers $parameter:ident $hostile:ident) => { vec![STARTS; $hostile.chance.below(6)].into_boxed_slice() };
    (number $parameter:ident $hostile:ident) => { $hostile.number(stringify!($parameter)) };
    (state $parameter:ident $hostile:ident) => { state(&mut $hostile.chance) };
    (bounds $parameter:ident $hostile:ident) => { bounds(&mut $hostile.chance) };
}

/// An argument as it is handed to a call.
#[rustfmt::skip]
macro_rules! lent {
    (bytes $argument:ident) => { &$argument };
    (maybe $argument:ident) => { $argument.as_deref() };
    (output $argument:ident) => { &mut $argument };
    (table $argument:ident) => { &mut $argument };
    (fastq_table $argument:ident) => { &mut $argument };
    (numbers $argument:ident) => { &mut $argument };
    (number $argument:ident) => { $argument };
    (state $argument:ident) => { $argument };
    (bounds $argument:ident) => { $argument };
}

/// An argument after a call that told so much. A refusal leaves an output as it was; rows before it stand.
#[rustfmt::skip]
macro_rules! judged {
    (bytes $argument:ident $refusal:ident $count:ident $end:ident) => { $end = $end.saturating_sub($argument.len() as u64) };
    (maybe $argument:ident $refusal:ident $count:ident $end:ident) => {};
    (output $argument:ident $refusal:ident $count:ident $end:ident) => {
        assert!($refusal == 0 || $count == 0);
        stayed($count, &$argument);
    };
    (table $argument:ident $refusal:ident $count:ident $end:ident) => {
        if $count != ANY {
            stayed($count * ROW_BYTES, &$argument);
        }
    };
    (fastq_table $argument:ident $refusal:ident $count:ident $end:ident) => { stayed($count * fastq::ROW_BYTES, &$argument) };
    (numbers $argument:ident $refusal:ident $count:ident $end:ident) => {
        // each start that was told is not before the one before it, nor behind what was written
        let told: Vec<u64> = $argument.iter().copied().take_while(|start| *start != STARTS).collect();
        assert!($argument[told.len()..].iter().all(|start| *start == STARTS));
        assert!(told.is_sorted() && told.iter().all(|start| $refusal == 0 && *start <= $count as u64));
    };
    (number $argument:ident $refusal:ident $count:ident $end:ident) => {};
    (state $argument:ident $refusal:ident $count:ident $end:ident) => {};
    (bounds $argument:ident $refusal:ident $count:ident $end:ident) => {};
}

macro_rules! hostile {
    ($($(#[$doc:meta])* fn $name:ident($($parameter:ident: $kind:ident),*) -> $answer:ident;)*) => {
        /// A hostile call of each entry point.
        #[allow(unused_mut, unused_variables)]
        const CALLS: &[fn(&mut Hostile)] = &[$(|hostile| {
            $(let mut $parameter = made!($kind $parameter hostile);)*
            let (refusal, count, mut end) = entry::$name($(lent!($kind $parameter)),*).told();
            $(judged!($kind $parameter refusal count end);)*
            // no part lies outside of the bytes
            assert!(end == 0 && has_words(stringify!($name), refusal), stringify!($name));
        }),*];
    };
}

wakeluri::entry_points!(hostile);

/// The comfortable calls, over tables that lie: an answer or a refusal, and no panic.
fn comfortable_call(chance: &mut Chance) {
    let (file, bytes, in_use, row) = (fasta(chance), table(chance), number(chance), number(chance));
    let table = Table::from_bytes(&file, bytes.into_vec(), in_use as usize);
    let bounds = bounds(chance);
    let row = Row::of_any_table(row as usize);
    let _ = match chance.below(12) {
        10 => {
            let table = fastq::Table::from_bytes(&file, table.into_bytes(), in_use as usize);
            let part = chance.one_of(&[Part::Bases, Part::Qualities]);
            let read = table.read(&file, row, part, bounds);
            // the read of a part is the exact read of the table of that part
            assert_eq!(read, table.part(part).read_exact(&file, row, bounds));
            let _ = table.find(b"s").and_then(|row| table.write_line(row, &mut vec![]));
            read.map(|bytes| bytes.len() + table.records().zip(table.rows()).count())
        }
        11 => {
            let file = reads(chance);
            fastq::index(&file).and_then(|table| table.write_index()).map(|text| {
                let again = fastq::read_index(&text).and_then(|table| table.write_index());
                assert_eq!(again.as_deref(), Ok(&text[..]));
                assert_eq!(fastq::check(&file, &text), Ok(()));
                text.len()
            })
        }
        8 => {
            let whole = Window { bytes: &file, from: 0, file_length: file.len() as u64 };
            let read = table.read_window(whole, row, bounds);
            let exact = table.read_exact(&file, row, bounds);
            // the exact read is that of the window that is the whole file
            assert_eq!(
                read.as_ref().map_err(|no| (no.number, no.first)),
                exact.as_ref().map_err(|no| (no.number, no.first))
            );
            read.map(|bases| bases.len())
        }
        9 => {
            let read = table.read_sought(&mut std::io::Cursor::new(&file), row, bounds);
            let exact = table.read_exact(&file, row, bounds).map(|bases| bases.len());
            match read {
                Ok(bases) => assert_eq!(Ok(bases.len()), exact),
                Err(ReadError::Refused(no)) => {
                    // 14 where so much memory is not available, of which nothing is asked here
                    assert!(exact.is_err_and(|other| other.number == 14 || other.number == no.number));
                }
                Err(error) => panic!("{error}"),
            }
            exact
        }
        0 => table.read_exact(&file, row, bounds).map(|bases| bases.len()),
        1 => table.read_raw(&file, row, bounds).map(|bases| bases.len()),
        2 => table.find(b"s").and_then(|row| table.read_exact(&file, row, bounds)).map(|bases| bases.len()),
        3 => table.write_index_line(row, &mut vec![]).map(|()| 0),
        4 => Ok(table.records().zip(table.rows()).count()),
        5 => {
            let (names, name) = (Names::new(&table), chance.one_of(&[&b"s"[..], b"", b"A"]));
            assert_eq!(names.find(name), table.find(name));
            Ok(table.row(row.number()).map_or(0, Row::number))
        }
        6 => wakeluri::index_strict(&file).and_then(|table| table.write_index()).map(|text| {
            assert_eq!(wakeluri::index(&file).and_then(|table| table.write_index()).as_deref(), Ok(&text[..]));
            text.len()
        }),
        _ => wakeluri::index(&file).and_then(|table| table.write_index()).map(|text| {
            assert_eq!(wakeluri::check(&file, &text), Ok(()));
            text.len()
        }),
    };
}

#[test]
fn hostile_calls() {
    let calls = std::env::var("WAKELURI_CALLS").ok().and_then(|n| n.parse().ok()).unwrap_or(1_000_000);
    let mut hostile = Hostile { chance: Chance::new(20_240_501), rows: 0 };
    for k in 0..calls {
        if k % 16 == 0 {
            comfortable_call(&mut hostile.chance);
        } else {
            hostile.chance.one_of(CALLS)(&mut hostile);
        }
    }
}
