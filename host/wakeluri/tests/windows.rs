//! Reads where only a part of a file is at hand: what surprises, and that no other byte is fetched.

use std::fs::File;
use std::io::{self, Read, Seek, SeekFrom, Write};
use std::path::Path;
use wakeluri::{ReadError, Refusal, Row, Table, Window};

/// The first row of any table.
const FIRST: Row = Row::of_any_table(0);

/// A table of one row without a name: length, position, line bases, line width.
fn table([length, position, line_bases, line_width]: [u64; 4]) -> Table<'static> {
    let numbers = questions::row::row([0, 0, length, position, line_bases, line_width]);
    Table::from_bytes(b"", numbers.iter().flat_map(|n| n.to_le_bytes()).collect(), 1)
}

/// A refusal's number and its first number.
fn no<T: std::fmt::Debug>(answer: Result<T, Refusal>) -> (u64, u64) {
    let refusal = answer.expect_err("a refusal");
    (refusal.number, refusal.first)
}

/// Line width below line bases: bases 2 to 9 lie at 1 2 3, 2 3 4 5, 4.
#[test]
fn where_offsets_go_back() {
    let rows = table([9, 0, 4, 2]);
    let seen = |from: usize, to: usize, start, end| {
        let window = Window { bytes: b"ABCDEF".get(from..to).expect("a part"), from: from as u64, file_length: 6 };
        rows.read_window(window, FIRST, start..=end)
    };
    assert_eq!(rows.needed_bytes(6, 8, FIRST, 2..=9), Ok(1..6));
    assert_eq!(seen(1, 6, 2, 9).as_deref(), Ok(&b"BCDCDEFE"[..]));
    // the first base is not the lowest, nor the last the highest
    assert_eq!(rows.needed_bytes(6, 8, FIRST, 4..=9), Ok(2..6));
    assert_eq!(seen(2, 6, 4, 9).as_deref(), Ok(&b"DCDEFE"[..]));
    assert_eq!(no(seen(3, 6, 4, 9)), (34, 5));
    assert_eq!(no(seen(2, 5, 4, 9)), (34, 8));
    // 18 over the whole region comes before 34
    assert_eq!(no(rows.read_window(Window { bytes: b"", from: 0, file_length: 5 }, FIRST, 2..=9)), (18, 8));
    assert_eq!(no(rows.read_window(Window { bytes: b"", from: 0, file_length: 6 }, FIRST, 2..=9)), (34, 2));
}

/// The order of refusals.
#[test]
fn what_is_judged_first() {
    let rows = table([6, 3, 4, 5]);
    let read = |bytes: &[u8], from, file_length, bounds: (Option<u64>, Option<u64>), room: usize| {
        no(rows.read_window_into(Window { bytes, from, file_length }, FIRST, bounds, &mut vec![0; room]))
    };
    let (zero, long, all) = ((Some(0), None), (Some(1), Some(7)), (None, None));
    assert_eq!(read(b"A", u64::MAX, (1 << 40) + 1, zero, 0), (1, 0));
    assert_eq!(read(b"A", u64::MAX, 1 << 40, zero, 0), (35, 0));
    assert_eq!(read(b"A", 11, 11, zero, 0), (35, 0));
    assert_eq!(read(b"A", 10, 11, zero, 0), (16, 0));
    assert_eq!(read(b"A", 10, 11, long, 0), (17, 6));
    assert_eq!(read(b"A", 10, 11, all, 5), (14, 6));
    assert_eq!(read(b"", 7, 7, all, 6), (18, 5));
    assert_eq!(read(b"A", 10, 11, all, 6), (34, 1));
    assert_eq!(
        no(rows.read_window(Window { bytes: b"", from: 0, file_length: 11 }, Row::of_any_table(1), 1..)),
        (25, 1)
    );
}

/// What a region needs is told at once, however long it is.
#[test]
fn of_the_longest_regions() {
    const LIMIT: u64 = 1 << 40;
    assert_eq!(no(table([u64::MAX, 0, 1, 1]).needed_bytes(LIMIT, u64::MAX, FIRST, ..)), (18, LIMIT + 1));
    assert_eq!(table([LIMIT, 0, 1, 1]).needed_bytes(LIMIT, u64::MAX, FIRST, ..), Ok(0..LIMIT));
    assert_eq!(table([LIMIT, 3, 1 << 39, 1]).needed_bytes(LIMIT, u64::MAX, FIRST, 2..), Ok(4..(1 << 39) + 4));
    // 2^25 lines that begin one byte apart, and are half the file long
    assert_eq!(table([u64::MAX, 0, 1 << 39, 1]).needed_bytes(LIMIT, u64::MAX, FIRST, ..), Ok(0..549_789_368_318));
    assert_eq!(no(table([u64::MAX, 0, 60, 61]).needed_bytes(LIMIT, u64::MAX, FIRST, ..)).0, 18);
}

/// A file whose reads are counted.
struct Counted {
    file: File,
    calls: u64,
    bytes: u64,
}

impl Read for Counted {
    fn read(&mut self, out: &mut [u8]) -> io::Result<usize> {
        let count = self.file.read(out)?;
        self.calls += 1;
        self.bytes += count as u64;
        Ok(count)
    }
}

impl Seek for Counted {
    fn seek(&mut self, to: SeekFrom) -> io::Result<u64> {
        self.file.seek(to)
    }
}

/// 10,000 bases at the end of a file of 1 TiB less a byte: no byte is read but those between the first and the last of them.
#[test]
fn only_what_is_needed_is_fetched() {
    const BYTES: u64 = (1 << 40) - 1;
    let path = Path::new(env!("CARGO_TARGET_TMPDIR")).join("sparse.fa");
    let lines = "ACGTN".repeat(12) + "\n";
    let mut file = File::options().read(true).write(true).create(true).truncate(true).open(&path).expect("a file");
    // a file system may not hold a file so long
    if file.set_len(BYTES).is_err() {
        return;
    }
    file.seek(SeekFrom::Start(BYTES - 200 * 61)).expect("a place");
    file.write_all(lines.repeat(200).as_bytes()).expect("room");

    // lines of 60 from a place on, so that the last ends with the file
    let position = BYTES % 61;
    let length = BYTES / 61 * 60;
    let rows = table([length, position, 60, 61]);
    let (start, end) = (length - 10_029, length - 30);
    let mut counted = Counted { file, calls: 0, bytes: 0 };
    let bases = rows.read_sought(&mut counted, FIRST, start..=end).expect("bases");
    let expected: Vec<u8> = b"ACGTN".iter().copied().cycle().take(10_000).collect();
    assert!(bases == expected);
    // 10,000 bases and the LF after each line
    let needed = rows.needed_bytes(BYTES, u64::MAX, FIRST, start..=end).expect("a part");
    assert_eq!(needed.end - needed.start, 10_167);
    assert_eq!(counted.bytes, 10_167);

    // past the end nothing is fetched
    counted.bytes = 0;
    match rows.read_sought(&mut counted, FIRST, ..=length + 1) {
        Err(ReadError::Refused(refusal)) => assert_eq!((refusal.number, refusal.first), (17, length)),
        other => panic!("{other:?}"),
    }
    assert_eq!(counted.bytes, 0);
    std::fs::remove_file(path).expect("it was there");
}

/// What is fetched once is asked for once, and what can't be is told.
#[test]
fn fetched_once() {
    let fasta = b">s\nACGT\nAC\n";
    let rows = table([6, 3, 4, 5]);
    let mut asked = vec![];
    let read = rows.read_fetched(11, FIRST, 2..=5, |part| {
        asked.push(part.clone());
        fasta.get(part.start as usize..part.end as usize).map(<[u8]>::to_vec).ok_or("nothing there")
    });
    assert_eq!(read.expect("bases"), b"CGTA");
    assert_eq!((asked.len(), asked.first()), (1, Some(&(4..9))));
    assert!(matches!(rows.read_fetched(11, FIRST, 2..=5, |_| Err("gone")), Err(ReadError::NotFetched("gone"))));
    // fewer bytes than were asked for
    let few = rows.read_fetched(11, FIRST, 2..=5, |_| Ok::<_, ()>(b"CG".to_vec()));
    assert!(matches!(few, Err(ReadError::Refused(Refusal { number: 34, first: 4, .. }))));
    let told = rows.read_fetched(11, FIRST, 2..=5, |_| Err("gone")).expect_err("nothing").to_string();
    assert_eq!(told, "the bytes could not be fetched: gone");
}
