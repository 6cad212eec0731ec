//! The map of names finds what the proved look-up finds, whatever the table says; and a row is used with its own table alone.

use questions::generate::Chance;
use std::cell::Cell;
use wakeluri::entry::ROW_BYTES;
use wakeluri::{Names, Row, Table, index};

/// Names that are looked up in the bytes below: some are there often, one is empty, some are not there.
const WANTED: [&[u8]; 8] = [b"a", b"b", b"ab", b"ba", b"", b"abab", b"c", b"abc"];

const BYTES: &[u8] = b"abab";

/// A row whose name lies in the bytes, mostly; its other numbers are good, mostly.
fn row(chance: &mut Chance, bad: usize) -> questions::row::Row {
    let start = chance.below(BYTES.len() + 1);
    let length = chance.below(BYTES.len() + 1 - start);
    let mut row = questions::row::row([start as u64, length as u64, 2, 3, 2, 3]);
    if chance.once_in(bad) {
        match chance.below(5) {
            0 => row[0] = chance.one_of(&[5, u64::MAX]),
            1 => row[1] = chance.one_of(&[5, u64::MAX]),
            2 => row[4] = 0,
            3 => row[5] = 0,
            _ => row.fill(u64::MAX),
        }
    }
    row
}

/// A table of such rows; it may have bytes behind the rows in use, and fewer rows than are said to be in use.
fn table(chance: &mut Chance) -> Table<'static> {
    let bad = chance.one_of(&[3, 30, 1 << 30]);
    let rows = chance.below(12);
    let mut bytes: Vec<u8> = (0..rows).flat_map(|_| row(chance, bad)).flat_map(u64::to_le_bytes).collect();
    let in_use = match chance.below(6) {
        0 => rows + chance.below(3),
        1 => rows.saturating_sub(chance.below(3)),
        _ => rows,
    };
    bytes.extend(vec![1; chance.one_of(&[0, 0, 0, ROW_BYTES - 1])]);
    Table::from_bytes(BYTES, bytes, in_use)
}

#[test]
fn the_map_finds_what_the_walk_finds() {
    let mut chance = Chance::new(8);
    // rows that were found, names that were refused with 15, tables that were refused with 25
    let mut reached = [0; 3];
    for _ in 0..20_000 {
        let table = table(&mut chance);
        let passed_over = chance.one_of(&WANTED);
        let (names, some) = (Names::new(&table), Names::of_some(&table, |name| name != passed_over));
        for name in WANTED {
            let walked = table.find(name);
            assert_eq!(names.find(name), walked, "{} in {table:?}", name.escape_ascii());
            assert_eq!(names.get(name), walked.ok(), "{} in {table:?}", name.escape_ascii());
            assert_eq!(some.find(name), walked, "{} in {table:?}", name.escape_ascii());
            assert_eq!(some.get(name), walked.ok().filter(|_| name != passed_over));
            let kind = walked.map_or_else(|refusal| refusal.number, |_| 0);
            reached[[0, 15, 25].iter().position(|known| *known == kind).expect("0, 15 or 25")] += 1;
            // the second row: the walk over what lies behind the first
            let second = walked.ok().and_then(|first| {
                let behind = table.as_bytes()[(first.number() + 1) * ROW_BYTES..].to_vec();
                let rest = Table::from_bytes(BYTES, behind, table.len() - first.number() - 1);
                table.row(first.number() + 1 + rest.find(name).ok()?.number())
            });
            assert_eq!(names.second(name), second, "{} in {table:?}", name.escape_ascii());
        }
    }
    assert!(reached.iter().all(|count| *count > 10_000), "{reached:?}");
}

/// A table is walked over once, however many names are looked up: each name is glanced at once.
#[test]
fn one_walk_for_all_names() {
    let file: String = (0..1000).map(|k| format!(">n{}\nA\n", k % 400)).collect();
    let table = index(file.as_bytes()).expect("an index");
    let glances = Cell::new(0);
    let names = Names::of_some(&table, |_| {
        glances.set(glances.get() + 1);
        true
    });
    for k in 0..4000 {
        let name = format!("n{}", k % 400);
        assert_eq!(names.find(name.as_bytes()).map(Row::number), Ok(k % 400));
        assert_eq!(names.second(name.as_bytes()).map(Row::number), Some(400 + k % 400));
    }
    assert_eq!(glances.get(), 1000);
}

/// The numbers of a refusal.
fn no<T: std::fmt::Debug>(answer: Result<T, wakeluri::Refusal>) -> (u64, u64) {
    answer.map_err(|refusal| (refusal.number, refusal.first)).expect_err("a refusal")
}

#[test]
fn a_row_of_another_table_is_refused() {
    let fasta = b">s\nAC\n>t\nGT\n";
    let (one, two) = (index(fasta).expect("an index"), index(fasta).expect("an index"));
    assert_eq!(one, two);
    let row = one.find(b"t").expect("a row");
    assert_eq!(one.read_exact(fasta, row, ..).as_deref(), Ok(&b"GT"[..]));
    // a clone is the same table
    assert_eq!(one.clone().read_raw(fasta, row, ..).as_deref(), Ok(&b"GT"[..]));

    assert_ne!(two.find(b"t"), Ok(row));
    assert_eq!(no(two.read_exact(fasta, row, ..)), (25, 1));
    assert_eq!(no(two.read_raw(fasta, row, ..)), (25, 1));
    assert_eq!(no(two.read_exact_into(fasta, row, .., &mut [])), (25, 1));
    assert_eq!(no(two.read_raw_into(fasta, row, .., &mut [])), (25, 1));
    assert_eq!(no(two.write_index_line(row, &mut vec![])), (25, 1));
    assert_eq!(two.record(row), None);
    // bounds are judged before, as of a row that isn't there
    assert_eq!(no(two.read_exact(fasta, row, 0..)), (16, 0));

    // who says that the table doesn't matter isn't asked
    let any = Row::of_any_table(1);
    assert_eq!(two.read_exact(fasta, any, ..).as_deref(), Ok(&b"GT"[..]));
    assert_eq!(two.record(any), two.records().nth(1));
    assert_eq!(no(two.read_exact(fasta, Row::of_any_table(2), ..)), (25, 2));
    assert_eq!(no(two.read_exact(fasta, Row::of_any_table(usize::MAX), ..)), (25, u64::MAX));
}

#[test]
fn rows_are_those_in_use() {
    let table = index(b">s\nAC\n>t\nGT\n").expect("an index");
    assert!(table.rows().map(Row::number).eq(0..2));
    assert!(table.rows().all(|row| table.row(row.number()) == Some(row)));
    assert!(table.rows().map(|row| table.record(row)).eq(table.records().map(Some)));
    // fewer rows than are said to be in use
    let short = Table::from_bytes(b"", vec![0; ROW_BYTES + 2], usize::MAX);
    assert_eq!((short.rows().len(), short.row(1)), (1, None));
    assert_eq!(no(short.write_index()), (25, 1));
    let none = Table::from_bytes(b"", vec![0; ROW_BYTES - 1], 1);
    assert_eq!((none.rows().len(), no(none.write_index())), (0, (25, 0)));
}
