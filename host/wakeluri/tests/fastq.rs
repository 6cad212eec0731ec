//! FASTQ by hand: cases that surprise, each with its answer.

use wakeluri::fastq::{self, Part, Table};
use wakeluri::{Refusal, Row};

/// The index text of a file that is taken whole, and that the checker accepts with it.
fn indexed(file: &[u8]) -> String {
    let text = fastq::index(file).and_then(|table| table.write_index()).expect("an index");
    assert_eq!(fastq::check(file, &text), Ok(()));
    // its lines are plain, and read as the same rows
    for line in text.split_inclusive(|b| *b == b'\n') {
        assert!(fastq::read_line(line).expect("a line").1);
    }
    assert_eq!(fastq::read_index(&text).and_then(|table| table.write_index()), Ok(text.clone()));
    String::from_utf8(text).expect("text")
}

fn numbers(no: Refusal) -> [u64; 3] {
    [no.number, no.first, no.second]
}

/// Why a file is refused, and how many of its records stand. The checker says the same of it, whatever the index.
fn refused(file: &[u8]) -> (usize, [u64; 3]) {
    let (table, no) = fastq::index_until_refused(file);
    let no = numbers(no.expect("a refusal"));
    assert_eq!(fastq::check(file, b"no index").map_err(numbers), Err(no));
    (table.len(), no)
}

fn judged(file: &[u8], index: &[u8]) -> Result<(), [u64; 3]> {
    fastq::check(file, index).map_err(numbers)
}

#[test]
fn qualities_may_begin_with_any_byte() {
    assert_eq!(indexed(b"@s\nAC\nG\n+s\n@+\n+"), "s\t3\t3\t2\t3\t11\n");
    assert_eq!(indexed(b"@s\nAC\n+\n@t\n@t\nAC\n+\n+t\n"), "s\t2\t3\t2\t3\t8\nt\t2\t14\t2\t3\t19\n");
    assert_eq!(indexed(b"@s\nAC\nAC\n+\n++\n@@\n"), "s\t4\t3\t2\t3\t11\n");
}

#[test]
fn ends_of_lines() {
    assert_eq!(indexed(b"@s\r\nACGT\r\nAC\r\n+\r\n!!!!\r\n!!\r\n"), "s\t6\t4\t4\t6\t17\n");
    // of a last line without its end the bases are enough
    assert_eq!(indexed(b"@s\nAC\n+\nII\r"), "s\t2\t3\t2\t3\t8\n");
    assert_eq!(indexed(b"@s\r\nAC\r\n+\r\nII"), "s\t2\t4\t2\t4\t11\n");
    // with its end, the width counts
    assert_eq!(refused(b"@s\nAC\n+\nII\r\n"), (0, [39, 2, 2]));
    assert_eq!(indexed(b""), "");
}

#[test]
fn what_is_refused() {
    assert_eq!(refused(b">s\nAC\n"), (0, [3, 0, 0]));
    assert_eq!(refused(b"@\nAC\n"), (0, [4, 1, 0]));
    assert_eq!(refused(b"@s\n\nAC\n+\nII\n"), (0, [5, 4, 0]));
    assert_eq!(refused(b"@s\n+\n"), (0, [5, 3, 0]));
    assert_eq!(refused(b"@s\nAC\n\n+\nII\n"), (0, [6, 0, 2]));
    assert_eq!(refused(b"@s\nAC\nACG"), (0, [6, 3, 2]));
    assert_eq!(refused(b"@s\nAC\nAC\r\n+\n"), (0, [7, 4, 3]));
    assert_eq!(refused(b"@s\nAC\nAC"), (0, [38, 0, 0]));
    assert_eq!(refused(b"@s\nAC\n+\n"), (0, [39, 0, 2]));
    assert_eq!(refused(b"@s\nAC\n+\nIII\n"), (0, [39, 3, 2]));
    // a blank line behind a record is an empty definition line
    assert_eq!(refused(b"@s\nA\n+\nI\n\n"), (1, [2, 9, 0]));
}

#[test]
fn what_the_checker_asks() {
    let file = b"@s\nACGT\nAC\n+\n!!!!\n!!\n";
    assert_eq!(judged(file, b"s\t6\t3\t4\t5\t13\n"), Ok(()));
    assert_eq!(judged(file, b"s\t+6\t03\t4\t5\t+13"), Ok(()));
    assert_eq!(judged(file, b""), Err([19, 1, 0]));
    assert_eq!(judged(file, b"s\t6\t3\t4\t5\n"), Err([10, 1, 6]));
    assert_eq!(judged(file, b"s\t6\t3\t4\t5\tx\n"), Err([11, 1, 6]));
    assert_eq!(judged(file, b"t\t6\t3\t4\t5\t13\n"), Err([21, 1, 0]));
    assert_eq!(judged(file, b"s\t5\t3\t4\t5\t13\n"), Err([22, 1, 0]));
    // the numbers lead to base 4 and not to base 5; those of bases come before those of qualities
    assert_eq!(judged(file, b"s\t6\t3\t4\t6\t13\n"), Err([23, 1, 5]));
    assert_eq!(judged(file, b"s\t6\t3\t4\t6\t12\n"), Err([23, 1, 5]));
    assert_eq!(judged(file, b"s\t6\t3\t4\t5\t12\n"), Err([23, 1, 1]));
    assert_eq!(judged(file, b"s\t6\t3\t4\t5\t13\n\n"), Err([20, 1, 0]));
    // a record of one line: any numbers that lead to its bases
    assert_eq!(judged(b"@s\nACGT\n+\nIIII\n", b"s\t4\t3\t60\t61\t10\n"), Ok(()));
    // an index of a FASTA file has no qualities
    assert_eq!(judged(b"@s\nA\n+\nI\n@t\nA\n", b"s\t1\t3\t1\t2\n"), Err([38, 0, 0]));
}

#[test]
fn bases_and_qualities_are_read_alike() {
    let file = b"@s\nACGT\nAC\n+\n!\"#$\n%&\n@t\nG\n+\n@\n";
    let table = fastq::index(file).expect("a table");
    let row = table.find(b"s").expect("a row");
    for start in 1..=6 {
        for end in start..=6 {
            let (bases, qualities) = (&b"ACGTAC"[start - 1..end], &b"!\"#$%&"[start - 1..end]);
            let bounds = start as u64..=end as u64;
            assert_eq!(table.read(file, row, Part::Bases, bounds.clone()).as_deref(), Ok(bases));
            assert_eq!(table.read(file, row, Part::Qualities, bounds).as_deref(), Ok(qualities));
        }
    }
    assert_eq!(table.read(file, row, Part::Qualities, 6..=7).map_err(numbers), Err([17, 6, 0]));
    assert_eq!(table.read(file, row, Part::Qualities, 0..=7).map_err(numbers), Err([16, 0, 0]));
    assert_eq!(table.read(file, Row::of_any_table(2), Part::Qualities, ..).map_err(numbers), Err([25, 2, 0]));
    // qualities that lie behind the end of the file
    let lies = fastq::read_index(b"s\t6\t3\t4\t5\t18446744073709551615\n").expect("a table");
    assert_eq!(lies.read(file, Row::of_any_table(0), Part::Qualities, 2..).map_err(numbers), Err([18, 2, 0]));
    // a row of another table isn't there
    assert_eq!(lies.read(file, row, Part::Bases, ..).map_err(numbers), Err([25, 0, 0]));
}

#[test]
fn the_table_of_a_part_has_the_same_rows() {
    let file = b"@s\nACGT\nAC\n+\n!\"#$\n%&\n@t\nG\n+\n@\n";
    let table = fastq::index(file).expect("a table");
    for part in [Part::Bases, Part::Qualities] {
        let rows = table.part(part);
        assert_eq!((rows.len(), rows.names()), (table.len(), table.names()));
        for row in table.rows() {
            assert_eq!(rows.read_exact(file, row, ..), table.read(file, row, part, ..));
            let (one, other) = (rows.record(row).expect("a record"), table.record(row).expect("a record"));
            assert_eq!((one.name, one.length, one.description()), (other.name, other.length, None));
        }
    }
}

#[test]
fn a_row_for_each_of_many_records() {
    let file: String = (0..5000).map(|k| format!("@read{k}\nACGT\n+\nIIII\n")).collect();
    let table = fastq::index(file.as_bytes()).expect("a table");
    assert_eq!(table.len(), 5000);
    let text = table.write_index().expect("a text");
    assert_eq!(fastq::read_index(&text).map(|table| table.len()), Ok(5000));
    assert_eq!(fastq::check(file.as_bytes(), &text), Ok(()));
    assert_eq!(table.records().last().map(|record| record.name), Some(&b"read4999"[..]));
}

#[test]
fn tables_that_lie() {
    let table = Table::from_bytes(b"s", vec![9; 60], 3);
    assert_eq!(table.write_index().map_err(numbers), Err([25, 1, 0]));
    assert_eq!((table.rows().len(), table.records().count()), (1, 0));
    assert_eq!(table.find(b"s").map_err(numbers), Err([25, 1, 0]));
}

#[test]
fn a_file_is_opened_with_its_index() {
    use wakeluri::fasta::Trust;
    use wakeluri::{Error, Fastq};
    let folder = std::env::temp_dir().join(format!("wakeluri-reads-{}", std::process::id()));
    std::fs::create_dir_all(&folder).expect("a folder");
    let (path, index) = (folder.join("reads.fq"), folder.join("reads.fq.fai"));
    std::fs::write(&path, b"@s one\nACGT\nAC\n+\n!\"#$\n%&\n@t\nG\n+\n@\n").expect("a file");

    let made = Fastq::open(&path).expect("no index is needed");
    assert_eq!((made.trust(), made.len(), made.is_empty()), (Trust::Made, 2, false));
    assert_eq!(made.save_index().expect("an index"), index);
    let text = std::fs::read(&index).expect("its text");
    assert_eq!(text, b"s\t6\t7\t4\t5\t17\nt\t1\t28\t1\t2\t32\n");

    let checked = Fastq::open(&path).expect("a good index");
    assert_eq!((checked.trust(), checked.index_text().expect("a text")), (Trust::Checked, text));
    for (one, other) in made.records().zip(checked.records()) {
        assert_eq!((one.name(), one.length(), one.number()), (other.name(), other.length(), other.number()));
        for part in [Part::Bases, Part::Qualities] {
            let row = Row::of_any_table(one.number());
            let read = made.table().read(made.bytes(), row, part, ..).expect("bytes");
            assert_eq!(
                (one.read(part, ..).expect("bytes"), other.read(part, ..).expect("bytes")),
                (read.clone(), read)
            );
        }
    }
    assert_eq!(checked.read("s:4-5", Part::Qualities).expect("qualities"), b"$%");
    assert_eq!(checked.read("t", Part::Bases).expect("bases"), b"G");
    assert_eq!(checked.read("u", Part::Bases).unwrap_err().refusal().map(|no| no.number), Some(15));
    assert_eq!(checked.nth(1).map(|read| read.name()), Some(&b"t"[..]));

    // the qualities of the second record are elsewhere: refused, or believed
    std::fs::write(&index, b"s\t6\t7\t4\t5\t17\nt\t1\t28\t1\t2\t31\n").expect("an index");
    match Fastq::open(&path).unwrap_err() {
        Error::Refused { refusal, .. } => assert_eq!(numbers(refusal), [23, 2, 1]),
        other => panic!("{other}"),
    }
    let believed = Fastq::options().unchecked().open_fastq(&path).expect("an index that is believed");
    assert_eq!(
        (believed.trust(), believed.read("t", Part::Qualities).expect("a byte")),
        (Trust::Unchecked, b"\n".to_vec())
    );
    std::fs::remove_dir_all(&folder).expect("no folder");
}

/// An index of many lines, some of them long, has the lines that are written one by one; so has one of FASTA.
#[test]
fn lines_of_all_rows_in_their_order() {
    for (count, long) in [(0, 0), (1, 5000), (999, 1), (2001, 40_000), (20_000, 700), (70_000, 0)] {
        let name = |number: usize| format!("{number}{}", "x".repeat(if number % 1000 == 0 { long } else { 0 }));
        let reads: String = (0..count).map(|number| format!("@{}\nA\n+\nI\n", name(number))).collect();
        let table = fastq::index(reads.as_bytes()).expect("good reads");
        let mut lines = vec![];
        for row in table.rows() {
            table.write_line(row, &mut lines).expect("a good row");
        }
        assert_eq!(table.write_index().expect("good rows"), lines, "{count} {long}");
        let fasta: String = (0..count).map(|number| format!(">{}\nA\n", name(number))).collect();
        let table = wakeluri::index(fasta.as_bytes()).expect("a good file");
        let mut lines = vec![];
        for row in table.rows() {
            table.write_index_line(row, &mut lines).expect("a good row");
        }
        assert_eq!(table.write_index().expect("good rows"), lines, "{count} {long}");
    }
}

/// Rows that are said to be in use and aren't there are refused, however many.
#[test]
fn more_rows_in_use_than_there_are() {
    let table = Table::from_bytes(b"", vec![], usize::MAX);
    assert_eq!(table.write_index().map_err(|refusal| refusal.number), Err(25));
    let table = wakeluri::Table::from_bytes(b"", vec![], usize::MAX);
    assert_eq!(table.write_index().map_err(|refusal| refusal.number), Err(25));
}
