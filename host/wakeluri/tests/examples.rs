//! The marked examples of the rules, and what must come out right though it surprises.

use wakeluri::entry::{self, Answer, ROW_BYTES};
use wakeluri::{Bounds, Refusal, Row, Table, check, complement, index, index_strict, read_index, reverse_complement};

/// The first row of any table.
const FIRST: Row = Row::of_any_table(0);

/// A table of one row.
fn row(numbers: [u64; 6]) -> Vec<u8> {
    questions::row::row(numbers).iter().flat_map(|n| n.to_le_bytes()).collect()
}

/// The three numbers of a refusal.
fn no(answer: Answer) -> (u64, u64, u64) {
    (answer.refusal, answer.first, answer.second)
}

fn text(table: Result<Table<'_>, Refusal>) -> Result<String, (u64, u64, u64)> {
    let table = table.map_err(|r| (r.number, r.first, r.second))?;
    let text = table.write_index().expect("a name without tab and LF");
    Ok(String::from_utf8(text).expect("text"))
}

/// The index of a file by the original's rule.
fn strict_text(fasta: &[u8]) -> Result<String, (u64, u64, u64)> {
    text(index_strict(fasta))
}

/// The index of a file by the complete rule, which the checker accepts.
fn index_text(fasta: &[u8]) -> Result<String, (u64, u64, u64)> {
    let text = text(index(fasta))?;
    assert_eq!(checked(fasta, text.as_bytes()), (0, 0, 0));
    Ok(text)
}

fn checked(fasta: &[u8], text: &[u8]) -> (u64, u64, u64) {
    check(fasta, text).map_or_else(|r| (r.number, r.first, r.second), |()| (0, 0, 0))
}

#[test]
fn m1_two_records() {
    let fasta = b">sq0\nACGT\n>sq1\nNNNN\nNNNN\nNN\n";
    assert_eq!(strict_text(fasta).as_deref(), Ok("sq0\t4\t5\t4\t5\nsq1\t10\t15\t4\t5\n"));
    assert_eq!(index_text(fasta), strict_text(fasta));
}

#[test]
fn m2_to_m8_what_is_indexed() {
    assert_eq!(strict_text(b">s\nACGT\n\n").as_deref(), Ok("s\t4\t3\t4\t5\n"));
    assert_eq!(strict_text(b">s\nACGT\n\n\n"), Err((6, 0, 4)));
    assert_eq!(strict_text(b">s\nACGT\nACGT\r\n"), Err((7, 6, 5)));
    assert_eq!(strict_text(b">s\n\nACGT\n"), Err((5, 4, 0)));
    assert_eq!(strict_text(b">s\nACGT\r\nACGTA"), Err((6, 5, 4)));
    assert_eq!(strict_text(b">s"), Err((5, 2, 0)));
    assert_eq!(strict_text(b">s\nACGT\r").as_deref(), Ok("s\t4\t3\t4\t5\n"));
}

/// The same files by the complete rule.
#[test]
fn what_the_complete_rule_takes_of_them() {
    assert_eq!(index_text(b">s\nACGT\n\n").as_deref(), Ok("s\t4\t3\t4\t5\n"));
    assert_eq!(index_text(b">s\nACGT\n\n\n").as_deref(), Ok("s\t4\t3\t4\t5\n"));
    assert_eq!(index_text(b">s\nACGT\nACGT\r\n").as_deref(), Ok("s\t8\t3\t4\t5\n"));
    assert_eq!(index_text(b">s\n\nACGT\n").as_deref(), Ok("s\t4\t4\t4\t5\n"));
    assert_eq!(index_text(b">s\nACGT\r\nACGTA"), Err((42, 13, 9)));
    assert_eq!(index_text(b">s").as_deref(), Ok("s\t0\t2\t1\t2\n"));
    assert_eq!(index_text(b">s\nACGT\r").as_deref(), Ok("s\t4\t3\t4\t5\n"));
}

#[test]
fn m9_exact_and_never_clipped() {
    let fasta = b">s\nACGT\nAC\n";
    assert_eq!(index_text(fasta).as_deref(), Ok("s\t6\t3\t4\t5\n"));
    let table = index(fasta).expect("an index");
    assert_eq!(table.read_exact(fasta, FIRST, 4..=5).as_deref(), Ok(&b"TA"[..]));
    let refusal = table.read_exact(fasta, FIRST, 5..=7).expect_err("past the end");
    assert_eq!((refusal.number, refusal.first, refusal.second), (17, 6, 0));
}

#[test]
fn m10_m11_the_checker() {
    assert_eq!(checked(b">s\nACGT\nAC\n", b"s\t6\t3\t4\t6\n"), (23, 1, 5));
    assert_eq!(checked(b">s\nACGT\n", b"s\t4\t3\t60\t61\n"), (0, 0, 0));
}

#[test]
fn m12_an_angle_inside_a_line() {
    let fasta = b">s\nAC>GT\n";
    let table = index(fasta).expect("an index");
    assert_eq!(table.read_exact(fasta, FIRST, 3..=4).as_deref(), Ok(&b">G"[..]));
    assert_eq!(table.read_raw(fasta, FIRST, 3..=4).as_deref(), Ok(&b""[..]));
}

#[test]
fn m13_reverse_complement() {
    assert_eq!(reverse_complement(b"ACGU").as_deref(), Ok(&b"ACGT"[..]));
}

#[test]
fn an_index_is_accepted_though_the_indexer_refuses_the_file() {
    assert_eq!(checked(b">s\nACGT\n\n\n", b"s\t4\t3\t4\t5\n"), (0, 0, 0));
    assert_eq!(checked(b">s\nA\n\n\nC\n", b"s\t2\t3\t1\t4\n"), (0, 0, 0));
    assert_eq!(checked(b">s\nA\n\n\nC\n", b"s\t2\t3\t1\t4"), (0, 0, 0));
}

#[test]
fn what_the_checker_refuses_first() {
    assert_eq!(checked(b"", b""), (0, 0, 0));
    assert_eq!(checked(b">\n", b""), (4, 1, 1));
    assert_eq!(checked(b">s\nA\n>\nA\n", b"s\t1\t3\t1\t2\n"), (4, 2, 6));
    assert_eq!(checked(b"", b"\n"), (20, 0, 0));
    assert_eq!(checked(b">s\n", b"s\t0\t3\t0\t0\n"), (12, 1, 4));
    assert_eq!(checked(b">s\n", b"s\t0\t9\t7\t1\n"), (0, 0, 0));
    assert_eq!(checked(b">s\nA\n>t\nA\n", b"s\t1\t3\t1\t2\n"), (19, 2, 0));
    assert_eq!(checked(b">s\nA\n>t\nA\n", b"s\t1\t3\t1\t2\n\n"), (9, 2, 0));
    assert_eq!(checked(b">s\nA\n>t\nA\n", b"s\t1\t3\t1\t2\nu\t1\t8\t1\t2\n"), (21, 2, 0));
    assert_eq!(checked(b">s\nA\n>t\nA\n", b"s\t1\t3\t1\t2\nt\t2\t8\t1\t2\n"), (22, 2, 0));
    assert_eq!(checked(b">s\nA\n>t\nA\n", b"s\t1\t3\t1\t2\nt\t1\t7\t1\t2\n"), (23, 2, 1));
    assert_eq!(checked(b">s\nA\n", b"s\t1\t3\t1\t2\nx"), (20, 1, 0));
}

#[test]
fn offsets_that_go_back() {
    let (fasta, table) = (b">s\nACG", row([0, 0, 8, 3, 4, 1]));
    let mut out = *b"....";
    let answer = entry::read_exact(fasta, &table, 1, 0, Bounds::from(5..=6), &mut out);
    assert_eq!((no(answer), answer.count, &out), ((0, 0, 0), 2, b"CG.."));
    let answer = entry::read_exact(fasta, &table, 1, 0, Bounds::from(3..=5), &mut out);
    assert_eq!((no(answer), answer.count, &out), ((18, 4, 0), 0, b"CG.."));
}

#[test]
fn sums_that_64_bits_do_not_hold() {
    let table = row([0, 0, 3, 3, 2, u64::MAX]);
    let mut out = *b"....";
    let answer = entry::read_exact(b">s\nACG", &table, 1, 0, Bounds::from(3..=3), &mut out);
    assert_eq!((no(answer), &out), ((18, 3, 0), b"...."));
    let answer = entry::read_raw(b">s\nACG", &table, 1, 0, Bounds::from(3..=3), &mut out);
    assert_eq!((no(answer), &out), ((18, 3, 0), b"...."));
}

#[test]
fn the_order_of_refusals_in_an_exact_read() {
    let whole = row([0, 0, u64::MAX, 3, 4, 5]);
    let read = |table: &[u8], in_use, row, bounds: Bounds| {
        no(entry::read_exact(b">s\nACG", table, in_use, row, bounds, &mut []))
    };
    // a bound 0 is judged before a row that isn't there
    assert_eq!(read(&[], 0, 7, Bounds::from(0..)), (16, 0, 0));
    assert_eq!(read(&[], 0, 7, Bounds::from(..)), (25, 7, 0));
    // a table that lacks rows, before the row that is asked for
    assert_eq!(read(&whole, 3, 0, Bounds::from(..)), (25, 1, 0));
    assert_eq!(read(&whole, 1, 0, Bounds::from(..)), (14, u64::MAX, 0));
    assert_eq!(read(&row([0, 0, 0, 3, 4, 5]), 1, 0, Bounds::from(..)), (17, 0, 0));
    assert_eq!(read(&row([9, 9, 1, 3, 0, 5]), 1, 0, Bounds::from(..)), (25, 0, 0));
}

#[test]
fn a_raw_read_that_starts_behind_its_record() {
    let fasta = b">s\nAC\n>t\nGG\n";
    let table = index(fasta).expect("an index");
    assert_eq!(table.read_raw(fasta, FIRST, 4..=5).as_deref(), Ok(&b"tG"[..]));
    assert_eq!(table.read_exact(fasta, FIRST, 4..=5).map_err(|r| r.number), Err(17));
    // as many as there are, though a hundred were asked for
    let mut out = *b"..";
    assert_eq!(table.read_raw_into(fasta, FIRST, 1..=100, &mut out), Ok(2));
}

#[test]
fn an_absent_end_is_no_limit() {
    // the original stops at the greatest base position here, and gives one base
    let table = row([0, 0, 4, 0, u64::MAX / 2, 1]);
    let mut out = *b"....";
    let answer = entry::read_raw(b">s\nACGT", &table, 1, 0, Bounds::from(u64::MAX..), &mut out);
    assert_eq!((no(answer), answer.count, &out), ((0, 0, 0), 4, b"ACGT"));
}

#[test]
fn two_calls_for_a_definition() {
    assert_eq!(entry::definition_line(b"\n").refusal, 2);
    assert_eq!(entry::definition_content(b"\n").refusal, 3);
    // the CR of a line without LF stays, and is whitespace
    let definition = entry::definition_line(b">s\r");
    assert_eq!((definition.name_start, definition.name_length, definition.description_length), (1, 1, 0));
    // vertical tab isn't whitespace, form feed is
    assert_eq!(entry::definition_line(b">a\x0bb\x0cc").name_length, 3);
}

#[test]
fn where_a_definition_line_fails() {
    let place = |line: &[u8]| (entry::definition_line(line).refusal, entry::definition_line(line).first);
    assert_eq!([place(b"\r\n"), place(b"s\n"), place(b"> s\n"), place(b">")], [(2, 0), (3, 0), (4, 1), (4, 1)]);

    // a file is told by offset, whatever the rule, and so is a record alone; the rows before it stay
    let file = b">s\nAC\n> t\nAC\n";
    let mut table = [0; 96];
    for answer in [entry::index_file(file, &mut table), entry::index_complete(file, &mut table)] {
        assert_eq!((no(answer), answer.count), ((4, 7, 0), 1));
    }
    let record = entry::index_record(file, 6);
    assert_eq!((record.refusal, record.first, record.second), (4, 7, 0));
    assert_eq!(strict_text(b">s\nAC\n>t\n\n"), Err((5, 10, 0)));
    assert_eq!(checked(file, b"s\t2\t3\t2\t3\n"), (4, 2, 7));

    // an offset in the middle of a line is where the line begins, for the call
    assert_eq!(entry::index_record(file, 4).first, 4);
    assert_eq!(entry::index_record(b">s\n\nAC\n", 3).refusal, 2);
}

#[test]
fn where_a_limited_read_stops() {
    let mut out = *b"..";
    let read = |file: &[u8], at, limit, out: &mut [u8]| {
        let answer = entry::read_sequence_limit(file, at, limit, out);
        (no(answer), answer.count, answer.next)
    };
    assert_eq!(read(b"A\nC", 0, 1, &mut out), ((0, 0, 0), 1, 1));
    assert_eq!(read(b"\nA", 0, 0, &mut out), ((0, 0, 0), 0, 0));
    assert_eq!(read(b"A", 9, 4, &mut out), ((0, 0, 0), 0, 9));
    assert_eq!(read(b"ACGT", 0, 100, &mut out), ((14, 4, 0), 0, 0));
    assert_eq!(read(b"A>", 0, 1, &mut out), ((0, 0, 0), 1, 1));
    assert_eq!(read(b"A>", 1, 1, &mut out), ((0, 0, 0), 0, 1));
}

#[test]
fn index_lines_by_field_from_the_left() {
    let refused = |line: &[u8]| {
        let row = entry::index_line(line);
        (row.refusal, row.first, row.second)
    };
    assert_eq!(refused(b"\n"), (9, 1, 0));
    assert_eq!(refused(b"s\tx"), (11, 1, 2));
    assert_eq!(refused(b"s\t4\t3\t0"), (12, 1, 4));
    assert_eq!(refused(b"s\t4\t3\t18446744073709551616\t5"), (11, 1, 4));
    assert_eq!(refused(b"s\t4\t3\t4\t5\t6\n"), (11, 1, 5));
    assert_eq!(refused(b"\t4\t3\t4\t5"), (0, 0, 0));
    let plain = |line: &[u8]| entry::index_line(line).plain;
    assert_eq!(plain(b"s\t0\t3\t4\t5\n"), 1);
    assert_eq!([&b"s\t0\t3\t4\t5"[..], b"s\t0\t3\t4\t5\r\n", b"s\t00\t3\t4\t5\n"].map(plain), [0, 0, 0]);
}

#[test]
fn what_is_no_line_is_not_plain() {
    let row = entry::index_line(b"a\nb\t4\t3\t2\t3\n");
    assert_eq!((row.refusal, row.name_length, row.length, row.plain), (0, 3, 4, 0));
    assert_eq!(entry::index_line(b"\n\t4\t3\t2\t3\n").plain, 0);
    let row = entry::index_content(b"s\t4\t3\t2\t3");
    assert_eq!((row.refusal, row.name_length, row.length, row.plain), (0, 1, 4, 0));
}

#[test]
fn a_plain_line_is_written_again_as_it_was() {
    let line = b"s x\t18446744073709551615\t0\t60\t61\n";
    let read = entry::index_line(line);
    assert_eq!(read.plain, 1);
    let numbers = [read.name_start, read.name_length, read.length, read.position, read.line_bases, read.line_width];
    let mut out = vec![0; line.len()];
    let answer = entry::write_index_line(line, &row(numbers), 1, 0, &mut out);
    assert_eq!((no(answer), answer.count), ((0, 0, 0), line.len() as u64));
    assert_eq!(out, line);
}

#[test]
fn names_that_lie_outside() {
    let find = |row_numbers, name: &[u8]| {
        let answer = entry::find(b"ab", &row(row_numbers), 1, name);
        (no(answer), answer.count)
    };
    assert_eq!(find([2, 0, 1, 1, 1, 1], b""), ((0, 0, 0), 0));
    assert_eq!(find([3, 0, 1, 1, 1, 1], b""), ((25, 0, 0), 0));
    assert_eq!(find([u64::MAX, 2, 1, 1, 1, 1], b"a"), ((25, 0, 0), 0));
    assert_eq!(find([0, 1, 1, 1, 1, 1], b"c"), ((15, 0, 0), 0));
}

/// A table grows as it is filled, also where records are long at first and short later: no row is lost, and none is twice there.
#[test]
fn as_many_rows_as_records() {
    let mut fasta = vec![];
    for k in 0..60_000 {
        let bases = if k < 1_500 { 2_000 } else { 1 };
        fasta.extend_from_slice(format!(">r{k}\n").as_bytes());
        fasta.extend(std::iter::repeat_n(b'A', bases));
        fasta.push(b'\n');
    }
    let table = index(&fasta).expect("good records");
    assert_eq!(table.len(), 60_000);
    for (k, record) in table.records().enumerate() {
        assert_eq!(record.name, format!("r{k}").as_bytes());
    }
    let text = table.write_index().expect("an index");
    let again = read_index(&text).expect("good lines");
    assert_eq!(again.len(), 60_000);
    assert!(again.records().eq(table.records()));
}

#[test]
fn rows_that_stand_after_a_refusal() {
    let mut table = vec![7; 2 * ROW_BYTES + 5];
    let answer = entry::index_file(b">s\nAC\n>t\n\n", &mut table);
    assert_eq!((no(answer), answer.count), ((5, 10, 0), 1));
    assert_eq!(&table[..ROW_BYTES], row([1, 1, 2, 3, 2, 3]));
    assert!(table[ROW_BYTES..].iter().all(|b| *b == 7));
    let answer = entry::index_file(b">s\nAC\n", &mut []);
    assert_eq!((no(answer), answer.count), ((8, 0, 0), 0));
}

/// Blank lines before, between and behind the lines of a record; records without bases; and where no numbers lead to every base.
#[test]
fn what_the_complete_rule_asks_of_lines() {
    // as genomes come: a blank line behind a short last line
    assert_eq!(index_text(b">s\nACGT\nAC\n\n>t\nGG\n\n").as_deref(), Ok("s\t6\t3\t4\t5\nt\t2\t15\t2\t3\n"));
    // every second line blank
    assert_eq!(index_text(b">s\n\nAC\n\nGT\n\nA\n").as_deref(), Ok("s\t5\t4\t2\t4\n"));
    // ends of the same width: CR and LF, or LF and a blank line
    assert_eq!(index_text(b">s\nAC\r\nGT\n\nAC\r\n").as_deref(), Ok("s\t6\t3\t2\t4\n"));
    // no bases, in blank lines or none
    assert_eq!(index_text(b">s\n>t\n\r\n\n>u").as_deref(), Ok("s\t0\t3\t1\t2\nt\t0\t6\t1\t2\nu\t0\t11\t1\t2\n"));
    assert_eq!(index_text(b"").as_deref(), Ok(""));
    // a blank line between some lines and not between others; a line that is longer, or shorter before others
    assert_eq!(index_text(b">s\nAC\nGT\n\nAC\n"), Err((42, 10, 5)));
    assert_eq!(index_text(b">s\nAC\n\nGT\nAC\n"), Err((42, 10, 5)));
    assert_eq!(index_text(b">s\nAC\nGTA\n"), Err((42, 8, 5)));
    assert_eq!(index_text(b">s\nAC\nG\nTA\n"), Err((42, 8, 4)));
    // 2 to 4 come record by record, before and after it
    assert_eq!(index_text(b">s\nAC\nGTA\n>\n"), Err((42, 8, 5)));
    assert_eq!(index_text(b">s\n\n>\n"), Err((4, 5, 0)));
    assert_eq!(index_text(b"\n>s\n"), Err((2, 0, 0)));
    assert_eq!(index_text(b"s\n"), Err((3, 0, 0)));
}

#[test]
fn rows_that_stand_after_a_refusal_of_the_complete_rule() {
    let mut table = vec![7; 3 * ROW_BYTES + 5];
    let answer = entry::index_complete(b">s\nAC\n>t\n\n>u\nA\nCG\n", &mut table);
    assert_eq!((no(answer), answer.count), ((42, 16, 3), 2));
    assert_eq!(&table[..2 * ROW_BYTES], [row([1, 1, 2, 3, 2, 3]), row([7, 1, 0, 9, 1, 2])].concat());
    assert!(table[2 * ROW_BYTES..].iter().all(|b| *b == 7));
    // 42 comes before 8, and 8 only for a good record
    let answer = entry::index_complete(b">s\nA\nCG\n", &mut []);
    assert_eq!((no(answer), answer.count), ((42, 6, 3), 0));
    let answer = entry::index_complete(b">s\n", &mut []);
    assert_eq!((no(answer), answer.count), ((8, 0, 0), 0));
}

/// As short as records can be: three bytes each, and two for the last.
#[test]
fn a_row_for_each_of_many_records_without_bases() {
    for fasta in [b">s\n".repeat(5_000), [&b">s\n".repeat(5_000)[..], b">t"].concat()] {
        let table = index(&fasta).expect("good records");
        assert_eq!(table.len(), fasta.len().div_ceil(3));
        assert!(table.records().all(|record| record.length == 0 && record.line_bases == 1 && record.line_width == 2));
    }
}

#[test]
fn a_name_with_a_tab_is_not_written() {
    let table = Table::from_bytes(b"a\tb", row([0, 3, 1, 1, 1, 1]), 1);
    let refusal = table.write_index().expect_err("a tab");
    assert_eq!((refusal.number, refusal.first), (13, 1));
    let mut text = b"kept".to_vec();
    assert!(table.write_index_line(FIRST, &mut text).is_err());
    assert_eq!(text, b"kept");
}

#[test]
fn long_names_are_written_whole() {
    let name = vec![b'n'; 1000];
    let fasta = [b">", &name[..], b"\nACGT\n"].concat();
    let text = index(&fasta).and_then(|table| table.write_index()).expect("a line");
    assert_eq!(text, [&name[..], b"\t4\t1002\t4\t5\n"].concat());
    let read = read_index(&text).expect("it reads back");
    assert_eq!(read.record(FIRST).map(|r| (r.name, r.length)), Some((&name[..], 4)));
}

#[test]
fn more_records_than_were_thought_of() {
    let records = 1_200_000;
    let fasta = b">s\nA\n".repeat(records);
    let table = index(&fasta).expect("an index");
    assert_eq!(table.len(), records);
    assert_eq!(table.rows().last().and_then(|row| table.record(row)).map(|r| r.position), Some(fasta.len() as u64 - 2));
    assert_eq!((table.row(records), table.record(Row::of_any_table(records))), (None, None));
}

#[test]
fn lengths_that_lie_cost_nothing() {
    for length in [u64::MAX, 1 << 62, 1 << 50] {
        let table = Table::from_bytes(b"", row([0, 0, length, 3, 4, 5]), 1);
        let refusal = table.read_exact(b">s\nACGT\n", FIRST, ..).expect_err("no such bases");
        assert!(refusal.number == 14 || refusal.number == 18, "{refusal}");
    }
}

#[test]
fn complements() {
    assert_eq!(complement(b"").as_deref(), Ok(&b""[..]));
    let refusal = |r: wakeluri::Refusal| (r.number, r.first, r.second);
    assert_eq!(complement(b"AXCX").map_err(refusal), Err((24, 1, 88)));
    assert_eq!(reverse_complement(b"AXCX").map_err(refusal), Err((24, 3, 88)));
}

#[test]
fn every_refusal_has_words() {
    for number in (1..=25).chain([42]) {
        for call in [wakeluri::Call::Index, wakeluri::Call::Check, wakeluri::Call::ReadIndex] {
            let told = wakeluri::Refusal::new(call, number, 3, 4).to_string();
            assert!(!told.contains("no words for"), "{told}");
            assert!(told.contains(&format!(": refused {number}")), "{told}");
        }
    }
}
