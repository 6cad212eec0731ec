//! Small questions that a person can answer by hand, in a table for each entry point: what it tells, and the lent bytes afterwards.

use wakeluri::entry::{self, Answer, ROW_BYTES};
use wakeluri::{Bounds, Table};

/// What an answer with a count tells, and the output afterwards.
type Told = ((u64, u64, u64), u64, String);

fn no(answer: Answer) -> (u64, u64, u64) {
    (answer.refusal, answer.first, answer.second)
}

fn told(ask: impl FnOnce(&mut [u8]) -> Answer, out: &str) -> Told {
    let mut bytes = out.as_bytes().to_vec();
    let answer = ask(&mut bytes);
    (no(answer), answer.count, String::from_utf8(bytes).expect("text"))
}

/// So many bytes, and the output.
fn bytes(count: u64, out: &str) -> Told {
    ((0, 0, 0), count, out.to_string())
}

/// A refusal, and the output as it was.
fn refused(number: u64, first: u64, out: &str) -> Told {
    ((number, first, 0), 0, out.to_string())
}

/// A table of one row, whose name is the byte behind '>'.
fn row(length: u64, position: u64, line_bases: u64, line_width: u64) -> Vec<u8> {
    [1, 1, length, position, line_bases, line_width, 0, 0].iter().flat_map(|n| n.to_le_bytes()).collect()
}

#[test]
fn exact_reads() {
    let read = |file: &str, table: &[u8], bounds: Bounds, out: &str| {
        told(|out| entry::read_exact(file.as_bytes(), table, 1, 0, bounds, out), out)
    };
    let two_lines = ">s\nACGT\nAC\n";
    assert_eq!(read(two_lines, &row(6, 3, 4, 5), (4..=5).into(), "......"), bytes(2, "TA...."));
    assert_eq!(read(two_lines, &row(6, 3, 4, 5), (5..=7).into(), "......"), refused(17, 6, "......"));
    // absent bounds are the first and the last base; of a record without bases there is none
    assert_eq!(read(two_lines, &row(6, 3, 4, 5), (..).into(), "......"), bytes(6, "ACGTAC"));
    assert_eq!(read(two_lines, &row(6, 3, 4, 5), (5..).into(), "......"), bytes(2, "AC...."));
    assert_eq!(read(">s\n", &row(0, 3, 4, 5), (..).into(), "......"), refused(17, 0, "......"));
    // 14 tells what is needed, before any place is judged
    assert_eq!(read(two_lines, &row(6, 3, 4, 5), (..=5).into(), "...."), refused(14, 5, "...."));
    assert_eq!(read(">s\n", &row(u64::MAX, 3, 4, 5), (..).into(), ""), refused(14, u64::MAX, ""));
}

#[test]
fn what_an_exact_read_judges_first() {
    let read = |table: &[u8], in_use, row, bounds: Bounds| {
        told(|out| entry::read_exact(b">s\nACG", table, in_use, row, bounds, out), "")
    };
    // 16 judges given bounds only, and before the row
    assert_eq!(read(&row(3, 3, 3, 4), 1, 5, (..=0).into()), refused(16, 0, ""));
    let crossed = Bounds { start: Some(2), end: Some(1) };
    assert_eq!(read(&row(3, 3, 3, 4), 1, 5, crossed), refused(16, 0, ""));
    assert_eq!(read(&row(3, 3, 3, 4), 1, 5, (..).into()), refused(25, 5, ""));
    assert_eq!(read(&row(3, 3, 3, 4), 2, 0, (..).into()), refused(25, 1, ""));
}

#[test]
fn raw_reads() {
    let read = |file: &str, table: &[u8], bounds: Bounds, out: &str| {
        told(|out| entry::read_raw(file.as_bytes(), table, 1, 0, bounds, out), out)
    };
    // a scan that begins at '>' gives nothing
    assert_eq!(read(">s\nAC>GT\n", &row(5, 3, 5, 6), (3..=4).into(), "..."), bytes(0, "..."));
    // the record's length is not looked at: a scan stops at the next definition, or begins behind it
    let two_records = ">s\nAC\n>t\nGG\n";
    assert_eq!(read(two_records, &row(2, 3, 2, 3), (1..=100).into(), "..."), bytes(2, "AC."));
    assert_eq!(read(two_records, &row(2, 3, 2, 3), (1..=100).into(), "."), refused(14, 2, "."));
    assert_eq!(read(two_records, &row(2, 3, 2, 3), (4..=5).into(), "..."), bytes(2, "tG."));
    assert_eq!(read(two_records, &row(2, 3, 2, 3), (4..).into(), "..."), bytes(3, "tGG"));
    // a start past the end of the file gives nothing; one past 64 bits is refused
    assert_eq!(read(">s\nACG", &row(3, 3, 3, 4), (9..).into(), "..."), bytes(0, "..."));
    assert_eq!(read(">s\nACG", &row(3, 3, 2, u64::MAX), (3..).into(), "..."), refused(18, 3, "..."));
}

/// A look-up, then a read of the row that it gives: a name that no row has is told before bad bounds, and a bad row before any name.
#[test]
fn look_ups_and_reads() {
    let file = b">s\nACG";
    let read = |names: &[u8], table: &[u8], in_use, name: &[u8], bounds: Bounds| {
        let found = entry::find(names, table, in_use, name);
        if found.refusal > 0 {
            return (no(found), found.count, "...".to_string());
        }
        let exact = told(|out| entry::read_exact(file, table, in_use, found.count, bounds, out), "...");
        let raw = told(|out| entry::read_raw(file, table, in_use, found.count, bounds, out), "...");
        assert_eq!(exact, raw);
        exact
    };
    let (zero, all) = (Bounds::from(0..), Bounds::from(..));
    assert_eq!(read(file, &row(3, 3, 3, 4), 0, b"s", zero), refused(15, 0, "..."));
    assert_eq!(read(file, &row(3, 3, 0, 4), 1, b"t", zero), refused(25, 0, "..."));
    assert_eq!(read(file, &row(3, 3, 3, 4), 2, b"s", zero), refused(25, 1, "..."));
    assert_eq!(read(b">", &row(3, 3, 3, 4), 1, b"s", zero), refused(25, 0, "..."));
    assert_eq!(read(file, &row(3, 3, 3, 4), 1, b"s", zero), refused(16, 0, "..."));
    assert_eq!(read(file, &row(3, 3, 3, 4), 1, b"s", all), bytes(3, "ACG"));
}

#[test]
fn scans() {
    let whole = |file: &str, at| {
        let mut out = *b"......";
        let answer = entry::read_sequence(file.as_bytes(), at, &mut out);
        assert_eq!(no(answer), (0, 0, 0));
        (String::from_utf8(out[..answer.count as usize].to_vec()).expect("text"), answer.next)
    };
    let limited = |file: &str, at, limit| {
        let mut out = *b"......";
        let answer = entry::read_sequence_limit(file.as_bytes(), at, limit, &mut out);
        assert_eq!(no(answer), (0, 0, 0));
        (String::from_utf8(out[..answer.count as usize].to_vec()).expect("text"), answer.next)
    };
    let gives = |bases: &str, next: u64| (bases.to_string(), next);
    // only the bases given are consumed, a limit of 0 moves nothing, a place past the end stays
    assert_eq!(limited("A\nC", 0, 1), gives("A", 1));
    assert_eq!(limited("A\nC", 1, 1), gives("C", 3));
    assert_eq!(limited("A\nC", 1, 0), gives("", 1));
    assert_eq!(limited("A\nC", 9, 5), gives("", 9));
    // a CR is dropped at a line's end alone
    assert_eq!(whole("AC\r", 0), gives("AC", 3));
    assert_eq!(whole("A\r\r\nC\n", 0), gives("A\rC", 6));
    // a scan ends behind the CR and LF that it skipped, at '>' or the end
    assert_eq!(whole("\r\n\r>", 0), gives("", 3));
    assert_eq!(whole("AC>GT\n", 0), gives("AC>GT", 6));
    assert_eq!(whole("AC>GT\n", 2), gives("", 2));
    // pieces need not join: `A>` in steps of 1 gives `A` alone
    assert_eq!(limited("A>", 0, 1), gives("A", 1));
    assert_eq!(limited("A>", 1, 1), gives("", 1));
}

#[test]
fn what_the_checker_says() {
    let checked = |file: &str, index: &str| no(entry::check(file.as_bytes(), index.as_bytes()));
    let two_records = ">sq0\nACGT\n>sq1\nNNNN\nNNNN\nNN\n";
    assert_eq!(checked(two_records, "sq0\t4\t5\t4\t5\nsq1\t10\t15\t4\t5\n"), (0, 0, 0));
    assert_eq!(checked(two_records, "sq0\t4\t5\t4\t5\nsq1\t10\t15\t4\t6\n"), (23, 2, 5));
    // no line, an empty one, another name before another length, another length before another place, a line too many
    assert_eq!(checked(">s\nA\n", ""), (19, 1, 0));
    assert_eq!(checked(">s\nA\n", "\n"), (9, 1, 0));
    assert_eq!(checked(">s\nA\n", "t\t5\t3\t1\t2\n"), (21, 1, 0));
    assert_eq!(checked(">s\nA\n", "s\t5\t9\t1\t2\n"), (22, 1, 0));
    assert_eq!(checked(">s\nA\n", "s\t1\t3\t1\t2\n\n"), (20, 1, 0));
    // numbers with a plus
    assert_eq!(checked(">s\nA\n", "s\t+1\t3\t+1\t+2\n"), (0, 0, 0));
    assert_eq!(checked(">s\nA\n", "s\t1\t3\t+0\t2\n"), (12, 1, 4));
}

/// One plus before at least one digit, in every number field; such a line is not plain.
#[test]
fn numbers_with_a_plus() {
    let read = |line: &str| {
        let row = entry::index_line(line.as_bytes());
        assert_eq!((row.refusal, row.name_length), (0, 1), "{line}");
        ([row.length, row.position, row.line_bases, row.line_width], row.plain)
    };
    assert_eq!(read("s\t4\t3\t2\t3\n"), ([4, 3, 2, 3], 1));
    assert_eq!(read("s\t+4\t3\t+2\t+3\n"), ([4, 3, 2, 3], 0));
    assert_eq!(read("s\t4\t+3\t2\t3\n"), ([4, 3, 2, 3], 0));
    assert_eq!(read("s\t+0\t+007\t+1\t+18446744073709551615\n"), ([0, 7, 1, u64::MAX], 0));
    let refused = |line: &str| {
        let row = entry::index_line(line.as_bytes());
        (row.refusal, row.first, row.second)
    };
    // `+0` in field 4 or 5
    assert_eq!(refused("s\t4\t3\t+0\t3\n"), (12, 1, 4));
    assert_eq!(refused("s\t4\t3\t2\t+0\n"), (12, 1, 5));
    // two, a lone plus, a minus, a plus behind a digit, over 64 bits
    assert_eq!(refused("s\t++4\t3\t2\t3\n"), (11, 1, 2));
    assert_eq!(refused("s\t4\t+\t2\t3\n"), (11, 1, 3));
    assert_eq!(refused("s\t4\t3\t-2\t3\n"), (11, 1, 4));
    assert_eq!(refused("s\t4\t3\t2\t+-3\n"), (11, 1, 5));
    assert_eq!(refused("s\t4\t3\t2+\t3\n"), (11, 1, 4));
    assert_eq!(refused("s\t4\t3\t2\t+18446744073709551616\n"), (11, 1, 5));
    // judged from the left
    assert_eq!(refused("\t+0\n"), (10, 1, 3));
}

/// What is read with a plus is written without.
#[test]
fn a_plus_is_not_written() {
    let mut table = vec![0; ROW_BYTES];
    let index = b"s\t+4\t3\t+2\t+3\n";
    assert_eq!(entry::read_index(index, &mut table).count, 1);
    let written = Table::from_bytes(index, table, 1).write_index().expect("a line");
    assert_eq!(written, b"s\t4\t3\t2\t3\n");
}

#[test]
fn complements() {
    let one = |bases: &str, out: &str| told(|out| entry::complement(bases.as_bytes(), out), out);
    let letters = "ACGTUWSMKRYBDHVNacgtuwsmkrybdhvn";
    assert_eq!(one(letters, letters), bytes(32, "TGCAAWSKMYRVHDBNtgcaawskmyrvhdbn"));
    // the first bad byte, and the last where bases are reversed
    let mut out = *b".....";
    assert_eq!(no(entry::complement(b"A-C*G", &mut out)), (24, 1, u64::from(b'-')));
    assert_eq!(no(entry::reverse_complement(b"A-C*G", &mut out)), (24, 3, u64::from(b'*')));
    assert_eq!(&out, b".....");
}

/// The low byte of a number comes first, and less than eight bytes behind the rows are none of the table's.
#[test]
fn a_table_to_the_byte() {
    let mut table = vec![255; ROW_BYTES + 3];
    let file = [&b">s\n"[..], &b"A".repeat(258), b"\n"].concat();
    let answer = entry::index_file(&file, &mut table);
    assert_eq!((no(answer), answer.count), ((0, 0, 0), 1));
    assert_eq!(&table[16..24], &[2, 1, 0, 0, 0, 0, 0, 0]);
    assert_eq!(&table[ROW_BYTES..], &[255; 3]);
}

#[test]
fn rows_by_the_complete_rule() {
    let indexed = |file: &str| {
        let mut table = vec![0; ROW_BYTES];
        let answer = entry::index_complete(file.as_bytes(), &mut table);
        let told = (no(answer), answer.count);
        (told, if answer.count == 1 { table } else { vec![] })
    };
    let one = |row: Vec<u8>| (((0, 0, 0), 1), row);
    // a blank line behind a short last line, as genomes come from archives
    assert_eq!(indexed(">s\nACGT\nAC\n\n"), one(row(6, 3, 4, 5)));
    // blank lines in front of the first base, and between lines that stay equally far apart
    assert_eq!(indexed(">s\n\nACGT\n"), one(row(4, 4, 4, 5)));
    assert_eq!(indexed(">s\nA\n\n\nC\n"), one(row(2, 3, 1, 4)));
    // a last line without an end, and a CR there
    assert_eq!(indexed(">s\nAC\r"), one(row(2, 3, 2, 3)));
    // no bases
    assert_eq!(indexed(">s\n"), one(row(0, 3, 1, 2)));
    // a line of one base between lines of two: base 4, at offset 8, is not where base 3 says
    assert_eq!(indexed(">s\nAC\nA\nAC\n"), (((42, 8, 4), 0), vec![]));
}
