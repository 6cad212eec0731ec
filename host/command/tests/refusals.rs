//! Each refusal that a person can meet, in words and status. 8, 13 and 25 can't be met: the command's tables have room for every
//! record, no name of a FASTA file holds a tab or LF, and it uses no row that isn't there. 14 needs a machine without memory.

mod common;

use common::Folder;
use std::fs::File;

/// Indexing a file is refused, by itself and for a read, and nothing is left behind.
#[track_caller]
fn not_indexed(folder: &Folder, rule: &[&str], file: &[u8], code: &str, words: &[&str]) {
    let run = |command: &[&str]| folder.run(&[command, rule].concat()).refused(code, words);
    folder.write("f.fa", file);
    folder.write("f.fa.fai", "an old one");
    run(&["index", "f.fa"]);
    assert_eq!(folder.read("f.fa.fai"), b"an old one", "the old index stays");
    std::fs::remove_file(folder.at("f.fa.fai")).unwrap();
    // without an index a read makes one, and meets the same
    run(&["read", "f.fa", "s:1-1"]);
    run(&["complement", "f.fa", "s"]);
    run(&["index", "f.fa"]);
    assert_eq!(folder.names(), ["f.fa"], "nothing is left behind");
}

/// Files that no rule takes: they are no FASTA.
#[test]
fn of_index() {
    let folder = Folder::new("of-index");
    for (file, code, words) in [
        (
            &b"\n>s\nAC\n"[..],
            "refused 2 (offset 0)",
            "f.fa, line 1 (byte 0): a record begins with a line such as '>name', and this line is empty",
        ),
        (
            b"ACGT\n",
            "refused 3 (offset 0)",
            "f.fa, line 1 (byte 0): a record begins with a line such as '>name' (in FASTQ '@name'), and here stands 'ACGT'",
        ),
        (b"\x1f\x8b\x08rest", "refused 3 (offset 0)", "this is a compressed file"),
        (b"\xef\xbb\xbf>s\nAC\n", "refused 3 (offset 0)", "save the file as UTF-8 without a byte order mark"),
        (b"\xff\xfe>\0s\0\n\0", "refused 3 (offset 0)", "UTF-16"),
        (
            b">s\nAC\n> t\nAC\n",
            "refused 4 (offset 7)",
            "f.fa, line 3 (byte 7): the definition line has no name right after its '>'",
        ),
    ] {
        not_indexed(&folder, &[], file, code, &[words]);
        not_indexed(&folder, &["--strict"], file, code, &[words]);
    }
    // behind records that only the complete rule takes
    let words = "f.fa, line 7 (byte 15): the definition line has no name right after its '>'";
    not_indexed(&folder, &[], b">s\n\nAC\n\n>t\n>u\n>\n", "refused 4 (offset 15)", &[words]);
}

/// The line of a bad definition is shown, cut to a screen's width, with a caret under the byte.
#[test]
fn a_bad_definition_line_is_shown() {
    let folder = Folder::new("caret");
    folder.write("f.fa", ">s\nAC\n> t and more\nAC\n");
    let words = "f.fa, line 3 (byte 7): the definition line has no name right after its '>'\n  > t and more\n   ^\n";
    folder.run(&["index", "f.fa"]).refused("refused 4 (offset 7)", &[words]);
    folder.write("f.fa.fai", "s\t2\t3\t2\t3\n");
    folder.run(&["check", "f.fa"]).refused("refused 4 (record 2, offset 7)", &[words]);
    // a long line is cut, and bytes that are no letters are shown as such
    let long = [b"A\x01".as_slice(), &[b'C'; 1000], b"\n"].concat();
    folder.write("f.fa", long);
    let answer = folder.command(&["index", "f.fa"]).env("COLUMNS", "40").output().expect("it runs");
    let said = String::from_utf8(answer.stderr).expect("text");
    let lines: Vec<&str> = said.lines().collect();
    assert!(lines[1].starts_with("  A\\x01CCC") && lines[1].ends_with("CC..") && lines[1].len() <= 40, "{said}");
    assert_eq!(lines[2], "  ^");
}

/// Files that no index can fit: record, line and base are named, the line is shown, and it is said what to do.
#[test]
fn where_no_index_fits() {
    let folder = Folder::new("no-fit");
    let long = [&b">s\n"[..], &[b'A'; 100], b"\n", &[b'C'; 100], b"GT\n"].concat();
    for (file, code, words) in [
        (
            &b">s\nACGT\nAC\nACGT\n"[..],
            "refused 42 (offset 11, base 7)",
            &[
                "f.fa, line 4 (byte 11): base 7 of s (record 1) lies at byte 11, and by the record's first lines",
                "it would lie at byte 10: line 3 has 2 bases, and the first has 4; only the last may have fewer",
                "here stands 'ACGT'",
            ][..],
        ),
        (
            b">t\n\n>s\n\nAC\n\nGTA\n",
            "refused 42 (offset 14, base 5)",
            &[
                "f.fa, line 7 (byte 12): base 5 of s (record 2) lies at byte 14, and by the record's first lines",
                "it would lie at byte 16: this line has 3 bases, and the first has 2",
                "here stands 'GTA'",
            ],
        ),
        (
            b">s\nACGT\nACGT\r\nACGT\n",
            "refused 42 (offset 14, base 9)",
            &[
                "f.fa, line 4 (byte 14): base 9 of s (record 1) lies at byte 14, and by the record's first lines",
                "it would lie at byte 13: the ends of lines or the blank lines before it are not as behind the first",
            ],
        ),
        (
            &long,
            "refused 42 (offset 204, base 201)",
            &[
                "f.fa, line 3 (byte 104)",
                "this line has 102 bases, and the first has 100",
                "here stands '..CCCCC",
                "CGT'",
            ],
        ),
    ] {
        not_indexed(&folder, &[], file, code, words);
        let next = "no index can fit this file: wrap its bases anew, all lines of a record alike";
        folder.run(&["index", "f.fa"]).refused(code, &[next]);
    }
}

/// What the complete rule takes and the original's refuses.
#[test]
fn of_index_strict() {
    let folder = Folder::new("of-strict");
    for (file, code, words, index, told) in [
        (
            &b">s\n\nACGT\n"[..],
            "refused 5 (offset 4)",
            "f.fa, line 2 (byte 3): the first line of s is blank",
            "s\t4\t4\t4\t5\n",
            "1 record (1 with blank lines), 4 bases",
        ),
        (
            b">s\nAC\n>t\n>u\nAC\n",
            "refused 5 (offset 9)",
            "f.fa, line 3 (byte 6): t has no bases",
            "s\t2\t3\t2\t3\nt\t0\t9\t1\t2\nu\t2\t12\t2\t3\n",
            "3 records (1 without bases), 4 bases",
        ),
        (
            b">s",
            "refused 5 (offset 2)",
            "f.fa, line 1 (byte 0): s has no bases",
            "s\t0\t2\t1\t2\n",
            "1 record (1 without bases), 0 bases",
        ),
        (
            b">s\nACGT\n\nACGT\n>t\n\n",
            "refused 6 (found 0, expected 4)",
            "f.fa, line 3 (byte 8): this line of s is blank",
            "s\t8\t3\t4\t6\nt\t0\t17\t1\t2\n",
            "2 records (1 with blank lines, 1 without bases), 8 bases",
        ),
        (
            b">s\nACGT\nAC\n\n",
            "refused 6 (found 2, expected 4)",
            "f.fa, line 3 (byte 8): this line of s has 2 bases, and the lines before it have 4",
            "s\t6\t3\t4\t5\n",
            "1 record (1 with blank lines), 6 bases",
        ),
        (
            b">s\nACGT\nACGT\r\n",
            "refused 7 (found 6, expected 5)",
            "f.fa, line 3 (byte 8): this line of s has as many bases as those before it and another end",
            "s\t8\t3\t4\t5\n",
            "1 record, 8 bases",
        ),
    ] {
        not_indexed(&folder, &["--strict"], file, code, &[words, "or leave out --strict"]);
        folder.run(&["index", "f.fa"]).gave(&format!("f.fa.fai: {told}\n"));
        assert_eq!(String::from_utf8(folder.read("f.fa.fai")).unwrap(), index);
        assert_eq!(folder.run(&["check", "f.fa"]).status, Some(0));
        std::fs::remove_file(folder.at("f.fa.fai")).unwrap();
    }
}

/// A read without an index takes what `index` takes, and of all records one without bases is none the less one.
#[test]
fn blank_lines_and_no_bases_in_a_read() {
    let folder = Folder::new("blank-read");
    folder.write("f.fa", ">s\nACGT\nAC\n\n>t\n>u\n\nG\n\nT\n");
    for _ in 0..2 {
        folder.run(&["read", "f.fa", "s:4-6", "u"]).gave(">s:4-6\nTAC\n>u\nGT\n");
        folder.run(&["read", "f.fa", "t"]).refused("refused 17 (length 0)", &["t has no bases"]);
        folder
            .run(&["revcomp", "f.fa"])
            .gave(">s reverse complement\nGTACGT\n>t reverse complement\n>u reverse complement\nAC\n");
        // once without an index, and once with it
        assert_eq!(folder.run(&["index", "f.fa"]).status, Some(0));
    }
    folder.run(&["--json", "index", "f.fa"]).gave(concat!(
        "{\"file\":\"f.fa\",\"index\":\"f.fa.fai\",\"records\":3,\"bases\":8,",
        "\"records_with_blank_lines\":2,\"records_without_bases\":1}\n",
    ));
}

/// A file whose lines end in CR alone is one line, which reads as a record without bases: that is told, and by the strict rule refused.
#[test]
fn lines_that_end_in_cr_alone() {
    let folder = Folder::new("cr-alone");
    let words =
        "f.fa: s has no bases: the lines of the file end in CR alone, so that all of it is one line\n  save it with LF";
    folder.write("f.fa", b">s\rACGT\rACGT\r");
    let answer = folder.run(&["index", "f.fa"]);
    assert_eq!((answer.status, answer.out.as_str()), (Some(0), "f.fa.fai: 1 record (1 without bases), 0 bases\n"));
    assert!(answer.err.starts_with(&format!("wakeluri: warning: {words}")), "{}", answer.err);
    std::fs::remove_file(folder.at("f.fa.fai")).unwrap();
    folder.run(&["read", "f.fa", "s"]).refused("refused 17 (length 0)", &[words]);
    let words = "the lines of the file end in CR alone";
    not_indexed(&folder, &["--strict"], b">s\rACGT\rACGT\r", "refused 5 (offset 13)", &[words]);
}

/// A file over 1 TiB.
#[test]
fn of_size() {
    let folder = Folder::new("of-size");
    let file = File::create(folder.at("f.fa")).unwrap();
    if file.set_len((1 << 40) + 1).is_err() {
        eprintln!("skipped: no file of over 1 TiB can be made here");
        return;
    }
    folder.run(&["index", "f.fa"]).refused("refused 1", &["f.fa: it has 1,099,511,627,777 bytes"]);
    folder.write("i.fai", "s\t1\t3\t1\t2\n");
    folder
        .run(&["check", "f.fa", "i.fai"])
        .refused("refused 1", &["f.fa: an input has more than 1,099,511,627,776 bytes"]);
}

/// Indexes that are not right for a file.
#[test]
fn of_check() {
    let folder = Folder::new("of-check");
    let good = b">s\nACGT\nAC\n>t x\nGG\n";
    for (file, index, code, words) in [
        (
            &good[..],
            "s\t6\t3\t4\t5\n",
            "refused 19 (record 2)",
            "f.fa.fai: it ends after 1 line, and record 2 of f.fa is t",
        ),
        (good, "", "refused 19 (record 1)", "f.fa.fai: it ends after 0 lines, and record 1 of f.fa is s"),
        (
            good,
            "s\t6\t3\t4\t5\n\n",
            "refused 9 (record 2, field 0)",
            "f.fa.fai, line 2 (byte 10): the index line of record 2 is empty",
        ),
        (
            good,
            "s\t6\t3\t4\n",
            "refused 10 (record 1, field 5)",
            "f.fa.fai, line 1 (byte 0): the index line of record 1 ends before field 5",
        ),
        (
            good,
            "s\t6\tx\t4\t5\n",
            "refused 11 (record 1, field 3)",
            "no number that 64 bits hold in field 3, the offset of the first base",
        ),
        (good, "s\t6\t3\t4\t18446744073709551616\n", "refused 11 (record 1, field 5)", "field 5, the bytes in a line"),
        (good, "s\t6\t3\t0\t5\n", "refused 12 (record 1, field 4)", "has 0 in field 4"),
        (
            good,
            "s\t6\t3\t4\t5\nu\t2\t16\t2\t3\n",
            "refused 21 (record 2)",
            "f.fa.fai, line 2 (byte 10): this line is about 'u', and record 2 of f.fa is 't'",
        ),
        (
            good,
            "s\t5\t3\t4\t5\n",
            "refused 22 (record 1)",
            "f.fa.fai, line 1 (byte 0): s has 6 bases in f.fa, and this line says 5",
        ),
        (
            good,
            "s\t6\t3\t4\t6\n",
            "refused 23 (record 1, base 5)",
            "f.fa.fai, line 1 (byte 0): by this line base 5 of s is at byte 9, and it is at byte 8 (line 3) of f.fa",
        ),
        (
            good,
            "s\t6\t3\t4\t18446744073709551615\n",
            "refused 23 (record 1, base 5)",
            "base 5 of s is farther than a file can be long",
        ),
        (
            good,
            "s\t6\t3\t4\t5\nt\t2\t16\t2\t3\nu\t1\t1\t1\t1\n",
            "refused 20 (records 2)",
            "f.fa.fai, line 3 (byte 21): it goes on here, and f.fa has 2 records",
        ),
        (
            b"ACGT\n",
            "",
            "refused 3 (record 1, offset 0)",
            "f.fa, line 1 (byte 0): a record begins with a line such as '>name'",
        ),
        (
            b">s\nAC\n>\n",
            "s\t2\t3\t2\t3\n",
            "refused 4 (record 2, offset 7)",
            "f.fa, line 3 (byte 7): the definition line has no name",
        ),
        (
            b"\n",
            "",
            "refused 2 (record 1, offset 0)",
            "f.fa, line 1 (byte 0): a record begins with a line such as '>name', and this line is empty",
        ),
    ] {
        folder.write("f.fa", file);
        folder.write("f.fa.fai", index);
        folder.run(&["check", "f.fa"]).refused(code, &[words]);
        // a read holds the index against the file first, and refuses with the same
        folder.run(&["read", "f.fa", "s:1-1"]).refused(code, &[words]);
    }
}

/// What `check` accepts.
#[test]
fn accepted() {
    let folder = Folder::new("accepted");
    folder.write("f.fa", ">s\nACGT\n");
    folder.run(&["check", "f.fa", "/dev/null"]).refused("refused 19 (record 1)", &[]);
    folder
        .piped(&["check", "-", "/dev/null"], b">s\nACGT\n", 9)
        .refused("refused 19 (record 1)", &["`wakeluri index -`"]);
    folder.write("other.fai", "s\t04\t3\t60\t61");
    folder
        .run(&["check", "f.fa", "other.fai"])
        .gave("accepted: other.fai leads to every base of f.fa (1 record, 4 bases)\n");
    folder
        .piped(&["check", "-", "other.fai"], b">s\nACGT\n", 3)
        .gave("accepted: other.fai leads to every base of standard input (1 record, 4 bases)\n");
    folder
        .run(&["--json", "check", "f.fa", "other.fai"])
        .gave("{\"accepted\":true,\"file\":\"f.fa\",\"index\":\"other.fai\",\"records\":1,\"bases\":4}\n");
}

/// Regions that are not there.
#[test]
fn of_read() {
    let folder = Folder::new("of-read");
    folder.write("f.fa", ">chr1\nACGT\nAC\n>chr2\nGG\n>HLA:A\nTTTT\n>HLA\nC\n");
    folder.write("sheet.txt", "chr1:1-2\r\n\r\n  chr2:2-3 \nchr1\n");
    for (region, code, words) in [
        (
            "chr1:5-7",
            "refused 17 (length 6)",
            "f.fa: chr1:5-7 was asked for, and chr1 has 6 bases: base 7 is past their end",
        ),
        ("chr1:7", "refused 17 (length 6)", "its bases are chr1:1-6"),
        ("chr1:7-", "refused 17 (length 6)", "base 7 is past their end"),
        ("chr1:-7", "refused 17 (length 6)", "to read to the end: chr1:1-6"),
        ("chr1:1-1,000", "refused 17 (length 6)", "base 1000 is past"),
        (
            "chr1:1-18446744073709551616",
            "refused 17 (length 6)",
            "base 18446744073709551616 is past their end (and over 64 bits)",
        ),
        ("chr1:99999999999999999999", "refused 17 (length 6)", "over 64 bits"),
        ("chr1:99999999999999999999-5", "refused 16", "its start is after its end"),
        ("chr1:4-3", "refused 16", "f.fa: chr1:4-3 was asked for, and its start is after its end"),
        ("chr1:0-3", "refused 16", "a bound is 0, and bases count from 1"),
        ("chr1:0", "refused 16", "a bound is 0"),
        ("chr1:-0", "refused 16", "a bound is 0"),
        ("chr1:9-7", "refused 16", "its start is after its end"),
        ("chr3:1-2", "refused 15", "no record is named 'chr3'\n  the nearest names are: chr1, chr2"),
        ("Chr1", "refused 15", "the nearest names are: chr1, chr2"),
        ("1:5-6", "refused 15", "no record is named '1'\n  the nearest name is: chr1"),
        ("elsewhere", "refused 15", "it has 4 records: chr1, chr2, HLA:A, HLA"),
        ("", "refused 15", "no record is named ''"),
        ("{HLA}:2", "refused 17 (length 1)", "HLA has 1 base: base 2 is past"),
    ] {
        folder.run(&["read", "f.fa", "chr1:1-1", region]).refused(code, &[words]);
    }
    folder
        .run(&["read", "f.fa", "--regions", "sheet.txt"])
        .refused("refused 17 (length 2)", &["sheet.txt, line 3: f.fa: chr2:2-3 was asked for, and chr2 has 2 bases"]);
    folder
        .run(&["read", "f.fa", "HLA:A:2-3", "{HLA}:1", "HLA:A", "HLA:1", "{HLA:A}:-1"])
        .gave(">HLA:A:2-3\nTT\n>{HLA}:1\nC\n>HLA:A\nTTTT\n>HLA:1\nC\n>{HLA:A}:-1\nT\n");
    let json = folder.run(&["--json", "read", "f.fa", "chr1:5-7"]);
    assert_eq!((json.status, json.out.as_str()), (Some(1), ""));
    assert!(
        json.err.starts_with(
            "{\"status\":1,\"file\":\"f.fa\",\"region\":\"chr1:5-7\",\"refused\":17,\"first\":6,\"second\":0,"
        ),
        "{json:?}"
    );
    assert_eq!(json.err.lines().count(), 1);
}

/// Two records of one name: the first is read, and it is said.
#[test]
fn twins() {
    let folder = Folder::new("twins");
    folder.write("f.fa", ">s\nAC\n>t\nG\n>s\nTT\n");
    let answer = folder.run(&["read", "f.fa", "s:1-2", "t", "s"]);
    assert_eq!((answer.status, answer.out.as_str()), (Some(0), ">s:1-2\nAC\n>t\nG\n>s\nAC\n"));
    assert_eq!(answer.err, "wakeluri: warning: records 1 and 3 of f.fa are both named s: the first is read\n");
    // all records are all, and each is itself
    folder.run(&["complement", "f.fa"]).gave(">s complement\nTG\n>t complement\nC\n>s complement\nAA\n");
}

/// An index that is used unchecked, and lies.
#[test]
fn of_read_unchecked() {
    let folder = Folder::new("of-unchecked");
    folder.write("f.fa", ">s\nACGT\nAC\n");
    for (index, region, code, words) in [
        (
            "s\t600\t3\t4\t5\n",
            "s:6-9",
            "refused 18 (base 8)",
            "by the index base 8 would lie where the file has no byte",
        ),
        ("s\t18446744073709551615\t3\t4\t5\n", "s", "refused 18 (base 8)", "make the index again"),
        (
            "s\t18446744073709551615\t3\t4\t5\n",
            "s:18446744073709551610",
            "refused 18 (base 18446744073709551610)",
            "make the index again",
        ),
        ("s\t6\t3\t4\n", "s", "refused 10 (line 1, field 5)", "f.fa.fai, line 1 (byte 0): line 1 ends before field 5"),
        ("s\t6\t3\tx\t5\n", "s", "refused 11 (line 1, field 4)", "line 1 has no number"),
        ("s\t6\t3\t4\t0\n", "s", "refused 12 (line 1, field 5)", "line 1 has 0 in field 5"),
        ("s\t6\t3\t4\t5\n\n", "s", "refused 9 (line 2)", "line 2 is empty"),
        ("s\t0\t3\t4\t5\n", "s", "refused 17 (length 0)", "s has no bases"),
    ] {
        folder.write("f.fa.fai", index);
        folder
            .run(&["read", "--unchecked", "f.fa", region])
            .refused(code, &[words, "warning: f.fa.fai was not checked"]);
    }
}

/// Bytes without a complement.
#[test]
fn of_complement() {
    let folder = Folder::new("of-complement");
    folder.write("f.fa", ">s\nACGT\nA-*C\n");
    folder
        .run(&["complement", "f.fa", "s:3-8"])
        .refused("refused 24 (place 3, byte 45)", &["base 6 of s is '-', which has no complement"]);
    folder
        .run(&["revcomp", "f.fa", "s:3-8"])
        .refused("refused 24 (place 4, byte 42)", &["base 7 of s is '*', which has no complement"]);
    folder
        .piped(&["revcomp"], b"AC-T\n", 2)
        .refused("refused 24 (place 2, byte 45)", &["standard input, line 1: the byte '-' at place 2"]);
    folder
        .piped(&["revcomp"], b"AACG\nTT\n", 9)
        .failed(2, &["standard input has 2 lines and no '>'", "--each-line", "--joined"]);
    folder.piped(&["revcomp", "--each-line"], b"AACG\nTT\n", 9).gave("CGTT\nAA\n");
    folder.piped(&["revcomp", "--joined"], b"AACG\r\nTT\r\n", 9).gave("AACGTT\n");
    folder.piped(&["complement"], b"AACGu", 9).gave("TTGCa\n");
    folder
        .piped(&["revcomp"], b">s x\nAAC\nG\n>t\nTTG\n", 9)
        .gave(">s reverse complement\nCGTT\n>t reverse complement\nCAA\n");
    folder.run(&["complement", "f.fa", "s:1-4"]).gave(">s:1-4 complement\nTGCA\n");
}

/// Words that make no sense are no refusal: status 2.
#[test]
fn usage() {
    let folder = Folder::new("usage");
    folder.write("f.fa", ">s\nACGT\n");
    folder.write("empty.txt", "\n\n");
    for words in [
        &[][..],
        &["read"],
        &["write", "f.fa"],
        &["read", "--nonsense", "f.fa", "s"],
        &["read", "-", "--regions", "-"],
        &["check", "-"],
        &["check", "-", "-"],
        &["read", "f.fa", "--regions", "empty.txt"],
        &["--json", "index", "-"],
    ] {
        folder.run(words).failed(2, &[]);
    }
    for words in [
        &["--help"][..],
        &["--version"],
        &["read", "--help"],
        &["index", "--help"],
        &["check", "--help"],
        &["revcomp", "--help"],
    ] {
        let answer = folder.run(words);
        assert_eq!((answer.status, answer.err.as_str()), (Some(0), ""));
        assert!(words.contains(&"--version") || answer.out.contains("Examples:"));
    }
    assert!(folder.run(&["--version"]).out.contains("\nproved with "));
    for shell in ["bash", "zsh", "fish"] {
        assert!(folder.run(&["completions", shell]).out.contains("revcomp"));
    }
}
