//! FASTQ, wherever FASTA is taken: told by its first byte, or by `--fastq`.

mod common;

use common::Folder;
use common::json::objects;

/// Two records: one of two lines, whose qualities begin with '@' and '+', and one of one line without its end.
const READS: &str = "@r1 a first one\nACGT\nAC\n+r1\n@III\n+I\n@r2\nGGT\n+\n!#$";
const INDEX: &str = "r1\t6\t16\t4\t5\t28\nr2\t3\t40\t3\t4\t46\n";

fn folder(test: &str) -> Folder {
    let folder = Folder::new(test);
    folder.write("r.fq", READS);
    folder
}

#[test]
fn its_index_has_six_columns() {
    let folder = folder("fastq-index");
    folder.run(&["index", "r.fq"]).gave("r.fq.fai: 2 records, 9 bases\n");
    assert_eq!(folder.read("r.fq.fai"), INDEX.as_bytes());
    folder.run(&["index", "r.fq", "-o", "-"]).gave(INDEX);
    folder.run(&["index", "--fastq", "r.fq", "-o", "-"]).gave(INDEX);
    folder.piped(&["index", "-"], READS.as_bytes(), 7).gave(INDEX);
    let told = objects(&folder.run(&["index", "--json", "r.fq"]).out);
    assert_eq!(
        (told[0].number("records"), told[0].number("bases"), told[0].text("format")),
        (Some(2), Some(9), Some("fastq"))
    );
    // each line with CR, and an index in the place of the old one
    folder.write("c.fq", READS.replace('\n', "\r\n"));
    folder.run(&["index", "c.fq", "-o", "r.fq.fai"]).gave("r.fq.fai: 2 records, 9 bases\n");
    assert_eq!(folder.read("r.fq.fai"), b"r1\t6\t17\t4\t6\t32\nr2\t3\t47\t3\t5\t55\n");
    // a file of reads is no place for an index
    folder.write("other.fai", READS);
    folder
        .run(&["index", "r.fq", "-o", "other.fai"])
        .failed(3, &["this is a file of sequences, and the index would take its place"]);
}

#[test]
fn an_empty_file_has_no_records() {
    let folder = Folder::new("fastq-empty");
    folder.write("e.fq", "");
    let answer = folder.run(&["index", "--fastq", "e.fq"]);
    assert_eq!((answer.status, answer.out.as_str()), (Some(0), "e.fq.fai: 0 records, 0 bases\n"), "{answer:?}");
    assert_eq!(folder.read("e.fq.fai"), b"");
}

#[test]
fn bases_and_qualities_are_read() {
    let folder = folder("fastq-read");
    folder.run(&["read", "r.fq", "r1:3-5", "r2"]).gave(">r1:3-5\nGTA\n>r2\nGGT\n");
    folder.run(&["read", "--qualities", "r.fq", "r1:3-5", "r2"]).gave("@r1:3-5\nGTA\n+\nII+\n@r2\nGGT\n+\n!#$\n");
    folder.run(&["read", "--qualities", "r.fq"]).gave("@r1\nACGTAC\n+\n@III+I\n@r2\nGGT\n+\n!#$\n");
    folder.run(&["read", "--qualities", "-w", "4", "r.fq", "r1"]).gave("@r1\nACGT\nAC\n+\n@III\n+I\n");
    folder
        .run(&["read", "--qualities", "--full-header", "-w", "0", "r.fq", "r1"])
        .gave("@r1 a first one\nACGTAC\n+\n@III+I\n");
    folder.run(&["read", "--full-header", "r.fq"]).gave(">r1 a first one\nACGTAC\n>r2\nGGT\n");
    folder.run(&["read", "--qualities", "r.fq", "r2:2-9"]).refused("refused 17 (length 3)", &["r2 has 3 bases"]);
    folder.piped(&["read", "--qualities", "-", "r2:1-1"], READS.as_bytes(), 5).gave("@r2:1-1\nG\n+\n!\n");

    let told = objects(&folder.run(&["read", "--json", "--qualities", "r.fq", "r1:3-5"]).out);
    assert_eq!((told[0].text("bases"), told[0].text("qualities")), (Some("GTA"), Some("II+")));
    // a sheet, and the other strand, of which the qualities go back too
    folder.write("sheet", "r1:1-5\t-\tlast\nr2\n");
    let answer = "@r1:1-5 reverse complement last\nTACGT\n+\n+III@\n@r2\nGGT\n+\n!#$\n";
    folder.run(&["read", "--qualities", "r.fq", "--regions", "sheet"]).gave(answer);
    // to a file, which is FASTQ or new
    folder.run(&["read", "--qualities", "r.fq", "r2", "-o", "out.fq"]).gave("out.fq: 1 region, 3 bases\n");
    assert_eq!(folder.read("out.fq"), b"@r2\nGGT\n+\n!#$\n");
    folder.run(&["read", "--qualities", "r.fq", "r2", "-o", "out.fq"]).gave("out.fq: 1 region, 3 bases\n");
    folder.run(&["read", "r.fq", "r2", "-o", "out.fq"]).failed(3, &["out.fq: this is a file that is not FASTA"]);
    folder.write("f.fa", ">s\nACGT\n");
    folder
        .run(&["read", "--qualities", "r.fq", "r2", "-o", "f.fa"])
        .failed(3, &["f.fa: this is a file that is not FASTQ"]);
    folder
        .run(&["read", "--qualities", "f.fa", "s"])
        .failed(2, &["f.fa: it does not begin with '@', and FASTA has no qualities"]);
}

/// What is written as FASTQ reads back as it was, or is not written.
#[test]
fn what_would_not_read_back_is_not_written() {
    let folder = Folder::new("fastq-back");
    folder.write("r.fq", "@s\nAC+T\n+\n@+@+\n");
    folder.run(&["read", "--quiet", "--qualities", "r.fq"]).gave("@s\nAC+T\n+\n@+@+\n");
    folder
        .run(&["read", "--quiet", "--qualities", "-w", "2", "r.fq"])
        .refused("refused 30", &["would not read back from a FASTQ file"]);
    folder.run(&["read", "--quiet", "--qualities", "r.fq", "s:3-4"]).refused("refused 30", &[]);
    folder.run(&["read", "--quiet", "r.fq", "s:3-4"]).gave(">s:3-4\n+T\n");
}

#[test]
fn its_records_are_listed() {
    let folder = folder("fastq-list");
    folder.run(&["list", "r.fq"]).gave("r1\t6\ta first one\nr2\t3\t\n");
    folder.run(&["list", "--fastq", "r.fq", "FIRST"]).gave("r1\t6\ta first one\n");
    let told = objects(&folder.run(&["list", "--json", "r.fq"]).out);
    assert_eq!((told[0].text("description"), told[1].number("length")), (Some("a first one"), Some(3)));
}

#[test]
fn what_is_wrong_is_told_with_its_line() {
    let folder = Folder::new("fastq-faults");
    for (file, code, words) in [
        (
            "@s\nA\n+\nI\n\n@t\n",
            "refused 2 (offset 9)",
            "f.fq, line 5 (byte 9): a record begins with a line such as '@name', and this line is empty",
        ),
        (
            "@s\nA\n+\nI\nJ\n",
            "refused 3 (offset 9)",
            "line 5 (byte 9): a record begins with a line such as '@name', and here stands 'J'",
        ),
        (
            "@ s\nA\n+\nI\n",
            "refused 4 (offset 1)",
            "line 1 (byte 1): the definition line has no name right after its '@'",
        ),
        ("@s\n\nA\n+\nI\n", "refused 5 (offset 4)", "line 2 (byte 3): the first line of s is blank"),
        ("@s\n+\nI\n", "refused 5 (offset 3)", "line 1 (byte 0): s has no bases"),
        ("@s\nAC\n\nA\n+\nII\nI\n", "refused 6 (found 0, expected 2)", "line 3 (byte 6): this line of s is blank"),
        ("@s\nAC\nACG\n+\nII\nIII\n", "refused 6 (found 3, expected 2)", "line 3 (byte 6): this line of s has 3 bases"),
        (
            "@s\nAC\nAC\r\nAC\n+\nII\n",
            "refused 7 (found 4, expected 3)",
            "line 3 (byte 6): this line of s has as many bases",
        ),
        (
            "@s\nA\n+\nI\n@t\nACGT\n",
            "refused 38",
            "line 6 (byte 12): t has no line that begins with '+' behind its bases",
        ),
        (
            "@s\nACGT\n+\nIII\n",
            "refused 39 (found 3, expected 4)",
            "line 4 (byte 10): this line of qualities of s has 3, and its line of bases has 4 bases",
        ),
        (
            "@s\nAC\r\n+\nII\n",
            "refused 39 (found 2, expected 2)",
            "line 4 (byte 9): this line of qualities of s has another end than its line of bases",
        ),
        (
            "@s\nAC\nA\n+\nII\n",
            "refused 39 (found 0, expected 1)",
            "line 5 (byte 10): the file ends before the qualities of s do",
        ),
    ] {
        folder.write("f.fq", file);
        for command in ["index", "read", "list"] {
            folder.run(&[command, "f.fq"]).refused(code, &[words]);
        }
    }
}

#[test]
fn a_file_that_is_neither_gets_a_clear_word() {
    let folder = Folder::new("fastq-neither");
    folder.write("f", "ACGT\n");
    folder.run(&["index", "f"]).refused(
        "refused 3 (offset 0)",
        &["'>name' (in FASTQ '@name'), and here stands 'ACGT'", "is it a FASTA file? or a FASTQ file?"],
    );
    folder
        .run(&["index", "--fastq", "f"])
        .refused("refused 3 (offset 0)", &["'@name', and here stands 'ACGT'", "is it a FASTQ file?"]);
    folder.write("f", ">s\nACGT\n");
    folder.run(&["index", "--fastq", "f"]).refused(
        "refused 3 (offset 0)",
        &["this is a FASTA file, and a FASTQ file begins with '@'", "leave out --fastq"],
    );
    folder.write("f", b"\x1f\x8b\x08\0");
    folder.run(&["index", "f"]).refused("refused 3 (offset 0)", &["this is a compressed file"]);
    folder
        .run(&["index", "--fastq", "f"])
        .refused("refused 3 (offset 0)", &["this is a compressed file, and FASTQ text is needed", "gzip -dc"]);
    folder.write("f", "\u{feff}@s\nA\n+\nI\n");
    folder.run(&["index", "--fastq", "f"]).refused("refused 3 (offset 0)", &["stand before the first '@'"]);
}

#[test]
fn what_is_of_fasta_alone_says_so() {
    let folder = folder("fastq-not");
    folder
        .run(&["wrap", "r.fq"])
        .failed(2, &["r.fq: it begins with '@', as FASTQ does, and `wrap` writes FASTA alone"]);
    folder.run(&["mend", "r.fq", "r1:1", "T"]).failed(2, &["`mend` takes FASTA alone"]);
    assert_eq!(folder.read("r.fq"), READS.as_bytes());
    folder.run(&["index", "--fastq", "-", "--save", "s.fq"]).failed(2, &["--save indexes FASTA alone"]);
    folder.piped(&["index", "-", "--save", "s.fq"], READS.as_bytes(), 9).failed(2, &["--save indexes FASTA alone"]);
    // without --save a pipe of FASTQ is read whole
    let index = folder.piped(&["index", "-"], READS.as_bytes(), 9);
    assert_eq!((index.status, index.err.as_str()), (Some(0), ""));
    folder.run(&["index", "r.fq", "-o", "r.fai"]);
    assert_eq!(index.out.as_bytes(), folder.read("r.fai"));
    assert_eq!(folder.names(), ["r.fai", "r.fq"]);
}

#[test]
fn what_is_done_with_bases_is_done_with_those_of_fastq() {
    let folder = folder("fastq-more");
    folder.run(&["revcomp", "r.fq", "r1:1-5"]).gave(">r1:1-5 reverse complement\nTACGT\n");
    folder.run(&["complement", "r.fq"]).gave(">r1 complement\nTGCATG\n>r2 complement\nCCA\n");
    folder.run(&["primer", "GTA", "r.fq"]).gave("r1\t3\t5\t+\tGTA\nr1\t4\t6\t-\tGTA\n");
    folder.run(&["exercise", "r1:1-6", "-o", "drill"]);
    folder.write("typed", "ACGTAC");
    let scored = folder.run(&["score", "r.fq", "drill", "typed"]);
    assert!(scored.status == Some(0) && scored.out.contains("100.0 %"), "{scored:?}");
}

#[test]
fn names_that_come_twice_and_bytes_that_are_no_letters_are_told() {
    let folder = Folder::new("fastq-twice");
    folder.write("r.fq", "@s\nAC\n+\nII\n@s\nA.\n+\n.I\n");
    let answer = folder.run(&["index", "r.fq"]);
    assert_eq!((answer.status, answer.out.as_str()), (Some(0), "r.fq.fai: 2 records, 4 bases\n"));
    for words in ["records 1 and 2 of r.fq are both named s", "r.fq, line 6, column 2: '.' stands among the bases"] {
        assert!(answer.err.contains(words), "{answer:?}");
    }
    folder.run(&["index", "--strict", "r.fq", "-o", "-"]).failed(1, &["'.' stands among the bases"]);
}

#[test]
fn files_of_a_folder() {
    let folder = folder("fastq-folder");
    folder.write("b.fastq", "@s\nA\n+\nII\n");
    folder.write("a.fa", ">s\nACGT\n");
    folder.write("x.fq.gz", "no matter");
    let answer = folder.run(&["index", "."]);
    assert_eq!(answer.status, Some(1), "{answer:?}");
    for words in [
        "indexed: ./a.fa.fai: 1 record, 4 bases\n",
        "refused: ./b.fastq, line 4 (byte 7): this line of qualities of s has 2, and its line of bases has 1 base; refused 39 (found 2, expected 1)\n",
        "indexed: ./r.fq.fai: 2 records, 9 bases\n",
        "3 files: 2 indexed, 1 refused; 1 packed file passed over\n",
    ] {
        assert!(answer.out.contains(words), "no '{words}' in {}", answer.out);
    }
    // a second file that begins with '@' is no index
    folder.write("c", READS);
    let answer = folder.run(&["index", "r.fq", "c"]);
    assert!(answer.out.ends_with("2 files: 2 indexed\n"), "{answer:?}");
}

#[test]
fn its_index_is_checked() {
    let folder = folder("fastq-check");
    folder.run(&["check", "r.fq"]).failed(3, &["there is no such file", "make the index with `wakeluri index r.fq`"]);
    folder.run(&["index", "r.fq"]).gave("r.fq.fai: 2 records, 9 bases\n");
    let accepted = "accepted: r.fq.fai leads to every base and every quality of r.fq (2 records, 9 bases)\n";
    folder.run(&["check", "r.fq"]).gave(accepted);
    folder.run(&["check", "--fastq", "r.fq"]).gave(accepted);
    let told = objects(&folder.run(&["check", "--json", "r.fq"]).out);
    assert_eq!((told[0].number("bases"), told[0].text("format")), (Some(9), Some("fastq")));
    for (from, to, code, words) in [
        (
            "r2\t3\t40\t3\t4\t46\n",
            "",
            "refused 19 (record 2)",
            "r.fq.fai: it ends after 1 line, and record 2 of r.fq is r2",
        ),
        ("r1\t", "s1\t", "refused 21 (record 1)", "this line is about 's1', and record 1 of r.fq is 'r1'"),
        ("\t6\t", "\t7\t", "refused 22 (record 1)", "r1 has 6 bases in r.fq, and this line says 7"),
        (
            "\t16\t",
            "\t17\t",
            "refused 23 (record 1, base 1)",
            "by this line base 1 of r1 is at byte 17, and it is at byte 16 (line 2) of r.fq",
        ),
        (
            "\t5\t28",
            "\t6\t28",
            "refused 23 (record 1, base 5)",
            "by this line base 5 of r1 is at byte 22, and it is at byte 21 (line 3) of r.fq",
        ),
        (
            "\t46\n",
            "\t45\n",
            "refused 23 (record 2, base 1)",
            "by this line the quality of base 1 of r2 is at byte 45, and it is at byte 46 (line 10) of r.fq",
        ),
        ("\t46\n", "\n", "refused 10 (record 2, field 6)", "ends before field 6, the offset of the first quality"),
        ("\t46\n", "\tx\n", "refused 11 (record 2, field 6)", "field 6, the offset of the first quality"),
        ("\t46\n", "\t46\nr3\t1\t1\t1\t1\t1\n", "refused 20 (records 2)", "it goes on here, and r.fq has 2 records"),
    ] {
        folder.write("r.fq.fai", INDEX.replace(from, to));
        let next = "make the index again: `wakeluri index r.fq`";
        for words_given in [&["check", "r.fq"][..], &["read", "r.fq", "r2"], &["read", "--qualities", "r.fq", "r2"]] {
            folder.run(words_given).refused(code, &[words, next]);
        }
    }
    // a wrong index is used where that is said, and told of
    folder.write("r.fq.fai", INDEX.replace("\t46\n", "\t45\n"));
    let answer = folder.run(&["read", "--unchecked", "--qualities", "r.fq", "r2:2-3"]);
    assert_eq!((answer.status, answer.out.as_str()), (Some(0), "@r2:2-3\nGT\n+\n!#\n"), "{answer:?}");
    assert!(answer.err.contains("r.fq.fai was not checked with r.fq"), "{answer:?}");
    // the file is judged first, wherever its fault is
    folder.write("r.fq", format!("{READS}\n\n"));
    folder.run(&["check", "r.fq"]).refused("refused 2 (offset 50)", &["r.fq, line 11 (byte 50)", "this line is empty"]);
}

/// Called as `samtools fqidx` and `samtools faidx -f` are, with the same bytes.
#[test]
fn called_as_samtools() {
    let folder = folder("fastq-samtools");
    let runs = |program: &str, words: &[&str]| {
        let _ = std::fs::remove_file(folder.at("r.fq.fai"));
        let mut command = std::process::Command::new(program);
        let output = command.args(words).current_dir(folder.path()).stdin(std::process::Stdio::null()).output().ok()?;
        let index = std::fs::read(folder.at("r.fq.fai")).unwrap_or_default();
        Some((output.status.success(), String::from_utf8_lossy(&output.stdout).into_owned(), index))
    };
    if runs("samtools", &["--version"]).is_none() {
        eprintln!("skipped: samtools isn't installed; `tools/dev setup peers` installs it");
        return;
    }
    folder.write("regions", "r2\nr1:2-5\n");
    for words in [
        &["fqidx", "r.fq"][..],
        &["faidx", "-f", "r.fq"],
        &["faidx", "r.fq"],
        &["fqidx", "r.fq", "r1:2-5", "r2"],
        &["faidx", "-f", "r.fq", "r1", "r2:1-2"],
        &["faidx", "r.fq", "r1", "r2:1-2"],
        &["fqidx", "-n", "4", "r.fq", "r1"],
        &["fqidx", "-r", "regions", "r.fq"],
        &["fqidx", "-i", "r.fq", "r1", "r2:2-3"],
        &["fqidx", "-i", "--mark-strand", "sign", "r.fq", "r1"],
        &["faidx", "-f", "-i", "--mark-strand", "no", "r.fq", "r1"],
    ] {
        assert_eq!(runs(common::WAKELURI, words), runs("samtools", words), "{words:?}");
    }
    // where samtools clips, there is a refusal here
    folder.run(&["fqidx", "r.fq", "r2:2-9"]).refused("refused 17 (length 3)", &[]);
    folder.write("f.fa", ">s\nACGT\n");
    folder.run(&["fqidx", "f.fa"]).refused("refused 3 (offset 0)", &["this is a FASTA file"]);
}
