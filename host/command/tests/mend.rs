//! `wakeluri mend`: one base in place. The index stays, and stays good; nothing else of the file changes.

mod common;

use common::Folder;
use std::os::unix::fs::MetadataExt;

const FASTA: &str = ">s one\nACGT\nACG\n>t\nGG\n";
const INDEX: &str = "s\t7\t7\t4\t5\nt\t2\t19\t2\t3\n";

fn folder(test: &str) -> Folder {
    let folder = Folder::new(test);
    folder.write("f.fa", FASTA);
    folder.write("f.fa.fai", INDEX);
    folder
}

#[test]
fn one_byte_is_written_and_the_index_stays_good() {
    let folder = folder("mend");
    let before = std::fs::metadata(folder.at("f.fa")).unwrap().ino();
    folder
        .run(&["mend", "f.fa", "s:6", "T"])
        .gave("f.fa: s:6 (line 3, column 2) was C and is T now\naccepted: f.fa.fai still leads to every base\n");
    assert_eq!(folder.read("f.fa"), FASTA.replacen("ACG\n>", "ATG\n>", 1).as_bytes());
    assert_eq!(folder.read("f.fa.fai"), INDEX.as_bytes());
    assert_eq!(folder.names(), ["f.fa", "f.fa.fai"]);
    // the file itself, and not another in its place
    assert_eq!(std::fs::metadata(folder.at("f.fa")).unwrap().ino(), before);
    // reads that cover the base differ there alone
    folder.run(&["read", "f.fa", "s", "t"]).gave(">s\nACGTATG\n>t\nGG\n");
}

#[test]
fn a_dry_run_writes_nothing() {
    let folder = folder("mend-dry");
    folder.run(&["mend", "f.fa", "t:1", "A", "--dry-run"]).gave(
        "f.fa: t:1 (line 5, column 1) is G and would become A: nothing was written\naccepted: f.fa.fai still leads to every base\n",
    );
    assert_eq!(folder.read("f.fa"), FASTA.as_bytes());
    folder.run(&["mend", "f.fa", "t:1", "G"]).gave(
        "f.fa: t:1 (line 5, column 1) is G already: nothing was written\naccepted: f.fa.fai still leads to every base\n",
    );
    folder.run(&["--json", "mend", "f.fa", "t:2", "c"]).gave(concat!(
        "{\"file\":\"f.fa\",\"name\":\"t\",\"position\":2,\"offset\":20,\"line\":5,\"column\":2,\"old\":\"G\",\"new\":\"c\",",
        "\"written\":true,\"index\":\"f.fa.fai\",\"accepted\":true}\n"
    ));
    assert_eq!(folder.read("f.fa"), FASTA.replace("GG", "Gc").as_bytes());
}

#[test]
fn barred_bytes_are_refused_with_the_reason() {
    let folder = folder("mend-barred");
    for (byte, why) in [("\n", "end the line"), ("\r", "carriage return"), (">", "begins another record")] {
        folder.run(&["mend", "f.fa", "s:5", byte]).refused("refused 30", &[why, "nothing was changed"]);
    }
    folder.run(&["mend", "f.fa", "s:5", "AC"]).failed(2, &["'AC' has 2 bytes"]);
    folder.run(&["mend", "f.fa", "s:5-6", "A"]).failed(2, &["'s:5-6' names no base"]);
    folder.run(&["mend", "f.fa", "s:8", "A"]).refused("refused 17 (length 7)", &["s has 7 bases"]);
    folder.run(&["mend", "f.fa", "u:1", "A"]).refused("refused 15", &["no record is named 'u'"]);
    folder.run(&["mend", "-", "s:1", "A"]).failed(2, &["no file that can be mended"]);
    folder.run(&["mend", "f.fa", "s:5", " ", "--strict"]).failed(2, &["no letter of a base"]);
    assert_eq!(folder.read("f.fa"), FASTA.as_bytes());
    assert_eq!(folder.names(), ["f.fa", "f.fa.fai"]);
}

#[test]
fn a_stale_index_is_refused_before_anything_is_written() {
    let folder = folder("mend-stale");
    folder.write("f.fa", FASTA.replace("ACGT\n", "ACGTA\n"));
    folder.run(&["mend", "f.fa", "s:1", "T"]).refused("refused 22 (record 1)", &[]);
    assert_eq!(folder.read("f.fa"), FASTA.replace("ACGT\n", "ACGTA\n").as_bytes());
}

#[test]
fn without_an_index_the_file_is_indexed() {
    let folder = Folder::new("mend-no-index");
    folder.write("f.fa", FASTA);
    folder.run(&["mend", "f.fa", "s:1", "N"]).gave("f.fa: s:1 (line 2, column 1) was A and is N now\n");
    assert_eq!(folder.names(), ["f.fa"]);
}

#[test]
fn a_note_that_was_left_tells_how_far_it_came() {
    let folder = folder("mend-note");
    folder.write("f.fa.mend", "wakeluri mend f.fa\noffset 7\nold 65\nnew 84\n");
    folder.run(&["mend", "f.fa", "s:2", "T"]).failed(3, &["the file has the old byte", "remove f.fa.mend"]);
    folder.write("f.fa", FASTA.replacen("ACGT", "TCGT", 1));
    folder.run(&["mend", "f.fa", "s:2", "T"]).failed(3, &["the file has the new byte"]);
    folder.write("f.fa.mend", "something else");
    folder.run(&["mend", "f.fa", "s:2", "T"]).failed(3, &["it can't be told which byte"]);
    assert_eq!(folder.read("f.fa"), FASTA.replacen("ACGT", "TCGT", 1).as_bytes());
}

#[test]
fn a_large_file_is_mended_while_it_is_mapped() {
    let folder = Folder::new("mend-large");
    let line = format!("{}\n", "ACGT".repeat(15));
    let fasta = format!(">s\n{}", line.repeat(20_000));
    folder.write("f.fa", &fasta);
    folder.run(&["index", "f.fa"]);
    folder.run(&["mend", "--input", "map", "f.fa", "s:600001", "T"]).gave(
        "f.fa: s:600001 (line 10,002, column 1) was A and is T now\naccepted: f.fa.fai still leads to every base\n",
    );
    let mended = folder.read("f.fa");
    assert_eq!(mended.len(), fasta.len());
    let differ: Vec<usize> = (0..mended.len()).filter(|place| mended[*place] != fasta.as_bytes()[*place]).collect();
    assert_eq!(differ, [3 + 10_000 * 61]);
}
