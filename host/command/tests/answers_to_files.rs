//! `read -o`, reads of whole records, `--full-header`, and strands in sheets.

mod common;

use common::Folder;
use common::json::objects;
use std::fs;
use std::os::unix::fs::symlink;

const FILE: &str = ">s one  two\nACGTACGTAC\nACG\n>t\nGGCC\n>e nothing here\n";

#[test]
fn to_a_file() {
    let folder = Folder::new("read-o");
    folder.write("f.fa", FILE);
    folder.run(&["read", "f.fa", "s:2-5", "t", "-o", "key.fa"]).gave("key.fa: 2 regions, 8 bases\n");
    assert_eq!(folder.read("key.fa"), b">s:2-5\nCGTA\n>t\nGGCC\n");
    // in its place, whole; a refusal leaves the old one
    folder.run(&["read", "f.fa", "t", "--output", "key.fa", "-q"]).gave("");
    folder.run(&["read", "f.fa", "t:9", "-o", "key.fa"]).refused("refused 17 (length 4)", &[]);
    assert_eq!(folder.read("key.fa"), b">t\nGGCC\n");
    folder.run(&["revcomp", "f.fa", "t:1-3", "-o", "key.fa"]).gave("key.fa: 1 region, 3 bases\n");
    assert_eq!(folder.read("key.fa"), b">t:1-3 reverse complement\nGCC\n");
    folder.piped(&["complement", "-o", "bases.txt"], b"ACGT\n", 9).gave("");
    assert_eq!(folder.read("bases.txt"), b"TGCA\n");
    folder.run(&["read", "f.fa", "t", "-o", "-"]).gave(">t\nGGCC\n");
    folder.run(&["read", "f.fa", "t", "-o", "/dev/stdout"]).gave(">t\nGGCC\n");

    let told = folder.run(&["read", "--json", "f.fa", "t", "-o", "key.json"]);
    let summary = objects(&told.out);
    assert_eq!((summary[0].text("output"), summary[0].number("regions")), (Some("key.json"), Some(1)));
    assert_eq!((summary[0].text("file"), summary[0].number("bases")), (Some("f.fa"), Some(4)));
    assert_eq!(objects(&String::from_utf8(folder.read("key.json")).unwrap())[0].text("bases"), Some("GGCC"));
}

#[test]
fn no_answer_takes_the_place_of_what_is_read() {
    let folder = Folder::new("read-o-over");
    folder.write("f.fa", FILE);
    folder.write("sheet.fa", ">s\n");
    folder.run(&["index", "f.fa"]);
    symlink("f.fa", folder.at("link.fa")).unwrap();
    for place in ["f.fa", "link.fa", "./f.fa"] {
        folder.run(&["read", "f.fa", "s", "-o", place]).failed(3, &["the answer would take the place of f.fa"]);
    }
    folder
        .run(&["read", "f.fa", "-r", "sheet.fa", "-o", "sheet.fa"])
        .failed(3, &["the answer would take the place of"]);
    folder.run(&["read", "f.fa", "s", "-o", "f.fa.fai"]).failed(3, &["file that is not FASTA"]);
    folder.write("notes.txt", "mine");
    folder.run(&["read", "f.fa", "s", "-o", "notes.txt"]).failed(3, &["file that is not FASTA"]);
    folder.run(&["read", "--json", "f.fa", "s", "-o", "notes.txt"]).failed(3, &["file that is not JSON"]);
    folder.run(&["read", "f.fa", "s", "-o", "no/key.fa"]).failed(3, &["make that folder first"]);
    assert_eq!(folder.read("f.fa"), FILE.as_bytes());
}

/// A full disk is told as one, and nothing is left.
#[test]
fn a_full_disk() {
    let folder = Folder::new("read-o-full");
    folder.write("f.fa", FILE);
    if !std::path::Path::new("/dev/full").exists() {
        eprintln!("skipped: there is no /dev/full");
        return;
    }
    folder.run(&["read", "f.fa", "s", "-o", "/dev/full"]).failed(3, &["/dev/full: it can't be written (No space left"]);
}

#[test]
fn whole_records() {
    let folder = Folder::new("read-whole");
    folder.write("f.fa", FILE);
    let all = ">s\nACGTACGTACACG\n>t\nGGCC\n>e\n";
    folder.run(&["read", "f.fa"]).gave(all);
    folder.run(&["index", "f.fa"]);
    folder.run(&["read", "f.fa"]).gave(all);
    folder.run(&["read", "f.fa", "f.fa.fai", "-w", "5"]).gave(">s\nACGTA\nCGTAC\nACG\n>t\nGGCC\n>e\n");
    folder.piped(&["read", "-"], FILE.as_bytes(), 5).gave(all);
    folder.write("empty.txt", "# nothing\n");
    folder.run(&["read", "f.fa", "-r", "empty.txt"]).failed(2, &["there is no region in it"]);
}

#[test]
fn full_header() {
    let folder = Folder::new("full-header");
    folder.write("f.fa", FILE);
    let said = ">s:1-4 one  two\nACGT\n>t\nGGCC\n";
    folder.run(&["read", "f.fa", "--full-header", "s:1-4", "t"]).gave(said);
    folder.run(&["read", "f.fa", "--full-header"]).gave(">s one  two\nACGTACGTACACG\n>t\nGGCC\n>e nothing here\n");
    folder.run(&["index", "f.fa"]);
    folder.run(&["read", "f.fa", "--full-header", "s:1-4", "t"]).gave(said);
    folder.run(&["revcomp", "f.fa", "--full-header", "s:1-3"]).gave(">s:1-3 reverse complement one  two\nCGT\n");
    folder.run(&["read", "f.fa", "--full-header", "--unchecked", "s"]).failed(2, &["leave out --unchecked"]);
    let told = folder.run(&["read", "--json", "f.fa", "--full-header", "s:1-4"]);
    assert_eq!(objects(&told.out)[0].text("description"), Some("one  two"));
    // what is written reads back
    fs::write(folder.at("new.fa"), folder.run(&["read", "f.fa", "--full-header"]).out).unwrap();
    assert_eq!(folder.run(&["list", "new.fa"]), folder.run(&["list", "f.fa"]));
}

#[test]
fn strands_of_a_sheet() {
    let folder = Folder::new("strands");
    folder.write("f.fa", ">s\nAACGTT\nGGA\n");
    folder.write("sheet.txt", "s:1-3 - first primer\ns:1-3\t+\ts1\ns:4-9\ns:5-8 -\n");
    folder.run(&["read", "f.fa", "-r", "sheet.txt"]).gave(concat!(
        ">s:1-3 reverse complement first primer\nGTT\n>s:1-3 s1\nAAC\n",
        ">s:4-9\nGTTGGA\n>s:5-8 reverse complement\nCCAA\n",
    ));
    folder.write("sheet.bed", "s\t0\t3\tp\t0\t-\ns\t0\t3\tq\t0\t+\ns\t4\t8\n");
    folder
        .run(&["read", "f.fa", "--bed", "-r", "sheet.bed"])
        .gave(">s:1-3 reverse complement p\nGTT\n>s:1-3 q\nAAC\n>s:5-8\nTTGG\n");
    let told = folder.run(&["read", "--json", "f.fa", "-r", "sheet.txt"]);
    let turned: Vec<_> = objects(&told.out).iter().map(|object| object.text("turned").is_some()).collect();
    assert_eq!(turned, [true, false, false, true]);
    for command in ["revcomp", "complement"] {
        folder.run(&[command, "f.fa", "-r", "sheet.txt"]).failed(2, &["line 1: it names the strand '-'"]);
    }
    // where a sign may be a part of the region it is no strand
    for line in ["s:5 -", "s -", "s:1-3 - 5", "s:-3 -"] {
        folder.write("sheet.txt", line);
        folder.run(&["read", "f.fa", "-r", "sheet.txt"]).failed(2, &["may be a part of the region"]);
    }
    // what has no complement can't be turned
    folder.write("f.fa", ">s\nAC-T\n");
    folder.write("sheet.txt", "s:1-4 -\n");
    folder.run(&["read", "f.fa", "-r", "sheet.txt"]).refused("refused 24 (place 2, byte 45)", &["sheet.txt, line 1"]);
}
