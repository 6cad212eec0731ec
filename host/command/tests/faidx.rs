//! `wakeluri faidx`, called as samtools is: the same bytes where samtools gives exactly what was asked for, and a reason where not.

mod common;

use common::Folder;
use std::fs;
use std::process::{Command, Stdio};

const FILE: &str = ">s one two\nACGTACGTAC\nACGRN\n>t\nGGacc\n";

fn samtools(folder: &Folder, words: &[&str]) -> Option<(Option<i32>, String)> {
    let mut run = Command::new("samtools");
    let output = run.arg("faidx").args(words).current_dir(folder.path()).stdin(Stdio::null()).output().ok()?;
    Some((output.status.code(), String::from_utf8(output.stdout).unwrap()))
}

#[test]
fn the_same_bytes_as_samtools() {
    let folder = Folder::new("faidx-same");
    folder.write("f.fa", FILE);
    folder.write("regions.txt", "s:2-5\nt\n");
    if samtools(&folder, &["f.fa"]).is_none() {
        eprintln!("skipped: samtools isn't installed; `tools/dev setup peers` installs it");
        return;
    }
    for words in [
        &["f.fa", "s:1-4", "-i"][..],
        &["f.fa", "s:1-4"],
        &["-i", "f.fa", "s", "t:2-3"],
        &["--reverse-complement", "f.fa", "s:3"],
        &["f.fa", "s:1-4", "--mark-strand", "sign"],
        &["f.fa", "s:1-4", "-i", "--mark-strand", "sign"],
        &["f.fa", "s:1-4", "-i", "--mark-strand=rc"],
        &["f.fa", "s:1-4", "-i", "--mark-strand", "no"],
        &["f.fa", "s:1-4", "--mark-strand", "custom,A,B"],
        &["f.fa", "s:1-4", "-i", "--mark-strand", "custom,A,B"],
        &["f.fa", "s:1-4", "-i", "--mark-strand", "custom, (+), (-)"],
        &["f.fa", "s", "-n", "4"],
        &["f.fa", "s", "--length", "4"],
        &["-r", "regions.txt", "f.fa"],
        &["f.fa", "--region-file", "regions.txt", "-n7"],
        &["--fai-idx", "g.fai", "f.fa", "t:1-2"],
    ] {
        let theirs = samtools(&folder, words).unwrap();
        let their_index = fs::read(folder.at("g.fai")).ok();
        let _ = fs::remove_file(folder.at("g.fai"));
        let ours = folder.run(&[&["faidx"], words].concat());
        assert_eq!((ours.status, ours.out.clone()), theirs, "{words:?}: {ours:?}");
        assert_eq!(fs::read(folder.at("g.fai")).ok(), their_index, "{words:?}");
    }
    // to a file, and the index where there is none, without a word
    for words in [&["f.fa", "t", "-o", "out.fa"][..], &["f.fa"], &["f.fa", "--fai-idx", "other.fai"]] {
        let mut left = vec![];
        for is_ours in [false, true] {
            for name in folder.names().iter().filter(|name| !["f.fa", "regions.txt"].contains(&name.as_str())) {
                fs::remove_file(folder.at(name)).unwrap();
            }
            if is_ours {
                folder.run(&[&["faidx", "-q"], words].concat()).gave("");
            } else {
                assert_eq!(samtools(&folder, words).unwrap(), (Some(0), String::new()));
            }
            left.push(folder.names().into_iter().map(|name| (folder.read(&name), name)).collect::<Vec<_>>());
        }
        assert_eq!(left[0], left[1], "{words:?}");
    }
}

#[test]
fn what_differs_is_refused_with_the_reason() {
    let folder = Folder::new("faidx-differs");
    folder.write("f.fa", FILE);
    for (words, reason) in [
        (&["-c", "f.fa", "s"][..], "all regions are read, or none"),
        (&["--gzi-idx", "f.gzi", "f.fa", "s"], "packed files are not read"),
        (&["-n", "0", "f.fa", "s"], "a line of no bases can't be written"),
        (&["--mark-strand", "foo", "f.fa", "s"], "rc, no, sign or custom,PLUS,MINUS"),
        (&["--mark-strand", "custom,A", "f.fa", "s"], "rc, no, sign or custom,PLUS,MINUS"),
        (&["-o", "out.fa", "f.fa"], "no region is named"),
        (&["-n", "x", "f.fa", "s"], "Invalid value 'x'"),
    ] {
        folder.run(&[&["faidx"], words].concat()).failed(2, &[reason]);
    }
    folder.run(&["faidx", "-f", "f.fa", "s"]).refused("refused 3 (offset 0)", &["this is a FASTA file"]);
    assert_eq!(folder.names(), ["f.fa"]);
    folder.run(&["faidx", "f.fa", "t:4-9"]).refused("refused 17 (length 5)", &["t has 5 bases"]);
    folder.run(&["faidx", "f.fa", "s", "no"]).refused("refused 15", &["no record is named 'no'"]);
    folder.write("g.fa", ">s\nAC-X\n");
    folder.run(&["faidx", "-i", "-q", "g.fa", "s"]).refused("refused 24 (place 3, byte 88)", &[]);
    if let Some(theirs) = samtools(&folder, &["f.fa", "s:1-2", "no", "t"]) {
        assert_eq!(theirs, (Some(1), ">s:1-2\nAC\n>no\n".to_string()), "what comes before the fault is written");
    }
    // an index that is not right is not used
    folder.write("f.fa.fai", "s\t15\t12\t10\t11\nt\t5\t31\t5\t6\n");
    let told = folder.run(&["faidx", "f.fa", "t"]);
    assert!(told.status == Some(1) && told.out.is_empty(), "{told:?}");
}
