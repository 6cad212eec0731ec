//! Fault 6: with `--json` everything on standard output and standard error is JSON, one object to a line, by the manual's schema.

mod common;

use common::json::{Json, objects};
use common::{Answer, Folder};
use std::collections::BTreeSet;

/// The fields that the manual names, and whether they are numbers.
const NUMBERS: [&str; 25] = [
    "status",
    "refused",
    "first",
    "second",
    "line",
    "column",
    "byte",
    "sheet_line",
    "records",
    "bases",
    "records_with_blank_lines",
    "records_without_bases",
    "width",
    "start",
    "end",
    "length",
    "bytes_that_are_no_letters",
    "faults",
    "files",
    "files_good",
    "files_refused",
    "files_failed",
    "files_passed_over",
    "worst_status",
    "regions",
];
const TEXTS: [&str; 23] = [
    "words", "next", "code", "file", "region", "region_hex", "sheet", "warning", "index", "output", "name", "name_hex",
    "label", "label_hex", "turned", "bases", "bases_hex", "help", "version", "given", "given_hex", "description",
    "description_hex",
];

#[track_caller]
fn keys_are_known(object: &Json) {
    let Json::Object(fields) = object else { unreachable!() };
    for (key, value) in fields {
        let good = match value {
            Json::Number(_) => NUMBERS.contains(&key.as_str()),
            Json::Text(_) => TEXTS.contains(&key.as_str()),
            Json::Truth(_) => key == "accepted",
            _ => false,
        };
        assert!(good, "{key} in {object:?}");
    }
}

#[track_caller]
fn by_the_schema(answer: &Answer) {
    let (out, err) = (objects(&answer.out), objects(&answer.err));
    out.iter().chain(&err).for_each(keys_are_known);
    for object in &err {
        match object.get("warning") {
            Some(_) => assert!(object.text("file").is_some() && object.get("status").is_none(), "{object:?}"),
            None => {
                let status = object.number("status");
                assert!(matches!(status, Some(1..=3)) && object.text("words").is_some(), "{object:?}");
                assert!(object.text("next").is_some(), "{object:?}");
                let refused = object.number("refused").map(|number| format!("refused {number}"));
                let code = object.text("code").map(str::to_string);
                assert!(refused.is_none_or(|start| code.unwrap().starts_with(&start)), "{object:?}");
            }
        }
    }
    let failures = err.iter().filter_map(|object| object.number("status")).max();
    assert_eq!(failures.unwrap_or(0), answer.status.unwrap() as u64, "{answer:?}");
    assert!(failures.is_none() || out.is_empty(), "{answer:?}");
}

/// The numbers of all refusals that were met.
fn refused(answer: &Answer) -> Vec<u64> {
    objects(&answer.err).iter().filter_map(|object| object.number("refused")).collect()
}

#[test]
fn fault_6_of_words() {
    let folder = Folder::new("json-usage");
    folder.write("f.fa", ">s\nACGT\n");
    folder.write("empty.txt", "\n\n");
    folder.write("control \u{7}\n.fa", ">s\n");
    for words in [
        &[][..],
        &["read"],
        &["faidx", "-c", "f.fa", "s"],
        &["faidx", "--mark-strand", "x", "f.fa", "s"],
        &["check", "f.fa", "f.fa", "-"],
        &["read", "--full-header", "--unchecked", "f.fa", "-i", "f.fa"],
        &["write", "f.fa"],
        &["raed", "f.fa"],
        &["read", "--nonsense", "f.fa", "s"],
        &["read", "--non\u{1}sense", "f.fa", "s"],
        &["read", "-w", "wide", "f.fa", "s"],
        &["read", "--input", "maybe", "f.fa", "s"],
        &["read", "-", "--regions", "-"],
        &["check", "-"],
        &["check", "-", "-"],
        &["read", "f.fa", "--regions", "empty.txt"],
        &["read", "f.fa", "s:1..5"],
        &["read", "f.fa", "s", "--bed"],
        &["index", "-"],
        &["index", "f.fa", "-o", "-"],
        &["wrap", "f.fa"],
        &["wrap", "f.fa", "-w", "0"],
        &["wrap", "f.fa", "--index"],
        &["revcomp", "--each-line", "--joined"],
        &["completions", "bash"],
        &["completions", "sh"],
    ] {
        for words in [[&["--json"], words].concat(), [words, &["--json"]].concat()] {
            let answer = folder.run(&words);
            by_the_schema(&answer);
            assert_eq!((answer.status, answer.err.lines().count()), (Some(2), 1), "{words:?} {answer:?}");
        }
    }
    let answer = folder.piped(&["--json", "revcomp"], b"AC\nGT\n", 9);
    by_the_schema(&answer);
    assert_eq!(answer.status, Some(2));
    for (word, key) in [("--help", "help"), ("--version", "version")] {
        let answer = folder.run(&["--json", word]);
        by_the_schema(&answer);
        assert!(answer.status == Some(0) && objects(&answer.out)[0].text(key).is_some());
    }
    // a file of that name is no such word
    assert!(folder.run(&["read", "f.fa", "--", "--json"]).err.starts_with("wakeluri: f.fa: --json was asked for"));
}

#[test]
fn fault_6_of_refusals_and_errors() {
    let folder = Folder::new("json-every");
    let mut met = BTreeSet::new();
    let mut run = |words: &[&str], status: i32| {
        let answer = folder.run(&[&["--json"], words].concat());
        by_the_schema(&answer);
        assert_eq!(answer.status, Some(status), "{words:?} {answer:?}");
        met.extend(refused(&answer));
    };
    for file in [
        &b"\n>s\nAC\n"[..],
        b"ACGT\n",
        b"\x1f\x8b\x08rest",
        b"BZh91AY&SYrest",
        b"\xfd7zXZ\0rest",
        b"\x28\xb5\x2f\xfdrest",
        b"PK\x03\x04rest",
        b"\xef\xbb\xbf>s\nAC\n",
        b"\xff\xfe>\0s\0\n\0",
        b"\x1b[31m\"\\\x7f\xff\n",
        b">s\nAC\n> t\nAC\n",
        b">s\nACGT\nAC\nACGT\n",
        b">s\xff\"\x07\nACGT\nAC\nACGT\n",
        b">s\nACGT\nACGT\r\nACGT\n",
    ] {
        folder.write("f.fa", file);
        run(&["index", "f.fa"], 1);
        run(&["read", "f.fa", "s:1-1"], 1);
        run(&["index", "f.fa", "--strict"], 1);
        folder.write("i.fai", "s\t1\t3\t1\t2\n");
        run(&["check", "f.fa", "i.fai"], 1);
    }
    for file in [&b">s\n\nAC\n"[..], b">s\nACGT\n\nACGT\n", b">s\nACGT\nACGT\r\n", b">s\rACGT\r"] {
        folder.write("f.fa", file);
        run(&["index", "f.fa", "--strict"], 1);
    }
    folder.write("f.fa", b">s\nACGT\nAC\n>t x\nG>\xff\n>u\n-\n>v\n");
    for index in [
        "s\t6\t3\t4\t5\n",
        "s\t6\t3\t4\t5\n\n",
        "s\t6\t3\t4\n",
        "s\t6\tx\t4\t5\n",
        "s\t6\t3\t0\t5\n",
        "u\t6\t3\t4\t5\n",
        "s\t5\t3\t4\t5\n",
        "s\t6\t3\t4\t6\n",
        "s\t6\t3\t4\t5\nt\t3\t16\t3\t4\nu\t1\t23\t1\t2\nv\t0\t28\t1\t2\nw\t1\t1\t1\t1\n",
    ] {
        folder.write("i.fai", index);
        run(&["check", "f.fa", "i.fai"], 1);
        run(&["read", "-i", "i.fai", "f.fa", "s:1-1"], 1);
    }
    folder.write("i.fai", "s\t600\t3\t4\t5\n");
    run(&["read", "--unchecked", "-i", "i.fai", "f.fa", "s:6-90"], 1);
    folder.write("sheet.txt", "s:1\nt:9\nnobody\ns:0\ns:3-2\n");
    for words in [
        &["read", "f.fa", "nobody"][..],
        &["read", "f.fa", "s:0"],
        &["read", "f.fa", "s:3-2"],
        &["read", "f.fa", "s:7"],
        &["read", "f.fa", "v"],
        &["read", "f.fa", "-r", "sheet.txt"],
        &["complement", "f.fa", "u"],
        &["revcomp", "f.fa"],
    ] {
        run(words, 1);
    }
    folder.write("bad.txt", "s:1\ns:1..5\nnobody\ns 1 2\n");
    run(&["read", "f.fa", "-r", "bad.txt"], 2);
    run(&["read", "f.fa", "-r", "bad.txt", "--bed"], 2);
    run(&["wrap", "f.fa", "-o", "new.fa"], 1);
    if std::fs::File::create(folder.at("huge.fa")).unwrap().set_len((1 << 40) + 1).is_ok() {
        run(&["index", "huge.fa"], 1);
    }
    folder.write("notes.txt", "my notes");
    std::fs::create_dir(folder.at("empty")).unwrap();
    for words in [
        &["index", "no.fa"][..],
        &["read", "f.fa", "-o", "f.fa"],
        &["read", "f.fa", "-o", "notes.txt"],
        &["index", "f.fa", "-o", "f.fa"],
        &["index", "f.fa", "-o", "."],
        &["index", "f.fa", "-o", "no/such/folder.fai"],
        &["check", "f.fa", "no.fai"],
        &["check", "f.fa"],
        &["read", "f.fa", "-r", "no.txt"],
        &["wrap", "f.fa", "-o", "notes.txt"],
        &["wrap", "f.fa", "-o", "f.fa"],
    ] {
        run(words, 3);
    }
    // of several files all is said on standard output
    for words in [&["index", "empty", "f.fa"][..], &["check", "empty", "f.fa"]] {
        let answer = folder.run(&[&["--json"], words].concat());
        objects(&answer.out).iter().for_each(keys_are_known);
        assert_eq!((answer.status, answer.out.lines().count()), (Some(3), 3), "{answer:?}");
    }
    // 30 is refused by what writes FASTA; 8, 13, 14 and 25 can't be met
    let all = [1, 2, 3, 4, 5, 6, 7, 9, 10, 11, 12, 15, 16, 17, 18, 19, 20, 21, 22, 23, 24, 30, 42];
    assert_eq!(met.into_iter().collect::<Vec<_>>(), all);
}

#[test]
fn fault_6_of_warnings() {
    let folder = Folder::new("json-warnings");
    folder.write("f.fa", ">s\nAC\n>t\nG\n>s\nTT\n");
    let warned = |words: &[&str]| {
        let answer = folder.run(words);
        by_the_schema(&answer);
        assert_eq!(answer.status, Some(0), "{answer:?}");
        let warnings = objects(&answer.err);
        assert!(!warnings.is_empty() && warnings.iter().all(|object| object.text("warning").is_some()), "{answer:?}");
    };
    warned(&["--json", "read", "f.fa", "s"]);
    folder.run(&["index", "f.fa"]);
    warned(&["--json", "read", "--unchecked", "f.fa", "t"]);
    folder.write("cr.fa", ">s\rACGT\r");
    warned(&["--json", "index", "cr.fa"]);
}
